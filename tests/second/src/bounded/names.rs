//! What a case of bounds touches.

use std::collections::BTreeSet;

use super::{spans, Due, File};
use crate::bounds::{Bounded, Span};
use crate::gen::fields;
use crate::gen::ranged::Case;
use crate::meaning::Direction;
use crate::program::*;
use crate::Reading;

type Named<'a> = (&'a str, bool);

fn those(names: &[Named]) -> Vec<String> {
    names.iter().filter(|(_, met)| *met).map(|(name, _)| name.to_string()).collect()
}

/// What the answer has to do with the file, the ranges and the buffer.
pub fn of_answer(case: &Case, file: &File, room: usize, answer: Bounded) -> Vec<String> {
    let count = match file.reading {
        Reading::Accepted { variables, .. } => variables,
        Reading::Refused { number, .. } => return of_refused(case, room, number),
    };
    let declared = &file.declared;
    let whole = case.ranges.len() / 4;
    let lent = spans(&case.ranges[..4 * whole]);
    let bad: Vec<usize> =
        (0..count.min(whole)).filter(|&v| !faults(declared[v], lent[v]).is_empty()).collect();
    let short = room < 2 * count;
    let Bounded::Refused { number, .. } = answer else {
        return those(&[
            ("bounded", true),
            ("bounded: as long as the buffer", room == 2 * count && count > 0),
            ("bounded: bytes after it", room > 2 * count && count > 0),
            ("bounded: nothing into nothing", room == 0),
            ("bounded: nothing", count == 0 && room > 0),
        ]);
    };
    let mut names = vec![format!("refusal {number:02}")];
    let length = case.ranges.len();
    let list = match number {
        14 => those(&[
            ("one byte more", length == 4 * count + 1),
            ("one byte less", length + 1 == 4 * count),
            ("one variable more", length == 4 * count + 4),
            ("one variable less", length + 4 == 4 * count),
            ("2 × variables", length == 2 * count),
            ("nothing", length == 0),
            ("a range refused, too", !bad.is_empty()),
            ("the buffer short, too", short),
            ("all three", short && !bad.is_empty()),
            ("no variable", count == 0),
        ]),
        20 => {
            let mut list = those(&[
                ("the buffer short, too", short),
                ("the first variable alone", bad == [0] && count > 1),
                ("the last variable alone", bad == [count - 1] && count > 1),
                ("the only variable", count == 1),
                ("several variables", bad.len() > 1),
            ]);
            if let [v] = bad[..] {
                list.push(format!("kind {}", declared[v].0));
                list.extend(faults(declared[v], lent[v]).into_iter().map(String::from));
            }
            list
        }
        _ => those(&[
            ("one byte short", room + 1 == 2 * count),
            ("no byte", room == 0),
            ("the founded would fit", 2 * declared.iter().filter(|d| d.0 > 0).count() <= room),
        ]),
    };
    names.extend(list.iter().map(|name| format!("refusal {number:02}: {name}")));
    names
}

/// A file that is refused, with other faults besides.
fn of_refused(case: &Case, room: usize, number: usize) -> Vec<String> {
    let variables = fields::taken(&case.file).iter().take_while(|f| f.tag == 1).count();
    let misfit = case.ranges.len() != 4 * variables;
    let mut names = vec![format!("refusal {number:02}")];
    names.extend(those(&[
        ("the file refused, its ranges misfit", misfit),
        ("the file refused, the buffer short", room < 2 * variables),
        ("refusal 13, its ranges misfit", number == 13 && misfit),
        ("refusal 13, the buffer short", number == 13 && room < 2 * variables),
    ]));
    names
}

/// What is wrong with a range.
fn faults((_, low, high): (u8, i64, i64), lent: Span) -> Vec<&'static str> {
    let inside = low <= lent.0 && lent.0 <= high && low <= lent.1 && lent.1 <= high;
    let named = [
        ("one below the low", lent.0 == low - 1 && low <= lent.1 && lent.1 <= high),
        ("below the low", lent.0 < low),
        ("one above the high", lent.1 == high + 1 && low <= lent.0 && lent.0 <= high),
        ("above the high", lent.1 > high),
        ("empty, inside", lent.0 > lent.1 && inside),
        ("empty", lent.0 > lent.1),
    ];
    named.into_iter().filter(|(_, met)| *met).map(|(name, _)| name).collect()
}

/// What accepted ranges and their bounds have.
pub fn of_bounds(case: &Case, due: &Due) -> BTreeSet<String> {
    let program = &due.system.small.program;
    let mut names = BTreeSet::new();
    for r in 0..program.rules.len().min(80) {
        names.extend(of_rule(due, r));
    }
    for (v, variable) in program.variables.iter().enumerate() {
        names.extend(of_variable(due, v, variable));
    }
    let single = due.spans.iter().filter(|(low, high)| low == high).count();
    let declared = |v: usize| due.spans[v] == (program.variables[v].low, program.variables[v].high);
    let whole = (0..due.spans.len()).filter(|&v| declared(v)).count();
    let count = due.spans.len();
    let kinds = |kind: Kind| program.variables.iter().any(|v| v.kind == kind);
    names.extend(those(&[
        ("ranges: all single", single == count && count > 0),
        ("ranges: some single", 0 < single && single < count),
        ("ranges: none single", single == 0 && count > 0),
        ("ranges: all declared", whole == count && count > 0),
        ("ranges: none declared", whole == 0 && count > 0),
        ("constraints", !program.constraints.is_empty()),
        ("over 40 rounds", due.rounds > 40),
        ("over 700 rounds", due.rounds > 700),
        ("kinds 1 and 2", kinds(Kind::Below) && kinds(Kind::Above)),
        ("limit: 256 variables", count == VARIABLES),
        ("limit: 60,000 bytes", case.file.len() == FILE_BYTES),
        ("limit: 2,048 rules", program.rules.len() == RULES),
        ("limit: empty file", case.file.is_empty()),
    ]));
    names
}

fn of_variable(due: &Due, v: usize, variable: &Variable) -> Vec<String> {
    let (low, high) = due.spans[v];
    let value = due.values[v];
    let kind = variable.kind.number();
    let names = match variable.founded() {
        false => those(&[
            ("single", low == high),
            ("not single", low < high),
            ("low not the declared one", low > variable.low),
            ("low below 0", low < 0),
        ]),
        true => {
            let (near, far) = if variable.above() { (high, low) } else { (low, high) };
            those(&[
                ("not lifted", value == variable.start() && near == variable.start()),
                ("lifted", value != variable.start()),
                ("before the range, not lifted", near != value && value == variable.start()),
                ("before the range, lifted", variable.further(near, value) && value != variable.start()),
                (
                    "at the near end of the range",
                    value == near && near != variable.start() && near != far,
                ),
                ("inside the range", variable.further(value, near) && variable.further(far, value)),
                ("at the far end", value == far && far != variable.start()),
                ("at the far end, not the declared one", value == far && far != variable.far()),
                ("single", low == high),
                ("bound below 0", value < 0),
                ("range below 0", high < 0),
            ])
        }
    };
    names.iter().map(|name| format!("kind {kind}: {name}")).collect()
}

fn of_rule(due: &Due, r: usize) -> Vec<String> {
    let system = &due.system;
    let program = &system.small.program;
    let rule = &program.rules[r];
    let head = &program.variables[rule.head];
    let kind = head.kind.number();
    let mirrored = system.small.mirrored(&due.values);
    let demand = system.demand(r, &mirrored);
    let idle = program.idle(rule);
    let (far, start) = (system.lent(rule.head).1, system.start(rule.head));
    let mut names = Vec::new();
    if let Some((v, single)) = system.mixed(r) {
        let (low, high) = due.spans[v];
        let of = program.variables[v].kind.number();
        let lifts = if far > start { "lifts" } else { "cannot lift" };
        match single {
            true => names.push(format!("for kind {kind}: mixed, single")),
            false => names.push(format!("for kind {kind}: mixed, not single, {lifts}")),
        }
        names.extend(those(&[
            ("mixed, single, it lifts", single && demand.is_some_and(|d| d > start)),
            ("mixed, single, another end would lift", single && idle_differs(due, r)),
            ("mixed, two values", high == low + 1),
            ("mixed, not single, of one sign", !single && (low > 0 || high < 0)),
            ("mixed, not single, ends at 0", !single && (low == 0 || high == 0)),
            ("mixed, not single, idle", !single && idle),
            ("mixed, not single, idle, for kind 1", !single && idle && kind == 1 && far > start),
            ("mixed, not single, idle, for kind 2", !single && idle && kind == 2 && far > start),
            ("mixed, single, idle", single && idle),
        ]));
        names.push(format!("mixed of kind {of} for kind {kind}"));
        return names;
    }
    for (i, term) in rule.terms.iter().enumerate() {
        let what = match (system.is_kept(r, i), program.direction(rule, i)) {
            (true, _) => "kept",
            (false, Direction::Rising) => "at its high",
            _ => "at its low",
        };
        let op = if term.op == PLAIN { "plain" } else { "literal" };
        let of = program.variables[term.variable].kind.number();
        let narrow = due.spans[term.variable];
        let declared = &program.variables[term.variable];
        names.push(format!("form {}, {op} of kind {of} for kind {kind}, {what}", rule.form));
        names.extend(those(&[
            ("head in its own body", term.variable == rule.head),
            ("head in its own body, kept", term.variable == rule.head && what == "kept"),
            (
                "read at a high that is not the declared one",
                what == "at its high" && narrow.1 < declared.high,
            ),
            (
                "read at a low that is not the declared one",
                what == "at its low" && narrow.0 > declared.low,
            ),
            ("kept, the range single", what == "kept" && narrow.0 == narrow.1),
        ]));
    }
    let declared_far = system.small.range(rule.head).1;
    let ways = [
        ("gives nothing", demand.is_none()),
        ("gives no more than the start", demand.is_some_and(|d| d <= start)),
        ("lifts", demand.is_some_and(|d| start < d && d < far)),
        ("gives the far end", demand == Some(far) && far > start),
        ("cut off, inside the declared range", demand.is_some_and(|d| far < d && d <= declared_far)),
        ("cut off, past the declared range", demand.is_some_and(|d| far < d && d > declared_far)),
        ("idle", idle),
    ];
    names.extend(those(&ways).iter().map(|name| format!("for kind {kind}: {name}")));
    names.push(format!("form {} for kind {kind}", rule.form));
    names
}

/// Does a single mixed variable lift less than its declared range would let it?
fn idle_differs(due: &Due, r: usize) -> bool {
    let rule = &due.system.small.program.rules[r];
    due.system.small.mirrored(&due.values)[rule.head] < due.system.lent(rule.head).1
}

/// What is printed.
pub fn of_text(input: &[u8], text: &str) -> Vec<String> {
    let full = input.len() == 61_026;
    let words: BTreeSet<&str> = text.lines().filter_map(|line| line.split(' ').next()).collect();
    let mut names = those(&[
        ("printed: most", words.contains("most")),
        ("printed: least", words.contains("least")),
        ("printed: most and least", words.contains("most") && words.contains("least")),
        ("printed: nothing", text.is_empty()),
        ("printed: a number below 0", text.contains(" -")),
        ("printed: 61,026 bytes, bounded", full && !words.contains("refused")),
        ("printed: 61,026 bytes, refused 14", full && text == "refused 14 0\n"),
        ("printed: 61,027 bytes", input.len() == 61_027),
        ("printed: under 2 bytes", input.len() < 2),
    ]);
    if words.contains("refused") {
        let number = text.split_whitespace().nth(1).unwrap_or("");
        names.push(format!("printed: refused {number}"));
    }
    names
}

/// Every name that must be hit, with what the wanted number is divided by.
pub fn required() -> Vec<(String, usize)> {
    let mut names: Vec<(String, usize)> = Vec::new();
    let mut add = |part: usize, first: &str, list: &[&str]| {
        names.extend(list.iter().map(|name| (format!("{first}{name}"), part)));
    };
    add(1, "made: ", &["input", "small", "middle", "extreme", "ring", "network", "both kinds", "roomy"]);
    add(1, "made: ", &["sizes", "idle", "few", "damaged", "spoilt", "constrained"]);
    add(8, "made: ", &["large", "climb", "limit"]);
    add(16, "made: ", &["brim"]);
    for number in 1..=15 {
        let often = [13, 14, 15].contains(&number);
        add(if often { 1 } else { 16 }, "", &[&format!("refusal {number:02}")]);
    }
    add(1, "", &["refusal 20", "bounded"]);
    add(2, "the file refused, ", &["its ranges misfit", "the buffer short"]);
    add(8, "refusal 13, ", &["its ranges misfit", "the buffer short"]);
    let lengths = ["one byte more", "one byte less", "one variable more", "one variable less"];
    add(2, "refusal 14: ", &lengths);
    add(2, "refusal 14: ", &["2 × variables", "nothing", "a range refused, too"]);
    add(2, "refusal 14: ", &["the buffer short, too", "all three"]);
    add(16, "refusal 14: ", &["no variable"]);
    add(
        1,
        "refusal 20: ",
        &["the buffer short, too", "the first variable alone", "the last variable alone"],
    );
    add(4, "refusal 20: ", &["the only variable", "several variables", "kind 0", "kind 1", "kind 2"]);
    add(
        4,
        "refusal 20: ",
        &["one below the low", "below the low", "one above the high", "above the high"],
    );
    add(4, "refusal 20: ", &["empty, inside", "empty"]);
    add(1, "refusal 15: ", &["one byte short"]);
    add(8, "refusal 15: ", &["no byte", "the founded would fit"]);
    add(1, "bounded: ", &["as long as the buffer", "bytes after it"]);
    add(8, "bounded: ", &["nothing into nothing", "nothing"]);
    add_bounds(&mut add);
    add_sentences(&mut add);
    names
}

fn add_bounds(add: &mut impl FnMut(usize, &str, &[&str])) {
    add(1, "ranges: ", &["all single", "some single", "none single", "all declared", "none declared"]);
    add(1, "", &["constraints", "kinds 1 and 2", "head in its own body", "head in its own body, kept"]);
    add(4, "", &["over 40 rounds", "limit: 256 variables", "limit: empty file"]);
    add(16, "", &["over 700 rounds", "limit: 60,000 bytes", "limit: 2,048 rules"]);
    add(1, "kind 0: ", &["single", "not single", "low not the declared one", "low below 0"]);
    for kind in ["1", "2"] {
        let of = format!("kind {kind}: ");
        add(1, &of, &["not lifted", "lifted", "before the range, not lifted", "inside the range"]);
        add(1, &of, &["at the far end", "at the far end, not the declared one", "single"]);
        add(2, &of, &["before the range, lifted", "at the near end of the range"]);
        add(1, &of, &["bound below 0", "range below 0"]);
        let into = format!("for kind {kind}: ");
        add(1, &into, &["mixed, single", "mixed, not single, lifts", "mixed, not single, cannot lift"]);
        add(1, &into, &["gives nothing", "gives no more than the start", "lifts", "gives the far end"]);
        add(
            1,
            &into,
            &["cut off, inside the declared range", "cut off, past the declared range", "idle"],
        );
        let sizes = ["0", "1", "2"].map(|of| format!("mixed of kind {of} for kind {kind}"));
        sizes.iter().for_each(|name| add(1, "", &[name]));
        (1..=8).for_each(|form| add(1, "", &[&format!("form {form} for kind {kind}")]));
        positions(kind).iter().for_each(|name| add(8, "", &[name]));
    }
    let mixed = ["single, it lifts", "single, another end would lift", "two values", "single, idle"];
    add(1, "mixed, ", &mixed);
    add(1, "mixed, not single, ", &["of one sign", "ends at 0", "idle"]);
    add(1, "mixed, not single, idle, ", &["for kind 1", "for kind 2"]);
    add(1, "read at a ", &["high that is not the declared one", "low that is not the declared one"]);
    add(1, "kept, ", &["the range single"]);
}

/// Every way of reading a position that there is in rules for this kind.
fn positions(kind: &str) -> Vec<String> {
    let mut names = Vec::new();
    // For a head of kind 2 a plain term that is kept there is falling.
    let (same, other) =
        if kind == "1" { ("at its high", "at its low") } else { ("at its low", "at its high") };
    let mirrored = if kind == "1" { "2" } else { "1" };
    for form in [1, 2, 3, 4, 5, 7, 8] {
        names.push(format!("form {form}, plain of kind 0 for kind {kind}, {same}"));
        names.push(format!("form {form}, plain of kind {kind} for kind {kind}, kept"));
        names.push(format!("form {form}, plain of kind {mirrored} for kind {kind}, {same}"));
    }
    for form in [1, 5, 8] {
        names.push(format!("form {form}, plain of kind 0 for kind {kind}, {other}"));
        names.push(format!("form {form}, plain of kind {kind} for kind {kind}, {other}"));
        names.push(format!("form {form}, plain of kind {mirrored} for kind {kind}, kept"));
    }
    for form in [6, 7] {
        let of =
            |of: u8, what: &str| format!("form {form}, literal of kind {of} for kind {kind}, {what}");
        names.extend([of(0, "at its high"), of(0, "at its low"), of(1, "kept"), of(1, "at its low")]);
        names.extend([of(2, "kept"), of(2, "at its high")]);
    }
    names
}

fn add_sentences(add: &mut impl FnMut(usize, &str, &[&str])) {
    add(1, "stable assignment ", &["inside the ranges", "outside the ranges"]);
    add(1, "stable assignment outside the ranges, ", &["past a bound"]);
    add(1, "stable assignment inside the ranges, ", &["something lifted", "a bound reached"]);
    add(1, "stable assignment inside the ranges, ", &["not all single"]);
    add(1, "single ranges, ", &["a rule unmet", "every rule met, stable", "every rule met, unfounded"]);
    add(1, "single ranges, every rule met, ", &["a constraint unmet", "kind 1 lifted", "kind 2 lifted"]);
    add(
        1,
        "narrower ranges, ",
        &["a bound nearer", "the same bounds", "kind 1 nearer", "kind 2 nearer"],
    );
    add(1, "narrower ranges, a bound nearer, ", &["a mixed variable now single"]);
    add(1, "drawn in: ", &["empty", "the same", "nothing"]);
    add(8, "drawn in: ", &["nearer, a mixed variable now single"]);
    add(8, "drawn in: ", &["the same, a mixed variable now single"]);
    add(1, "", &["starting end of a lent range moved", "without its constraints"]);
    add(1, "another order: ", &["rules turned", "anew"]);
    add(1, "mirrored, ", &["Above", "All"]);
    add(16, "", &["not gone over again"]);
    add(1, "printed: ", &["most", "least", "most and least", "a number below 0", "refused 14"]);
    add(1, "printed: ", &["refused 13", "refused 16", "refused 20"]);
    add(4, "printed: ", &["nothing", "under 2 bytes"]);
    add(16, "printed: ", &["61,026 bytes, bounded", "61,026 bytes, refused 14", "61,027 bytes"]);
}
