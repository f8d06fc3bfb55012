//! What a case of the normal form touches.

use std::collections::{BTreeMap, BTreeSet};

use crate::gen::anew::Case;
use crate::gen::bodies::STYLES;
use crate::gen::fields;
use crate::normal::Normal;
use crate::plan::{self, first_difference, Plan};
use crate::program::*;
use crate::reader::parse;
use crate::wrong::Wrong;

/// What the answer has to do with the buffer.
pub fn of_answer(
    case: &Case,
    length: usize,
    answer: Normal,
    plan: Option<&Plan>,
) -> impl Iterator<Item = String> {
    let n = case.file.len();
    let fits = plan.is_some_and(|plan| plan.bytes().len() <= length);
    let refused = |number: usize| matches!(answer, Normal::Refused { number: x, .. } if x == number);
    let own = matches!(answer, Normal::Refused { number, .. } if number != 17);
    let written = matches!(answer, Normal::Written(_));
    let word = match answer {
        Normal::Refused { number, .. } => format!("refusal {number:02}"),
        Normal::Written(_) => "written".to_string(),
    };
    let names = [
        ("refusal 17: one byte short", refused(17) && length + 1 == n),
        ("refusal 17: the output would fit", refused(17) && fits),
        ("refusal 17: as long as the output", refused(17) && fits && plan_length(plan) == length),
        ("refusal 17: no byte", refused(17) && length == 0),
        ("a refusal of the file, the buffer shorter", own && length < n),
        ("written: as long as the file", written && length == n),
        ("written: bytes after the file's length", written && length > n),
        ("written: nothing into nothing", written && length == 0),
        ("written: nothing", answer == Normal::Written(0) && length > 0),
    ];
    let met = names.into_iter().filter(|(_, met)| *met).map(|(name, _)| name.to_string());
    met.chain([format!("answer: {word}")])
}

fn plan_length(plan: Option<&Plan>) -> usize {
    plan.map_or(0, |plan| plan.bytes().len())
}

/// A rule or constraint as it stands and with its terms ordered.
struct Body {
    tag: u8,
    form: u8,
    raw: Vec<u8>,
    ordered: Vec<u8>,
}

fn bodies(file: &[u8], program: &Program) -> Vec<Body> {
    let rules = program.rules.iter().map(|rule| (rule.form, plan::rule(rule)));
    let constraints = program.constraints.iter().map(|c| (c.form, plan::constraint(c)));
    let fields = fields::taken(file).into_iter().skip(program.variables.len());
    let body = |(field, (form, ordered)): (fields::Field, (u8, Vec<u8>))| {
        let tag = field.tag;
        Body { tag, form, raw: plan::whole(field), ordered }
    };
    fields.zip(rules.chain(constraints)).map(body).collect()
}

fn word(tag: u8) -> &'static str {
    if tag == 2 {
        "rules"
    } else {
        "constraints"
    }
}

/// What of the normal form this accepted file and its output touch.
pub fn of_file(case: &Case, plan: &Plan, out: &[u8]) -> BTreeSet<String> {
    let mut names = BTreeSet::new();
    let Ok(program) = parse(&case.file, Wrong::Nothing) else { return names };
    let bodies = bodies(&case.file, &program);
    for body in bodies.iter().filter(|body| body.raw != body.ordered) {
        names.insert(format!("terms moved: {} of form {}", word(body.tag), body.form));
    }
    add_repeats(&bodies, &mut names);
    add_neighbours(out, &mut names);
    add_bodies(&program, plan, &mut names);
    let equal = |i: usize| plan.variables[..i].contains(&plan.variables[i]);
    let whole = [
        ("output: the file itself", out == case.file),
        ("output: as long, other bytes", out.len() == case.file.len() && out != case.file),
        ("output: shorter", out.len() < case.file.len()),
        ("variables: two are equal", (0..plan.variables.len()).any(equal)),
        ("variables: not ascending", plan.variables.windows(2).any(|v| v[0] > v[1])),
        ("rules: all one", plan.rules.len() == 1 && program.rules.len() > 3),
        ("constraints: all one", plan.constraints.len() == 1 && program.constraints.len() > 3),
        ("limit: 60,000 bytes", case.file.len() == FILE_BYTES),
        ("limit: 256 variables", program.variables.len() == VARIABLES),
        ("limit: 2,048 rules", program.rules.len() == RULES),
        ("limit: 512 constraints", program.constraints.len() == CONSTRAINTS),
        ("limit: 2,048 rules in the output", plan.rules.len() == RULES),
        ("limit: 512 constraints in the output", plan.constraints.len() == CONSTRAINTS),
        ("limit: empty file", case.file.is_empty()),
    ];
    names.extend(whole.iter().filter(|(_, met)| *met).map(|(name, _)| name.to_string()));
    names
}

/// Fields that are written once though they stand there more often.
fn add_repeats(bodies: &[Body], names: &mut BTreeSet<String>) {
    let mut places: BTreeMap<&[u8], Vec<usize>> = BTreeMap::new();
    for (i, body) in bodies.iter().enumerate() {
        places.entry(&body.ordered).or_default().push(i);
    }
    for list in places.values().filter(|list| list.len() > 1) {
        let what = word(bodies[list[0]].tag);
        let raw: BTreeSet<&[u8]> = list.iter().map(|&i| &bodies[i].raw[..]).collect();
        let cases = [
            ("equal as they stand", raw.len() < list.len()),
            ("equal by ordering alone", raw.len() == list.len()),
            ("neighbours", list.windows(2).any(|two| two[0] + 1 == two[1])),
            ("apart", list.windows(2).all(|two| two[0] + 1 < two[1])),
            ("three and more", list.len() > 2),
        ];
        for (name, _) in cases.iter().filter(|(_, met)| *met) {
            names.insert(format!("repeats, {what}: {name}"));
        }
    }
}

/// Where neighbours in the output differ first.
fn add_neighbours(out: &[u8], names: &mut BTreeSet<String>) {
    let fields: Vec<Vec<u8>> = fields::taken(out).into_iter().map(plan::whole).collect();
    for two in fields.windows(2).filter(|two| two[0][0] == two[1][0] && two[0][0] > 1) {
        let (one, other) = (&two[0], &two[1]);
        let Some(i) = first_difference(one, other) else { continue };
        let what = word(one[0]);
        let (head, terms) = if one[0] == 2 { (1, 7) } else { (0, 6) };
        let position = match i {
            0..=2 => "length",
            3 => "form",
            4 if head == 1 => "head",
            _ if i < terms => ["first byte of c", "second byte of c"][i + 2 - terms],
            _ => ["variable", "op", "first byte of a number", "last byte of a number"][(i - terms) % 4],
        };
        names.insert(format!("neighbours, {what}: by {position}"));
        let cases = [
            ("by the last byte", i + 1 == one.len()),
            ("by a byte after 32", i >= 32),
            ("by a byte after 64", i >= 64),
            ("by a byte above 127 and one below", one[i] < 128 && other[i] >= 128),
            ("the shorter has the greater value", i < 3 && one[3..] > other[3..]),
        ];
        for (name, _) in cases.iter().filter(|(_, met)| *met) {
            names.insert(format!("neighbours, {what}: {name}"));
        }
    }
}

/// What single rules bring with them.
fn add_bodies(program: &Program, plan: &Plan, names: &mut BTreeSet<String>) {
    let idle = program.idle_rules();
    for (rule, idle) in program.rules.iter().zip(idle) {
        let (form, terms) = (rule.form, &rule.terms);
        let after = |t: &Term| t.variable < terms[0].variable;
        let zero = terms.iter().position(|t| t.variable == 0);
        let twin = Rule { form: SUM, ..rule.clone() };
        let cases = [
            ("carry: a literal's variable below the carried", form == CARRY && terms.iter().any(after)),
            ("form 8: a term of variable 0", form == QUOTIENT && zero.is_some()),
            ("form 8: a term of variable 0 behind others", form == QUOTIENT && zero > Some(0)),
            ("form 8: a divisor above a term's number", form == QUOTIENT && over(rule)),
            ("form 8: divisor alone", form == QUOTIENT && terms.is_empty()),
            ("form 8: 16 terms", form == QUOTIENT && terms.len() == TERMS),
            ("16 terms", terms.len() == TERMS),
            ("form 8 by 1 beside form 1", is_one(rule) && plan.rules.contains(&plan::rule(&twin))),
            ("idle rule", idle),
            ("rule for kind 2", program.variables[rule.head].above()),
        ];
        names.extend(cases.iter().filter(|(_, met)| *met).map(|(name, _)| name.to_string()));
    }
}

fn over(rule: &Rule) -> bool {
    rule.terms.iter().any(|term| term.number < rule.divisor)
}

fn is_one(rule: &Rule) -> bool {
    rule.form == QUOTIENT && rule.divisor == 1
}

/// Every name that must be hit, with what the wanted number is divided by.
pub fn required() -> Vec<(String, usize)> {
    let mut names: Vec<(String, usize)> = Vec::new();
    let mut add = |part: usize, first: &str, list: &[&str]| {
        names.extend(list.iter().map(|name| (format!("{first}{name}"), part)));
    };
    for style in &STYLES {
        add(2, "made: ", &[style.label]);
    }
    add(2, "made: ", &["late", "repeats", "full", "limit", "long", "damaged", "spoilt", "any"]);
    add(2, "made: ", &["few", "knot", "in normal form", "as it is", "small", "middle", "idle"]);
    for number in (1..=13).chain([17]) {
        add(8, "answer: ", &[&format!("refusal {number:02}")]);
    }
    add(1, "", &["answer: written", "a refusal of the file, the buffer shorter"]);
    add(1, "refusal 17: ", &["one byte short", "the output would fit", "as long as the output"]);
    add(2, "refusal 17: ", &["no byte"]);
    add(1, "written: ", &["as long as the file", "bytes after the file's length"]);
    add(8, "written: ", &["nothing into nothing", "nothing"]);
    for form in [1, 2, 3, 4, 6, 7, 8] {
        add(1, "terms moved: rules of form ", &[&form.to_string()]);
    }
    add(1, "terms moved: constraints of form ", &["1", "2"]);
    for what in ["rules", "constraints"] {
        let repeats = ["equal as they stand", "equal by ordering alone", "neighbours", "apart"];
        add(1, &format!("repeats, {what}: "), &repeats);
        add(2, &format!("repeats, {what}: "), &["three and more"]);
        add_required_neighbours(&mut add, what);
    }
    add(1, "neighbours, rules: by ", &["head"]);
    add_required_rest(&mut add);
    names
}

fn add_required_neighbours(add: &mut impl FnMut(usize, &str, &[&str]), what: &str) {
    let places = ["length", "form", "first byte of c", "second byte of c", "variable"];
    add(1, &format!("neighbours, {what}: by "), &places);
    let late = ["op", "first byte of a number", "last byte of a number", "the last byte"];
    add(4, &format!("neighbours, {what}: by "), &late);
    let bytes = ["a byte after 32", "a byte after 64", "a byte above 127 and one below"];
    add(8, &format!("neighbours, {what}: by "), &bytes);
    add(1, &format!("neighbours, {what}: "), &["the shorter has the greater value"]);
}

fn add_required_rest(add: &mut impl FnMut(usize, &str, &[&str])) {
    add(1, "output: ", &["the file itself", "as long, other bytes", "shorter"]);
    add(1, "variables: ", &["two are equal", "not ascending"]);
    add(4, "", &["rules: all one", "constraints: all one"]);
    add(8, "limit: ", &["256 variables", "empty file"]);
    add(16, "limit: ", &["60,000 bytes", "2,048 rules", "512 constraints"]);
    add(16, "limit: ", &["2,048 rules in the output", "512 constraints in the output"]);
    add(1, "", &["carry: a literal's variable below the carried"]);
    let divided = ["a term of variable 0", "a term of variable 0 behind others", "divisor alone"];
    add(1, "form 8: ", &divided);
    add(1, "form 8: ", &["a divisor above a term's number"]);
    add(4, "", &["form 8: 16 terms", "16 terms", "form 8 by 1 beside form 1"]);
    add(1, "", &["idle rule", "rule for kind 2", "copy: other bytes"]);
    let removed = ["rule removed", "constraint removed", "field added", "c", "head"];
    add(2, "another plan: ", &removed);
    let altered = ["form", "term left out", "carried variable", "divisor", "op", "number"];
    add(8, "another plan: ", &altered);
    let others = ["variable of a term", "variable added", "variables exchanged", "kind", "range"];
    add(4, "another plan: ", &others);
    let words = ["stable", "unfounded", "range", "rule, another number", "rule, the same number"];
    add(1, "check alike: ", &words);
    add(2, "check alike: ", &["constraint, another number", "constraint, the same number"]);
    add(1, "check alike: ", &["refusal 14", "refusal 15"]);
    add(1, "least alike: ", &["found", "none", "range", "refusal 14", "refusal 15"]);
}
