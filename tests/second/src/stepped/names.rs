//! What a case of the walk over edges touches.

use std::collections::BTreeSet;

use super::{offends, shared, Began, Components, Round, Rounds, Seen};
use crate::gen::walks::Case;
use crate::graph;
use crate::meaning::Direction;
use crate::program::*;
use crate::walk::{has, mixes, Begun, WORDS};
use crate::Reading;

type Names = BTreeSet<String>;

/// Those of these names that are met.
fn add(names: &mut Names, what: &str, cases: &[(&str, bool)]) {
    names.extend(cases.iter().filter(|(_, met)| *met).map(|(name, _)| format!("{what}: {name}")));
}

/// What the answers have to do with the words and bytes that are lent.
pub fn of_calls(case: &Case, seen: &Seen) -> Names {
    let mut names = Names::from([format!("walk: made: {}", case.label)]);
    let count = seen.rounds.as_ref().map(|own| own.variables);
    let own = seen.rounds.iter().flat_map(|own| &own.components);
    seen.begins.iter().for_each(|began| add_begin(&mut names, count, seen.reading, began));
    seen.steps.iter().for_each(|round| add_step(&mut names, round));
    seen.components.iter().chain(own).for_each(|read_off| add_components(&mut names, read_off));
    seen.runs.iter().for_each(|run| add_run(&mut names, run));
    names
}

fn add_begin(names: &mut Names, count: Option<usize>, reading: Reading, began: &Began) {
    let words = began.before.len();
    let needed = count.map(|n| WORDS * n);
    let begun = matches!(began.answer, Begun::Begun(_));
    let fifteen = matches!(began.answer, Begun::Refused { number: 15, .. });
    let thirteen = matches!(reading, Reading::Refused { number: 13, .. });
    if let Begun::Refused { number, .. } = began.answer {
        names.insert(format!("begin: refusal {number:02}"));
    }
    let cases = [
        ("begun", begun),
        ("begun, just long enough", begun && needed == Some(words) && words > 0),
        ("begun, words after the sets", begun && needed < Some(words) && needed > Some(0)),
        ("begun, no variable, no word", begun && words == 0),
        ("begun, no variable, some words", begun && needed == Some(0) && words > 0),
        ("begun, refused by reading with 13", begun && thirteen),
        ("refusal 15, one word short", fifteen && needed == Some(words + 1)),
        ("refusal 15, as many words as variables", fifteen && count == Some(words)),
        ("refusal 15, no word", fifteen && words == 0),
        ("refusal 15, refused by reading with 13", fifteen && thirteen),
        ("a refusal of the file, some words", needed.is_none() && words > 0),
        ("a refusal of the file, no word", needed.is_none() && words == 0),
    ];
    add(names, "begin", &cases);
}

fn add_step(names: &mut Names, round: &Round) {
    let Round { variables: n, k, ref before, answer, .. } = *round;
    let words = before.len();
    let sane = n <= VARIABLES;
    let moved = round.after.as_ref().is_some_and(|after| after != before);
    // bits of the set of k for numbers that are no variable, and a set after the
    // variables' that has k
    let strange = answer && (n..VARIABLES).any(|y| has(before, k, y));
    let after = answer && (n..words / WORDS).any(|x| has(before, x, k));
    let cases = [
        ("done", answer),
        ("done, something moves", moved),
        ("done, nothing moves", answer && !moved),
        ("done, just long enough", answer && words == WORDS * n),
        ("done, words after the sets", answer && words > WORDS * n),
        ("done, a number that is no variable is taken in", strange && moved),
        ("done, a set after the variables' has k", after),
        ("done, 256 variables", answer && n == VARIABLES),
        ("done, the last variable", answer && k + 1 == n),
        ("refused, k is the number of variables", k == n && sane && words > WORDS * n + 3),
        ("refused, k is beyond", k > n && sane && words >= WORDS * n),
        ("refused, k is beyond by 256 and more", k > 255 && n > 0 && sane && words >= WORDS * n),
        ("refused, one word short", sane && k < n && words + 1 == WORDS * n),
        ("refused, no word", sane && k < n && words == 0),
        ("refused, no variable", n == 0),
        ("refused, 257 variables, words for all", n == 257 && k < n && words >= WORDS * n),
        ("refused, variables that make four times as many 0", n == 1 << 62 || n == 1 << 63),
        ("refused, variables that make four times as many few", n > 1 << 62 && n % 8 < 4),
        ("refused, usize::MAX variables", n == usize::MAX),
    ];
    add(names, "step", &cases);
}

fn add_components(names: &mut Names, seen: &Components) {
    let Components { variables: n, ref sets, lent, answer, .. } = *seen;
    let words = sets.len();
    let room = n <= VARIABLES && words >= WORDS * n;
    let bytes = seen.after.as_deref().unwrap_or_default();
    let passed = |x: usize| bytes[usize::from(bytes[x])] != bytes[x];
    let cases = [
        ("written", answer),
        ("written, just long enough", answer && lent == n && words == WORDS * n),
        ("written, bytes after", answer && lent > n),
        ("written, words after", answer && words > WORDS * n),
        ("written, 256 variables", answer && n == VARIABLES),
        ("written, no variable", answer && n == 0),
        ("written, the first found has another byte", answer && (0..n).any(passed)),
        ("refused, one byte short", room && lent + 1 == n),
        ("refused, one word short", n <= VARIABLES && words + 1 == WORDS * n && lent >= n),
        ("refused, no byte", room && n > 0 && lent == 0),
        ("refused, 257 variables, room for all", n == 257 && words >= WORDS * n && lent >= n),
        ("refused, over 257 variables", n > 257),
    ];
    add(names, "components", &cases);
}

/// Rounds of sets that may come from nowhere.
fn add_run(names: &mut Names, run: &Rounds) {
    let n = run.variables;
    let moved = |round: &Round| round.after.as_ref().is_some_and(|after| *after != round.before);
    let strange = |round: &Round| (0..n).any(|x| (n..VARIABLES).any(|y| has(&round.before, x, y)));
    let cases = [
        ("some variable", n > 0),
        ("something moves", run.rounds.iter().any(moved)),
        ("something moves twice", run.rounds.iter().filter(|round| moved(round)).count() > 1),
        ("with numbers that are no variable", run.rounds.iter().any(strange)),
        ("over 60 variables", n > 60),
    ];
    add(names, "rounds of any sets", &cases);
}

/// What of the walk this file touches.
pub fn of_file(case: &Case, program: &Program, edges: &[Vec<usize>], own: &Rounds) -> Names {
    let mut names = Names::new();
    let n = edges.len();
    add_edges(&mut names, program, edges);
    add_rounds(&mut names, edges, own);
    let reach: Vec<Vec<bool>> = (0..n).map(|x| graph::reached(edges, x)).collect();
    add_shared(&mut names, &reach);
    add_thirteen(&mut names, program, edges, &reach);
    let cases = [
        ("63 to 65 variables", (63..=65).contains(&n)),
        ("127 to 129 variables", (127..=129).contains(&n)),
        ("191 to 193 variables", (191..=193).contains(&n)),
        ("254 or 255 variables", n == 254 || n == 255),
        ("256 variables", n == VARIABLES),
        ("no variable", n == 0),
        ("one variable", n == 1),
        ("empty file", case.file.is_empty()),
        ("no position is mixed, some edge", !mixes(program) && edges.iter().any(|to| !to.is_empty())),
        ("no edge, some variable", n > 0 && edges.iter().all(Vec::is_empty)),
        ("60,000 bytes", case.file.len() == FILE_BYTES),
        ("2,048 rules", program.rules.len() == RULES),
    ];
    add(&mut names, "walk", &cases);
    names
}

/// Positions that draw an edge, or might.
fn add_edges(names: &mut Names, program: &Program, edges: &[Vec<usize>]) {
    let rules = program.rules.iter();
    let positions = rules.flat_map(|rule| (0..rule.terms.len()).map(move |i| (rule, i)));
    let mut drawn: BTreeSet<(usize, usize)> = BTreeSet::new();
    for (rule, i) in positions {
        let (x, y) = (rule.head, rule.terms[i].variable);
        let draws = add_position(names, program, rule, i, edges[x].contains(&y));
        let cases = [
            ("to itself", draws && x == y),
            ("over a word's end", draws && x / 64 != y / 64),
            ("of a term that is not the first", draws && i > 0),
            ("by two positions", draws && !drawn.insert((x, y))),
        ];
        add(names, "edge", &cases);
    }
}

/// Whether a position draws an edge, and why. There may be one without it.
fn add_position(names: &mut Names, program: &Program, rule: &Rule, i: usize, there: bool) -> bool {
    let (idle, head) = (program.idle(rule), program.variables[rule.head].kind.number());
    let kind = program.variables[rule.terms[i].variable].kind.number();
    let direction = program.direction(rule, i);
    let (mixed, kept) = (direction == Direction::Mixed, program.pulls(rule, i));
    let draws = !idle && (kept || mixed);
    let way = if mixed { "mixed" } else { "kept" };
    if draws {
        names.insert(format!("edge: from kind {head} to kind {kind}, {way}"));
        names.insert(format!("edge: form {}", rule.form));
    }
    let cases = [
        ("none, idle, kept", idle && kept && !there),
        ("none, idle, mixed", idle && mixed && !there),
        ("none, neither kept nor mixed", !idle && !kept && !mixed && !there),
        ("none, standard and rising", !idle && kind == 0 && direction == Direction::Rising && !there),
    ];
    add(names, "edge", &cases);
    draws
}

/// What the rounds of the file add.
fn add_rounds(names: &mut Names, edges: &[Vec<usize>], own: &Rounds) {
    let n = edges.len();
    let moved = |round: &Round| round.after.as_ref().is_some_and(|after| *after != round.before);
    let moving: Vec<usize> = own.rounds.iter().filter(|r| moved(r)).map(|r| r.k).collect();
    let between = |k: &usize| 0 < *k && k + 1 < n;
    let has_k = |round: &Round| (0..n).any(|x| has(&round.before, x, round.k));
    let longest = |k: usize| {
        let round = &own.rounds[k];
        let Some(after) = &round.after else { return false };
        let more = |y: &usize| has(after, k, *y) && !edges[k].contains(y);
        (0..n).any(|x| has(&round.before, x, k) && (0..n).any(|y| more(&y) && !has(&round.before, x, y)))
    };
    let cases = [
        ("something moves in the first", moving.contains(&0)),
        ("something moves in the last", n > 1 && moving.contains(&(n - 1))),
        ("something moves in one between", moving.iter().any(between)),
        ("something moves in more than three", moving.len() > 3),
        ("nothing moves in any", n > 0 && moving.is_empty()),
        ("nobody has the variable", own.rounds.iter().any(|round| !has_k(round))),
        ("a way of several stops is taken in", (0..n).any(longest)),
    ];
    add(names, "rounds", &cases);
    let seldom = [("moves in every round of 256", moving.len() == VARIABLES)];
    add(names, "rounds", &seldom);
}

/// What the components are like.
fn add_shared(names: &mut Names, reach: &[Vec<bool>]) {
    let n = reach.len();
    let first = |(x, row): (usize, &Vec<bool>)| row.iter().position(|&met| met).unwrap_or(x);
    let firsts: Vec<usize> = shared(reach).iter().enumerate().map(first).collect();
    let large = |x: usize| (0..n).filter(|&y| firsts[y] == firsts[x]).count() > 1;
    let one_way = |x: usize, y: usize| reach[x][y] && !reach[y][x];
    let pairs = || (0..n).flat_map(|x| (0..n).map(move |y| (x, y)));
    let lies_between = |x: usize| (firsts[x]..x).any(|y| firsts[y] != firsts[x]);
    let large_firsts = (0..n).filter(|&x| firsts[x] == x && large(x)).count();
    let cases = [
        ("all of one variable", n > 1 && (0..n).all(|x| firsts[x] == x)),
        ("all are one", n > 2 && firsts.iter().all(|&first| first == 0)),
        ("two and more of several variables", large_firsts > 1),
        ("several variables, not the first one", (1..n).any(|x| firsts[x] == x && large(x))),
        ("another lies between", (0..n).any(lies_between)),
        ("two of several joined one way", pairs().any(|(x, y)| one_way(x, y) && large(x) && large(y))),
        ("a smaller one is reached one way", pairs().any(|(x, y)| y < firsts[x] && one_way(x, y))),
        ("a smaller one reaches it one way", pairs().any(|(x, y)| x < firsts[y] && one_way(x, y))),
        ("of 100 and more", (0..n).filter(|&x| firsts[x] == firsts[0]).count() > 99),
    ];
    add(names, "shared", &cases);
}

/// What decides on refusal 13.
fn add_thirteen(names: &mut Names, program: &Program, edges: &[Vec<usize>], reach: &[Vec<bool>]) {
    let n = edges.len();
    let by = |allowed: &dyn Fn(usize) -> bool| {
        shared(&(0..n).map(|x| graph::reached_by(edges, x, allowed)).collect::<Vec<_>>())
    };
    let idle = program.idle_rules();
    let offending = |shared: &[Vec<bool>]| {
        let rules = (0..idle.len()).filter(|&r| offends(program, &program.rules[r], shared));
        rules.collect::<Vec<_>>()
    };
    let all = offending(&shared(reach));
    let first = all.iter().copied().find(|&r| !idle[r]);
    let refused = |shared: &[Vec<bool>]| offending(shared).iter().any(|&r| !idle[r]);
    let mixed = |r: &usize| offends(program, &program.rules[*r], &vec![vec![true; n]; n]);
    let mixed: Vec<usize> = (0..idle.len()).filter(mixed).collect();
    let drawn = |r: &usize| !idle[*r];
    let closes = !graph::offending_rules(program, &vec![false; idle.len()]).is_empty();
    let cases = [
        ("refused", first.is_some()),
        ("refused, without a stop between", refused(&by(&|_| false))),
        ("refused, over stops between alone", first.is_some() && !refused(&by(&|_| false))),
        ("refused, decided by the last round", first.is_some() && !refused(&by(&|stop| stop + 1 < n))),
        ("refused, decided by the first round", first.is_some() && !refused(&by(&|stop| stop > 0))),
        ("refused, an idle one before", first.is_some() && all.first() < first.as_ref()),
        ("refused, a mixed one before outside", first.is_some() && mixed.first() < all.first()),
        ("refused, by more than one rule", all.iter().filter(|&&r| !idle[r]).count() > 1),
        ("accepted, mixed outside", first.is_none() && mixed.iter().any(drawn)),
        ("accepted, mixed inside in an idle rule", first.is_none() && !all.is_empty()),
        ("accepted, an idle rule would close a circle", first.is_none() && closes),
    ];
    add(names, "thirteen", &cases);
}

/// Every name that must be hit, with what the wanted number is divided by.
pub fn required() -> Vec<(String, usize)> {
    let of = |(what, part, list): &(&str, usize, &[&str])| -> Vec<(String, usize)> {
        list.iter().map(|name| (format!("{what}: {name}"), *part)).collect()
    };
    let ways = [(0, "mixed"), (1, "mixed"), (2, "mixed"), (1, "kept"), (2, "kept")];
    let mut names: Vec<(String, usize)> = LISTS.iter().flat_map(of).collect();
    names.extend((1..=12).map(|number| (format!("begin: refusal {number:02}"), 10)));
    names
        .extend((1..=8).map(|form| (format!("edge: form {form}"), if form == PRODUCT { 5 } else { 1 })));
    names.extend([1, 2].iter().flat_map(|head| {
        ways.map(|(kind, way)| (format!("edge: from kind {head} to kind {kind}, {way}"), 1))
    }));
    names
}

const LISTS: &[(&str, usize, &[&str])] = &[
    (
        "walk: made",
        1,
        &[
            "chain",
            "circle",
            "two circles",
            "open circle",
            "hub",
            "tangle",
            "any",
            "spoilt",
            "idle",
            "damaged",
        ],
    ),
    ("walk: made", 5, &["256 variables", "limit", "long", "few"]),
    (
        "begin",
        1,
        &[
            "begun",
            "refusal 15",
            "begun, just long enough",
            "begun, words after the sets",
            "begun, refused by reading with 13",
            "refusal 15, one word short",
            "refusal 15, refused by reading with 13",
            "a refusal of the file, some words",
        ],
    ),
    (
        "begin",
        5,
        &[
            "begun, no variable, no word",
            "begun, no variable, some words",
            "refusal 15, as many words as variables",
            "refusal 15, no word",
            "a refusal of the file, no word",
        ],
    ),
    (
        "step",
        1,
        &[
            "done",
            "done, something moves",
            "done, nothing moves",
            "done, just long enough",
            "done, words after the sets",
            "done, a number that is no variable is taken in",
            "done, a set after the variables' has k",
            "done, the last variable",
            "refused, k is the number of variables",
            "refused, k is beyond",
            "refused, one word short",
            "refused, no variable",
        ],
    ),
    (
        "step",
        10,
        &[
            "done, 256 variables",
            "refused, k is beyond by 256 and more",
            "refused, no word",
            "refused, 257 variables, words for all",
            "refused, variables that make four times as many 0",
            "refused, variables that make four times as many few",
            "refused, usize::MAX variables",
        ],
    ),
    (
        "components",
        1,
        &[
            "written",
            "written, just long enough",
            "written, bytes after",
            "written, words after",
            "written, the first found has another byte",
            "refused, one byte short",
            "refused, one word short",
            "refused, no byte",
        ],
    ),
    (
        "components",
        10,
        &[
            "written, 256 variables",
            "written, no variable",
            "refused, 257 variables, room for all",
            "refused, over 257 variables",
        ],
    ),
    (
        "rounds of any sets",
        1,
        &[
            "some variable",
            "something moves",
            "something moves twice",
            "with numbers that are no variable",
        ],
    ),
    ("rounds of any sets", 5, &["over 60 variables"]),
    (
        "walk",
        20,
        &["63 to 65 variables", "127 to 129 variables", "191 to 193 variables", "254 or 255 variables"],
    ),
    (
        "walk",
        5,
        &["256 variables", "no variable", "one variable", "empty file", "no edge, some variable"],
    ),
    ("walk", 1, &["no position is mixed, some edge"]),
    (
        "edge",
        1,
        &[
            "to itself",
            "of a term that is not the first",
            "by two positions",
            "none, idle, kept",
            "none, idle, mixed",
            "none, neither kept nor mixed",
            "none, standard and rising",
        ],
    ),
    ("edge", 5, &["over a word's end"]),
    (
        "rounds",
        1,
        &[
            "something moves in the first",
            "something moves in the last",
            "something moves in one between",
            "something moves in more than three",
            "nothing moves in any",
            "nobody has the variable",
            "a way of several stops is taken in",
        ],
    ),
    (
        "shared",
        1,
        &[
            "all of one variable",
            "all are one",
            "two and more of several variables",
            "several variables, not the first one",
            "another lies between",
            "two of several joined one way",
            "a smaller one is reached one way",
            "a smaller one reaches it one way",
        ],
    ),
    ("shared", 20, &["of 100 and more"]),
    (
        "thirteen",
        1,
        &[
            "refused",
            "refused, without a stop between",
            "refused, over stops between alone",
            "refused, decided by the last round",
            "refused, decided by the first round",
            "refused, a mixed one before outside",
            "refused, by more than one rule",
            "accepted, mixed outside",
            "accepted, mixed inside in an idle rule",
            "accepted, an idle rule would close a circle",
        ],
    ),
    ("thirteen", 5, &["refused, an idle one before"]),
];
