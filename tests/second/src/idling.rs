//! What idle rules, and rules that are only just not idle, make of an input.

use std::collections::BTreeSet;

use crate::calls::{check_with, Verdict};
use crate::gen::Input;
use crate::graph::offending_rules;
use crate::meaning::Direction;
use crate::program::*;
use crate::reader::parse_fields;
use crate::tally::Seen;
use crate::wrong::Wrong;

/// Files with more variables are not tried rule by rule.
const TRIED: usize = 24;

/// Every name that must be hit, with what the wanted number is divided by.
pub fn required() -> Vec<(String, usize)> {
    let mut names = required_of_inputs();
    for kind in ["kind 1", "kind 2"] {
        names.extend(required_of_rules(kind));
    }
    // Rounding up makes a rule for kind 1 do something, and one for kind 2 not.
    for sign in ["above 0", "below 0"] {
        names.push((format!("just not idle, kind 1: form 8 by rounding alone, sum {sign}"), 8));
        names.push((format!("idle, kind 2: form 8 by rounding alone, sum {sign}"), 8));
    }
    names.push(("idle, kind 2: mixed size, 0 inside the range decides".to_string(), 4));
    names
}

/// What single rules decide, for heads of this kind.
fn required_of_rules(kind: &str) -> Vec<(String, usize)> {
    let mut names: Vec<(String, usize)> = Vec::new();
    for form in 1..=8 {
        names.push((format!("idle, {kind}: accepted by form {form} alone"), 4));
        names.push((format!("idle, {kind}: accepted by form {form} alone, gives the start"), 8));
        names.push((format!("just not idle, {kind}: form {form} decides"), 8));
    }
    for name in [
        "accepted by one that would offend",
        "accepted by one that would close a component",
        "head in its own body, accepted",
        "standard variable in its body, accepted",
        "founded variable without a rule in its body, accepted",
        "falling position, accepted",
        "op 1 never holds, accepted by it",
        "op 2 never holds, accepted by it",
        "c asks for nothing, accepted by it",
        "place of refusal 13 moved",
    ] {
        names.push((format!("idle, {kind}: {name}"), 3));
    }
    for name in [
        "op 1 one above the high, accepted by it",
        "op 2 at the low, accepted by it",
        "body variable of one value, accepted",
        "head of one value, accepted",
        "9 from a variable ending at 4, accepted by it",
        "form 8, sum at the divisor times the start, accepted",
        "form 8 with a divisor, accepted though the sum asks for more",
    ] {
        names.push((format!("idle, {kind}: {name}"), 8));
    }
    for name in [
        "head in its own body decides",
        "standard variable in its body decides",
        "op 1 at the high decides",
        "op 2 one above the low decides",
        "form 8 with a divisor though the sum asks for nothing",
        "head of one value decides",
    ] {
        names.push((format!("just not idle, {kind}: {name}"), 8));
    }
    names
}

/// What whole inputs with idle rules come to.
fn required_of_inputs() -> Vec<(String, usize)> {
    let often = [
        "rule unmet after an idle one",
        "least found",
        "conditions of a mixed position",
        "conditions by idle rules alone",
        "kept position of the set, no condition",
        "report full",
        "report full to the last byte lent",
    ];
    let less = [
        "least none",
        "report full, with a byte more",
        "report full but for a byte",
        "report full, 256 variables",
        "report full, marks 0 and 3",
    ];
    let name = |name: &str, part: usize| (format!("idle: {name}"), part);
    often.iter().map(|n| name(n, 1)).chain(less.iter().map(|n| name(n, 4))).collect()
}

/// The names that this input hits.
pub fn names(input: &Input, seen: &Seen) -> BTreeSet<String> {
    let mut names = BTreeSet::new();
    let Ok(program) = parse_fields(&input.file, Wrong::Nothing) else { return names };
    let idle = program.idle_rules();
    let offending = offending_rules(&program, &idle);
    if program.variables.len() <= TRIED {
        for r in 0..program.rules.len() {
            let mut other = idle.clone();
            other[r] = !other[r];
            names.extend(decided(&program, r, &offending, &offending_rules(&program, &other)));
        }
    }
    if idle.contains(&true) && offending.is_empty() {
        names.extend(answered(input, &program, &idle, seen).iter().map(|name| format!("idle: {name}")));
    }
    names
}

/// What it decides that rule `r` is idle or not, from the offending rules as
/// they are and as they would be.
fn decided(program: &Program, r: usize, are: &[usize], would_be: &[usize]) -> Vec<String> {
    let rule = &program.rules[r];
    let head = &program.variables[rule.head];
    let kind = format!("kind {}", head.kind.number());
    let furthest = program.furthest(rule);
    if are.first() == would_be.first() {
        return Vec::new();
    }
    if furthest.is_some_and(|given| head.further(given, head.start())) {
        let one = furthest.is_some_and(|given| (given - head.start()).abs() == 1);
        let just = if one { just_not_idle(program, rule) } else { Vec::new() };
        return just.iter().map(|name| format!("just not idle, {kind}: {name}")).collect();
    }
    let mut names = vec!["place of refusal 13 moved".to_string()];
    if are.is_empty() {
        names = accepted_by(program, rule, furthest);
        if would_be.contains(&r) {
            names.push("accepted by one that would offend".to_string());
        }
        if would_be.iter().any(|&other| other != r) {
            names.push("accepted by one that would close a component".to_string());
        }
    }
    names.iter().map(|name| format!("idle, {kind}: {name}")).collect()
}

type Named = (&'static str, bool);

fn those(names: &[Named]) -> Vec<String> {
    names.iter().filter(|(_, met)| *met).map(|(name, _)| name.to_string()).collect()
}

/// What the rule gives furthest if nothing is divided.
fn undivided(program: &Program, rule: &Rule) -> i64 {
    program.furthest(&Rule { divisor: 1, ..rule.clone() }).unwrap_or(0)
}

/// An idle rule without which the file would not be valid.
fn accepted_by(program: &Program, rule: &Rule, furthest: Option<i64>) -> Vec<String> {
    let variable = |t: &Term| &program.variables[t.variable];
    let head = &program.variables[rule.head];
    let start = head.start();
    let any = |holds: &dyn Fn(&Term) -> bool| rule.terms.iter().any(holds);
    let never = |t: &Term| match t.op {
        AT_LEAST => variable(t).high < t.number,
        BELOW => variable(t).low >= t.number,
        _ => false,
    };
    // The one literal that never holds, where the rule would not be idle without it.
    let failing: Vec<&Term> = rule.terms.iter().filter(|t| never(t)).collect();
    let reason = match failing.as_slice() {
        [one] if head.further(furthest_if_held(program, rule), start) => Some(*one),
        _ => None,
    };
    let because = |holds: &dyn Fn(&Term) -> bool| reason.is_some_and(holds);
    let divided = rule.divisor > 1;
    let sum = undivided(program, rule);
    let rounded = divided && sum % rule.divisor != 0 && furthest == Some(start) && head.above();
    let inside = rule.form == SIZE && any(&|t| variable(t).low < 0 && 0 < variable(t).high);
    let unlifted =
        |v: usize| program.variables[v].founded() && program.rules.iter().all(|r| r.head != v);
    let falling = |i: usize| program.direction(rule, i) == Direction::Falling;
    let mut names = those(&[
        ("head in its own body, accepted", any(&|t| t.variable == rule.head)),
        ("standard variable in its body, accepted", any(&|t| !variable(t).founded())),
        ("founded variable without a rule in its body, accepted", any(&|t| unlifted(t.variable))),
        ("falling position, accepted", (0..rule.terms.len()).any(falling)),
        ("op 1 never holds, accepted by it", because(&|t| t.op == AT_LEAST)),
        ("op 2 never holds, accepted by it", because(&|t| t.op == BELOW)),
        (
            "op 1 one above the high, accepted by it",
            because(&|t| t.op == AT_LEAST && t.number == variable(t).high + 1),
        ),
        ("op 2 at the low, accepted by it", because(&|t| t.op == BELOW && t.number == variable(t).low)),
        (
            "9 from a variable ending at 4, accepted by it",
            because(&|t| t.op == AT_LEAST && t.number == 9 && variable(t).high == 4),
        ),
        ("c asks for nothing, accepted by it", rule.form == IF && failing.is_empty()),
        ("body variable of one value, accepted", any(&|t| variable(t).low == variable(t).high)),
        ("head of one value, accepted", head.low == head.high),
        ("form 8, sum at the divisor times the start, accepted", divided && sum == rule.divisor * start),
        (
            "form 8 with a divisor, accepted though the sum asks for more",
            divided && head.further(sum, start),
        ),
        ("form 8 by rounding alone, sum above 0", rounded && sum > 0),
        ("form 8 by rounding alone, sum below 0", rounded && sum < 0),
        ("mixed size, 0 inside the range decides", inside && furthest == Some(start)),
    ]);
    names.push(format!("accepted by form {} alone", rule.form));
    if furthest == Some(start) {
        names.push(format!("accepted by form {} alone, gives the start", rule.form));
    }
    names
}

/// What a rule with literals gives furthest if all of them held.
fn furthest_if_held(program: &Program, rule: &Rule) -> i64 {
    let above = program.variables[rule.head].above();
    let end = |v: &Variable| if above { v.low } else { v.high };
    let carried = rule.terms.iter().find(|t| t.op == PLAIN);
    rule.c + carried.map_or(0, |t| end(&program.variables[t.variable]))
}

/// A rule that moves its head by one at most, and decides.
fn just_not_idle(program: &Program, rule: &Rule) -> Vec<String> {
    let variable = |t: &Term| &program.variables[t.variable];
    let head = &program.variables[rule.head];
    let any = |holds: &dyn Fn(&Term) -> bool| rule.terms.iter().any(holds);
    let sum = undivided(program, rule);
    let divided = rule.divisor > 1;
    let rounded = divided && sum % rule.divisor != 0 && !head.above();
    let mut names = those(&[
        ("head in its own body decides", any(&|t| t.variable == rule.head)),
        ("standard variable in its body decides", any(&|t| !variable(t).founded())),
        ("op 1 at the high decides", any(&|t| t.op == AT_LEAST && t.number == variable(t).high)),
        ("op 2 one above the low decides", any(&|t| t.op == BELOW && t.number == variable(t).low + 1)),
        ("form 8 by rounding alone, sum above 0", rounded && sum > 0),
        ("form 8 by rounding alone, sum below 0", rounded && sum < 0),
        (
            "form 8 with a divisor though the sum asks for nothing",
            divided && !head.further(sum, head.start()),
        ),
        ("head of one value decides", head.low == head.high),
    ]);
    names.push(format!("form {} decides", rule.form));
    names
}

/// What the calls answer where some rule is idle.
fn answered(input: &Input, program: &Program, idle: &[bool], seen: &Seen) -> Vec<String> {
    let room = 12 * program.variables.len();
    let full = |verdict: Verdict| matches!(verdict, Verdict::Unfounded(n, k) if 4 * (n + k) == room);
    let filled = full(seen.verdict);
    let mut names = those(&[
        ("least found", seen.solved == crate::Solved::Found),
        ("least none", seen.solved == crate::Solved::None),
        (
            "rule unmet after an idle one",
            matches!(seen.verdict, Verdict::Rule(r) if idle[..r].contains(&true)),
        ),
        ("report full", filled),
        ("report full, 256 variables", filled && program.variables.len() == VARIABLES),
        ("report full, marks 0 and 3", filled && both_marks(seen)),
        ("report full to the last byte lent", filled && input.buffer == room),
        ("report full, with a byte more", filled && input.buffer == room + 1),
        ("report full but for a byte", input.buffer + 1 == room && full(with_room(input, room))),
    ]);
    if let Verdict::Unfounded(bounds, _) = seen.verdict {
        names.extend(asked(program, idle, seen, bounds));
    }
    names
}

/// Bound entries of both kinds.
fn both_marks(seen: &Seen) -> bool {
    let Verdict::Unfounded(bounds, _) = seen.verdict else { return false };
    let shown = |mark: u8| seen.report.chunks(4).take(bounds).any(|e| e[1] == mark);
    shown(0) && shown(3)
}

/// The verdict with a longer report.
fn with_room(input: &Input, room: usize) -> Verdict {
    check_with(&input.file, &input.assignment, &mut vec![0; room], Wrong::Nothing)
}

/// Conditions that idle rules ask.
fn asked(program: &Program, idle: &[bool], seen: &Seen, bounds: usize) -> Vec<String> {
    let set: Vec<usize> = seen.report.chunks(4).take(bounds).map(|e| usize::from(e[0])).collect();
    let into_set = |r: &usize| set.contains(&program.rules[*r].head);
    let named = |wanted: bool| -> BTreeSet<(usize, u8)> {
        let rules = (0..idle.len()).filter(into_set).filter(|&r| idle[r] == wanted);
        rules.flat_map(|r| conditions(program, &program.rules[r], &set)).collect()
    };
    let rules = || (0..idle.len()).filter(into_set).filter(|&r| idle[r]).map(|r| &program.rules[r]);
    let positions = || rules().flat_map(|rule| (0..rule.terms.len()).map(move |i| (rule, i)));
    let kept =
        |(rule, i): (&Rule, usize)| program.kept(rule, i) && set.contains(&rule.terms[i].variable);
    let mixed = |(rule, i): (&Rule, usize)| program.direction(rule, i) == Direction::Mixed;
    those(&[
        ("conditions of a mixed position", positions().any(mixed)),
        ("conditions by idle rules alone", !named(true).is_subset(&named(false))),
        ("kept position of the set, no condition", positions().any(kept)),
    ])
}

/// Variable and mark of the conditions that a rule asks.
fn conditions(program: &Program, rule: &Rule, set: &[usize]) -> Vec<(usize, u8)> {
    let mut asked = Vec::new();
    for (i, term) in rule.terms.iter().enumerate() {
        let direction = program.direction(rule, i);
        let dropped = program.kept(rule, i) && set.contains(&term.variable);
        if direction != Direction::Falling && !dropped {
            asked.push((term.variable, 1));
        }
        if direction != Direction::Rising && !dropped {
            asked.push((term.variable, 2));
        }
    }
    asked
}
