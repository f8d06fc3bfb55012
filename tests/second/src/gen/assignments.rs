//! Assignments for a file: stable ones, unfounded ones, broken ones.

use super::prng::Random;
use crate::program::Program;
use crate::reader::parse;
use crate::wrong::Wrong;

/// Takes least models again and again until the assignment is its own.
pub fn settle(file: &[u8], start: &[i64]) -> Option<Vec<i64>> {
    let program = parse(file, Wrong::Nothing).ok()?;
    let mut now = start.to_vec();
    for _ in 0..12 {
        let next = program.least_model(&now)?;
        if next == now {
            return Some(now);
        }
        now = next;
    }
    None
}

/// Moves heads away from their starting ends until every rule is met, or
/// gives up.
fn lift(program: &Program, start: &[i64]) -> Option<Vec<i64>> {
    let mut now = start.to_vec();
    for _ in 0..50 {
        let mut lifted = false;
        for rule in &program.rules {
            let head = &program.variables[rule.head];
            let Some(given) = program.gives(rule, |i| now[rule.terms[i].variable]) else { continue };
            if head.further(given, head.far()) {
                return None;
            }
            if head.further(given, now[rule.head]) {
                now[rule.head] = given;
                lifted = true;
            }
        }
        if !lifted {
            return Some(now);
        }
    }
    None
}

/// Any value from one to the other.
fn between(random: &mut Random, one: i64, other: i64) -> i64 {
    random.between(one.min(other), one.max(other))
}

/// Some assignment of an accepted file, built from its witness.
pub fn assign(random: &mut Random, file: &[u8], witness: &[i64]) -> Vec<i64> {
    let Ok(program) = parse(file, Wrong::Nothing) else {
        return witness.to_vec();
    };
    let any = |random: &mut Random| -> Vec<i64> {
        program.variables.iter().map(|v| random.between(v.low, v.high)).collect()
    };
    let mut from = if random.percent(70) { witness.to_vec() } else { any(random) };
    if from.is_empty() {
        return from;
    }
    match random.below(16) {
        0..=2 => witness.to_vec(),
        3..=6 => settle(file, &from).unwrap_or(from),
        7..=11 => {
            let mut raised = settle(file, &from).unwrap_or(from);
            for _ in 0..1 + random.below(3) {
                let v = random.below(raised.len());
                if program.variables[v].founded() {
                    raised[v] = between(random, raised[v], program.variables[v].far());
                }
            }
            lift(&program, &raised).unwrap_or(raised)
        }
        12 => {
            let v = random.below(from.len());
            let (low, high) = (program.variables[v].low, program.variables[v].high);
            from[v] =
                random.pick(&[low - 1, high + 1, -32_768, 32_767, high + 300]).clamp(-32_768, 32_767);
            from
        }
        13 => {
            let mut back = settle(file, &from).unwrap_or(from);
            let v = random.below(back.len());
            back[v] = between(random, program.variables[v].start(), back[v]);
            back
        }
        14 => any(random),
        _ => program.variables.iter().map(|v| random.pick(&[v.low, v.high])).collect(),
    }
}
