//! Files in which each rule leaves its head something to fall back by: every
//! form, direction and kind of variable in a rule that heads into the set.

use super::fields::{self, Field, Piece};
use super::kinds;
use super::line::rule_field;
use super::prng::Random;
use super::programs::divisor;
use crate::program::*;
use crate::wrong::Wrong;

/// A file with at most so many variables, and an assignment that moves all
/// founded ones that can be.
pub fn slack(random: &mut Random, most: usize) -> (Vec<Field>, Vec<i64>) {
    let count = 3 + random.below(most - 2);
    let (mut variables, mut witness) = (Vec::new(), Vec::new());
    // Products need lows of 0 or more.
    let first = if random.percent(30) { 4 } else { 0 };
    let ranges = [(-3, 0), (-2, 2), (-2, 3), (-4, -1), (0, 3), (1, 4), (2, 2)];
    for v in 0..count {
        let (low, high) = random.pick(&ranges[first..]);
        let founded = if v == 0 { 100 } else { 70 };
        let variable = Variable { kind: kinds::any(random, founded, 50), low, high };
        witness.push(match variable.kind {
            Kind::Standard => random.between(low, high),
            Kind::Below => random.between((low + 1).min(high), high),
            Kind::Above => random.between(low, (high - 1).max(low)),
        });
        variables.push(variable);
    }
    let mut program = Program { variables, rules: vec![], constraints: vec![], wrong: Wrong::Nothing };
    let layered = random.percent(50);
    for _ in 0..2 + random.below(6) {
        let heads: Vec<usize> = (0..count).filter(|&v| program.variables[v].founded()).collect();
        let head = random.pick(&heads);
        let first = if layered { head + 1 } else { 0 };
        let body: Vec<usize> = random.distinct(count - first, 3).iter().map(|v| v + first).collect();
        let rule = draft(random, &program, &witness, head, body);
        program.rules.push(rule);
    }
    let mut out: Vec<Field> =
        program.variables.iter().map(|v| fields::variable(v.kind.number(), v.low, v.high)).collect();
    out.extend(program.rules.iter().map(rule_field));
    if random.percent(40) {
        let two = random.distinct(count, 2);
        let terms: Vec<Piece> = two.iter().map(|&v| (v as u8, 0, random.pick(&[-2, -1, 1]))).collect();
        let sum: i64 = terms.iter().map(|t| t.2 * witness[usize::from(t.0)]).sum();
        out.push(fields::constraint(1, random.pick(&[0, 0, -1, -2, 1]) - sum, &terms));
    }
    (out, witness)
}

/// A rule of any form that asks for no more than its head has.
fn draft(
    random: &mut Random,
    program: &Program,
    witness: &[i64],
    head: usize,
    mut body: Vec<usize>,
) -> Rule {
    let factors = body.iter().filter(|&&v| program.variables[v].low >= 0).count();
    let mut forms = vec![SUM, MAX, MIN, SIZE, SIZE, SIZE, IF, CARRY, CARRY, QUOTIENT];
    if factors > 1 {
        forms.extend([PRODUCT; 4]);
    }
    let mut form = random.pick(&forms);
    if form == PRODUCT {
        body.retain(|&v| program.variables[v].low >= 0);
    }
    if body.is_empty() || form == CARRY && body.len() < 2 {
        form = SUM;
    }
    let most = match form {
        PRODUCT => 2,
        SIZE => 1,
        CARRY => random.between(2, body.len() as i64),
        _ => random.between(1, body.len().max(1) as i64),
    };
    body.truncate(most as usize);
    let mut terms = Vec::new();
    for (i, &v) in body.iter().enumerate() {
        let (op, number) = match form {
            SUM | QUOTIENT => (PLAIN, random.pick(&[-3, -2, -1, 1, 2, 3])),
            IF => literal(random, witness[v]),
            CARRY if i > 0 => literal(random, witness[v]),
            _ => (PLAIN, 0),
        };
        terms.push(Term { variable: v, op, number });
    }
    let divisor = if form == QUOTIENT { divisor(random) } else { 1 };
    let mut rule = Rule { place: 0, form, head, c: 0, divisor: 1, terms };
    let given = program.gives(&rule, |i| witness[body[i]]).unwrap_or(0);
    let gap = kinds::away(program.variables[head].kind) * random.between(0, 2);
    let rest = random.between(0, divisor - 1);
    rule.c = (divisor * (witness[head] - gap) - rest - given).clamp(-VALUE, VALUE);
    rule.divisor = divisor;
    rule
}

/// A literal around this value, mostly one that holds.
fn literal(random: &mut Random, value: i64) -> (u8, i64) {
    let gap = random.pick(&[-1, 0, 0, 0, 1]);
    if random.percent(50) {
        (AT_LEAST, value - gap)
    } else {
        (BELOW, value + 1 + gap)
    }
}
