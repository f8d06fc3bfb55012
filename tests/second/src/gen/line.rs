//! Rules near the line between idle and not, for heads of both kinds.

use super::fields::{self, Field};
use super::kinds;
use super::prng::Random;
use super::programs::divisor;
use crate::program::*;

#[derive(Clone, Copy)]
pub struct Scale {
    /// How far values lie from 0.
    pub reach: i64,
    /// How many values a range has at most.
    pub span: i64,
    /// How many variables stand beside those of the circle.
    pub others: usize,
    /// How many rules are put in besides.
    pub more: usize,
    /// How many terms a body has at most.
    pub terms: usize,
    /// How many of a hundred founded variables are founded from above.
    pub above: usize,
}

/// Where a position makes its rule demand most.
fn best(program: &Program, rule: &Rule, i: usize) -> i64 {
    let term = &rule.terms[i];
    let Variable { low, high, .. } = program.variables[term.variable];
    let above = program.variables[rule.head].above();
    let turned = [SUM, QUOTIENT].contains(&rule.form) && term.number < 0;
    match (rule.form, term.op) {
        (_, AT_LEAST) => high,
        (_, BELOW) => low,
        (SIZE, _) if above => 0.clamp(low, high),
        (SIZE, _) if low.abs() > high.abs() => low,
        _ if turned != above => low,
        _ => high,
    }
}

/// What the rule gives where every position makes it demand most.
fn utmost(program: &Program, rule: &Rule) -> Option<i64> {
    program.gives(rule, |i| best(program, rule, i))
}

pub fn idle(program: &Program, rule: &Rule) -> bool {
    let head = &program.variables[rule.head];
    !utmost(program, rule).is_some_and(|given| head.further(given, head.start()))
}

/// Gives the rule a constant with which it moves its head by `more`.
pub fn tune(random: &mut Random, program: &Program, rule: &mut Rule, more: i64) {
    rule.c = 0;
    let head = &program.variables[rule.head];
    let wanted = head.start() + kinds::away(head.kind) * more;
    let divisor = std::mem::replace(&mut rule.divisor, 1);
    let rest = if random.percent(30) { 0 } else { random.between(0, divisor - 1) };
    let c = divisor * wanted - rest - utmost(program, rule).unwrap_or(0);
    rule.c = c.clamp(-VALUE, VALUE);
    rule.divisor = divisor;
}

/// A literal that can hold, perhaps at one end of the range only.
fn literal(random: &mut Random, program: &Program, v: usize, kept: bool) -> Term {
    let Variable { kind, low, high } = program.variables[v];
    let at_end = random.percent(40);
    let op = if kept || random.percent(60) { kinds::op(kind) } else { 3 - kinds::op(kind) };
    let number = match op {
        AT_LEAST if at_end => high,
        AT_LEAST => random.between(low, high),
        _ if at_end => low + 1,
        _ => random.between(low + 1, high + 2),
    };
    Term { variable: v, op, number: number.clamp(-VALUE, VALUE) }
}

/// Are both founded from the same end, or one of them standard?
fn alike(program: &Program, head: usize, v: usize) -> bool {
    let (head, kind) = (program.variables[head].kind, program.variables[v].kind);
    kind == Kind::Standard || kinds::sign(head, kind) == 1
}

/// A rule of this form with these variables in its body, not tuned yet. Every
/// literal can hold. The first variable is kept, if it is founded.
pub fn draft(random: &mut Random, program: &Program, form: u8, head: usize, body: &[usize]) -> Rule {
    let plain = |v: usize, number: i64| Term { variable: v, op: PLAIN, number };
    let sign = |v: usize| kinds::sign(program.variables[head].kind, program.variables[v].kind);
    let mut terms = Vec::new();
    for (i, &v) in body.iter().enumerate() {
        terms.push(match form {
            SUM | QUOTIENT => {
                let size = random.pick(&[1, 1, 1, 2, 3, 1_000]);
                let turned = i > 0 && random.percent(50);
                plain(v, if turned { -sign(v) * size } else { sign(v) * size })
            }
            IF => literal(random, program, v, i == 0),
            CARRY if i > 0 => literal(random, program, v, false),
            _ => plain(v, 0),
        });
    }
    if form == CARRY && (random.percent(50) || !alike(program, head, body[0])) {
        // The first one is a literal, another is carried.
        terms[0] = plain(body[1], 0);
        terms[1] = literal(random, program, body[0], true);
    }
    shuffle(random, &mut terms[usize::from(form == CARRY)..]);
    let divisor = if form == QUOTIENT { divisor(random) } else { 1 };
    Rule { place: 0, form, head, c: 0, divisor, terms }
}

/// Makes one literal of the rule such that it never holds.
fn fail(random: &mut Random, program: &Program, rule: &mut Rule) {
    let literals: Vec<usize> = (0..rule.terms.len()).filter(|&i| rule.terms[i].op != PLAIN).collect();
    let i = random.pick(&literals);
    let v = rule.terms[i].variable;
    let Variable { low, high, .. } = program.variables[v];
    let gap = random.pick(&[0, 0, 0, 0, 1, 5]);
    let (op, number) = match random.below(5) {
        0 | 1 if high == 4 => (AT_LEAST, 9),
        0 | 1 => (AT_LEAST, high + 1 + gap),
        _ => (BELOW, low - gap),
    };
    rule.terms[i] = Term { variable: v, op, number: number.clamp(-VALUE, VALUE) };
}

/// How far a rule is to move its head.
pub fn amount(random: &mut Random, scale: Scale) -> i64 {
    match random.below(10) {
        0..=2 => 0,
        3..=6 => 1,
        7 => -random.between(1, scale.span),
        _ => random.between(2, scale.span + 1),
    }
}

/// The forms in which this variable can be kept, or mixed, in a rule for this
/// head.
fn forms(program: &Program, head: usize, through: usize, factors: usize) -> Vec<u8> {
    let Variable { low, high, .. } = program.variables[through];
    let mut forms = vec![SUM, MAX, MIN, IF, CARRY, QUOTIENT, QUOTIENT];
    let alike = alike(program, head, through);
    if !alike {
        forms.retain(|form| ![MAX, MIN].contains(form));
    }
    if alike && low >= 0 && factors > 0 {
        let many = if program.variables[head].above() { 4 } else { 2 };
        forms.extend([PRODUCT; 4][..many].iter());
    }
    if alike && (low >= 0 || high > 0) || !alike && low < 0 {
        forms.push(SIZE);
    }
    forms
}

/// A rule in whose body `through` is kept or mixed, near the line between idle
/// and not, or with a literal that never holds.
pub fn near(random: &mut Random, program: &Program, head: usize, through: usize, scale: Scale) -> Rule {
    // Sums above 0 decide only where the head starts at 0 or above, and sums
    // below 0 for kind 2 where it starts below.
    let share = match (program.variables[head].above(), program.variables[head].start() < 0) {
        (false, false) => 35,
        (false, true) => 0,
        (true, false) => 20,
        (true, true) => 60,
    };
    if share > 0 && random.percent(share) {
        return near_quotient(random, program, head, through, scale);
    }
    let mut more: Vec<usize> = (0..program.variables.len()).filter(|&v| v != through).collect();
    let factors: Vec<usize> = more.iter().copied().filter(|&v| program.variables[v].low >= 0).collect();
    let form = random.pick(&forms(program, head, through, factors.len()));
    if form == PRODUCT {
        more = factors;
    }
    let others = match form {
        SIZE => 0,
        PRODUCT => 1,
        CARRY => 1 + random.below(scale.terms - 1),
        _ => random.below(scale.terms),
    };
    let mut body = vec![through];
    body.extend(random.distinct(more.len(), others).iter().map(|&i| more[i]));
    if form != PRODUCT && body.len() > 1 && !body.contains(&head) && random.percent(30) {
        body[1] = head;
    }
    let mut rule = draft(random, program, form, head, &body);
    let fails = [IF, CARRY].contains(&form) && random.percent(45);
    let wanted = if fails { random.pick(&[1, 1, 2, -1]) } else { amount(random, scale) };
    tune(random, program, &mut rule, wanted);
    if fails {
        fail(random, program, &mut rule);
    }
    rule
}

/// A rule of form 8 near the line.
fn near_quotient(
    random: &mut Random,
    program: &Program,
    head: usize,
    through: usize,
    scale: Scale,
) -> Rule {
    let others: Vec<usize> = (0..program.variables.len()).filter(|&v| v != through).collect();
    let more = random.below(scale.terms);
    let mut body = vec![through];
    body.extend(random.distinct(others.len(), more).iter().map(|&i| others[i]));
    let mut rule = draft(random, program, QUOTIENT, head, &body);
    rule.divisor = random.between(2, 5);
    let wanted = random.pick(&[0, 0, 1]);
    tune(random, program, &mut rule, wanted);
    rule
}

/// A rule of form 1 from `to` to `from` that is not idle.
pub fn link(random: &mut Random, program: &Program, from: usize, to: usize) -> Rule {
    let mut rule = draft(random, program, SUM, from, &[to]);
    let more = random.pick(&[1, 1, 2]);
    tune(random, program, &mut rule, more);
    rule
}

/// A rule of any form that is not idle and in which `through` is not kept.
/// `other` may be a literal in its body.
pub fn loose(random: &mut Random, program: &Program, head: usize, through: usize, other: usize) -> Rule {
    let mut forms = vec![SUM, SUM, QUOTIENT, IF, IF];
    let Variable { low, high, .. } = program.variables[through];
    if !alike(program, head, through) {
        forms.extend([MAX, MIN, CARRY]);
    }
    // Of a size that is not mixed.
    if low >= 0 && !alike(program, head, through)
        || high <= 0 && low < 0 && alike(program, head, through)
    {
        forms.extend([SIZE, SIZE]);
    }
    let form = random.pick(&forms);
    let mut rule =
        draft(random, program, form, head, &[through, other][..1 + usize::from(form == CARRY)]);
    match form {
        SUM | QUOTIENT => rule.terms[0].number *= -1,
        IF => {
            let op = 3 - rule.terms[0].op;
            let number = if op == AT_LEAST { random.between(low, high) } else { low + 1 };
            rule.terms[0] = Term { variable: through, op, number: number.clamp(-VALUE, VALUE) };
        }
        CARRY => {
            rule.terms[0] = Term { variable: through, op: PLAIN, number: 0 };
            rule.terms[1] = literal(random, program, other, false);
        }
        _ => {}
    }
    let more = random.pick(&[1, 1, 2]);
    tune(random, program, &mut rule, more);
    rule
}

/// A rule of form 5 that moves its head by `more`.
pub fn size(random: &mut Random, program: &Program, head: usize, variable: usize, more: i64) -> Rule {
    let mut rule = draft(random, program, SIZE, head, &[variable]);
    tune(random, program, &mut rule, more);
    rule
}

pub fn shuffle<T>(random: &mut Random, list: &mut [T]) {
    for i in 0..list.len() {
        let j = i + random.below(list.len() - i);
        list.swap(i, j);
    }
}

pub fn rule_field(rule: &Rule) -> Field {
    let terms: Vec<fields::Piece> =
        rule.terms.iter().map(|t| (t.variable as u8, t.op, t.number)).collect();
    match rule.form {
        QUOTIENT => fields::quotient(rule.head as u8, rule.c, rule.divisor, &terms),
        form => fields::rule(form, rule.head as u8, rule.c, &terms),
    }
}
