//! Seeded families that `gen` has too little of: circles, layers in which size
//! may be mixed, and both with rules that are idle or only just not. `above` says
//! how many of a hundred founded variables are founded from above.

use second::gen::fields::{self, Field, Piece};
use second::gen::line::Scale;
use second::gen::prng::Random;
use second::gen::{self, idle, kinds};
use second::graph;
use second::program::{Kind, Program};
use second::reader::parse;
use second::Wrong;

/// A circle: of kind 1 alone, or through both kinds, or of arrivals.
pub fn circle(random: &mut Random, above: usize) -> Vec<Field> {
    if above > 0 {
        gen::small_arrival(random)
    } else {
        ring(random)
    }
}

/// Founded variables in a ring, each lifted through the one before it, and a
/// few rules that lift them from outside or against one another.
fn ring(random: &mut Random) -> Vec<Field> {
    let heads = 2 + random.below(3);
    let low = random.pick(&[-3, -2, -1, 0, 0, 0, 1]);
    let high = low + random.between(1, 3);
    let mut out: Vec<Field> = (0..heads).map(|_| fields::variable(1, low, high)).collect();
    let (guard, outside) = (heads as u8, heads as u8 + 1);
    out.push(fields::variable(0, 0, 1));
    out.push(fields::variable(u8::from(random.percent(50)), random.pick(&[-2, -1, 0]), 2));
    for head in 0..heads {
        let before = ((head + heads - 1) % heads) as u8;
        let step = random.pick(&[0, 0, 0, 0, -1, 1]);
        let made = through(random, head as u8, before, (low, high), step, (guard, outside));
        out.push(made);
    }
    for _ in 0..random.below(3) {
        let head = random.below(heads) as u8;
        let other = random.below(heads) as u8;
        let level = random.between(low, high);
        out.push(match random.below(7) {
            0 | 1 => fields::rule(6, head, level, &[(guard, 1, 1)]),
            2 => fields::rule(1, head, level, &[]),
            3 => fields::rule(1, head, low + high, &[(other, 0, -1)]),
            4 => fields::rule(6, head, level, &[(other, 2, level)]),
            5 => fields::quotient(head, 2 * level, 3, &[(outside, 0, random.pick(&[-2, -1, 1, 2]))]),
            _ => fields::rule(5, head, low, &[(outside, 0, 0)]),
        });
    }
    if random.percent(40) {
        let level = random.between(-2, 1);
        out.push(fields::rule(6, outside, level, &[(guard, 2, 1)]));
    }
    if random.percent(25) {
        out.push(fields::constraint(2, 0, &[(guard, 1, 1), (0, 1, high)]));
    }
    // A standard variable heads no rule.
    let standard = out[heads + 1].value[0] == 0;
    out.retain(|f| !(standard && f.tag == 2 && f.value[1] == outside));
    out
}

/// One step of the ring, in any form that can take it.
fn through(
    random: &mut Random,
    head: u8,
    before: u8,
    range: (i64, i64),
    step: i64,
    others: (u8, u8),
) -> Field {
    let (low, high) = range;
    let (guard, outside) = others;
    let plain: Piece = (before, 0, 0);
    let level = random.between(low + 1, high);
    let door = (guard, 1 + random.below(2) as u8, 1);
    match random.between(1, 8) {
        2 => fields::rule(2, head, step, &[plain, (outside, 0, 0)]),
        3 => fields::rule(3, head, step, &[plain, (outside, 0, 0)]),
        4 if low >= 0 => fields::rule(4, head, step, &[plain, (guard, 0, 0)]),
        5 if low >= 0 || high <= 0 => fields::rule(5, head, step, &[plain]),
        6 => fields::rule(6, head, level, &[(before, 1, level), door]),
        7 => fields::rule(7, head, step, &[plain, door]),
        8 => {
            let divisor = random.between(2, 3);
            let rest = random.between(0, divisor - 1);
            let others = [(before, 0, 1), (outside, 0, random.pick(&[-1, 1]))];
            match random.below(3) {
                0 => fields::quotient(head, divisor * step - rest, divisor, &[(before, 0, divisor)]),
                1 => fields::quotient(head, step, 2, &[(before, 0, 1), (head, 0, 1)]),
                _ => fields::quotient(head, (divisor - 1) * level, divisor, &others),
            }
        }
        _ => fields::rule(1, head, step, &[(before, 0, 1)]),
    }
}

/// Variables around 0 in layers: kept and mixed occurrences stand below their
/// head, so that the file is valid; others stand anywhere.
pub fn layers(random: &mut Random, above: usize) -> Vec<Field> {
    let count = 3 + random.below(2);
    let mut out: Vec<Field> = Vec::new();
    let mut all: Vec<Kind> = Vec::new();
    for x in 0..count {
        all.push(kinds::any(random, if x == 0 { 100 } else { 65 }, above));
        let (low, high) = (-random.between(1, 2), random.pick(&[0, 1, 2, 2]));
        out.push(fields::variable(all[x].number(), low, high));
    }
    let founded: Vec<usize> = (0..count).filter(|&x| all[x].founded()).collect();
    for _ in 0..3 + random.below(4) {
        let head = random.pick(&founded);
        let made = layered(random, head, &all);
        out.push(made);
    }
    if random.percent(30) {
        out.push(fields::constraint(1, random.between(-2, 1), &[(0, 0, 1), (1, 0, -1)]));
    }
    out
}

/// A rule of the layers.
fn layered(random: &mut Random, head: usize, all: &[Kind]) -> Field {
    let anywhere = random.below(all.len()) as u8;
    let x = usize::from(anywhere);
    // With this coefficient, or in this literal, it is not kept.
    let number = -kinds::sign(all[head], all[x]);
    let op = 3 - kinds::op(all[x]);
    let c = kinds::away(all[head]) * random.between(-2, 1);
    if head + 1 == all.len() {
        let terms = [(anywhere, 0, number)];
        return fields::rule(1, head as u8, c, &terms[..random.below(2)]);
    }
    let deeper = random.between(head as i64 + 1, all.len() as i64 - 1) as u8;
    let not_kept = (anywhere != deeper).then_some(anywhere);
    match random.below(9) {
        0..=3 => fields::rule(5, head as u8, c, &[(deeper, 0, 0)]),
        4 | 5 => {
            let mut terms: Vec<Piece> = vec![(deeper, 0, random.pick(&[-2, -1, 1, 1]))];
            terms.extend(not_kept.map(|x| (x, 0, number)));
            fields::rule(1, head as u8, c, &terms)
        }
        8 => {
            let mut terms: Vec<Piece> = vec![(deeper, 0, random.pick(&[-2, -1, 1, 1, 3]))];
            terms.extend(not_kept.map(|x| (x, 0, number)));
            fields::quotient(head as u8, c, random.between(2, 4), &terms)
        }
        6 => {
            let c = c + kinds::away(all[head]);
            fields::rule(6, head as u8, c, &[(anywhere, op, random.between(-1, 2))])
        }
        _ => {
            let mut terms: Vec<Piece> = vec![(deeper, 0, 0)];
            terms.extend(not_kept.map(|x| (x, op, random.between(0, 2))));
            let form = if terms.len() > 1 { 7 } else { 2 };
            fields::rule(form, head as u8, c, &terms)
        }
    }
}

/// A program that is valid because some rule is idle: layers, a circle, or
/// what `gen` makes of this kind. After so many draws any program will do.
pub fn near_idle(random: &mut Random, above: usize) -> Vec<Field> {
    let mut out = Vec::new();
    for _ in 0..DRAWS {
        out = match random.below(3) {
            0 => idle::small(random, above),
            1 => near_the_line(random, above, layers),
            _ => near_the_line(random, above, circle),
        };
        let needs_one = |p: &Program| !graph::offending_rules(p, &vec![false; p.rules.len()]).is_empty();
        if parse(&fields::bytes(&out), Wrong::Nothing).is_ok_and(|program| needs_one(&program)) {
            break;
        }
    }
    out
}

const DRAWS: usize = 30;

/// Rules near the line between idle and not, among the others. An idle one may
/// draw any edge and have any mixed variable.
fn near_the_line(
    random: &mut Random,
    above: usize,
    family: fn(&mut Random, usize) -> Vec<Field>,
) -> Vec<Field> {
    let mut out = family(random, above);
    idle::sprinkle(random, &mut out, Scale { above, ..idle::FEW });
    out
}
