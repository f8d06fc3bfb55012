//! Programs that keep to the format. A witness assignment is drawn first and
//! every rule gets a constant with which the witness meets it, so that most
//! verdicts get as far as `unfounded` and `stable`.

use super::assignments::settle;
use super::fields::{self, Field, Piece};
use super::kinds;
use super::prng::Random;
use crate::program::{Kind, AT_LEAST};

#[derive(Clone, Copy)]
pub struct Shape {
    pub variables: usize,
    pub span: i64,
    pub rules: usize,
    pub constraints: usize,
    pub terms: usize,
    /// How many of a hundred founded variables are founded from above.
    pub above: usize,
}

pub const SMALL: Shape = Shape { variables: 4, span: 3, rules: 6, constraints: 2, terms: 3, above: 0 };
pub const MIDDLE: Shape =
    Shape { variables: 12, span: 20, rules: 24, constraints: 5, terms: 5, above: 0 };
pub const LARGE: Shape =
    Shape { variables: 60, span: 300, rules: 150, constraints: 20, terms: 16, above: 0 };
pub const EXTREME: Shape =
    Shape { variables: 4, span: 60_000, rules: 6, constraints: 3, terms: 4, above: 0 };

/// A program with the witness it was built around.
pub fn program(random: &mut Random, shape: Shape) -> (Vec<Field>, Vec<i64>) {
    let count = if random.percent(3) { 0 } else { 1 + random.below(shape.variables) };
    let mut out = Vec::new();
    let mut witness = Vec::new();
    let all_positive = random.percent(30);
    let straddling = random.percent(25);
    for _ in 0..count {
        let span = random.between(0, shape.span);
        let low = match random.below(4) {
            _ if shape.span > 30_000 => random.between(-30_000, 30_000 - span),
            _ if all_positive => 0,
            _ if straddling && span > 1 => -random.between(1, span - 1),
            0 => random.between(-shape.span, shape.span),
            1 => -span,
            2 => -random.between(0, span),
            _ => 0,
        };
        let kind = kinds::any(random, 75, shape.above);
        out.push(fields::variable(kind.number(), low, low + span));
        witness.push(random.between(low, low + span));
    }
    let heads: Vec<u8> = heads(&out);
    if !heads.is_empty() {
        let manner = Manner {
            only_up: random.percent(40),
            no_circle: straddling && random.percent(80) || random.percent(25),
            divides: random.percent(20),
        };
        for _ in 0..random.below(shape.rules + 1) {
            let head = random.pick(&heads);
            let made = rule(random, &out, &witness, head, shape, manner);
            out.push(made);
        }
    }
    // Constraints that hold of the witness, or of the plan it settles to.
    let target = match settle(&fields::bytes(&out), &witness) {
        Some(settled) if random.percent(50) => settled,
        _ => witness.clone(),
    };
    let keep_true = random.percent(85);
    for _ in 0..random.below(shape.constraints + 1) {
        let made = constraint(random, &out, &target, shape, keep_true);
        out.push(made);
    }
    (out, witness)
}

/// What the rules of one program have in common.
#[derive(Clone, Copy)]
struct Manner {
    /// All terms that can be are kept: without kind 2, no coefficient below 0
    /// and no op 2.
    only_up: bool,
    /// Bodies use higher numbers than their heads, so that size may be mixed.
    no_circle: bool,
    /// A part of the rules has a divisor.
    divides: bool,
}

/// The numbers of the founded variables.
pub fn heads(fields: &[Field]) -> Vec<u8> {
    let all = fields::variables(fields);
    (0..all.len()).filter(|&v| all[v].0 > 0).map(|v| v as u8).collect()
}

fn literal(
    random: &mut Random,
    kind: Kind,
    variable: usize,
    value: i64,
    hold: bool,
    only_up: bool,
) -> Piece {
    let gap = random.between(0, 2);
    let kept = only_up || random.percent(65);
    let (op, number) = match (kept == (kinds::op(kind) == AT_LEAST), hold) {
        (true, true) => (1, value - gap),
        (true, false) => (1, value + 1 + gap),
        (false, true) => (2, value + 1 + gap),
        (false, false) => (2, value - gap),
    };
    (variable as u8, op, number.clamp(-30_000, 30_000))
}

fn coefficient(random: &mut Random, only_up: bool) -> i64 {
    let size = match random.below(20) {
        0 => random.between(900, 1_000),
        1 => 1_000,
        2..=6 => random.between(2, 5),
        _ => 1,
    };
    if only_up || random.percent(65) {
        size
    } else {
        -size
    }
}

/// Mostly a small one.
pub fn divisor(random: &mut Random) -> i64 {
    match random.below(12) {
        0 => 1,
        1 => 1_000,
        2 => random.between(1, 1_000),
        3 => random.between(6, 12),
        _ => random.between(2, 5),
    }
}

/// A rule met by the witness wherever the constant's range allows it.
fn rule(
    random: &mut Random,
    fields: &[Field],
    witness: &[i64],
    head: u8,
    shape: Shape,
    manner: Manner,
) -> Field {
    let all = fields::variables(fields);
    let kind = |v: usize| Kind::numbered(all[v].0).unwrap_or(Kind::Standard);
    let head_kind = kind(usize::from(head));
    let only_up = manner.only_up;
    let first_usable = if manner.no_circle { usize::from(head) + 1 } else { 0 };
    let most = 1 + random.below(shape.terms);
    let mut body: Vec<usize> =
        random.distinct(all.len() - first_usable, most).iter().map(|v| v + first_usable).collect();
    if !manner.no_circle && random.percent(10) && !body.contains(&usize::from(head)) {
        body[0] = usize::from(head);
    }
    let factors: Vec<usize> = (first_usable..all.len()).filter(|&v| all[v].1 >= 0).collect();
    let mut form = random.between(1, 7) as u8;
    if form == 4 && factors.len() < 2 || form == 7 && body.len() < 2 {
        form = 6;
    }
    if body.is_empty() {
        form = 1;
    }
    if manner.divides && random.percent(40) {
        form = 8;
    }
    let at = |v: usize| witness[v];
    let plain = |v: &usize| (*v as u8, 0, 0);
    let (terms, value): (Vec<Piece>, Option<i64>) = match form {
        1 | 8 => {
            let least = usize::from(form == 8 && !body.is_empty() && random.percent(80));
            body.truncate(random.between(least as i64, body.len() as i64) as usize);
            let sign = |v: usize| kinds::sign(head_kind, kind(v));
            let terms: Vec<Piece> =
                body.iter().map(|&v| (v as u8, 0, sign(v) * coefficient(random, only_up))).collect();
            let sum = terms.iter().map(|t| t.2 * at(usize::from(t.0))).sum();
            (terms, Some(sum))
        }
        2 => (body.iter().map(plain).collect(), body.iter().map(|&v| at(v)).max()),
        3 => (body.iter().map(plain).collect(), body.iter().map(|&v| at(v)).min()),
        4 => {
            let two: Vec<usize> =
                random.distinct(factors.len(), 2).iter().map(|&i| factors[i]).collect();
            (two.iter().map(plain).collect(), Some(at(two[0]) * at(two[1])))
        }
        5 => (vec![plain(&body[0])], Some(at(body[0]).abs())),
        _ => {
            let hold = random.percent(70);
            let first = usize::from(form == 7);
            let fails = first + random.below(body.len() - first);
            let mut terms: Vec<Piece> = Vec::new();
            for (i, &v) in body.iter().enumerate() {
                if i < first {
                    terms.push(plain(&v));
                } else {
                    terms.push(literal(random, kind(v), v, at(v), hold || i != fails, only_up));
                }
            }
            let carried = if form == 7 { at(body[0]) } else { 0 };
            (terms, if hold { Some(carried) } else { None })
        }
    };
    let head_value = witness[usize::from(head)];
    let away = kinds::away(head_kind);
    if form == 8 {
        // Any rest below the divisor is rounded away.
        let divisor = divisor(random);
        let wanted = head_value - away * random.pick(&[0, 0, 0, 1, 2, shape.span / 2]);
        let rest = if random.percent(25) { 0 } else { random.between(0, divisor - 1) };
        let c = match value {
            Some(sum) if random.percent(97) => divisor * wanted - rest - sum,
            _ => random.between(-5, 5),
        };
        return fields::quotient(head, c.clamp(-30_000, 30_000), divisor, &terms);
    }
    let c = match value {
        _ if random.percent(3) => random.between(-5, 5),
        Some(value) => head_value - value - away * random.pick(&[0, 0, 0, 1, 2, shape.span / 2]),
        None => random.between(-shape.span, shape.span),
    };
    fields::rule(form, head, c.clamp(-30_000, 30_000), &terms)
}

fn constraint(
    random: &mut Random,
    fields: &[Field],
    target: &[i64],
    shape: Shape,
    keep_true: bool,
) -> Field {
    let most = 1 + random.below(shape.terms);
    let body = random.distinct(target.len(), most);
    if body.is_empty() || random.percent(50) {
        let terms: Vec<Piece> = body.iter().map(|&v| (v as u8, 0, coefficient(random, false))).collect();
        let sum: i64 = terms.iter().map(|t| t.2 * target[usize::from(t.0)]).sum();
        let c = if keep_true { -sum - random.between(0, 3) } else { -sum + random.between(-2, 2) };
        return fields::constraint(1, c.clamp(-30_000, 30_000), &terms);
    }
    let holds = random.below(body.len());
    let mut terms: Vec<Piece> = Vec::new();
    for (i, &v) in body.iter().enumerate() {
        let hold = if keep_true { i == holds } else { random.percent(20) };
        terms.push(literal(random, Kind::Standard, v, target[v], hold, false));
    }
    debug_assert!(fields.len() >= target.len());
    fields::constraint(2, 0, &terms)
}

/// Heads in a ring, each lifted through the one before it; with or without
/// a standard variable that lifts one of them. With a step a little is lost
/// on the way, so that the circle is sound though it is a circle.
pub fn ring(random: &mut Random) -> (Vec<Field>, Vec<i64>) {
    let heads = 2 + random.below(38);
    let high = random.between(1, 30);
    let outside = heads as u8;
    let gained = random.percent(15) && heads < 6;
    let divides = random.percent(30);
    let mut out: Vec<Field> = (0..heads).map(|_| fields::variable(1, 0, high)).collect();
    out.push(fields::variable(0, 0, 1));
    for head in random.distinct(heads, heads) {
        let before = ((head + heads - 1) % heads) as u8;
        let head = head as u8;
        let step = if gained { 1 } else { random.pick(&[0, 0, 0, -1]) };
        let made = match random.below(if divides { 10 } else { 6 }) {
            0 => fields::rule(1, head, step, &[(before, 0, 1)]),
            1 => fields::rule(2, head, step, &[(before, 0, 0)]),
            2 => fields::rule(3, head, step, &[(before, 0, 0)]),
            3 => fields::rule(5, head, step, &[(before, 0, 0)]),
            4 => fields::rule(7, head, step, &[(before, 0, 0), (outside, 2, 2)]),
            5 => fields::rule(6, head, high.min(2), &[(before, 1, high.min(2))]),
            _ => divided(random, head, before, high, step),
        };
        out.push(made);
    }
    let start = random.below(heads) as u8;
    if random.percent(70) {
        out.push(fields::rule(6, start, high, &[(outside, 1, 1)]));
    }
    let level = random.pick(&[high, 0, high / 2]);
    let mut witness = vec![level; heads];
    witness.push(random.between(0, 1));
    (out, witness)
}

/// A step of the ring with a divisor: the whole of the one before, a share of
/// it that comes to rest at 0, 1 or high, or a share of it and the head.
fn divided(random: &mut Random, head: u8, before: u8, high: i64, step: i64) -> Field {
    let d = divisor(random);
    let whole = d * step - random.between(0, d - 1);
    match random.below(4) {
        0 | 1 => fields::quotient(head, whole, d, &[(before, 0, d)]),
        2 => {
            let c = random.pick(&[0, d - 1, (d - 1) * high]);
            fields::quotient(head, c, d, &[(before, 0, 1)])
        }
        _ => fields::quotient(head, 2 * step, 2, &[(before, 0, 1), (head, 0, 1)]),
    }
}

/// Two or three variables that climb a long way by small steps.
pub fn climb(random: &mut Random) -> (Vec<Field>, Vec<i64>) {
    let low = random.pick(&[-30_000, -500, 0]);
    let high = if random.percent(10) { 30_000 } else { random.between(low + 200, low + 2_000) };
    let count = 2 + random.below(2);
    let mut out: Vec<Field> = (0..count).map(|_| fields::variable(1, low, high)).collect();
    for v in 0..count {
        let stop = random.between(low, high + 1);
        let before = ((v + count - 1) % count) as u8;
        let c = random.between(0, 1);
        if random.percent(70) {
            let other = ((v + 1) % count) as u8;
            out.push(fields::rule(7, v as u8, c, &[(before, 0, 0), (other, 2, stop)]));
        } else {
            out.push(fields::rule(1, v as u8, c, &[(before, 0, 1)]));
        }
    }
    (out, vec![random.pick(&[high, low, (low + high) / 2]); count])
}

/// Nearly as many entries as a report can hold: every variable in the set,
/// and all but one of them mixed in a rule that heads into it.
pub fn crowded(random: &mut Random) -> (Vec<Field>, Vec<i64>) {
    let count = random.pick(&[2, 3, 5, 17, 64, 255, 256]);
    let mut out: Vec<Field> = (0..count).map(|_| fields::variable(1, -3, 3)).collect();
    for v in 0..count - 1 {
        let c = random.pick(&[-1, -1, -1, 0, -2]);
        out.push(fields::rule(5, v as u8, c, &[((v + 1) as u8, 0, 0)]));
    }
    out.push(fields::rule(1, (count - 1) as u8, -5, &[(0, 0, -1)]));
    (out, vec![3; count])
}
