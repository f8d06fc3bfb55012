//! Files around variables founded from above: earliest arrivals over a network,
//! circles through both kinds, long ways down, and crowded reports.

use super::fields::{self, Field, Piece};
use super::kinds;
use super::prng::Random;
use super::programs::divisor;
use crate::program::*;

/// Earliest arrivals: stations of kind 2, a departure, ways between stations
/// that close circles, and a gate. A way of length 0 or below may hold a circle
/// up by itself or push it past its low.
pub fn network(random: &mut Random, stations: usize, high: i64) -> (Vec<Field>, Vec<i64>) {
    let count = 2 + random.below(stations - 1);
    let low = random.pick(&[0, 0, 0, -high, -high / 2]);
    let mut out: Vec<Field> = (0..count).map(|_| fields::variable(2, low, high)).collect();
    let (departure, gate) = (count as u8, count as u8 + 1);
    out.push(fields::variable(random.pick(&[0, 0, 1, 2]), low, low + 3));
    out.push(fields::variable(0, 0, 1));
    let shorter = random.percent(15);
    for to in random.distinct(count, count) {
        let from = ((to + count - 1) % count) as u8;
        let step = if shorter { -1 } else { random.pick(&[0, 0, 1, 1, 2, 3]) };
        let other = random.below(count) as u8;
        let made = way(random, to as u8, from, other, (low, high), step, gate);
        out.push(made);
    }
    for _ in 0..random.below(count) {
        let (to, from) = (random.below(count) as u8, random.below(count) as u8);
        out.push(fields::rule(1, to, random.between(0, 4), &[(from, 0, 1)]));
    }
    if random.percent(80) {
        let first = random.below(count) as u8;
        out.push(match random.below(4) {
            0 => fields::rule(1, first, low + random.between(0, 2), &[]),
            1 => fields::rule(6, first, low, &[(gate, 1, 1)]),
            2 => fields::quotient(first, random.between(0, 3) + low, 2, &[(departure, 0, 1)]),
            _ => fields::rule(1, first, random.between(0, 2), &[(departure, 0, 1)]),
        });
    }
    let level = random.pick(&[low, low, high, (low + high) / 2]);
    let mut witness = vec![level; count];
    witness.extend([random.between(low, low + 3), random.between(0, 1)]);
    (out, witness)
}

/// One way of the network in any form that can take it.
fn way(
    random: &mut Random,
    to: u8,
    from: u8,
    other: u8,
    (low, high): (i64, i64),
    step: i64,
    gate: u8,
) -> Field {
    let plain: Piece = (from, 0, 0);
    let two: Vec<Piece> = if other == from { vec![plain] } else { vec![plain, (other, 0, 0)] };
    match random.below(9) {
        0 => fields::rule(3, to, step, &two),
        1 => fields::rule(2, to, step, &two),
        2 if low >= 0 => fields::rule(4, to, step, &[plain, (gate, 0, 0)]),
        3 if low >= 0 => fields::rule(5, to, step, &[plain]),
        4 => {
            let late = random.between(low, high + 1);
            fields::rule(6, to, (late - 1 + step).clamp(low, high), &[(from, 2, late)])
        }
        5 => fields::rule(7, to, step, &[plain, (gate, 1 + random.below(2) as u8, 1)]),
        6 if other != from => {
            let op = 1 + random.below(2) as u8;
            fields::rule(7, to, step, &[plain, (other, op, random.between(low, high + 1))])
        }
        7 => {
            let d = divisor(random);
            let rest = random.between(0, d - 1);
            match random.below(3) {
                0 => fields::quotient(to, d * step - rest, d, &[(from, 0, d)]),
                1 => fields::quotient(to, step, 2, &[(from, 0, 1), (gate, 0, 1)]),
                _ => fields::quotient(to, 2 * step + rest, 2, &[(from, 0, 1), (to, 0, 1)]),
            }
        }
        _ => fields::rule(1, to, step, &[(from, 0, 1)]),
    }
}

/// A variable of a circle, and how values of it lie from its starting end.
#[derive(Clone, Copy)]
struct Place {
    v: u8,
    kind: Kind,
    low: i64,
    high: i64,
}

impl Place {
    /// The value so many steps away from the starting end.
    fn at(&self, steps: i64) -> i64 {
        match self.kind {
            Kind::Above => self.high - steps,
            _ => self.low + steps,
        }
    }

    /// Holds when the variable is at least so many steps away, and is kept.
    fn reached(&self, steps: i64) -> Piece {
        match self.kind {
            Kind::Above => (self.v, BELOW, self.high - steps + 1),
            _ => (self.v, AT_LEAST, self.low + steps),
        }
    }
}

/// A circle through both kinds: each head is moved by the one before it, which
/// is kept, and perhaps one of them by a standard variable.
pub fn both(random: &mut Random, heads: usize, most: i64) -> (Vec<Field>, Vec<i64>) {
    let count = 2 + random.below(heads - 1);
    let span = random.between(1, most);
    let mut places: Vec<Place> = Vec::new();
    for v in 0..count {
        let near = random.between(-3, 3);
        let low = random.pick(&[0, 0, -span, -span / 2, near]);
        let kind = kinds::founded(random, 50);
        places.push(Place { v: v as u8, kind, low, high: low + span });
    }
    (places[0].kind, places[1].kind) = (Kind::Below, Kind::Above);
    let guard = count as u8;
    let mut out: Vec<Field> =
        places.iter().map(|p| fields::variable(p.kind.number(), p.low, p.high)).collect();
    out.push(fields::variable(0, 0, 1));
    let gained = random.percent(15);
    for v in random.distinct(count, count) {
        let step = if gained { 1 } else { random.pick(&[0, 0, 0, -1]) };
        let made = turn(random, places[v], places[(v + count - 1) % count], span, step, guard);
        out.push(made);
    }
    if random.percent(70) {
        let head = places[random.below(count)];
        out.push(fields::rule(6, head.v, head.at(span), &[(guard, 1, 1)]));
    }
    let level = random.pick(&[span, 0, span / 2]);
    let mut witness: Vec<i64> = places.iter().map(|p| p.at(level)).collect();
    witness.push(random.between(0, 1));
    (out, witness)
}

/// One rule of the circle: as far as the one before, and a step further.
fn turn(random: &mut Random, head: Place, before: Place, span: i64, step: i64, guard: u8) -> Field {
    let sign = kinds::sign(head.kind, before.kind);
    // head = sign * before + c where both are as far, and head a step further.
    let c = head.at(step) - sign * before.at(0);
    let some = random.between(1, span);
    let plain: Piece = (before.v, 0, 0);
    let door = (guard, 1 + random.below(2) as u8, 1);
    match random.below(9) {
        0 | 1 => fields::rule(6, head.v, head.at(some), &[before.reached(some)]),
        2 => fields::rule(6, head.v, head.at(some), &[before.reached(some), door]),
        3 => {
            let d = divisor(random);
            let rest = if random.percent(50) { 0 } else { random.between(0, d - 1) };
            let c = (d * c - rest).clamp(-30_000, 30_000);
            fields::quotient(head.v, c, d, &[(before.v, 0, sign * d)])
        }
        4 if head.v != before.v => {
            // The head itself, a step further, once the one before is so far.
            let c = kinds::away(head.kind) * step;
            fields::rule(7, head.v, c, &[(head.v, 0, 0), before.reached(some)])
        }
        5 if sign == 1 => fields::rule(7, head.v, c, &[plain, door]),
        6 if sign == 1 => fields::rule(2 + random.below(2) as u8, head.v, c, &[plain]),
        7 if sign == 1 && before.low >= 0 => fields::rule(5, head.v, c, &[plain]),
        7 if sign == -1 && before.high <= 0 && before.low < 0 => fields::rule(5, head.v, c, &[plain]),
        8 if sign == 1 && before.low >= 0 => fields::rule(4, head.v, c, &[plain, (guard, 0, 0)]),
        _ => fields::rule(1, head.v, c, &[(before.v, 0, sign)]),
    }
}

/// Two or three variables of both kinds that go a long way by small steps.
pub fn descent(random: &mut Random) -> (Vec<Field>, Vec<i64>) {
    let low = random.pick(&[-30_000, -500, 0]);
    let high = if random.percent(10) { 30_000 } else { random.between(low + 200, low + 2_000) };
    let count = 2 + random.below(2);
    let place = |v: usize, kind| Place { v: v as u8, kind, low, high };
    let mut places: Vec<Place> = (0..count).map(|v| place(v, kinds::founded(random, 60))).collect();
    places[0].kind = Kind::Above;
    let mut out: Vec<Field> =
        places.iter().map(|p| fields::variable(p.kind.number(), p.low, p.high)).collect();
    for v in 0..count {
        let (head, before) = (places[v], places[(v + count - 1) % count]);
        let sign = kinds::sign(head.kind, before.kind);
        let c = head.at(random.between(0, 1)) - sign * before.at(0);
        let other = places[(v + 1) % count];
        if sign == 1 && random.percent(70) && other.v != before.v {
            // A literal that is not kept.
            let stop = random.between(low, high + 1).min(30_000);
            let op = 3 - kinds::op(other.kind);
            out.push(fields::rule(7, head.v, c, &[(before.v, 0, 0), (other.v, op, stop)]));
        } else {
            out.push(fields::rule(1, head.v, c.clamp(-30_000, 30_000), &[(before.v, 0, sign)]));
        }
    }
    let steps = random.pick(&[0, high - low, (high - low) / 2]);
    (out, places.iter().map(|p| p.at(steps)).collect())
}

/// Nearly as many entries as a report can hold, of both kinds: each variable
/// but the first is mixed in the rule for the one before it.
pub fn crowded(random: &mut Random, above: usize) -> (Vec<Field>, Vec<i64>) {
    let count = random.pick(&[2, 3, 5, 17, 64, 255, 256]);
    let all: Vec<Kind> = (0..count).map(|_| kinds::founded(random, above)).collect();
    let mut out: Vec<Field> = all.iter().map(|k| fields::variable(k.number(), -3, 3)).collect();
    for v in 0..count - 1 {
        let c = random.pick(&[-1, -1, -1, 0, -2]);
        out.push(fields::rule(5, v as u8, c, &[((v + 1) as u8, 0, 0)]));
    }
    let (first, last) = (all[0], all[count - 1]);
    let number = -kinds::sign(last, first);
    out.push(fields::rule(1, (count - 1) as u8, -5 * kinds::away(last), &[(0, 0, number)]));
    (out, all.iter().map(|&kind| 3 * kinds::away(kind)).collect())
}
