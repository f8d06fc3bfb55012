//! Faults of a whole file: order, cuts, and circles through a mixed variable.

use super::fields::{self, Field};
use super::kinds;
use super::prng::Random;
use super::programs::heads;
use crate::program::Kind;

/// Refusal 4: a lower tag after a higher one.
pub fn disorder(random: &mut Random, fields: &mut Vec<Field>) -> Option<(usize, usize)> {
    let later: Vec<usize> = (0..fields.len()).filter(|&i| fields[i].tag > 1).collect();
    if later.is_empty() {
        return None;
    }
    let i = random.pick(&later);
    let tag = 1 + random.below(usize::from(fields[i].tag) - 1) as u8;
    let value: Vec<u8> = (0..random.below(12)).map(|_| random.byte()).collect();
    fields.insert(i + 1, Field { tag, value });
    Some((4, fields::place(fields, i + 1)))
}

/// Refusal 2: cut within a field, or a length beyond the end.
pub fn cut(random: &mut Random, fields: &[Field]) -> (Vec<u8>, Option<(usize, usize)>) {
    let mut file = fields::bytes(fields);
    let i = random.below(fields.len());
    let (place, size) = (fields::place(fields, i), 3 + fields[i].value.len());
    if random.percent(60) {
        let kept = if random.percent(50) { 1 + random.below(2) } else { 1 + random.below(size - 1) };
        file.truncate(place + kept);
    } else {
        let rest = file.len() - place - 3;
        let length = random.pick(&[rest + 1, rest + 256, 65_535]).min(65_535);
        file[place + 1..place + 3].copy_from_slice(&(length as u16).to_be_bytes());
    }
    if random.percent(30) {
        file[place] = random.byte();
    }
    (file, Some((2, place)))
}

/// Refusal 13: a mixed variable in its head's component, after other rules.
/// Most of the rules put in are not idle.
pub fn knot(random: &mut Random, fields: &mut Vec<Field>) -> Option<(usize, usize)> {
    let all = fields::variables(fields);
    let (low, high) = (|v: u8| all[usize::from(v)].1, |v: u8| all[usize::from(v)].2);
    let kind = |v: u8| Kind::numbered(all[usize::from(v)].0).unwrap_or(Kind::Standard);
    // What a rule gives that moves its head so far from its starting end.
    let moved = |v: u8, more: i64| match kind(v) {
        Kind::Above => high(v) - more,
        _ => low(v) + more,
    };
    let heads = heads(fields);
    let able: Vec<u8> = heads.iter().copied().filter(|&v| low(v) < 0 && high(v) > 0).collect();
    if able.is_empty() {
        return None;
    }
    let mixed = random.pick(&able);
    // The size with which a rule for this head demands most.
    let size = |head: u8| if kind(head) == Kind::Above { 0 } else { high(mixed).max(-low(mixed)) };
    let mut at = fields.iter().take_while(|f| f.tag < 3).count();
    if random.percent(20) {
        let c = moved(mixed, random.between(1, 3)) - size(mixed);
        fields.insert(at, fields::rule(5, mixed, c, &[(mixed, 0, 0)]));
        return Some((13, usize::MAX));
    }
    // How far such a rule moves its head at most.
    let more = |random: &mut Random| if random.percent(10) { -20 } else { random.between(1, 3) };
    // mixed -> ... -> head -> |mixed|
    let chain: Vec<u8> = random.distinct(heads.len(), 4).iter().map(|&i| heads[i]).collect();
    let mut from = mixed;
    let turns = random.percent(40);
    for &to in &chain {
        // Where nothing is kept the circle is broken.
        let turn = if turns && random.percent(50) { -1 } else { 1 };
        let number = turn * kinds::sign(kind(from), kind(to));
        let ends = [number * low(to), number * high(to)];
        let most = if kind(from) == Kind::Above { ends[0].min(ends[1]) } else { ends[0].max(ends[1]) };
        let wanted = moved(from, more(random));
        let link = match random.percent(20) {
            true => {
                let divisor = 1 + random.below(4) as i64;
                fields::quotient(from, divisor * wanted - most, divisor, &[(to, 0, number)])
            }
            false => fields::rule(1, from, wanted - most, &[(to, 0, number)]),
        };
        fields.insert(at, link);
        from = to;
        at += 1;
    }
    for _ in 0..random.pick(&[1, 1, 1, 2]) {
        let c = moved(from, more(random)) - size(from);
        fields.insert(at, fields::rule(5, from, c, &[(mixed, 0, 0)]));
    }
    None
}
