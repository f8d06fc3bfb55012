//! The same plan written otherwise, and plans that differ in one thing.

use super::fields::{self, Field, Piece};
use super::prng::Random;
use super::programs::heads;
use crate::program::*;

/// Where the terms of a rule or constraint start in its value.
fn start(field: &Field) -> usize {
    if field.tag == 2 {
        4
    } else {
        3
    }
}

/// The groups of four bytes.
pub fn groups(field: &Field) -> Vec<Piece> {
    let group = |g: &[u8]| (g[0], g[1], signed(g, 2));
    field.value[start(field)..].chunks(4).map(group).collect()
}

/// The field with other groups.
pub fn with(field: &Field, groups: &[Piece]) -> Field {
    let value = [&field.value[..start(field)], &fields::pieces(groups)].concat();
    Field { tag: field.tag, value }
}

/// How many groups stay first: a carried variable or a divisor.
fn stay(field: &Field) -> usize {
    usize::from(field.tag == 2 && [CARRY, QUOTIENT].contains(&field.value[0]))
}

pub fn shuffle<T: Clone>(random: &mut Random, list: &mut [T]) {
    let from = list.to_vec();
    for (to, i) in random.distinct(list.len(), list.len()).into_iter().enumerate() {
        list[to] = from[i].clone();
    }
}

/// The field with its terms in any order.
pub fn shuffled(random: &mut Random, field: &Field) -> Field {
    let mut all = groups(field);
    shuffle(random, &mut all[stay(field)..]);
    with(field, &all)
}

/// Two fields have the same key exactly when they are equal with their terms
/// ordered: no two terms of a body have the same variable.
fn key(field: &Field) -> (u8, Vec<u8>, Vec<Piece>) {
    let mut all = groups(field);
    all[stay(field)..].sort();
    (field.tag, field.value[..start(field)].to_vec(), all)
}

/// Is there room in the file for one more such field?
fn fits(list: &[Field], field: &Field, bytes: usize) -> bool {
    let most = if field.tag == 2 { RULES } else { CONSTRAINTS };
    fields::count(list, field.tag) < most && bytes + 3 + field.value.len() <= FILE_BYTES
}

/// Adds up to so many repeats of fields that are there.
fn repeat(random: &mut Random, list: &mut Vec<Field>, times: usize) {
    let from = list.clone();
    let mut bytes = fields::place(list, list.len());
    let first = from.iter().take_while(|field| field.tag == 1).count();
    for _ in 0..if first < from.len() { times } else { 0 } {
        let field = &from[first + random.below(from.len() - first)];
        if fits(list, field, bytes) {
            bytes += 3 + field.value.len();
            list.push(field.clone());
        }
    }
}

/// The same plan: terms, rules and constraints in another order, and some of
/// them once more.
pub fn vary(random: &mut Random, list: &[Field]) -> Vec<Field> {
    let mut out = list.to_vec();
    let bodies = list.len() - fields::count(list, 1);
    let times = random.pick(&[0, 0, 1, 2, bodies / 2, bodies, 2 * bodies]);
    repeat(random, &mut out, times.min(400));
    let moves = random.pick(&[0, 50, 100, 100]);
    for field in out.iter_mut().filter(|field| field.tag > 1) {
        if random.percent(moves) {
            *field = shuffled(random, field);
        }
    }
    let first = fields::count(list, 1);
    if random.percent(85) {
        shuffle(random, &mut out[first..]);
    }
    out.sort_by_key(|field| field.tag);
    out
}

/// Another number near this one or far off, within the range.
fn other_number(random: &mut Random, number: i64, most: i64) -> i64 {
    let near = number + random.pick(&[1, -1, 1, -1, 256, -256, 255]);
    let other = random.pick(&[near, near, near, -number, number / 2]);
    other.clamp(-most, most)
}

/// The field with one thing changed, and its name. It need not be accepted.
pub fn alter(random: &mut Random, list: &[Field], field: &Field) -> (&'static str, Field) {
    let rule = field.tag == 2;
    let all = groups(field);
    match random.below(12) {
        0 | 1 => ("c", other_constant(random, field)),
        2 if rule => {
            let mut other = field.clone();
            other.value[1] = random.pick(&heads(list));
            ("head", other)
        }
        3 => ("form", other_form(field)),
        4 if all.len() > 1 => {
            let mut fewer = all;
            fewer.remove(stay(field) + random.below(fewer.len() - stay(field)));
            ("term left out", with(field, &fewer))
        }
        5..=7 if rule && field.value[0] == CARRY => {
            let mut turned = all;
            let i = 1 + random.below(turned.len() - 1);
            (turned[0].0, turned[i].0) = (turned[i].0, turned[0].0);
            ("carried variable", with(field, &turned))
        }
        5..=7 if rule && field.value[0] == QUOTIENT => {
            let mut over = all;
            over[0].2 = other_number(random, over[0].2, DIVISOR);
            ("divisor", with(field, &over))
        }
        _ if all.len() > stay(field) => alter_term(random, list, field),
        _ => ("c", other_constant(random, field)),
    }
}

fn other_constant(random: &mut Random, field: &Field) -> Field {
    let mut other = field.clone();
    let at = start(field) - 2;
    let c = other_number(random, signed(&field.value, at), VALUE);
    other.value[at..at + 2].copy_from_slice(&fields::number(c));
    other
}

/// A term's variable, op or number changed.
fn alter_term(random: &mut Random, list: &[Field], field: &Field) -> (&'static str, Field) {
    let mut all = groups(field);
    let i = stay(field) + random.below(all.len() - stay(field));
    let (variable, op, number) = all[i];
    let sums = match field.tag {
        2 => [SUM, QUOTIENT].contains(&field.value[0]),
        _ => field.value[0] == AT_MOST_ZERO,
    };
    let name = match random.below(3) {
        0 if op != PLAIN => {
            all[i] = (variable, AT_LEAST + BELOW - op, number);
            "op"
        }
        1 if sums || op != PLAIN => {
            let most = if sums { COEFFICIENT } else { VALUE };
            all[i].2 = other_number(random, number, most);
            "number"
        }
        _ => {
            all[i].0 = random.below(fields::count(list, 1)) as u8;
            "variable of a term"
        }
    };
    (name, with(field, &all))
}

/// Max for min, or a sum for a sum over 1, and the other way round.
fn other_form(field: &Field) -> Field {
    let mut other = field.clone();
    let all = groups(field);
    match (field.tag, field.value[0]) {
        (2, MAX) => other.value[0] = MIN,
        (2, MIN) => other.value[0] = MAX,
        (2, SUM) => {
            other.value[0] = QUOTIENT;
            other = with(&other, &[&[(0, OVER, 1)], &all[..]].concat());
        }
        (2, QUOTIENT) if all[0].2 == 1 => {
            other.value[0] = SUM;
            other = with(&other, &all[1..]);
        }
        _ => {}
    }
    other
}

/// Another plan that is accepted too, and what was changed.
pub fn changed(random: &mut Random, list: &[Field]) -> Option<(&'static str, Vec<Field>)> {
    for _ in 0..8 {
        let first = fields::count(list, 1);
        let (name, other) = match random.below(10) {
            0 | 1 if first > 0 => changed_variable(random, list),
            _ if first < list.len() => {
                let i = first + random.below(list.len() - first);
                changed_body(random, list, &list[i])
            }
            _ => continue,
        };
        let accepted = crate::read(&fields::bytes(&other));
        if !name.is_empty() && matches!(accepted, crate::Reading::Accepted { .. }) {
            return Some((name, other));
        }
    }
    None
}

/// Every field that is this one when ordered is removed or altered, or a new
/// one is added. The name is empty where nothing changes.
fn changed_body(random: &mut Random, list: &[Field], field: &Field) -> (&'static str, Vec<Field>) {
    let mut out = list.to_vec();
    let is_it = |other: &Field| other.tag > 1 && key(other) == key(field);
    if random.percent(25) {
        out.retain(|other| !is_it(other));
        return (if field.tag == 2 { "rule removed" } else { "constraint removed" }, out);
    }
    let (name, other) = alter(random, list, field);
    let there = |other: &Field| list.iter().any(|f| f.tag > 1 && key(f) == key(other));
    if random.percent(25) {
        let at = list.iter().take_while(|f| f.tag <= field.tag).count();
        out.insert(at, other.clone());
        return (if there(&other) { "" } else { "field added" }, out);
    }
    for copy in out.iter_mut().filter(|copy| is_it(copy)) {
        *copy = shuffled(random, &other);
    }
    (if is_it(&other) { "" } else { name }, out)
}

fn changed_variable(random: &mut Random, list: &[Field]) -> (&'static str, Vec<Field>) {
    let mut out = list.to_vec();
    let count = fields::count(list, 1);
    let (one, other) = (random.below(count), random.below(count));
    match random.below(4) {
        0 => {
            out.insert(count, list[one].clone());
            ("variable added", out)
        }
        1 => {
            out.swap(one, other);
            (if list[one].value == list[other].value { "" } else { "variables exchanged" }, out)
        }
        2 => {
            out[one].value[0] = random.below(3) as u8;
            (if out[one].value == list[one].value { "" } else { "kind" }, out)
        }
        _ => {
            let at = random.pick(&[1, 3]);
            let end = signed(&list[one].value, at) + random.pick(&[1, -1]);
            out[one].value[at..at + 2].copy_from_slice(&fields::number(end));
            ("range", out)
        }
    }
}
