//! Faults that have to do with a divisor, with the refusal that must follow.

use super::fields::{self, Field, Piece};
use super::prng::Random;
use super::programs::divisor;

/// What a rule field is made of.
struct Parts {
    form: u8,
    head: u8,
    c: i64,
    groups: Vec<Piece>,
}

/// Puts a rule of form 8 with a fault into a sound file, or gives another
/// field what only such a rule may have. Nothing where there is no rule.
pub fn spoil(random: &mut Random, fields: &mut Vec<Field>) -> Option<(usize, usize)> {
    let rules: Vec<usize> = (0..fields.len()).filter(|&i| fields[i].tag == 2).collect();
    if rules.is_empty() {
        return None;
    }
    let variables = fields::count(fields, 1);
    let mut groups: Vec<Piece> = vec![(0, 3, divisor(random))];
    let most = 1 + random.below(16);
    for v in random.distinct(variables, most) {
        groups.push((v as u8, 0, random.pick(&[1, 2, -1])));
    }
    if random.percent(15) {
        let (number, groups) = in_constraint(random, groups);
        fields.push(fields::constraint(8, 0, &groups));
        return Some((number, fields::place(fields, fields.len() - 1)));
    }
    let i = random.pick(&rules);
    let mut parts = Parts { form: 8, head: fields[i].value[1], c: 0, groups };
    let number = match random.below(4) {
        0 => in_divisor(random, &mut parts),
        1 => without_group(random, &mut parts, variables),
        2 => in_number_of_groups(random, &mut parts),
        _ => in_terms(random, &mut parts, variables),
    };
    fields[i] = fields::rule(parts.form, parts.head, parts.c, &parts.groups);
    Some((number, fields::place(fields, i)))
}

/// No constraint has form 8.
fn in_constraint(random: &mut Random, mut groups: Vec<Piece>) -> (usize, Vec<Piece>) {
    if random.percent(50) {
        groups.resize(17, (0, 0, 1));
        (6, groups)
    } else {
        groups.truncate(random.below(17));
        (7, groups)
    }
}

/// The first group.
fn in_divisor(random: &mut Random, parts: &mut Parts) -> usize {
    let last = parts.groups.len() - 1;
    let (first, others) = parts.groups.split_at_mut(1);
    let first = &mut first[0];
    match random.below(8) {
        0 => first.2 = 0,
        1 => first.2 = random.pick(&[-1, -2, -1_000, -32_768]),
        2 => first.2 = random.pick(&[1_001, 1_001, 1_002, 32_767]),
        3 => {
            first.0 = random.pick(&[1, 2, parts.head.max(1), 255]);
            return 7;
        }
        4 => {
            first.1 = random.pick(&[0, 1, 2, 4, 255]);
            return 7;
        }
        5 => {
            // 7 over the whole field comes before 8.
            first.2 = random.pick(&[0, -1, 1_001]);
            others[last - 1].1 = random.pick(&[1, 2, 3]);
            return 7;
        }
        6 => {
            first.0 = 1;
            others[last - 1].2 = 0;
            parts.c = random.pick(&[0, 30_001]);
            return 7;
        }
        _ => {
            // 8 comes before 9, 10 and 11.
            first.2 = random.pick(&[0, 1_001]);
            others[last - 1].0 = random.pick(&[0, 255]);
        }
    }
    8
}

fn without_group(random: &mut Random, parts: &mut Parts, variables: usize) -> usize {
    parts.groups.clear();
    match random.below(4) {
        0 => {
            parts.c = random.pick(&[30_001, -30_001]);
            8
        }
        1 if variables < 256 => {
            parts.head = random.between(variables as i64, 255) as u8;
            9
        }
        _ => 10,
    }
}

/// 17 groups are for form 8 alone, 18 for none.
fn in_number_of_groups(random: &mut Random, parts: &mut Parts) -> usize {
    if random.percent(50) {
        parts.groups.resize(18, (0, 0, 1));
    } else {
        parts.groups.resize(17, (0, 0, 1));
        parts.form = random.pick(&[0, 1, 1, 1, 2, 4, 7, 9, 9, 9, 9, 255]);
    }
    6
}

/// The groups after the divisor, and a divisor before another form's terms.
fn in_terms(random: &mut Random, parts: &mut Parts, variables: usize) -> usize {
    let later = 1 + random.below(parts.groups.len() - 1);
    match random.below(8) {
        0 => {
            parts.groups[later].1 = random.pick(&[1, 2, 3, 3, 255]);
            7
        }
        1 => {
            parts.groups[later] = parts.groups[0];
            7
        }
        2 | 3 => {
            parts.form = random.pick(&[1, 1, 1, 1, 2, 3, 4, 5, 6, 7]);
            parts.groups.truncate(16);
            7
        }
        4 if variables < 256 => {
            parts.groups[later].0 = random.between(variables as i64, 255) as u8;
            9
        }
        5 if parts.groups.len() < 17 => {
            parts.groups.push(parts.groups[later]);
            11
        }
        _ => {
            parts.groups[later].2 = random.pick(&[0, 0, 0, 1_001, -1_001]);
            8
        }
    }
}
