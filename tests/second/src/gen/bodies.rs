//! Files in which bodies and their bytes matter, and hardly what they mean: rules
//! and constraints of any form with numbers of any size.

use super::fields::{self, Field, Piece};
use super::kinds;
use super::prng::Random;
use super::programs::heads;
use super::vary::{groups, shuffled, with};
use crate::program::*;

/// What the files of one family have in common.
pub struct Style {
    pub label: &'static str,
    /// One of these counts.
    variables: &'static [usize],
    /// The most rules, constraints and terms.
    rules: usize,
    constraints: usize,
    terms: usize,
    forms: &'static [u8],
    constants: &'static [i64],
    coefficients: &'static [i64],
    numbers: &'static [i64],
}

const ANY: Style = Style {
    label: "lengths",
    variables: &[3, 18, 20],
    rules: 14,
    constraints: 8,
    terms: 16,
    forms: &[1, 2, 3, 4, 5, 6, 7, 8],
    constants: &[-1, 0, 1, 2],
    coefficients: &[-1, 1, 2],
    numbers: &[0, 1, 2],
};

/// Numbers whose bytes, taken for signed ones, are in another order.
const SIZES: &[i64] = &[-30_000, -257, -256, -129, -128, -1, 0, 1, 127, 128, 255, 256, 30_000];
const FACTORS: &[i64] = &[-1_000, -256, -128, -1, 1, 127, 128, 255, 256, 1_000];

pub const STYLES: [Style; 8] = [
    ANY,
    Style { label: "signs", constants: SIZES, coefficients: FACTORS, numbers: SIZES, terms: 3, ..ANY },
    Style { label: "high numbers of variables", variables: &[130, 200, 256], terms: 5, ..ANY },
    Style { label: "carried", forms: &[7], variables: &[3, 5, 17, 20], rules: 10, ..ANY },
    Style { label: "divided", forms: &[8, 8, 8, 1], variables: &[2, 4, 17, 20], rules: 12, ..ANY },
    Style { label: "products", forms: &[4], variables: &[2, 3, 9], rules: 12, ..ANY },
    Style { label: "constraints", rules: 2, constraints: 30, variables: &[2, 3, 9], terms: 4, ..ANY },
    Style { label: "few names", variables: &[2, 3], rules: 40, constraints: 20, ..FEW },
];

const FEW: Style = Style { terms: 3, constants: &[0, 1], coefficients: &[1], numbers: &[1], ..ANY };

/// Variables of low 0 or more, so that any product passes and no size is mixed.
fn variables(random: &mut Random, count: usize) -> Vec<Field> {
    let variable = |v: usize| {
        let kind = kinds::any(random, if v == 0 { 100 } else { 70 }, 40);
        let low = random.between(0, 2);
        let high = low + random.pick(&[0, 1, 3, 300]);
        fields::variable(kind.number(), low, high)
    };
    (0..count).map(variable).collect()
}

fn terms(random: &mut Random, names: &[usize], op: fn(&mut Random) -> u8, from: &[i64]) -> Vec<Piece> {
    names.iter().map(|&v| (v as u8, op(random), random.pick(from))).collect()
}

fn plain(_: &mut Random) -> u8 {
    PLAIN
}

fn literal(random: &mut Random) -> u8 {
    random.pick(&[AT_LEAST, BELOW])
}

/// Different variables in any order, at least and at most so many, if there are.
fn names(random: &mut Random, style: &Style, count: usize, least: usize) -> Vec<usize> {
    let most = style.terms.min(count).max(least);
    let any = random.between(least as i64, most as i64) as usize;
    let wanted = if random.percent(15) { most } else { any };
    random.distinct(count, wanted)
}

fn rule(random: &mut Random, style: &Style, count: usize, heads: &[u8]) -> Field {
    let form = match random.pick(style.forms) {
        PRODUCT | CARRY if count < 2 => SIZE,
        form => form,
    };
    let (head, c) = (random.pick(heads), random.pick(style.constants));
    let least = match form {
        SUM | QUOTIENT => 0,
        CARRY => 2,
        _ => 1,
    };
    let mut names = names(random, style, count, least);
    match form {
        PRODUCT => names = random.distinct(count, 2),
        SIZE => names.truncate(1),
        _ => {}
    }
    let pieces = match form {
        SUM | QUOTIENT => terms(random, &names, plain, style.coefficients),
        IF => terms(random, &names, literal, style.numbers),
        CARRY => {
            let literals = terms(random, &names[1..], literal, style.numbers);
            [vec![(names[0] as u8, PLAIN, 0)], literals].concat()
        }
        _ => terms(random, &names, plain, &[0]),
    };
    if form == QUOTIENT {
        let divisor = random.pick(&[1, 2, 3, 127, 128, 255, 256, 257, 1_000]);
        return fields::quotient(head, c, divisor, &pieces);
    }
    fields::rule(form, head, c, &pieces)
}

fn constraint(random: &mut Random, style: &Style, count: usize) -> Field {
    if random.percent(50) {
        let names = names(random, style, count, 0);
        let c = random.pick(style.constants);
        return fields::constraint(1, c, &terms(random, &names, plain, style.coefficients));
    }
    let names = names(random, style, count, 1);
    fields::constraint(2, 0, &terms(random, &names, literal, style.numbers))
}

/// A file of this style.
pub fn of_style(random: &mut Random, style: &Style) -> Vec<Field> {
    let count = random.pick(style.variables);
    let mut out = variables(random, count);
    let heads = heads(&out);
    for _ in 0..random.below(style.rules + 1) {
        let made = rule(random, style, count, &heads);
        out.push(made);
    }
    for _ in 0..random.below(style.constraints + 1) {
        let made = constraint(random, style, count);
        out.push(made);
    }
    out
}

/// Rules or constraints that agree in all bytes but a few late ones.
pub fn late(random: &mut Random) -> Vec<Field> {
    let style = Style { variables: &[20, 60, 256], ..ANY };
    let count = random.pick(style.variables);
    let mut out = variables(random, count);
    let heads = heads(&out);
    let model = match random.percent(70) {
        true => rule(random, &style, count, &heads),
        false => constraint(random, &style, count),
    };
    for _ in 0..2 + random.below(10) {
        out.push(late_twin(random, &model, count));
    }
    out
}

/// The model with another number at its last variable, or another last variable.
fn late_twin(random: &mut Random, model: &Field, count: usize) -> Field {
    let mut all = groups(model);
    let first = usize::from(model.tag == 2 && [CARRY, QUOTIENT].contains(&model.value[0]));
    let Some(last) = (first..all.len()).max_by_key(|&i| all[i].0) else { return model.clone() };
    if all[last].2 != 0 {
        all[last].2 += random.pick(&[0, 1, 2, 2, 255, 256, -300]);
        all[last].2 = if all[last].2 == 0 { 1 } else { all[last].2.clamp(-1_000, 1_000) };
    } else if random.percent(80) {
        let used: Vec<u8> = all.iter().map(|piece| piece.0).collect();
        let lowest = usize::from(all[last].0);
        let other = (lowest + random.below(count - lowest)) as u8;
        all[last].0 = if used.contains(&other) { all[last].0 } else { other };
    }
    shuffled(random, &with(model, &all))
}

/// As many rules and constraints as there may be: all one, all different, or
/// few different ones.
pub fn full(random: &mut Random) -> Vec<Field> {
    let style = Style { terms: 2, coefficients: &[1, 2], ..FEW };
    let mut out = variables(random, 3);
    let heads = heads(&out);
    let model = rule(random, &style, 3, &heads);
    let manner = random.pick(&[0, 1, 1, 2]);
    for i in 0..RULES {
        let mut made = match manner {
            0 => shuffled(random, &model),
            1 => model.clone(),
            _ => rule(random, &style, 3, &heads),
        };
        if manner == 1 {
            made.value[2..4].copy_from_slice(&fields::number(i as i64 - 1_024));
        }
        out.push(made);
    }
    for i in 0..CONSTRAINTS {
        let c = if manner == 1 { i as i64 - 256 } else { -1 };
        out.push(fields::constraint(1, c, &[(0, PLAIN, -1), (1, PLAIN, -1)]));
    }
    out
}
