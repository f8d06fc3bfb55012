//! Faults put into a sound file on purpose, with the refusal that must follow.

use super::fields::{self, Field, Piece};
use super::prng::Random;
use super::programs::divisor;

/// Puts a fault of this number (3, 6 to 12) into field `i`. It brings no
/// refusal of a lower number with it. False when the field cannot have it.
pub fn spoil(random: &mut Random, fields: &mut [Field], i: usize, number: usize) -> bool {
    let tag = fields[i].tag;
    match number {
        3 => {
            fields[i].tag = random.pick(&[0, 4, 5, 9, 128, 255]);
            true
        }
        6 => {
            let start = [5, 4, 3][usize::from(tag - 1)];
            let step = if tag == 1 { 1_000 } else { 4 };
            let most = if tag == 2 && fields[i].value[0] == 8 { 17 } else { 16 };
            let wanted = loop {
                let length = match random.below(3) {
                    0 => random.below(start + 3),
                    1 => start + 4 * random.below(20),
                    _ => random.below(90),
                };
                let fits = length >= start && (length - start) % step == 0 && length <= start + 4 * most;
                if !fits {
                    break length;
                }
            };
            fields[i].value.resize(wanted, random.byte());
            true
        }
        7 => {
            seven(random, &mut fields[i]);
            true
        }
        8 => eight(random, &mut fields[i]),
        9 if tag > 1 => nine(random, fields, i),
        10 if tag > 1 => ten(random, fields, i),
        11 if tag > 1 => eleven(random, fields, i),
        12 if tag == 2 => twelve(random, fields, i),
        _ => false,
    }
}

fn set(value: &mut [u8], at: usize, number: i64) {
    value[at..at + 2].copy_from_slice(&fields::number(number));
}

/// Where the terms start.
fn start(field: &Field) -> usize {
    if field.tag == 2 {
        4
    } else {
        3
    }
}

/// How many groups of four bytes there are.
fn group_count(field: &Field) -> usize {
    (field.value.len() - start(field)) / 4
}

/// A rule of form 8, whose first group is no term.
fn divides(field: &Field) -> bool {
    field.tag == 2 && field.value[0] == 8
}

fn seven(random: &mut Random, field: &mut Field) {
    let tag = field.tag;
    if tag == 1 {
        field.value[0] = random.pick(&[3, 4, 128, 255]);
        return;
    }
    let form = field.value[0];
    let count = group_count(field);
    if count == 0 || count <= 16 && random.percent(30) {
        field.value[0] = match tag {
            // The first group of another form is no divisor.
            2 if count > 0 && form != 8 => random.pick(&[0, 8, 9, 200, 255]),
            2 => random.pick(&[0, 9, 200, 255]),
            _ => random.pick(&[0, 3, 7, 8, 200, 255]),
        };
        return;
    }
    if tag == 3 && form == 2 && random.percent(40) {
        let c = random.pick(&[1, -1, 30_001, -30_001, 32_767, -32_768]);
        set(&mut field.value, 1, c);
        return;
    }
    let position = if random.percent(40) { count - 1 } else { random.below(count) };
    let at = start(field) + 4 * position;
    let plain = field.value[at + 1] == 0;
    if divides(field) && position == 0 {
        if random.percent(50) {
            field.value[at] = random.pick(&[1, 2, 255]);
        } else {
            field.value[at + 1] = random.pick(&[0, 1, 2, 4, 255]);
        }
    } else if plain && form != 1 && form != 8 && random.percent(50) {
        let n = random.pick(&[1, -1, 1_001, 30_001, -30_001, 32_767, -32_768]);
        set(&mut field.value, at + 2, n);
    } else if plain {
        field.value[at + 1] = random.pick(&[1, 2, 3, 255]);
    } else {
        field.value[at + 1] = random.pick(&[0, 3, 4, 255]);
    }
}

fn eight(random: &mut Random, field: &mut Field) -> bool {
    let beyond = random.pick(&[30_001, -30_001, 32_767, -32_768]);
    if field.tag == 1 {
        match random.below(3) {
            0 => set(&mut field.value, 1, beyond),
            1 => set(&mut field.value, 3, beyond),
            _ => {
                let low = random.between(-29_999, 30_000);
                let high = random.pick(&[low - 1, -30_000]);
                set(&mut field.value, 1, low);
                set(&mut field.value, 3, high);
            }
        }
        return true;
    }
    let (form, count) = (field.value[0], group_count(field));
    let must_be_zero = field.tag == 3 && form == 2;
    if count == 0 || !must_be_zero && random.percent(40) {
        if must_be_zero {
            return false;
        }
        let c = start(field) - 2;
        set(&mut field.value, c, beyond);
        return true;
    }
    let at = start(field) + 4 * random.below(count);
    let n = match field.value[at + 1] {
        0 if form == 1 || form == 8 => random.pick(&[0, 1_001, -1_001, 30_001, -32_768]),
        0 => return false,
        3 => random.pick(&[0, -1, 1_001, -1_000, 30_001, -32_768]),
        _ => beyond,
    };
    set(&mut field.value, at + 2, n);
    true
}

fn nine(random: &mut Random, fields: &mut [Field], i: usize) -> bool {
    let all = fields::variables(fields);
    let standard: Vec<u8> = (0..all.len()).filter(|&v| all[v].0 == 0).map(|v| v as u8).collect();
    // The first group of form 8 names no variable.
    let first = usize::from(divides(&fields[i]));
    let count = group_count(&fields[i]).saturating_sub(first);
    let unknown = random.between(all.len() as i64, 256.max(all.len() as i64 + 3)) as usize;
    let unknown = if random.percent(40) { all.len() } else { unknown };
    if fields[i].tag == 2 && (count == 0 || random.percent(50)) {
        if !standard.is_empty() && random.percent(60) {
            fields[i].value[1] = random.pick(&standard);
            return true;
        }
        if unknown < 256 {
            fields[i].value[1] = unknown as u8;
        }
        return unknown < 256;
    }
    if count == 0 || unknown > 255 {
        return false;
    }
    let at = start(&fields[i]) + 4 * (first + random.below(count));
    fields[i].value[at] = unknown as u8;
    true
}

/// A group that passes 7, 8 and 9 at this position of this form.
fn fitting(random: &mut Random, rule: bool, form: u8, position: usize, variables: usize) -> Piece {
    let variable = random.below(variables) as u8;
    let literal = if rule { form == 6 || form == 7 && position > 0 } else { form == 2 };
    if literal {
        (variable, 1 + random.below(2) as u8, random.between(-3, 3))
    } else if rule && form == 8 && position == 0 {
        (0, 3, divisor(random))
    } else if form == 1 || form == 8 {
        (variable, 0, 1)
    } else {
        (variable, 0, 0)
    }
}

fn replace(field: &mut Field, form: u8, terms: &[Piece]) {
    let (tag, head) = (field.tag, field.value[1]);
    *field = match tag {
        2 => fields::rule(form, head, 0, terms),
        _ => fields::constraint(form, 0, terms),
    };
}

fn ten(random: &mut Random, fields: &mut [Field], i: usize) -> bool {
    let rule = fields[i].tag == 2;
    let variables = fields::count(fields, 1);
    let (form, count) = if rule {
        let many = 3 + random.below(14);
        random.pick(&[
            (2, 0),
            (3, 0),
            (4, 0),
            (4, 1),
            (4, many),
            (5, 0),
            (5, 2),
            (5, many),
            (6, 0),
            (7, 0),
            (7, 1),
            (8, 0),
        ])
    } else {
        (2, 0)
    };
    if count > 0 && variables == 0 {
        return false;
    }
    let terms: Vec<Piece> = (0..count).map(|p| fitting(random, rule, form, p, variables)).collect();
    replace(&mut fields[i], form, &terms);
    true
}

fn eleven(random: &mut Random, fields: &mut [Field], i: usize) -> bool {
    let rule = fields[i].tag == 2;
    let variables = fields::count(fields, 1);
    if variables == 0 {
        return false;
    }
    let form = if rule { random.pick(&[1, 2, 3, 4, 6, 7, 8]) } else { random.pick(&[1, 2]) };
    let first = usize::from(form == 8);
    let count = if form == 4 { 2 } else { first + 2 + random.below(15) };
    let mut terms: Vec<Piece> = (0..count).map(|p| fitting(random, rule, form, p, variables)).collect();
    let two = random.distinct(count - first, 2);
    terms[first + two[0]].0 = terms[first + two[1]].0;
    replace(&mut fields[i], form, &terms);
    true
}

fn twelve(random: &mut Random, fields: &mut [Field], i: usize) -> bool {
    let all = fields::variables(fields);
    let below: Vec<usize> = (0..all.len()).filter(|&v| all[v].1 < 0).collect();
    if below.is_empty() || all.len() < 2 {
        return false;
    }
    let first = random.pick(&below);
    let second = (first + 1 + random.below(all.len() - 1)) % all.len();
    let mut terms = [(first as u8, 0, 0), (second as u8, 0, 0)];
    if random.percent(50) {
        terms.swap(0, 1);
    }
    replace(&mut fields[i], 4, &terms);
    true
}

/// Refusal 12 in some rule, where the file has what it needs.
pub fn spoil_product(random: &mut Random, fields: &mut [Field]) -> Option<(usize, usize)> {
    let rules: Vec<usize> = (0..fields.len()).filter(|&i| fields[i].tag == 2).collect();
    if rules.is_empty() {
        return None;
    }
    let i = random.pick(&rules);
    twelve(random, fields, i).then(|| (12, fields::place(fields, i)))
}

/// One to four faults of the numbers 3 and 6 to 12, and the refusal due.
pub fn spoil_some(random: &mut Random, fields: &mut [Field]) -> Option<(usize, usize)> {
    let mut wanted: Vec<(usize, usize)> = Vec::new();
    let together = random.percent(50);
    let first = random.below(fields.len());
    for _ in 0..random.pick(&[1, 1, 2, 2, 3, 4]) {
        let i = if together { first } else { random.below(fields.len()) };
        wanted.push((i, random.pick(&[3, 6, 7, 7, 8, 8, 9, 9, 10, 11, 12, 12])));
    }
    if random.percent(25) {
        // Two neighbouring numbers in one field.
        let number = random.pick(&[7, 7, 8, 9, 10, 11]);
        wanted = vec![(first, number), (first, number + 1)];
    }
    // The last field and the highest number first: what is put in later must
    // not undo what decides.
    wanted.sort();
    wanted.dedup();
    let mut due = None;
    for &(i, number) in wanted.iter().rev() {
        if spoil(random, fields, i, number) {
            due = Some((number, i));
        }
    }
    due.map(|(number, i)| (number, fields::place(fields, i)))
}
