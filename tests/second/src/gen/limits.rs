//! Files at and just beyond the limits of the format.

use super::fields::{self, Field, Piece};
use super::kinds;
use super::prng::Random;

pub type Due = Option<(usize, usize)>;

/// A field of any kind that is sound in a file with 256 founded variables.
fn filler(random: &mut Random, tag: u8, terms: usize) -> Field {
    let names = random.distinct(256, terms);
    let sum: Vec<Piece> =
        names.iter().map(|&v| (v as u8, 0, random.pick(&[1, 1_000, -1_000]))).collect();
    let plain: Vec<Piece> = names.iter().map(|&v| (v as u8, 0, 0)).collect();
    let literals: Vec<Piece> = names.iter().map(|&v| (v as u8, 1 + (v % 2) as u8, 1)).collect();
    let head = random.byte();
    match (tag, random.below(4)) {
        (2, 0) => fields::rule(1, head, -30_000, &sum),
        (2, 1) if terms > 0 => fields::rule(2 + random.below(2) as u8, head, -1, &plain),
        (2, 2) if terms > 0 => fields::rule(6, head, 1, &literals),
        (2, 3) if terms > 1 => {
            let mut mixed = literals;
            mixed[0] = plain[0];
            fields::rule(7, head, 0, &mixed)
        }
        (2, _) => fields::rule(1, head, 0, &sum),
        (_, 0) if terms > 0 => fields::constraint(2, 0, &literals),
        _ => fields::constraint(1, -30_000, &sum),
    }
}

/// A rule of form 8 with so many groups, the divisor's among them.
fn divided(random: &mut Random, groups: usize) -> Field {
    let names = random.distinct(256, groups - 1);
    let terms: Vec<Piece> =
        names.iter().map(|&v| (v as u8, 0, random.pick(&[1, 1_000, -1_000]))).collect();
    let divisor = random.pick(&[1, 2, 3, 999, 1_000]);
    fields::quotient(random.byte(), random.pick(&[-30_000, -1, 0, 1]), divisor, &terms)
}

fn variables(random: &mut Random, above: usize, count: usize) -> Vec<Field> {
    (0..count).map(|_| fields::variable(kinds::founded(random, above).number(), 0, 1)).collect()
}

/// Exactly 60,000 bytes of sound fields: 256 variables, r rules and k
/// constraints, and as many groups as are needed to fill the rest.
pub fn brimful(random: &mut Random, above: usize) -> Vec<Field> {
    let mut out = variables(random, above, 256);
    let (rules, constraints) = (4 * (200 + random.below(10)), 2 * (20 + random.below(5)));
    let mut groups = (60_000 - 2_048 - 7 * rules - 6 * constraints) / 4;
    let divides = random.percent(50);
    for i in 0..rules + constraints {
        let left = rules + constraints - i;
        let here = groups.div_ceil(left).min(16);
        groups -= here;
        out.push(match i < rules {
            true if divides && here > 0 && random.percent(30) => divided(random, here),
            true => filler(random, 2, here),
            false => filler(random, 3, here),
        });
    }
    out
}

/// A file at a limit, or one beyond it, with what is due.
pub fn at_limit(random: &mut Random, above: usize) -> (Vec<u8>, usize, Due) {
    let founded = |random: &mut Random, n: usize| variables(random, above, n);
    match random.below(12) {
        0 => (fields::bytes(&brimful(random, above)), 256, None),
        1 => {
            let mut file = fields::bytes(&brimful(random, above));
            file.push(random.byte());
            if random.percent(50) {
                file[0] = 9;
            }
            (file, 256, Some((1, 0)))
        }
        2 => (vec![random.byte(); random.pick(&[60_001, 60_500, 60_900])], 1, Some((1, 0))),
        3 => (fields::bytes(&founded(random, 256)), 256, None),
        4 => {
            // The 257th field may hold anything.
            let mut out = founded(random, 256);
            let value = (0..random.below(8)).map(|_| random.byte()).collect();
            out.push(Field { tag: 1, value });
            (fields::bytes(&out), 256, Some((5, 2_048)))
        }
        5 | 6 => {
            // 2,048 rules and 512 constraints, or one more of either.
            let count = 1 + random.below(3);
            let (more_rules, more_constraints) = random.pick(&[(0, 0), (1, 0), (0, 1), (1, 1)]);
            let mut out = founded(random, count);
            for i in 0..2_048 + more_rules {
                let head = (i % count) as u8;
                out.push(fields::rule(1, head, random.between(-1, 1), &[]));
            }
            for _ in 0..512 + more_constraints {
                out.push(fields::constraint(1, -(random.between(0, 1)), &[]));
            }
            let place = match (more_rules, more_constraints) {
                (0, 0) => None,
                (1, _) => Some((5, fields::place(&out, count + 2_048))),
                _ => Some((5, fields::place(&out, count + 2_048 + 512))),
            };
            (fields::bytes(&out), count, place)
        }
        7 => {
            let mut out = founded(random, 256);
            let tag = 2 + random.below(2) as u8;
            out.push(filler(random, tag, 16));
            (fields::bytes(&out), 256, None)
        }
        8 | 9 => {
            // 16 terms beside a divisor, or one more.
            let mut out = founded(random, 256);
            let more = random.below(2);
            out.push(divided(random, 17 + more));
            (fields::bytes(&out), 256, if more == 0 { None } else { Some((6, 2_048)) })
        }
        10 => {
            // 17 groups that only form 8 of a rule may have.
            let mut out = founded(random, 256);
            let mut field = divided(random, 17);
            if random.percent(50) {
                field.value[0] = random.pick(&[0, 1, 2, 6, 7, 9, 9, 9, 128, 255]);
            } else {
                field.tag = 3;
                field.value.remove(1);
            }
            out.push(field);
            (fields::bytes(&out), 256, Some((6, 2_048)))
        }
        _ => {
            // 17 terms, sound ones too; also for a product and with a wrong op.
            let mut out = founded(random, 256);
            let tag = 2 + random.below(2) as u8;
            let mut field = filler(random, tag, 17);
            if random.percent(50) {
                let last = field.value.len() - 4;
                field.value.truncate(last);
                field.value.extend(fields::pieces(&[(random.byte(), random.byte() % 4, 0)]));
            }
            if random.percent(20) {
                field.value[0] = 4;
            }
            out.push(field);
            (fields::bytes(&out), 256, Some((6, 2_048)))
        }
    }
}
