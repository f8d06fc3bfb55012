//! The programs compared: samples of the papers, and seeded small ones.

use crate::families;
use second::gen::fields::{self, Field, Piece};
use second::gen::prng::Random;
use second::gen::programs::{self, Shape};

/// More variables and longer bodies than `gen::small`, shorter ranges.
const WIDE: Shape = Shape { variables: 6, span: 2, rules: 9, constraints: 2, terms: 4, above: 0 };

/// Name and file of the program of this seed. Every third thirty have no
/// variable founded from above, but for those that `gen::small` makes.
pub fn seeded(seed: u64) -> (String, Vec<u8>) {
    let random = &mut Random::new(seed ^ 0x0A5B_0000_0000_0000);
    let above = [0, 50, 75, 0, 50, 60][(seed / 30 % 6) as usize];
    let (label, file) = match seed % 5 {
        _ if seed % 6 == 5 => ("near idle", fields::bytes(&families::near_idle(random, above))),
        0 | 1 => ("small", second::gen::small(seed)),
        2 | 4 if above > 0 && random.percent(60) => {
            ("slack", fields::bytes(&second::gen::slack::slack(random, 4).0))
        }
        2 => ("wide", fields::bytes(&programs::program(random, Shape { above, ..WIDE }).0)),
        3 => ("circle", fields::bytes(&families::circle(random, above))),
        _ => ("layers", fields::bytes(&families::layers(random, above))),
    };
    (format!("seed {seed}, {label}"), file)
}

/// Programs of the papers and of document 01. Where the ranges are too long
/// to go through every assignment they are shorter here.
pub fn samples() -> Vec<(String, Vec<u8>)> {
    let founded = |low, high| fields::variable(1, low, high);
    let standard = |low, high| fields::variable(0, low, high);
    let sum = |head, c, terms: &[Piece]| fields::rule(1, head, c, terms);
    let when = |head, c, terms: &[Piece]| fields::rule(6, head, c, terms);
    let list: Vec<(&str, Vec<Field>)> = vec![
        ("the empty file", vec![]),
        (
            "two gates and a guard",
            vec![
                standard(0, 1),
                founded(0, 1),
                founded(0, 1),
                when(1, 1, &[(0, 1, 1)]),
                when(1, 1, &[(2, 1, 1)]),
                when(2, 1, &[(1, 1, 1)]),
            ],
        ),
        (
            "000 example 1, 2x >= y",
            vec![
                founded(0, 10),
                founded(0, 10),
                sum(1, 4, &[(0, 0, 1)]),
                fields::quotient(0, 0, 2, &[(1, 0, 1)]),
            ],
        ),
        (
            "a third of a sum of three",
            vec![
                standard(0, 3),
                standard(0, 3),
                standard(0, 3),
                founded(0, 4),
                fields::quotient(3, 0, 3, &[(0, 0, 1), (1, 0, 1), (2, 0, 1)]),
            ],
        ),
        (
            "-7 over 2, -8 over 2, 7 over 2",
            vec![
                founded(-5, 5),
                founded(-5, 5),
                founded(-5, 5),
                fields::quotient(0, -7, 2, &[]),
                fields::quotient(1, -8, 2, &[]),
                fields::quotient(2, 7, 2, &[]),
            ],
        ),
        (
            "000 example 2",
            vec![
                founded(-10, 10),
                founded(-10, 10),
                founded(-10, 10),
                sum(0, 7, &[(1, 0, 1), (2, 0, -1)]),
                sum(2, 5, &[]),
            ],
        ),
        (
            "003 example 1",
            vec![
                standard(0, 12),
                founded(0, 20),
                founded(0, 10),
                founded(0, 1),
                founded(0, 1),
                sum(1, 0, &[(2, 0, 1), (0, 0, 1)]),
                when(2, 8, &[(3, 1, 1)]),
                when(3, 1, &[(4, 2, 1), (1, 1, 5)]),
            ],
        ),
        (
            "003 example 4",
            vec![
                founded(0, 10),
                founded(0, 10),
                founded(0, 10),
                fields::rule(2, 0, -2, &[(1, 0, 0), (2, 0, 0)]),
                sum(1, 1, &[(0, 0, 1)]),
                sum(2, 2, &[(0, 0, 1)]),
                sum(0, 3, &[]),
            ],
        ),
        ("a >= 1 if a < 1", vec![founded(0, 1), when(0, 1, &[(0, 2, 1)])]),
        ("2a >= 5 - a", vec![founded(0, 5), fields::quotient(0, 5, 2, &[(0, 0, -1)])]),
        (
            "a >= b + 1, b >= a",
            vec![founded(0, 5), founded(0, 5), sum(0, 1, &[(1, 0, 1)]), sum(1, 0, &[(0, 0, 1)])],
        ),
        (
            "row 13 with b >= 2a - 30",
            vec![
                founded(0, 10),
                founded(-10, 10),
                fields::rule(5, 0, 0, &[(1, 0, 0)]),
                sum(1, -30, &[(0, 0, 2)]),
                when(1, 3, &[(0, 2, 5)]),
            ],
        ),
        ("a >= |a| - 10", vec![founded(-5, 5), fields::rule(5, 0, -10, &[(0, 0, 0)]), sum(0, -3, &[])]),
        (
            "9 from a variable ending at 4",
            vec![
                founded(0, 2),
                founded(-2, 2),
                standard(0, 4),
                fields::rule(5, 0, 0, &[(1, 0, 0)]),
                when(1, 2, &[(0, 1, 1), (2, 1, 9)]),
                when(1, 1, &[(2, 1, 3)]),
            ],
        ),
        (
            "row 13 with b in 0..10",
            vec![
                founded(-10, 10),
                founded(0, 10),
                fields::rule(5, 0, 0, &[(1, 0, 0)]),
                sum(1, -6, &[(0, 0, 2)]),
            ],
        ),
    ];
    let all = list.into_iter().chain(samples_above());
    all.map(|(name, list)| (name.to_string(), fields::bytes(&list))).collect()
}

/// Programs with variables founded from above.
fn samples_above() -> Vec<(&'static str, Vec<Field>)> {
    let founded = |low, high| fields::variable(1, low, high);
    let above = |low, high| fields::variable(2, low, high);
    let standard = |low, high| fields::variable(0, low, high);
    let sum = |head, c, terms: &[Piece]| fields::rule(1, head, c, terms);
    let when = |head, c, terms: &[Piece]| fields::rule(6, head, c, terms);
    let size = |head, c, x| fields::rule(5, head, c, &[(x, 0, 0)]);
    vec![
        (
            "000 example 4, the shortest paths between 1, 3 and 4",
            vec![
                above(0, 12),
                above(0, 12),
                above(0, 12),
                sum(0, 5, &[]),
                sum(1, 6, &[]),
                sum(2, 6, &[(0, 0, 1)]),
                sum(2, 5, &[(1, 0, 1)]),
                sum(0, 6, &[(2, 0, 1)]),
                sum(1, 5, &[(2, 0, 1)]),
            ],
        ),
        (
            "a departure and three stations, two of them in a circle",
            vec![
                standard(-1, 2),
                above(0, 8),
                above(0, 8),
                above(0, 8),
                sum(1, 0, &[(0, 0, 1)]),
                sum(2, 2, &[(1, 0, 1)]),
                sum(3, 1, &[(2, 0, 1)]),
                sum(2, 0, &[(3, 0, 1)]),
            ],
        ),
        (
            "a >= 6 - b, b <= 6 - a, a >= 2 if s",
            vec![
                standard(0, 1),
                founded(0, 6),
                above(0, 6),
                sum(1, 6, &[(2, 0, -1)]),
                sum(2, 6, &[(1, 0, -1)]),
                when(1, 2, &[(0, 1, 1)]),
            ],
        ),
        (
            "a >= 1 if b < 1, b <= 0 if a >= 1",
            vec![founded(0, 1), above(0, 1), when(0, 1, &[(1, 2, 1)]), when(1, 0, &[(0, 1, 1)])],
        ),
        ("a <= 0 if a >= 1", vec![above(0, 1), when(0, 0, &[(0, 1, 1)])]),
        (
            "a >= b, b <= a",
            vec![founded(0, 3), above(0, 3), sum(0, 0, &[(1, 0, 1)]), sum(1, 0, &[(0, 0, 1)])],
        ),
        (
            "000 example 2 turned over",
            vec![
                above(-10, 10),
                above(-10, 10),
                above(-10, 10),
                sum(0, -7, &[(1, 0, 1), (2, 0, -1)]),
                sum(2, -5, &[]),
            ],
        ),
        (
            "003 example 4 turned over",
            vec![
                above(-8, 0),
                above(-8, 0),
                above(-8, 0),
                fields::rule(3, 0, 2, &[(1, 0, 0), (2, 0, 0)]),
                sum(1, -1, &[(0, 0, 1)]),
                sum(2, -2, &[(0, 0, 1)]),
                sum(0, -3, &[]),
            ],
        ),
        (
            "-7 over 2, -8 over 2, 7 over 2, at most",
            vec![
                above(-5, 5),
                above(-5, 5),
                above(-5, 5),
                fields::quotient(0, -7, 2, &[]),
                fields::quotient(1, -8, 2, &[]),
                fields::quotient(2, 7, 2, &[]),
            ],
        ),
        (
            "9 from a variable ending at 4, at most",
            vec![
                above(-2, 2),
                above(-2, 2),
                standard(0, 4),
                size(0, -1, 1),
                when(1, -1, &[(0, 2, 1), (2, 1, 9)]),
                when(1, 1, &[(2, 1, 3)]),
            ],
        ),
        ("a <= |a| + 5", vec![above(-5, 5), size(0, 5, 0), sum(0, 3, &[])]),
        (
            "a <= |b|, b <= 2a + 30",
            vec![
                above(-10, 10),
                above(-10, 10),
                size(0, 0, 1),
                sum(1, 30, &[(0, 0, 2)]),
                when(1, -3, &[(0, 1, -5)]),
            ],
        ),
    ]
}
