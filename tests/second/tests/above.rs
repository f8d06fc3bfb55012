//! Samples of kind 2, worked out by hand from documents 01 and 02.

mod common;

use common::{hexadecimal, refused, says};
use second::gen::fields::{assignment, bytes, constraint, quotient, rule, variable, Field, Piece};
use second::{check, least, print, read, Reading, Solved, Verdict};

fn below(low: i64, high: i64) -> Field {
    variable(1, low, high)
}

fn above(low: i64, high: i64) -> Field {
    variable(2, low, high)
}

#[test]
fn kinds() {
    let one = hexadecimal("01 00 05 02 00 00 00 01");
    assert_eq!(read(&one), Reading::Accepted { variables: 1, rules: 0, constraints: 0 });
    for kind in 3..=255 {
        let mut other = one.clone();
        other[3] = kind;
        assert_eq!(refused(&other), (7, 0));
    }
    // A head of kind 2 is founded; a standard one is not.
    assert_eq!(refused(&bytes(&[above(0, 1), rule(1, 0, 0, &[])])), (0, 0));
    assert_eq!(refused(&bytes(&[variable(0, 0, 1), above(0, 1), rule(1, 0, 0, &[])])), (9, 16));
    // 8 for low above high, 12 for a low below 0.
    assert_eq!(refused(&bytes(&[above(1, 0)])), (8, 0));
    assert_eq!(refused(&bytes(&[variable(3, 1, 0)])), (7, 0));
    let product = |low| {
        let rules = [rule(4, 0, 0, &[(0, 0, 0), (1, 0, 0)])];
        bytes(&[vec![above(0, 9), above(low, 9)], rules.to_vec()].concat())
    };
    assert_eq!(refused(&product(0)), (0, 0));
    assert_eq!(refused(&product(-1)), (12, 16));
    // Without a rule it stays at its high.
    assert_eq!(says(&[above(-4, 7)], &[7]), "stable\n");
    assert_eq!(says(&[above(-4, 7)], &[6]), "unfounded 1 0\nleast 0 7\n");
    assert_eq!(says(&[above(-4, 7)], &[8]), "range 0\n");
    assert_eq!(says(&[above(-4, 7)], &[-5]), "range 0\n");
}

/// A departure, and stations A, B and C: A <= departure, B <= A + 4,
/// C <= B + 3, B <= C + 1, C <= A + 9.
const STATIONS: &str = "01 00 05 00 00 00 00 09 01 00 05 02 00 00 00 14 \
    01 00 05 02 00 00 00 14 01 00 05 02 00 00 00 14 \
    02 00 08 01 01 00 00 00 00 00 01 02 00 08 01 02 00 04 01 00 00 01 \
    02 00 08 01 03 00 03 02 00 00 01 02 00 08 01 02 00 01 03 00 00 01 \
    02 00 08 01 03 00 09 01 00 00 01";

fn prints(file: &[u8], values: &[i64]) -> String {
    let mut input = vec![0, file.len() as u8];
    input.extend(file);
    input.extend(assignment(values));
    String::from_utf8(print(&input)).unwrap()
}

#[test]
fn arrival() {
    let file = hexadecimal(STATIONS);
    assert_eq!(file.len(), 0x57);
    // From 2: A at 2, B at 6, C at 9.
    assert_eq!(prints(&file, &[2, 2, 6, 9]), "stable\n");
    assert_eq!(prints(&file, &[2, 3, 6, 9]), "rule 0\n");
    assert_eq!(prints(&file, &[2, 2, 7, 9]), "rule 1\n");
    assert_eq!(prints(&file, &[2, 2, 6, 10]), "rule 2\n");
    // B and C each before the other: every rule is met.
    assert_eq!(prints(&file, &[2, 2, 5, 4]), "unfounded 2 1\nleast 2 6\nleast 3 9\nwhen 1 >= 2\n");
    let shown = "unfounded 3 1\nleast 1 2\nleast 2 6\nleast 3 9\nwhen 0 >= 2\n";
    assert_eq!(prints(&file, &[2, 1, 1, 1]), shown);
    let mut report = [0xA5; 49];
    let verdict = check(&file, &hexadecimal("00 02 00 02 00 05 00 04"), &mut report);
    assert_eq!(verdict, Verdict::Unfounded(2, 1));
    assert_eq!(report[..12], hexadecimal("02 03 00 06 03 03 00 09 01 02 00 02"));
    assert_eq!(report[12..], [0xA5; 37]);
    let mut model = [0xA5; 9];
    let solved = least(&file, &hexadecimal("00 02 00 01 00 01 00 01"), &mut model);
    assert_eq!(solved, Solved::Found);
    assert_eq!(model[..], hexadecimal("00 02 00 02 00 06 00 09 a5"));
}

#[test]
fn past_the_far_end() {
    // A departure before 0 asks A to be below its low.
    let file = |low| [variable(0, low, 9), above(0, 20), rule(1, 1, 0, &[(0, 0, 1)])];
    let mut model = [7; 4];
    assert_eq!(least(&bytes(&file(-1)), &assignment(&[-1, 5]), &mut model), Solved::None);
    assert_eq!(model, [7; 4]);
    assert_eq!(says(&file(-1), &[-1, 0]), "rule 0\n");
    assert_eq!(says(&file(-1), &[0, 0]), "stable\n");
    // a <= b - 1, b <= a.
    let rules = [rule(1, 0, -1, &[(1, 0, 1)]), rule(1, 1, 0, &[(0, 0, 1)])];
    let turn = [vec![above(0, 5); 2], rules.to_vec()].concat();
    assert_eq!(says(&turn, &[0, 0]), "rule 0\n");
    assert_eq!(least(&bytes(&turn), &assignment(&[0, 0]), &mut model), Solved::None);
    assert_eq!(model, [7; 4]);
    // More than the high asks for nothing.
    let far = [above(0, 5), rule(1, 0, 9, &[])];
    assert_eq!(says(&far, &[5]), "stable\n");
    assert_eq!(least(&bytes(&far), &assignment(&[0]), &mut model), Solved::Found);
    assert_eq!(model, [0, 5, 7, 7]);
}

#[test]
fn the_smallest_counts() {
    let two = [above(0, 9), rule(1, 0, 5, &[]), rule(1, 0, 3, &[])];
    assert_eq!(says(&two, &[5]), "rule 1\n");
    assert_eq!(says(&two, &[6]), "rule 0\n");
    assert_eq!(says(&two, &[3]), "stable\n");
    assert_eq!(says(&two, &[2]), "unfounded 1 0\nleast 0 3\n");
}

#[test]
fn both_kinds_in_one_circle() {
    // s standard, a of kind 1, b of kind 2: a >= 10 - b, b <= 10 - a, a >= 4 if s >= 1.
    let circle = [
        variable(0, 0, 1),
        below(0, 10),
        above(0, 10),
        rule(1, 1, 10, &[(2, 0, -1)]),
        rule(1, 2, 10, &[(1, 0, -1)]),
        rule(6, 1, 4, &[(0, 1, 1)]),
    ];
    assert_eq!(says(&circle, &[0, 0, 10]), "stable\n");
    assert_eq!(says(&circle, &[0, 5, 5]), "unfounded 2 1\nmost 1 0\nleast 2 10\nwhen 0 <= 0\n");
    assert_eq!(says(&circle, &[1, 4, 6]), "stable\n");
    assert_eq!(says(&circle, &[1, 7, 3]), "unfounded 2 1\nmost 1 4\nleast 2 6\nwhen 0 <= 1\n");
    assert_eq!(says(&circle, &[1, 4, 5]), "rule 0\n");
    assert_eq!(says(&circle, &[0, 3, 8]), "rule 1\n");
    // Through literals: a >= 1 if b < 1, b <= 0 if a >= 1.
    let doors = [below(0, 1), above(0, 1), rule(6, 0, 1, &[(1, 2, 1)]), rule(6, 1, 0, &[(0, 1, 1)])];
    assert_eq!(says(&doors, &[0, 1]), "stable\n");
    assert_eq!(says(&doors, &[1, 0]), "unfounded 2 0\nmost 0 0\nleast 1 1\n");
    assert_eq!(says(&doors, &[1, 1]), "rule 1\n");
    assert_eq!(says(&doors, &[0, 0]), "rule 0\n");
    // Marks by ascending variable, not by kind.
    let row = [above(0, 2), below(0, 2), above(0, 2), below(0, 2)];
    let shown = "unfounded 4 0\nleast 0 2\nmost 1 0\nleast 2 2\nmost 3 0\n";
    assert_eq!(says(&row, &[1, 1, 1, 1]), shown);
    let mut report = [0xA5; 48];
    let verdict = check(&bytes(&row), &assignment(&[1, 1, 1, 1]), &mut report);
    assert_eq!(verdict, Verdict::Unfounded(4, 0));
    assert_eq!(report[..16], hexadecimal("00 03 00 02 01 00 00 00 02 03 00 02 03 00 00 00"));
}

#[test]
fn not_kept() {
    // a of kind 1, b of kind 2: a >= b, b <= 3. b rises in the first rule.
    let fields = [below(0, 5), above(0, 5), rule(1, 0, 0, &[(1, 0, 1)]), rule(1, 1, 3, &[])];
    assert_eq!(says(&fields, &[3, 3]), "stable\n");
    assert_eq!(says(&fields, &[4, 3]), "unfounded 1 1\nmost 0 3\nwhen 1 <= 3\n");
    assert_eq!(says(&fields, &[2, 2]), "unfounded 1 0\nleast 1 3\n");
    // b is in the set, and a condition too: it is not kept there.
    assert_eq!(says(&fields, &[3, 2]), "unfounded 2 1\nmost 0 2\nleast 1 3\nwhen 1 <= 2\n");
    // b <= a: a falls in the rule for b and is read as assigned.
    let falls = [below(0, 5), above(0, 5), rule(1, 0, 2, &[]), rule(1, 1, 0, &[(0, 0, 1)])];
    assert_eq!(says(&falls, &[2, 2]), "stable\n");
    assert_eq!(says(&falls, &[3, 2]), "unfounded 2 1\nmost 0 2\nleast 1 3\nwhen 0 >= 3\n");
    // A head in its own body: a <= 6 - a rises and is not kept, a <= a is kept.
    let own = |c, number| [above(0, 5), rule(1, 0, c, &[(0, 0, number)])];
    assert_eq!(says(&own(6, -1), &[3]), "stable\n");
    assert_eq!(says(&own(6, -1), &[2]), "unfounded 1 1\nleast 0 4\nwhen 0 <= 2\n");
    assert_eq!(says(&own(6, -1), &[4]), "rule 0\n");
    assert_eq!(says(&own(0, 1), &[5]), "stable\n");
    assert_eq!(says(&own(0, 1), &[2]), "unfounded 1 0\nleast 0 5\n");
}

#[test]
fn mirrored_plans() {
    // The printed sample: a gate is covered at 0.
    let input = hexadecimal(
        "00 39 01 00 05 00 00 00 00 01 01 00 05 02 00 00 00 01 01 00 05 02 00 00 00 01 \
         02 00 08 06 01 00 00 00 01 00 01 02 00 08 06 01 00 00 02 02 00 01 \
         02 00 08 06 02 00 00 01 02 00 01 00 00 00 00 00 00",
    );
    assert_eq!(print(&input), b"unfounded 2 1\nleast 1 1\nleast 2 1\nwhen 0 <= 0\n");
    let mut guarded = input.clone();
    let at = guarded.len() - 5;
    guarded[at] = 1;
    assert_eq!(print(&guarded), b"stable\n");
    // 000 example 2: a <= b - c - 7, c <= -5.
    let rules = vec![rule(1, 0, -7, &[(1, 0, 1), (2, 0, -1)]), rule(1, 2, -5, &[])];
    let two = [vec![above(-10, 10); 3], rules].concat();
    assert_eq!(says(&two, &[8, 10, -5]), "stable\n");
    assert_eq!(says(&two, &[7, 10, -5]), "unfounded 1 2\nleast 0 8\nwhen 1 >= 10\nwhen 2 <= -5\n");
    // 003 example 1: s, a, b, x, y; a <= b - s, b <= -8 if x < 0,
    // x <= -1 if y >= 0 and a < -4.
    let one = [
        variable(0, 0, 100),
        above(-100, 0),
        above(-100, 0),
        above(-1, 0),
        above(-1, 0),
        rule(1, 1, 0, &[(2, 0, 1), (0, 0, -1)]),
        rule(6, 2, -8, &[(3, 2, 0)]),
        rule(6, 3, -1, &[(4, 1, 0), (1, 2, -4)]),
    ];
    assert_eq!(says(&one, &[9, -17, -8, -1, 0]), "stable\n");
    let shown = "unfounded 3 2\nleast 1 -3\nleast 2 0\nleast 3 0\nwhen 0 <= 3\nwhen 4 <= 0\n";
    assert_eq!(says(&one, &[3, -17, -8, -1, 0]), shown);
    // 003 example 4: a <= 2 + min(b, c), b <= a - 1, c <= a - 2, a <= -3.
    let rules = vec![
        rule(3, 0, 2, &[(1, 0, 0), (2, 0, 0)]),
        rule(1, 1, -1, &[(0, 0, 1)]),
        rule(1, 2, -2, &[(0, 0, 1)]),
        rule(1, 0, -3, &[]),
    ];
    let four = [vec![above(-10, 0); 3], rules].concat();
    assert_eq!(says(&four, &[-3, -4, -5]), "stable\n");
    assert_eq!(says(&four, &[-4, -5, -6]), "unfounded 3 0\nleast 0 -3\nleast 1 -4\nleast 2 -5\n");
    // a <= 0 if a >= 1.
    let own = [above(0, 1), rule(6, 0, 0, &[(0, 1, 1)])];
    assert_eq!(says(&own, &[1]), "rule 0\n");
    assert_eq!(says(&own, &[0]), "unfounded 1 1\nleast 0 1\nwhen 0 <= 0\n");
}

#[test]
fn quotients_round_up() {
    let alone = |c, divisor| [above(-30_000, 30_000), quotient(0, c, divisor, &[])];
    for (c, divisor, given) in [
        (-7, 2, -3),
        (7, 2, 4),
        (-8, 2, -4),
        (-1, 1_000, 0),
        (-999, 1_000, 0),
        (-1_001, 1_000, -1),
        (1, 1_000, 1),
        (-30_000, 7, -4_285),
        (30_000, 7, 4_286),
    ] {
        let over = alone(c, divisor);
        assert_eq!(says(&over, &[given + 1]), "rule 0\n");
        assert_eq!(says(&over, &[given]), "stable\n");
        assert_eq!(says(&over, &[given - 1]), format!("unfounded 1 0\nleast 0 {given}\n"));
    }
    // t <= (2a - 3s - 7) over 3, a of kind 2 and s standard: at 1 and 2, -11 over 3 is -3.
    let terms = [(1, 0, 2), (2, 0, -3)];
    let third = [above(-9, 9), above(0, 4), variable(0, 0, 4), quotient(0, -7, 3, &terms)];
    let with = |c| [third.to_vec(), vec![rule(1, 1, c, &[])]].concat();
    assert_eq!(says(&with(1), &[-3, 1, 2]), "stable\n");
    assert_eq!(says(&with(1), &[-2, 1, 2]), "rule 0\n");
    assert_eq!(says(&with(1), &[-4, 1, 2]), "unfounded 1 2\nleast 0 -3\nwhen 1 >= 1\nwhen 2 <= 2\n");
    // a pushed too low, and t with it: -13 over 3 is -4, -11 over 3 is -3.
    assert_eq!(says(&with(1), &[-4, 0, 2]), "unfounded 2 1\nleast 0 -3\nleast 1 1\nwhen 2 <= 2\n");
}

#[test]
fn each_form_and_its_conditions() {
    // A head of kind 2 and standard variables: plain terms swap, literals do not.
    let three = [above(-99, 99), variable(0, 1, 4), variable(0, -4, -1), variable(0, -4, 4)];
    let shows = |made: Field, given: i64| {
        let file = [three.to_vec(), vec![made]].concat();
        let said = says(&file, &[-50, 2, -3, 3]);
        let lines: Vec<&str> = said.lines().collect();
        assert_eq!(lines[1], format!("least 0 {given}"));
        lines[2..].join(", ")
    };
    assert_eq!(shows(rule(1, 0, 0, &[(1, 0, 2), (2, 0, -1)]), 7), "when 1 >= 2, when 2 <= -3");
    assert_eq!(shows(rule(2, 0, 0, &[(1, 0, 0), (3, 0, 0)]), 3), "when 1 >= 2, when 3 >= 3");
    assert_eq!(shows(rule(3, 0, 0, &[(1, 0, 0), (2, 0, 0)]), -3), "when 1 >= 2, when 2 >= -3");
    assert_eq!(shows(rule(5, 0, 0, &[(1, 0, 0)]), 2), "when 1 >= 2");
    assert_eq!(shows(rule(5, 0, 0, &[(2, 0, 0)]), 3), "when 2 <= -3");
    assert_eq!(shows(rule(5, 0, 0, &[(3, 0, 0)]), 3), "when 3 <= 3, when 3 >= 3");
    assert_eq!(shows(rule(6, 0, 5, &[(1, 1, 2), (3, 2, 4)]), 5), "when 1 <= 2, when 3 >= 3");
    assert_eq!(shows(rule(6, 0, 5, &[(1, 2, 2)]), 99), "when 1 >= 2");
    let carry = [(3, 0, 0), (1, 1, 2), (2, 2, 0)];
    assert_eq!(shows(rule(7, 0, 5, &carry), 8), "when 1 <= 2, when 2 >= -3, when 3 >= 3");
    let share = [(1, 0, 3), (3, 0, -2)];
    assert_eq!(shows(quotient(0, -1, 4, &share), 0), "when 1 >= 2, when 3 <= 3");
    let product =
        [above(-99, 99), variable(0, 1, 4), above(0, 4), rule(4, 0, 1, &[(1, 0, 0), (2, 0, 0)])];
    assert_eq!(says(&product, &[3, 2, 4]), "unfounded 1 2\nleast 0 9\nwhen 1 >= 2\nwhen 2 >= 4\n");
    assert_eq!(says(&product, &[3, 2, 1]), "unfounded 2 1\nleast 0 9\nleast 2 4\nwhen 1 >= 2\n");
    // A constraint is as it was.
    let no = constraint(1, 0, &[(0, 0, 1)]);
    assert_eq!(says(&[above(0, 9), no], &[9]), "constraint 0\n");
}

#[test]
fn a_mixed_size_gives_least_at_zero() {
    // a <= |a| + c, a in -5..5.
    let own = |c| [above(-5, 5), rule(5, 0, c, &[(0, 0, 0)])];
    assert_eq!(refused(&bytes(&own(4))), (13, 8));
    assert_eq!(refused(&bytes(&own(5))), (0, 0));
    assert_eq!(refused(&bytes(&own(6))), (0, 0));
    assert_eq!(refused(&bytes(&own(-30_000))), (13, 8));
    assert_eq!(says(&own(5), &[5]), "stable\n");
    assert_eq!(says(&own(5), &[0]), "unfounded 1 2\nleast 0 5\nwhen 0 <= 0\nwhen 0 >= 0\n");
    let mut report = [0xA5; 12];
    let verdict = check(&bytes(&own(5)), &hexadecimal("ff fb"), &mut report);
    assert_eq!(verdict, Verdict::Unfounded(1, 2));
    assert_eq!(report[..], hexadecimal("00 03 00 05 00 01 ff fb 00 02 ff fb"));
}

#[test]
fn a_size_that_is_not_mixed_gives_least_at_an_end() {
    // b by |m|, m <= t, t <= |b| + c: b is kept in the last, of kind 2 from 0 on
    // and of kind 1 up to 0. The least size of b decides whether t can move.
    for (kind, low, high, size) in [(2, 2, 5, 2), (2, 0, 5, 0), (1, -5, -2, 2), (1, -5, 0, 0)] {
        let file = |c| {
            let variables = [variable(kind, low, high), above(-1, 1), above(-9, 9)];
            let by_m = rule(5, 0, if kind == 2 { 0 } else { -5 }, &[(1, 0, 0)]);
            let rules = [by_m, rule(1, 1, 0, &[(2, 0, 1)]), rule(5, 2, c, &[(0, 0, 0)])];
            bytes(&[variables.to_vec(), rules.to_vec()].concat())
        };
        assert_eq!(refused(&file(9 - size)), (0, 0), "{low}..{high}");
        assert_eq!(refused(&file(8 - size)), (13, 24), "{low}..{high}");
    }
}

#[test]
fn validity_over_kinds() {
    // a of kind 1 and b of kind 2, one of them mixed in a rule for the other.
    let with = |size: Field, link: Field| refused(&bytes(&[below(-3, 3), above(-3, 3), size, link]));
    let a_size = rule(5, 0, 0, &[(1, 0, 0)]);
    for (number, due) in [(-1, (13, 16)), (1, (0, 0))] {
        assert_eq!(with(a_size.clone(), rule(1, 1, 0, &[(0, 0, number)])), due);
    }
    for (op, due) in [(1, (13, 16)), (2, (0, 0))] {
        assert_eq!(with(a_size.clone(), rule(6, 1, 0, &[(0, op, 0)])), due);
    }
    let b_size = rule(5, 1, 0, &[(0, 0, 0)]);
    for (number, due) in [(-1, (13, 16)), (1, (0, 0))] {
        assert_eq!(with(b_size.clone(), rule(1, 0, 0, &[(1, 0, number)])), due);
    }
    for (op, due) in [(2, (13, 16)), (1, (0, 0))] {
        assert_eq!(with(b_size.clone(), rule(6, 0, 0, &[(1, op, 0)])), due);
    }
    // b <= 3 and above asks nothing of b: idle, and no edge.
    assert_eq!(with(a_size.clone(), rule(1, 1, 5, &[(0, 0, -1)])), (13, 16));
    assert_eq!(with(a_size, rule(1, 1, 6, &[(0, 0, -1)])), (0, 0));
}

#[test]
fn each_form_at_the_line() {
    let with = |made: Field| {
        let variables = [above(0, 3), above(-2, 2), variable(0, 1, 4)];
        let rules = [rule(5, 0, 0, &[(1, 0, 0)]), made];
        refused(&bytes(&[variables.to_vec(), rules.to_vec()].concat()))
    };
    // Form, terms, and the smallest constant with which the rule gives 2 at least.
    let forms: [(u8, &[Piece], i64); 12] = [
        (1, &[(0, 0, 2), (2, 0, -1)], 6),
        (1, &[(0, 0, 1), (1, 0, 1)], 4),
        (1, &[(1, 0, -1), (0, 0, 1)], 4),
        (2, &[(0, 0, 0), (2, 0, 0)], 1),
        (3, &[(0, 0, 0), (2, 0, 0)], 2),
        (3, &[(0, 0, 0), (1, 0, 0)], 4),
        (4, &[(0, 0, 0), (2, 0, 0)], 2),
        (5, &[(0, 0, 0)], 2),
        (6, &[(0, 2, 1), (2, 2, 2)], 2),
        (7, &[(0, 0, 0), (2, 1, 4)], 2),
        (7, &[(2, 0, 0), (1, 2, -1), (0, 2, 1)], 1),
        (8, &[(0, 3, 3), (0, 0, 2), (2, 0, -1)], 8),
    ];
    for (form, terms, c) in forms {
        assert_eq!(with(rule(form, 1, c, terms)), (0, 0), "form {form}");
        assert_eq!(with(rule(form, 1, 30_000, terms)), (0, 0), "form {form}");
        assert_eq!(with(rule(form, 1, c - 1, terms)), (13, 24), "form {form}");
        assert_eq!(with(rule(form, 1, -30_000, terms)), (13, 24), "form {form}");
    }
    // One literal never holds: whatever c is, nothing is given.
    for literal in [(0, 1, 4), (0, 2, 0), (2, 1, 5), (2, 2, 1)] {
        let both = if literal.0 == 0 { vec![literal] } else { vec![(0, 2, 1), literal] };
        assert_eq!(with(rule(6, 1, -30_000, &both)), (0, 0), "{literal:?}");
        let carried = if literal.0 == 0 { (2, 0, 0) } else { (0, 0, 0) };
        assert_eq!(with(rule(7, 1, -30_000, &[carried, literal])), (0, 0), "{literal:?}");
    }
}
