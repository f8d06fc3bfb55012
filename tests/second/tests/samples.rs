//! The sample plans and the small refusal examples of document 01, those of
//! form 8, and idle rules. Those of kind 2 stand in `above.rs`.

mod common;

use common::{hexadecimal, refused, says};
use second::gen::fields::{assignment, bytes, constraint, quotient, rule, variable, Field, Piece};
use second::{check, least, print, read, Reading, Solved, Verdict};

#[test]
fn small_refusals() {
    assert_eq!(refused(&[0; 60_001]), (1, 0));
    assert_eq!(refused(&hexadecimal("01 00 05 01")), (2, 0));
    assert_eq!(refused(&hexadecimal("09")), (2, 0));
    assert_eq!(refused(&hexadecimal("09 00 00")), (3, 0));
    assert_eq!(refused(&hexadecimal("00 00 00")), (3, 0));
    assert_eq!(refused(&hexadecimal("03 00 03 01 00 00 01 00 05 00 00 00 00 01")), (4, 6));
    assert_eq!(refused(&bytes(&vec![variable(0, 0, 1); 257])), (5, 2_048));
    assert_eq!(refused(&hexadecimal("01 00 04 00 00 00 00")), (6, 0));
    // Kind 2 passes since wish 3; kind 3 takes its place.
    assert_eq!(refused(&hexadecimal("01 00 05 02 00 00 00 01")), (0, 0));
    assert_eq!(refused(&hexadecimal("01 00 05 03 00 00 00 01")), (7, 0));
    assert_eq!(refused(&hexadecimal("01 00 05 00 00 01 00 00")), (8, 0));
    assert_eq!(refused(&hexadecimal("02 00 04 01 00 00 00")), (9, 0));
    assert_eq!(refused(&hexadecimal("03 00 03 02 00 00")), (10, 0));
    let two = [variable(1, 0, 9), variable(1, 0, 9)];
    let with = |field: Field| refused(&bytes(&[two[0].clone(), two[1].clone(), field]));
    assert_eq!(with(rule(1, 0, 0, &[(1, 0, 2), (1, 0, -1)])), (11, 16));
    assert_eq!(with(rule(1, 0, 0, &[(1, 0, 1_000)])), (0, 0));
    assert_eq!(with(rule(1, 0, 0, &[(1, 0, 1_001)])), (8, 16));
    assert_eq!(with(rule(1, 0, 0, &[(1, 0, 0)])), (8, 16));
    assert_eq!(with(rule(4, 0, 0, &[(1, 0, 0), (0, 0, 0), (1, 0, 0)])), (10, 16));
    assert_eq!(with(rule(4, 0, 0, &[(1, 0, 0), (0, 0, 0), (1, 1, 0)])), (7, 16));
    assert_eq!(with(rule(7, 0, 0, &[(1, 0, 0)])), (10, 16));
    assert_eq!(with(rule(7, 0, 0, &[(1, 1, 0)])), (7, 16));
    assert_eq!(with(rule(7, 0, 0, &[])), (10, 16));
    assert_eq!(with(rule(7, 0, 0, &[(1, 0, 0), (1, 1, 0)])), (11, 16));
    assert_eq!(with(rule(4, 0, 0, &[(1, 0, 0), (1, 0, 0)])), (11, 16));
    assert_eq!(with(rule(2, 0, 0, &[(1, 0, 30_001)])), (7, 16));
    assert_eq!(with(rule(1, 0, 0, &[(1, 0, 5_000), (0, 1, 1)])), (7, 16));
    assert_eq!(with(rule(4, 0, 0, &[(7, 0, 0)])), (9, 16));
    assert_eq!(with(rule(1, 0, 0, &[(1, 0, 1); 17])), (6, 16));
    assert_eq!(with(constraint(2, 30_001, &[(1, 1, 0)])), (7, 16));
    let below = [variable(1, 0, 9), variable(1, -1, 9), variable(1, 0, 9)];
    let mut product = below.to_vec();
    product.push(rule(4, 0, 0, &[(1, 0, 0), (2, 0, 0)]));
    assert_eq!(refused(&bytes(&product)), (12, 24));
}

#[test]
fn validity() {
    let row = |low| {
        let rules = [rule(5, 0, 0, &[(1, 0, 0)]), rule(1, 1, -6, &[(0, 0, 2)])];
        [vec![variable(1, -10, 10), variable(1, low, 10)], rules.to_vec()].concat()
    };
    assert_eq!(refused(&bytes(&row(-10))), (13, 16));
    assert_eq!(refused(&bytes(&row(0))), (0, 0));
    let own = [variable(1, -1, 1), rule(5, 0, 0, &[(0, 0, 0)])];
    assert_eq!(refused(&bytes(&own)), (13, 8));
    assert_eq!(refused(&bytes(&vec![variable(1, 0, 1); 256])), (0, 0));
}

#[test]
fn lengths() {
    let file = bytes(&[variable(1, 0, 1)]);
    let (mut eleven, mut one) = ([0; 11], [0; 1]);
    assert_eq!(check(&file, &[0], &mut eleven), Verdict::Refused { number: 14, place: 0 });
    assert_eq!(check(&file, &[0, 0], &mut eleven), Verdict::Refused { number: 15, place: 0 });
    assert_eq!(least(&file, &[0, 0], &mut one), Solved::Refused { number: 15, place: 0 });
    assert_eq!(print(&[0]), b"refused 16 0\n");
    assert_eq!(print(&[0, 1]), b"refused 16 0\n");
    assert_eq!(print(&vec![0; 61_001]), b"refused 16 0\n");
    assert_eq!(print(&vec![0; 61_000]), b"refused 14 0\n");
    assert_eq!(print(&[0, 0]), b"stable\n");
}

#[test]
fn printed_sample() {
    let input = hexadecimal(
        "00 39 01 00 05 00 00 00 00 01 01 00 05 01 00 00 00 01 01 00 05 01 00 00 00 01 \
         02 00 08 06 01 00 01 00 01 00 01 02 00 08 06 01 00 01 02 01 00 01 \
         02 00 08 06 02 00 01 01 01 00 01 00 00 00 01 00 01",
    );
    assert_eq!(print(&input), b"unfounded 2 1\nmost 1 0\nmost 2 0\nwhen 0 <= 0\n");
    let mut ones = input.clone();
    let at = ones.len() - 5;
    ones[at] = 1;
    assert_eq!(print(&ones), b"stable\n");
}

#[test]
fn papers() {
    // 000 example 2
    let abc = vec![variable(1, -10, 10); 3];
    let two = [abc, vec![rule(1, 0, 7, &[(1, 0, 1), (2, 0, -1)]), rule(1, 2, 5, &[])]].concat();
    assert_eq!(says(&two, &[-8, -10, 5]), "stable\n");
    assert_eq!(says(&two, &[-7, -10, 5]), "unfounded 1 2\nmost 0 -8\nwhen 1 <= -10\nwhen 2 >= 5\n");
    // 003 example 1: s, a, b, x, y
    let hundred = |kind| variable(kind, 0, 100);
    let one = [
        hundred(0),
        hundred(1),
        hundred(1),
        variable(1, 0, 1),
        variable(1, 0, 1),
        rule(1, 1, 0, &[(2, 0, 1), (0, 0, 1)]),
        rule(6, 2, 8, &[(3, 1, 1)]),
        rule(6, 3, 1, &[(4, 2, 1), (1, 1, 5)]),
    ];
    assert_eq!(says(&one, &[9, 17, 8, 1, 0]), "stable\n");
    let shown = "unfounded 3 2\nmost 1 3\nmost 2 0\nmost 3 0\nwhen 0 <= 3\nwhen 4 >= 0\n";
    assert_eq!(says(&one, &[3, 17, 8, 1, 0]), shown);
    // 003 example 4
    let ten = vec![variable(1, 0, 10); 3];
    let rules = vec![
        rule(2, 0, -2, &[(1, 0, 0), (2, 0, 0)]),
        rule(1, 1, 1, &[(0, 0, 1)]),
        rule(1, 2, 2, &[(0, 0, 1)]),
        rule(1, 0, 3, &[]),
    ];
    let four = [ten, rules].concat();
    assert_eq!(says(&four, &[3, 4, 5]), "stable\n");
    assert_eq!(says(&four, &[4, 5, 6]), "unfounded 3 0\nmost 0 3\nmost 1 4\nmost 2 5\n");
    let own = [variable(1, 0, 1), rule(6, 0, 1, &[(0, 2, 1)])];
    assert_eq!(says(&own, &[0]), "rule 0\n");
    assert_eq!(says(&own, &[1]), "unfounded 1 1\nmost 0 0\nwhen 0 >= 1\n");
}

#[test]
fn endless_climb() {
    let five = vec![variable(1, 0, 5); 2];
    let fields = [five, vec![rule(1, 0, 1, &[(1, 0, 1)]), rule(1, 1, 0, &[(0, 0, 1)])]].concat();
    assert_eq!(says(&fields, &[5, 5]), "rule 0\n");
    let mut buffer = [7; 4];
    assert_eq!(least(&bytes(&fields), &assignment(&[5, 5]), &mut buffer), Solved::None);
    assert_eq!(buffer, [7; 4]);
}

#[test]
fn quotients() {
    let alone = |c, divisor| [variable(1, -30_000, 30_000), quotient(0, c, divisor, &[])];
    for (c, divisor, given) in [
        (-7, 2, -3),
        (7, 2, 4),
        (-8, 2, -4),
        (8, 2, 4),
        (0, 5, 0),
        (1, 1_000, 1),
        (-1, 1_000, 0),
        (-999, 1_000, 0),
        (-1_000, 1_000, -1),
        (1_001, 1_000, 2),
        (-30_000, 7, -4_285),
        (30_000, 7, 4_286),
        (-30, 1, -30),
    ] {
        let over = alone(c, divisor);
        assert_eq!(says(&over, &[given - 1]), "rule 0\n");
        assert_eq!(says(&over, &[given]), "stable\n");
        assert_eq!(says(&over, &[given + 1]), format!("unfounded 1 0\nmost 0 {given}\n"));
    }
    assert_eq!(says(&alone(30_000, 1), &[30_000]), "stable\n");
    assert_eq!(says(&alone(-30_000, 1), &[-30_000]), "stable\n");
    // c is divided with the sum: 1 + 1 over 2 is 1.
    let one = [variable(0, 1, 1), variable(1, 0, 9), quotient(1, 1, 2, &[(0, 0, 1)])];
    assert_eq!(says(&one, &[1, 1]), "stable\n");
    // 999 * 30,000 - 1,000 * 30,000 is -30,000; from there to -30,999 it is -30.
    let wide = |kind| variable(kind, -30_000, 30_000);
    let terms = [(0, 0, 999), (1, 0, 1_000)];
    for c in [0, -1, -999] {
        let far = [wide(0), wide(0), wide(1), quotient(2, c, 1_000, &terms)];
        assert_eq!(says(&far, &[30_000, -30_000, -31]), "rule 0\n");
        assert_eq!(says(&far, &[30_000, -30_000, -30]), "stable\n");
    }
}

#[test]
fn divisor_refusals() {
    let two = [variable(1, 0, 9), variable(0, 0, 9)];
    let with = |field: Field| refused(&bytes(&[two[0].clone(), two[1].clone(), field]));
    let eight = |groups: &[Piece]| with(rule(8, 0, 0, groups));
    assert_eq!(eight(&[(0, 3, 1)]), (0, 0));
    assert_eq!(eight(&[(0, 3, 1_000)]), (0, 0));
    assert_eq!(eight(&[(0, 3, 2), (0, 0, 1), (1, 0, -1_000)]), (0, 0));
    // 6
    assert_eq!(eight(&[(0, 3, 2); 18]), (6, 16));
    assert_eq!(eight(&[(0, 3, 2); 17]), (7, 16));
    for form in [0, 1, 2, 4, 6, 7, 9, 255] {
        assert_eq!(with(rule(form, 0, 0, &[(0, 3, 2); 17])), (6, 16));
    }
    assert_eq!(with(rule(9, 0, 0, &[(0, 3, 2); 16])), (7, 16));
    assert_eq!(with(constraint(8, 0, &[(0, 3, 2); 17])), (6, 16));
    // 7
    assert_eq!(with(constraint(8, 0, &[(0, 3, 2); 16])), (7, 16));
    assert_eq!(with(constraint(8, 0, &[(0, 3, 2), (1, 0, 1)])), (7, 16));
    assert_eq!(with(constraint(8, 0, &[])), (7, 16));
    assert_eq!(eight(&[(1, 3, 2)]), (7, 16));
    assert_eq!(eight(&[(255, 3, 2), (1, 0, 1)]), (7, 16));
    for op in [0, 1, 2, 4, 255] {
        assert_eq!(eight(&[(0, op, 2), (1, 0, 1)]), (7, 16));
    }
    for op in [1, 2, 3, 4] {
        assert_eq!(eight(&[(0, 3, 2), (1, op, 1)]), (7, 16));
        assert_eq!(eight(&[(0, 3, 0), (1, op, 1)]), (7, 16));
    }
    assert_eq!(eight(&[(1, 3, 2), (1, 0, 0)]), (7, 16));
    assert_eq!(eight(&[(1, 3, 0)]), (7, 16));
    for form in 1..=7 {
        assert_eq!(with(rule(form, 0, 0, &[(0, 3, 1)])), (7, 16));
        assert_eq!(with(rule(form, 0, 0, &[(0, 3, 1), (1, 0, 1)])), (7, 16));
    }
    for form in 1..=2 {
        assert_eq!(with(constraint(form, 0, &[(0, 3, 1)])), (7, 16));
    }
    // 8
    for divisor in [0, -1, -1_000, 1_001, 30_000, 32_767, -32_768] {
        assert_eq!(eight(&[(0, 3, divisor)]), (8, 16));
        assert_eq!(eight(&[(0, 3, divisor), (9, 0, 1), (9, 0, 1)]), (8, 16));
    }
    for coefficient in [0, 1_001, -1_001] {
        assert_eq!(eight(&[(0, 3, 2), (1, 0, coefficient)]), (8, 16));
    }
    assert_eq!(with(rule(8, 0, 30_001, &[(0, 3, 2)])), (8, 16));
    // Without a group: 8, 9, 10 in turn.
    assert_eq!(with(rule(8, 1, 30_001, &[])), (8, 16));
    assert_eq!(with(rule(8, 1, 0, &[])), (9, 16));
    assert_eq!(with(rule(8, 9, 0, &[])), (9, 16));
    assert_eq!(with(rule(8, 0, 0, &[])), (10, 16));
    // 9 and 11
    assert_eq!(with(rule(8, 1, 0, &[(0, 3, 2)])), (9, 16));
    assert_eq!(eight(&[(0, 3, 2), (2, 0, 1), (2, 0, 1)]), (9, 16));
    assert_eq!(eight(&[(0, 3, 2), (0, 0, 1), (0, 0, 1)]), (11, 16));
    assert_eq!(refused(&bytes(&[rule(8, 0, 0, &[(0, 3, 2)])])), (9, 0));
    // 16 terms beside the divisor, and one more.
    let mut many: Vec<Field> = vec![variable(1, 0, 9); 17];
    let terms: Vec<Piece> = (0..17).map(|v| (v, 0, 1)).collect();
    many.push(quotient(0, 0, 3, &terms[..16]));
    assert_eq!(refused(&bytes(&many)), (0, 0));
    many[17] = quotient(0, 0, 3, &terms);
    assert_eq!(refused(&bytes(&many)), (6, 136));
}

#[test]
fn divisor_and_validity() {
    // a >= |b|, and b over a divisor with or without a.
    let file = |terms: &[Piece]| {
        let rules = vec![rule(5, 0, 0, &[(1, 0, 0)]), quotient(1, 0, 2, terms)];
        bytes(&[vec![variable(1, 0, 10), variable(1, -10, 10)], rules].concat())
    };
    assert_eq!(refused(&file(&[])), (0, 0));
    assert_eq!(refused(&file(&[(0, 0, 1)])), (13, 16));
    assert_eq!(refused(&file(&[(0, 0, -1)])), (0, 0));
    assert_eq!(refused(&file(&[(1, 0, 1)])), (0, 0));
}

#[test]
fn third_of_a_sum() {
    // Three guards share a walk, the desk needs a third: 3 + 4 + 3 over 3 is 4.
    let guards = vec![variable(0, 0, 9); 3];
    let third = vec![variable(1, 0, 9), quotient(3, 0, 3, &[(0, 0, 1), (1, 0, 1), (2, 0, 1)])];
    let plan = [guards, third].concat();
    assert_eq!(says(&plan, &[3, 4, 3, 3]), "rule 0\n");
    assert_eq!(says(&plan, &[3, 4, 3, 4]), "stable\n");
    let shown = "unfounded 1 3\nmost 3 4\nwhen 0 <= 3\nwhen 1 <= 4\nwhen 2 <= 3\n";
    assert_eq!(says(&plan, &[3, 4, 3, 5]), shown);
    assert_eq!(says(&plan, &[3, 3, 3, 3]), "stable\n");
    assert_eq!(says(&plan, &[0, 0, 0, 0]), "stable\n");
    assert_eq!(says(&plan, &[0, 0, 1, 1]), "stable\n");
    // One guard less: variable 0 is in no body, though the divisor's byte is 0.
    let mut less = plan.clone();
    less[4] = quotient(3, 0, 3, &[(1, 0, 1), (2, 0, -1)]);
    assert_eq!(says(&less, &[3, 9, 1, 3]), "stable\n");
    assert_eq!(says(&less, &[3, 9, 1, 4]), "unfounded 1 2\nmost 3 3\nwhen 1 <= 9\nwhen 2 >= 1\n");
    assert_eq!(says(&less, &[3, 1, 9, 0]), "stable\n");
    assert_eq!(says(&less, &[3, 1, 9, 1]), "unfounded 1 2\nmost 3 0\nwhen 1 <= 1\nwhen 2 >= 9\n");
}

#[test]
fn circles_over_a_divisor() {
    // 000 example 1: y >= 4 + x, 2x >= y; its minimal solution is 4, 8.
    let ten = vec![variable(1, 0, 10); 2];
    let rules = vec![rule(1, 1, 4, &[(0, 0, 1)]), quotient(0, 0, 2, &[(1, 0, 1)])];
    let one = [ten, rules].concat();
    assert_eq!(says(&one, &[4, 8]), "stable\n");
    assert_eq!(says(&one, &[3, 7]), "rule 1\n");
    assert_eq!(says(&one, &[5, 9]), "unfounded 2 0\nmost 0 4\nmost 1 8\n");
    // A head in its own body: kept when rising, a condition when falling.
    let own = |number: i64, c| [variable(1, 0, 5), quotient(0, c, 2, &[(0, 0, number)])];
    assert_eq!(says(&own(1, 1), &[0]), "rule 0\n");
    assert_eq!(says(&own(1, 1), &[1]), "stable\n");
    assert_eq!(says(&own(1, 1), &[2]), "unfounded 1 0\nmost 0 1\n");
    assert_eq!(says(&own(1, 0), &[1]), "unfounded 1 0\nmost 0 0\n");
    assert_eq!(says(&own(-1, 5), &[1]), "rule 0\n");
    assert_eq!(says(&own(-1, 5), &[2]), "stable\n");
    assert_eq!(says(&own(-1, 5), &[3]), "unfounded 1 1\nmost 0 1\nwhen 0 >= 3\n");
}

#[test]
fn row_thirteen_idle() {
    let two = [variable(1, 0, 10), variable(1, -10, 10)];
    let rules = |c| [rule(5, 0, 0, &[(1, 0, 0)]), rule(1, 1, c, &[(0, 0, 2)])];
    let turned = |c| [rules(c)[1].clone(), rules(c)[0].clone()];
    let with = |rules: [Field; 2]| [two.to_vec(), rules.to_vec()].concat();
    // The most of 2a - 30 is -10.
    assert_eq!(refused(&bytes(&with(rules(-29)))), (13, 16));
    assert_eq!(refused(&bytes(&with(turned(-29)))), (13, 27));
    assert_eq!(refused(&bytes(&with(rules(-30)))), (0, 0));
    assert_eq!(refused(&bytes(&with(turned(-30)))), (0, 0));
    assert_eq!(says(&with(rules(-30)), &[10, -10]), "stable\n");
    assert_eq!(says(&with(rules(-30)), &[0, 0]), "unfounded 1 1\nmost 1 -10\nwhen 0 <= 0\n");
    assert_eq!(says(&with(rules(-30)), &[1, 2]), "rule 0\n");
    assert_eq!(says(&with(turned(-30)), &[1, 2]), "rule 1\n");
}

#[test]
fn nine_from_a_variable_ending_at_four() {
    let file = |end| {
        let variables = [variable(1, 0, 1), variable(1, -1, 1), variable(0, 0, end)];
        let rules = [rule(5, 0, 0, &[(1, 0, 0)]), rule(6, 1, 1, &[(0, 1, 1), (2, 1, 9)])];
        [variables.to_vec(), rules.to_vec()].concat()
    };
    assert_eq!(refused(&bytes(&file(4))), (0, 0));
    assert_eq!(refused(&bytes(&file(8))), (0, 0));
    assert_eq!(refused(&bytes(&file(9))), (13, 24));
    assert_eq!(says(&file(4), &[1, -1, 4]), "stable\n");
    let shown = "unfounded 1 2\nmost 1 -1\nwhen 0 <= 1\nwhen 2 <= 4\n";
    assert_eq!(says(&file(4), &[1, 1, 4]), shown);
}

#[test]
fn each_form_at_the_line() {
    let with = |made: Field| {
        let variables = [variable(1, 0, 3), variable(1, -2, 2), variable(0, 1, 4)];
        let rules = [rule(5, 0, 0, &[(1, 0, 0)]), made];
        refused(&bytes(&[variables.to_vec(), rules.to_vec()].concat()))
    };
    // Form, terms, and the largest constant with which the rule gives -2 at most.
    let forms: [(u8, &[Piece], i64); 12] = [
        (1, &[(0, 0, 2), (2, 0, -1)], -7),
        (1, &[(0, 0, 1), (1, 0, 1)], -7),
        (1, &[(1, 0, -1), (0, 0, 1)], -7),
        (2, &[(0, 0, 0), (2, 0, 0)], -6),
        (3, &[(0, 0, 0), (2, 0, 0)], -5),
        (3, &[(0, 0, 0), (1, 0, 0)], -4),
        (4, &[(0, 0, 0), (2, 0, 0)], -14),
        (5, &[(0, 0, 0)], -5),
        (6, &[(0, 1, 3), (2, 2, 2)], -2),
        (7, &[(0, 0, 0), (2, 1, 4)], -5),
        (7, &[(2, 0, 0), (1, 2, -1), (0, 1, 1)], -6),
        (8, &[(0, 3, 3), (0, 0, 2), (2, 0, -1)], -11),
    ];
    for (form, terms, c) in forms {
        assert_eq!(with(rule(form, 1, c, terms)), (0, 0), "form {form}");
        assert_eq!(with(rule(form, 1, -30_000, terms)), (0, 0), "form {form}");
        assert_eq!(with(rule(form, 1, c + 1, terms)), (13, 24), "form {form}");
        assert_eq!(with(rule(form, 1, 30_000, terms)), (13, 24), "form {form}");
    }
    // One literal never holds: whatever c is, nothing is given.
    for literal in [(0, 1, 4), (0, 2, 0), (2, 1, 5), (2, 2, 1)] {
        let both = if literal.0 == 0 { vec![literal] } else { vec![(0, 1, 1), literal] };
        assert_eq!(with(rule(6, 1, 30_000, &both)), (0, 0), "{literal:?}");
        let carried = if literal.0 == 0 { (2, 0, 0) } else { (0, 0, 0) };
        assert_eq!(with(rule(7, 1, 30_000, &[carried, literal])), (0, 0), "{literal:?}");
    }
}

#[test]
fn quotients_at_the_line() {
    // b >= (c + a) over 3, b from `low`: idle up to 3 * low, not one above it.
    for low in [-2, 0, 2] {
        for above in [-1, 0, 1, 2, 3] {
            let variables = [variable(1, 0, 3), variable(1, low, 9), variable(1, -1, 1)];
            let rules = [
                rule(5, 0, 0, &[(2, 0, 0)]),
                quotient(1, 3 * low + above - 3, 3, &[(0, 0, 1)]),
                rule(1, 2, -9, &[(1, 0, 1)]),
            ];
            let file = bytes(&[variables.to_vec(), rules.to_vec()].concat());
            assert_eq!(refused(&file), if above > 0 { (13, 24) } else { (0, 0) }, "{low}, {above}");
        }
    }
}

#[test]
fn full_reports() {
    let own = |c| [variable(1, -5, 5), rule(5, 0, c, &[(0, 0, 0)])];
    assert_eq!(refused(&bytes(&own(0))), (13, 8));
    assert_eq!(refused(&bytes(&own(-9))), (13, 8));
    assert_eq!(says(&own(-10), &[-5]), "stable\n");
    assert_eq!(says(&own(-10), &[0]), "unfounded 1 2\nmost 0 -5\nwhen 0 <= 0\nwhen 0 >= 0\n");
    let file = bytes(&own(-10));
    let shown = [0, 0, 0xFF, 0xFB, 0, 1, 0, 0, 0, 2, 0, 0];
    for room in [11, 12, 13] {
        let mut report = vec![0xA5; room];
        let verdict = check(&file, &[0, 0], &mut report);
        if room < 12 {
            assert_eq!(verdict, Verdict::Refused { number: 15, place: 0 });
            assert_eq!(report, vec![0xA5; 11]);
        } else {
            assert_eq!(verdict, Verdict::Unfounded(1, 2));
            assert_eq!(report[..12], shown);
            assert!(report[12..].iter().all(|&b| b == 0xA5));
        }
    }
    let mut model = [0xA5; 2];
    assert_eq!(least(&file, &[0, 0], &mut model), Solved::Found);
    assert_eq!(model, [0xFF, 0xFB]);
    // Each of two by the other; 1 is lifted to 0 besides.
    let rules = [rule(5, 0, -2, &[(1, 0, 0)]), rule(5, 1, -2, &[(0, 0, 0)]), rule(1, 1, 0, &[])];
    let two = [vec![variable(1, -1, 1); 2], rules.to_vec()].concat();
    let lines = "most 0 -1\nmost 1 0\nwhen 0 <= 1\nwhen 0 >= 1\nwhen 1 <= 1\nwhen 1 >= 1\n";
    assert_eq!(says(&two, &[1, 1]), format!("unfounded 2 4\n{lines}"));
    let mut report = [0xA5; 24];
    assert_eq!(check(&bytes(&two), &[0, 1, 0, 1], &mut report), Verdict::Unfounded(2, 4));
    assert_eq!(report[20..], [1, 2, 0, 1]);
}

#[test]
fn idle_rules_count() {
    // Two idle sizes stand before one that is not.
    let idle = rule(5, 0, -2, &[(0, 0, 0)]);
    let line = |c| rule(5, 0, c, &[(0, 0, 0)]);
    let one = variable(1, -1, 1);
    assert_eq!(refused(&bytes(&[one.clone(), idle.clone(), idle.clone(), line(-1)])), (13, 30));
    let file = bytes(&[one.clone(), idle.clone(), rule(1, 0, 1, &[]), idle]);
    assert_eq!(read(&file), Reading::Accepted { variables: 1, rules: 3, constraints: 0 });
    let verdict = check(&file, &[0, 0], &mut [0; 12]);
    assert_eq!(verdict, Verdict::Rule(1));
    // An idle rule is still turned down for what 2 to 12 say.
    let product = [one.clone(), variable(1, 0, 1), rule(4, 0, -30_000, &[(0, 0, 0), (1, 0, 0)])];
    assert_eq!(refused(&bytes(&product)), (12, 16));
    let twice = [one, rule(1, 0, -30_000, &[(0, 0, 1), (0, 0, 1)])];
    assert_eq!(refused(&bytes(&twice)), (11, 8));
    // A falling and a rising position of an idle rule: conditions as before.
    let three = [variable(1, 0, 2), variable(0, 0, 2), variable(1, 0, 2)];
    let terms = [(0, 0, 1), (1, 0, 1), (2, 0, -1)];
    let asks = [three.to_vec(), vec![rule(1, 0, -9, &terms)]].concat();
    let shown = "unfounded 2 2\nmost 0 0\nmost 2 0\nwhen 1 <= 1\nwhen 2 >= 1\n";
    assert_eq!(says(&asks, &[2, 1, 1]), shown);
}
