//! Samples of the normal form, worked out by hand from document 02, and whether
//! the sentences about it notice wrong calls.

mod common;

use common::hexadecimal;
use second::anew::try_case;
use second::brute::{self, Anew};
use second::gen::anew::{case, small};
use second::gen::fields::{assignment, bytes, constraint, quotient, rule, variable, Field, Piece};
use second::normal::normalize_with;
use second::tally::Tally;
use second::{check, normalize, print_normal, read, Normal, Reading, Verdict, Wrong};

/// Three variables: 0 and 1 are heads.
const THREE: &str = "01 00 05 01 00 00 00 09 01 00 05 02 00 01 00 09 01 00 05 00 00 00 00 09 ";

/// What is written for an accepted file, the buffer just long enough.
fn anew(file: &[u8]) -> Vec<u8> {
    let mut buffer = vec![0x5A; file.len()];
    match normalize(file, &mut buffer) {
        Normal::Written(length) => {
            assert!(buffer[length..].iter().all(|&b| b == 0x5A));
            buffer[..length].to_vec()
        }
        refused => panic!("{refused:?}"),
    }
}

/// After the three variables, the first bytes are written as the second ones.
fn becomes(before: &str, after: &str) {
    let file = |rest: &str| hexadecimal(&(THREE.to_string() + rest));
    assert_eq!(anew(&file(before)), file(after), "{before}");
    assert_eq!(anew(&file(after)), file(after), "{after}");
}

#[test]
fn terms_of_sums() {
    // 1 + 2 v2 - v0, for v1
    becomes(
        "02 00 0C 01 01 00 01 02 00 00 02 00 00 FF FF",
        "02 00 0C 01 01 00 01 00 00 FF FF 02 00 00 02",
    );
    // largest and smallest
    becomes(
        "02 00 10 02 00 00 00 02 00 00 00 00 00 00 00 01 00 00 00",
        "02 00 10 02 00 00 00 00 00 00 00 01 00 00 00 02 00 00 00",
    );
    becomes(
        "02 00 0C 03 00 FF FF 01 00 00 00 00 00 00 00",
        "02 00 0C 03 00 FF FF 00 00 00 00 01 00 00 00",
    );
    // v2 x v1
    becomes(
        "02 00 0C 04 00 00 00 02 00 00 00 01 00 00 00",
        "02 00 0C 04 00 00 00 01 00 00 00 02 00 00 00",
    );
    // size has one term
    let size = "02 00 08 05 00 00 00 02 00 00 00";
    becomes(size, size);
    // -3 + v2 + v0 + v1 <= 0
    becomes(
        "03 00 0F 01 FF FD 02 00 00 01 00 00 00 01 01 00 00 01",
        "03 00 0F 01 FF FD 00 00 00 01 01 00 00 01 02 00 00 01",
    );
}

#[test]
fn literals() {
    // op does not count, nor does the number
    becomes(
        "02 00 10 06 00 00 02 02 01 00 01 01 02 00 03 00 01 00 09",
        "02 00 10 06 00 00 02 00 01 00 09 01 02 00 03 02 01 00 01",
    );
    becomes("03 00 0B 02 00 00 01 01 00 01 00 02 00 02", "03 00 0B 02 00 00 00 02 00 02 01 01 00 01");
}

#[test]
fn what_stays_first() {
    // v2 is carried when v1 >= 3 and v0 < 5
    becomes(
        "02 00 10 07 00 00 00 02 00 00 00 01 01 00 03 00 02 00 05",
        "02 00 10 07 00 00 00 02 00 00 00 00 02 00 05 01 01 00 03",
    );
    // v0 is carried
    let carry = "02 00 0C 07 00 00 00 00 00 00 00 01 01 00 03";
    becomes(carry, carry);
    // a third of v1 + v0: the term of variable 0 stands after the divisor
    becomes(
        "02 00 10 08 00 00 00 00 03 00 03 01 00 00 01 00 00 00 01",
        "02 00 10 08 00 00 00 00 03 00 03 00 00 00 01 01 00 00 01",
    );
    let alone = "02 00 08 08 00 00 00 00 03 03 E8";
    becomes(alone, alone);
}

#[test]
fn order_of_fields() {
    // c is 1, then -1; form 8 is shorter than form 1 of two terms
    becomes(
        "02 00 0C 01 00 00 00 00 00 00 01 01 00 00 01 02 00 08 08 01 00 00 00 03 00 02 \
         02 00 04 01 00 FF FF 02 00 04 01 00 00 01",
        "02 00 04 01 00 00 01 02 00 04 01 00 FF FF \
         02 00 08 08 01 00 00 00 03 00 02 02 00 0C 01 00 00 00 00 00 00 01 01 00 00 01",
    );
    // form, then head, then c
    becomes(
        "02 00 08 06 00 00 00 02 01 00 01 02 00 08 05 01 00 01 02 00 00 00 \
         02 00 08 05 01 00 00 02 00 00 00 02 00 08 05 00 00 09 02 00 00 00",
        "02 00 08 05 00 00 09 02 00 00 00 02 00 08 05 01 00 00 02 00 00 00 \
         02 00 08 05 01 00 01 02 00 00 00 02 00 08 06 00 00 00 02 01 00 01",
    );
    // rules before constraints; those by their bytes too
    becomes(
        "02 00 04 01 01 00 00 03 00 07 02 00 00 01 01 00 01 03 00 07 01 FF FF 01 00 FF FF \
         03 00 03 01 8A D0 03 00 03 01 00 00",
        "02 00 04 01 01 00 00 03 00 03 01 00 00 03 00 03 01 8A D0 \
         03 00 07 01 FF FF 01 00 FF FF 03 00 07 02 00 00 01 01 00 01",
    );
}

#[test]
fn repeats() {
    // equal as they stand, three times
    becomes("02 00 04 01 00 00 01 02 00 04 01 00 00 01 02 00 04 01 00 00 01", "02 00 04 01 00 00 01");
    // equal when ordered, and apart
    becomes(
        "02 00 0C 03 00 00 00 01 00 00 00 00 00 00 00 02 00 04 01 00 00 00 \
         02 00 0C 03 00 00 00 00 00 00 00 01 00 00 00",
        "02 00 04 01 00 00 00 02 00 0C 03 00 00 00 00 00 00 00 01 00 00 00",
    );
    becomes(
        "03 00 0B 02 00 00 02 01 00 01 00 02 00 02 03 00 0B 02 00 00 00 02 00 02 02 01 00 01",
        "03 00 0B 02 00 00 00 02 00 02 02 01 00 01",
    );
    // carried variables differ
    becomes(
        "02 00 0C 07 00 00 00 02 00 00 00 01 01 00 00 02 00 0C 07 00 00 00 01 00 00 00 02 01 00 00",
        "02 00 0C 07 00 00 00 01 00 00 00 02 01 00 00 02 00 0C 07 00 00 00 02 00 00 00 01 01 00 00",
    );
    // equal in meaning alone: 0 over 1 and 0; the largest and the smallest of one
    let alike = "02 00 04 01 00 00 00 02 00 08 02 00 00 00 01 00 00 00 \
                 02 00 08 03 00 00 00 01 00 00 00 02 00 08 08 00 00 00 00 03 00 01";
    becomes(alike, alike);
}

#[test]
fn variables_stay() {
    let file = "01 00 05 02 00 03 00 09 01 00 05 00 00 00 00 01 01 00 05 00 00 00 00 01 \
                01 00 05 01 FF FF 00 01";
    assert_eq!(anew(&hexadecimal(file)), hexadecimal(file));
    assert_eq!(anew(&bytes(&vec![variable(1, 0, 1); 256])), bytes(&vec![variable(1, 0, 1); 256]));
}

#[test]
fn printed_sample() {
    // The file of document 01's example has its normal form.
    let file = hexadecimal(
        "01 00 05 00 00 00 00 01 01 00 05 01 00 00 00 01 01 00 05 01 00 00 00 01 \
         02 00 08 06 01 00 01 00 01 00 01 02 00 08 06 01 00 01 02 01 00 01 \
         02 00 08 06 02 00 01 01 01 00 01",
    );
    assert_eq!(anew(&file), file);
    assert_eq!(print_normal(&file), file);
}

#[test]
fn high_variables() {
    // Variable 200 stands after 100, and head 200 after head 100.
    let many = vec![variable(1, 0, 9); 256];
    let with = |rules: &[Field]| bytes(&[&many[..], rules].concat());
    let pieces = |names: [u8; 3]| names.map(|v| (v, 0, 0));
    let before = [
        rule(2, 200, 0, &pieces([200, 100, 255])),
        rule(2, 100, 0, &pieces([128, 0, 127])),
        rule(2, 200, 0, &pieces([255, 200, 100])),
    ];
    let after = [rule(2, 100, 0, &pieces([0, 127, 128])), rule(2, 200, 0, &pieces([100, 200, 255]))];
    assert_eq!(anew(&with(&before)), with(&after));
}

#[test]
fn most_terms() {
    let many = vec![variable(1, 0, 1); 16];
    let down: Vec<Piece> = (0..16).rev().map(|v| (v, 0, 1 + i64::from(v))).collect();
    let up: Vec<Piece> = (0..16).map(|v| (v, 0, 1 + i64::from(v))).collect();
    let with = |terms: &[Piece]| {
        let fields = [rule(1, 0, -9, terms), quotient(0, -9, 7, terms), constraint(1, -1, terms)];
        bytes(&[&many[..], &fields].concat())
    };
    assert_eq!(anew(&with(&down)), with(&up));
    assert_eq!(with(&down).len(), 16 * 8 + 71 + 75 + 70);
}

#[test]
fn buffers() {
    // The empty file, with any buffer.
    let (mut none, mut some) = ([], [7; 3]);
    assert_eq!(normalize(&[], &mut none), Normal::Written(0));
    assert_eq!(normalize(&[], &mut some), Normal::Written(0));
    assert_eq!(some, [7; 3]);
    // 15 bytes are written of 22; a buffer of 21 is too short, and so is one of 15.
    let file = hexadecimal("01 00 05 01 00 00 00 09 02 00 04 01 00 00 01 02 00 04 01 00 00 01");
    let out = hexadecimal("01 00 05 01 00 00 00 09 02 00 04 01 00 00 01");
    let refused = |number, place| Normal::Refused { number, place };
    for length in [0, 1, out.len(), file.len() - 1] {
        let mut short = vec![7; length];
        assert_eq!(normalize(&file, &mut short), refused(17, 0));
        assert!(short.iter().all(|&b| b == 7));
    }
    for length in [file.len(), file.len() + 1, 70_000] {
        let mut enough = vec![7; length];
        assert_eq!(normalize(&file, &mut enough), Normal::Written(out.len()));
        assert_eq!(enough[..out.len()], out);
        assert!(enough[out.len()..].iter().all(|&b| b == 7));
    }
    // The file's own refusals come first, 13 too.
    let knot = bytes(&[variable(1, -1, 1), rule(5, 0, 1, &[(0, 0, 0)])]);
    for (file, own) in [
        (vec![0; 60_001], refused(1, 0)),
        (hexadecimal("01 00 05 01"), refused(2, 0)),
        (hexadecimal("01 00 05 01 00 00 00 09 09 00 00"), refused(3, 8)),
        (hexadecimal("03 00 03 01 00 00 01 00 05 00 00 00 00 01"), refused(4, 6)),
        (knot, refused(13, 8)),
    ] {
        for length in [0, file.len() - 1, file.len(), file.len() + 9] {
            let mut buffer = vec![7; length];
            assert_eq!(normalize(&file, &mut buffer), own);
            assert!(buffer.iter().all(|&b| b == 7));
        }
    }
}

#[test]
fn limits() {
    // 2,048 rules and 512 constraints: all one, and all of them different.
    let one = [vec![rule(1, 0, 3, &[]); 2_048], vec![constraint(1, -1, &[]); 512]].concat();
    let with = |rest: &[Field]| bytes(&[&[variable(1, 0, 9)], rest].concat());
    assert_eq!(anew(&with(&one)), with(&[rule(1, 0, 3, &[]), constraint(1, -1, &[])]));
    // -1,024 to -1 stand after 0 to 1,023
    let rules = |from: i64, to: i64| (from..to).map(|c| rule(1, 0, c, &[])).collect::<Vec<_>>();
    let down: Vec<Field> = rules(-1_024, 1_024).into_iter().rev().collect();
    let up = [rules(0, 1_024), rules(-1_024, 0)].concat();
    assert_eq!(anew(&with(&down)), with(&up));
}

#[test]
fn printed() {
    assert_eq!(print_normal(&[]), b"");
    assert_eq!(print_normal(&[0; 60_000]), b"refused 3 0\n");
    assert_eq!(print_normal(&[0; 60_001]), b"refused 1 0\n");
    assert_eq!(print_normal(&[9]), b"refused 2 0\n");
    assert_eq!(
        print_normal(&hexadecimal("03 00 03 01 00 00 01 00 05 00 00 00 00 01")),
        b"refused 4 6\n"
    );
    let twice = hexadecimal("03 00 03 01 00 00 03 00 03 01 00 00");
    assert_eq!(print_normal(&twice), twice[..6]);
}

#[test]
fn numbers_of_rules() {
    // Written anew, v0 >= 5 stands behind v0 >= 2, and v0 >= -1 behind both.
    let file = bytes(&[variable(1, 0, 9), rule(1, 0, 5, &[]), rule(1, 0, -1, &[]), rule(1, 0, 2, &[])]);
    let out = bytes(&[variable(1, 0, 9), rule(1, 0, 2, &[]), rule(1, 0, 5, &[]), rule(1, 0, -1, &[])]);
    assert_eq!(anew(&file), out);
    let says = |file: &[u8], value: i64| check(file, &assignment(&[value]), &mut [0; 12]);
    assert_eq!((says(&file, 3), says(&out, 3)), (Verdict::Rule(0), Verdict::Rule(1)));
    assert_eq!((says(&file, 1), says(&out, 1)), (Verdict::Rule(0), Verdict::Rule(0)));
    assert_eq!((says(&file, 5), says(&out, 5)), (Verdict::Stable, Verdict::Stable));
    assert_eq!(says(&file, 6), says(&out, 6));
    assert_eq!(read(&out), Reading::Accepted { variables: 1, rules: 3, constraints: 0 });
}

/// Do the sentences fail on some case when the call has this mistake?
fn noticed(wrong: Wrong) -> bool {
    let call = |file: &[u8], buffer: &mut [u8]| normalize_with(file, buffer, wrong);
    (0..600).any(|seed| try_case(&brute::OWN, &call, &case(seed), &mut Tally::default()).is_err())
}

#[test]
fn wrong_calls_are_noticed() {
    for &wrong in Wrong::NORMAL {
        assert!(noticed(wrong), "{wrong:?} is not noticed");
    }
    assert!(!noticed(Wrong::Nothing));
}

#[test]
fn other_stable_assignments_are_noticed() {
    for wrong in [
        Wrong::RepeatsAllDropped,
        Wrong::RepeatsButLast,
        Wrong::RepeatsByTerms,
        Wrong::VariablesMerged,
        Wrong::VariablesSorted,
        Wrong::ConstraintsBeforeRules,
        Wrong::CarriedSorted,
        Wrong::DivisorLast,
        Wrong::DivisorBehindZero,
        Wrong::AnswersInputLength,
    ] {
        let call = |file: &[u8], buffer: &mut [u8]| normalize_with(file, buffer, wrong);
        let fails = |seed| brute::try_normal(&call, &small(seed), &mut Anew::default()).is_err();
        assert!((0..4_000).any(fails), "{wrong:?} is not noticed");
    }
}
