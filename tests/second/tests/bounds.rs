//! Samples of bounds in half-filled plans, worked out by hand from document 02 and the
//! settled points, and whether the sentences about them notice wrong calls.

mod common;

use common::{hexadecimal, refused, says};
use second::bounded::{self, see, try_case};
use second::bounds::{bounds_with, Bounded, Span};
use second::brute::{self, Halves};
use second::gen::fields::{assignment, bytes, constraint, quotient, rule, variable, Field, Piece};
use second::gen::ranged::{self, case, small};
use second::gen::{framed, limits, prng::Random};
use second::tally::Tally;
use second::{bounds, least, print_bounds, read, Reading, Solved, Wrong};

fn standard(low: i64, high: i64) -> Field {
    variable(0, low, high)
}

fn below(low: i64, high: i64) -> Field {
    variable(1, low, high)
}

fn above(low: i64, high: i64) -> Field {
    variable(2, low, high)
}

/// The answer, and a buffer of this length afterwards.
fn answer(file: &[u8], ranges: &[u8], room: usize) -> (Bounded, Vec<u8>) {
    let mut buffer = vec![0x5A; room];
    (bounds(file, ranges, &mut buffer), buffer)
}

/// What is written, with a buffer just long enough and with a longer one.
fn lifts(list: &[Field], spans: &[Span]) -> Vec<i64> {
    let (file, ranges) = (bytes(list), ranged::bytes(spans));
    let (bounded, written) = answer(&file, &ranges, 2 * spans.len());
    assert_eq!(bounded, Bounded::Bounded);
    let (longer, more) = answer(&file, &ranges, 2 * spans.len() + 3);
    assert_eq!(longer, Bounded::Bounded);
    assert_eq!(more, [written.clone(), vec![0x5A; 3]].concat());
    written.chunks(2).map(|two| i64::from(i16::from_be_bytes([two[0], two[1]]))).collect()
}

/// A refusal leaves a buffer of any length as it was. Reading gives those up to 13.
fn refuses(file: &[u8], ranges: &[u8], room: usize, number: usize, place: usize) {
    let due = Bounded::Refused { number, place };
    assert_eq!(answer(file, ranges, room), (due, vec![0x5A; room]));
    assert_eq!(refused(file), if number <= 13 { (number, place) } else { (0, 0) });
}

/// Document 01's file: s standard, a and b of kind 1, all in 0..1; a if s, a if b, b if a.
fn guards() -> Vec<Field> {
    let literal = |v: u8| [(v, 1, 1)];
    let rules = [rule(6, 1, 1, &literal(0)), rule(6, 1, 1, &literal(2)), rule(6, 2, 1, &literal(1))];
    [vec![standard(0, 1), below(0, 1), below(0, 1)], rules.to_vec()].concat()
}

#[test]
fn guards_half_filled() {
    // nothing is said yet: both may be lifted
    assert_eq!(lifts(&guards(), &[(0, 1), (0, 1), (0, 1)]), [0, 1, 1]);
    // s is 0: each would lift the other, and nothing lifts either
    assert_eq!(lifts(&guards(), &[(0, 0), (0, 1), (0, 1)]), [0, 0, 0]);
    // that a is to be 1 lifts nothing: its bound stays before its range
    assert_eq!(lifts(&guards(), &[(0, 0), (1, 1), (0, 1)]), [0, 0, 0]);
    assert_eq!(lifts(&guards(), &[(1, 1), (1, 1), (0, 1)]), [1, 1, 1]);
    // a stays at 0, and b with it
    assert_eq!(lifts(&guards(), &[(0, 1), (0, 0), (0, 1)]), [0, 0, 0]);
    // b stays at 0, a does not
    assert_eq!(lifts(&guards(), &[(1, 1), (0, 1), (0, 0)]), [1, 1, 0]);
    let file = bytes(&guards());
    let ranges = hexadecimal("00 00 00 01 00 00 00 01 00 00 00 01");
    assert_eq!(answer(&file, &ranges, 6), (Bounded::Bounded, hexadecimal("00 00 00 01 00 01")));
}

#[test]
fn circles_stop_at_the_lent_far_end() {
    // a >= b + 1, b >= a: least says none; a lift stops
    let list = |kind: u8, low: i64, high: i64, step: i64| {
        let variables = vec![variable(kind, low, high), variable(kind, low, high)];
        [variables, vec![rule(1, 0, step, &[(1, 0, 1)]), rule(1, 1, 0, &[(0, 0, 1)])]].concat()
    };
    let up = list(1, 0, 5, 1);
    assert_eq!(least(&bytes(&up), &assignment(&[5, 5]), &mut [0; 4]), Solved::None);
    assert_eq!(lifts(&up, &[(0, 5), (0, 5)]), [5, 5]);
    assert_eq!(lifts(&up, &[(0, 3), (0, 5)]), [3, 3]);
    assert_eq!(lifts(&up, &[(0, 5), (2, 2)]), [3, 2]);
    assert_eq!(lifts(&up, &[(0, 5), (0, 0)]), [1, 0]);
    assert_eq!(lifts(&up, &[(0, 0), (4, 5)]), [0, 0]);
    let down = list(2, 0, 5, -1);
    assert_eq!(lifts(&down, &[(0, 5), (0, 5)]), [0, 0]);
    assert_eq!(lifts(&down, &[(2, 5), (0, 5)]), [2, 2]);
    assert_eq!(lifts(&down, &[(0, 5), (3, 3)]), [2, 3]);
    assert_eq!(lifts(&down, &[(5, 5), (0, 1)]), [5, 5]);
    // over the whole of all ranges
    let far = list(1, -30_000, 30_000, 1);
    assert_eq!(lifts(&far, &[(-30_000, 30_000), (-30_000, 30_000)]), [30_000, 30_000]);
    assert_eq!(lifts(&far, &[(0, 29_999), (-30_000, 30_000)]), [29_999, 29_999]);
    let far = list(2, -30_000, 30_000, -1);
    assert_eq!(lifts(&far, &[(-30_000, 30_000), (-29_998, 0)]), [-29_999, -29_998]);
}

#[test]
fn document_000_example_2() {
    // a >= b - c + 7, c >= 5
    let rules = [rule(1, 0, 7, &[(1, 0, 1), (2, 0, -1)]), rule(1, 2, 5, &[])];
    let list = [vec![below(-10, 10); 3], rules.to_vec()].concat();
    let whole = (-10, 10);
    // b is kept and stays at -10; c is falling and read at its low
    assert_eq!(lifts(&list, &[whole, whole, whole]), [7, -10, 5]);
    assert_eq!(lifts(&list, &[whole, whole, (5, 10)]), [-8, -10, 5]);
    assert_eq!(lifts(&list, &[whole, whole, (5, 5)]), [-8, -10, 5]);
    // the range of a kept variable lifts nothing
    assert_eq!(lifts(&list, &[whole, (3, 10), (5, 5)]), [-8, -10, 5]);
    assert_eq!(lifts(&list, &[whole, (3, 3), (5, 5)]), [-8, -10, 5]);
    // c may not get so far; a is still lifted, and stops
    assert_eq!(lifts(&list, &[whole, whole, (-10, 4)]), [7, -10, 4]);
    assert_eq!(lifts(&list, &[(-10, 2), whole, (-10, 4)]), [2, -10, 4]);
}

/// a >= |b| + c, or a <= |b| + c; b of this kind and with these ends.
fn size(head: Field, c: i64, b: Field) -> Vec<Field> {
    vec![head, b, rule(5, 0, c, &[(1, 0, 0)])]
}

#[test]
fn mixed() {
    for kind in 0..=1 {
        let list = size(below(0, 9), 0, variable(kind, -5, 5));
        let entry = |low: i64| if kind == 0 { low } else { -5 };
        // not yet single: the far end, whatever the range may give
        for span in [(-5, 5), (1, 5), (-5, -1), (0, 1), (4, 5), (-1, 0)] {
            assert_eq!(lifts(&list, &[(0, 9), span]), [9, entry(span.0)], "{span:?}");
            assert_eq!(lifts(&list, &[(2, 6), span]), [6, entry(span.0)], "{span:?}");
            assert_eq!(lifts(&list, &[(0, 0), span]), [0, entry(span.0)], "{span:?}");
        }
        // single: what it gives
        assert_eq!(lifts(&list, &[(0, 9), (3, 3)]), [3, entry(3)]);
        assert_eq!(lifts(&list, &[(0, 9), (-4, -4)]), [4, entry(-4)]);
        assert_eq!(lifts(&list, &[(0, 9), (0, 0)]), [0, entry(0)]);
        assert_eq!(lifts(&list, &[(0, 2), (3, 3)]), [2, entry(3)]);
        // before its range
        assert_eq!(lifts(&list, &[(5, 9), (3, 3)]), [3, entry(3)]);
    }
    // kind 2: a <= |b| + 3
    let list = size(above(0, 9), 3, standard(-5, 5));
    for span in [(-5, 5), (1, 5), (-2, -1), (0, 1)] {
        assert_eq!(lifts(&list, &[(0, 9), span]), [0, span.0]);
        assert_eq!(lifts(&list, &[(4, 7), span]), [4, span.0]);
    }
    assert_eq!(lifts(&list, &[(0, 9), (2, 2)]), [5, 2]);
    assert_eq!(lifts(&list, &[(0, 9), (-1, -1)]), [4, -1]);
    assert_eq!(lifts(&list, &[(6, 9), (-1, -1)]), [6, -1]);
    assert_eq!(lifts(&list, &[(0, 2), (-1, -1)]), [4, -1]);
    // founded itself: single by its range, not by its bound
    let list = size(below(0, 9), 0, above(-5, 5));
    assert_eq!(lifts(&list, &[(0, 9), (4, 5)]), [9, 5]);
    assert_eq!(lifts(&list, &[(0, 9), (-2, -2)]), [2, 5]);
}

#[test]
fn directions_go_by_declared_ranges() {
    // |b| with b declared from 0 on is rising, read at its high
    let list = size(below(0, 9), 0, standard(0, 5));
    assert_eq!(lifts(&list, &[(0, 9), (1, 4)]), [4, 1]);
    // up to 0, it is falling, read at its low
    let list = size(below(0, 9), 0, standard(-5, 0));
    assert_eq!(lifts(&list, &[(0, 9), (-4, -1)]), [4, -4]);
    // for kind 2 the other way
    let list = size(above(0, 9), 0, standard(0, 5));
    assert_eq!(lifts(&list, &[(0, 9), (1, 4)]), [1, 1]);
    let list = size(above(0, 9), 0, standard(-5, 0));
    assert_eq!(lifts(&list, &[(0, 9), (-4, -1)]), [1, -4]);
    // declared around 0 it is mixed, also where the lent range has one sign: not kept
    let list = size(below(0, 9), 0, below(-5, 5));
    assert_eq!(lifts(&list, &[(0, 9), (1, 5)]), [9, -5]);
    // declared from 0 on, of kind 1, it is kept
    let list = size(below(0, 9), 0, below(0, 5));
    assert_eq!(lifts(&list, &[(0, 9), (1, 5)]), [0, 0]);
}

#[test]
fn idle_rules_count() {
    // a >= |b| - 5 gives at most 0 and is idle, and still b is mixed in it
    let list = size(below(0, 9), -5, standard(-5, 5));
    assert_eq!(lifts(&list, &[(0, 9), (4, 5)]), [9, 4]);
    assert_eq!(lifts(&list, &[(0, 9), (5, 5)]), [0, 5]);
    // a <= |b| + 9
    let list = size(above(0, 9), 9, standard(-5, 5));
    assert_eq!(lifts(&list, &[(3, 9), (4, 5)]), [3, 4]);
    assert_eq!(lifts(&list, &[(3, 9), (5, 5)]), [9, 5]);
    // in its own rule, which is idle and so valid: a >= |a| - 10
    let list = vec![below(-5, 5), rule(5, 0, -10, &[(0, 0, 0)])];
    assert_eq!(lifts(&list, &[(-5, 5)]), [5]);
    assert_eq!(lifts(&list, &[(-5, 2)]), [2]);
    assert_eq!(lifts(&list, &[(2, 2)]), [-5]);
    let list = vec![below(-5, 5), rule(5, 0, -9, &[(0, 0, 0)])];
    refuses(&bytes(&list), &ranged::bytes(&[(-5, 5)]), 2, 13, 8);
}

#[test]
fn arrivals() {
    // a departure; A <= departure, B <= A + 4, C <= B + 3, B <= C + 1, C <= A + 9
    let one = |head: u8, c: i64, v: u8| rule(1, head, c, &[(v, 0, 1)]);
    let rules = [one(1, 0, 0), one(2, 4, 1), one(3, 3, 2), one(2, 1, 3), one(3, 9, 1)];
    let variables = vec![standard(0, 9), above(0, 20), above(0, 20), above(0, 20)];
    let list = [variables, rules.to_vec()].concat();
    let all = (0, 20);
    // the departure is read at its low
    assert_eq!(lifts(&list, &[(2, 5), all, all, all]), [2, 2, 6, 9]);
    assert_eq!(lifts(&list, &[(0, 9), all, all, all]), [0, 0, 4, 7]);
    // A is at 4 or later
    assert_eq!(lifts(&list, &[(2, 5), (4, 20), all, all]), [2, 4, 8, 11]);
    // B is at 7 or before: its bound is 8, so there is no such plan
    assert_eq!(lifts(&list, &[(2, 5), (4, 20), (0, 7), all]), [2, 4, 8, 11]);
    assert_eq!(lifts(&list, &[(2, 5), all, (10, 20), (12, 12)]), [2, 2, 10, 12]);
    let text = "least 1 2\nleast 2 6\nleast 3 9\n";
    let spans = [(2, 5), all, all, all];
    assert_eq!(printed(&list, &spans), text);
}

#[test]
fn literals() {
    // h moves to 3 if s >= 2, or if s < 2: literals do not swap for kind 2
    for (kind, start) in [(1, 0), (2, 9)] {
        let with = |op: u8| vec![variable(kind, 0, 9), standard(0, 4), rule(6, 0, 3, &[(1, op, 2)])];
        assert_eq!(lifts(&with(1), &[(0, 9), (0, 1)]), [start, 0]);
        assert_eq!(lifts(&with(1), &[(0, 9), (0, 2)]), [3, 0]);
        assert_eq!(lifts(&with(2), &[(0, 9), (2, 4)]), [start, 2]);
        assert_eq!(lifts(&with(2), &[(0, 9), (1, 4)]), [3, 1]);
        // all of them, each at its own end
        let two = rule(6, 0, 3, &[(1, 1, 2), (2, 2, 2)]);
        let list = vec![variable(kind, 0, 9), standard(0, 4), standard(0, 4), two];
        assert_eq!(lifts(&list, &[(0, 9), (0, 4), (0, 4)]), [3, 0, 0]);
        assert_eq!(lifts(&list, &[(0, 9), (0, 1), (0, 4)]), [start, 0, 0]);
        assert_eq!(lifts(&list, &[(0, 9), (0, 4), (2, 4)]), [start, 0, 2]);
    }
    // carried: a >= b + 1 when s < 2; b kept
    let rules = [rule(7, 0, 1, &[(1, 0, 0), (2, 2, 2)]), rule(1, 1, 4, &[])];
    let list = [vec![below(0, 9), below(0, 9), standard(0, 4)], rules.to_vec()].concat();
    assert_eq!(lifts(&list, &[(0, 9), (0, 9), (1, 4)]), [5, 4, 1]);
    assert_eq!(lifts(&list, &[(0, 9), (0, 3), (1, 4)]), [4, 3, 1]);
    assert_eq!(lifts(&list, &[(0, 9), (0, 9), (2, 4)]), [0, 4, 2]);
    // a literal that is kept is read at the bound, not at its range
    let kept = vec![below(0, 9), below(0, 9), rule(6, 0, 3, &[(1, 1, 2)])];
    assert_eq!(lifts(&kept, &[(0, 9), (2, 9)]), [0, 0]);
    assert_eq!(lifts(&[kept, vec![rule(1, 1, 2, &[])]].concat(), &[(0, 9), (2, 9)]), [3, 2]);
}

#[test]
fn founded_and_not_kept() {
    // a >= 4 - b: b falling. Of kind 1 it is read at its low, of kind 2 it is kept
    let list = |kind: u8| vec![below(-9, 9), variable(kind, 0, 9), rule(1, 0, 4, &[(1, 0, -1)])];
    assert_eq!(lifts(&list(1), &[(-9, 9), (1, 3)]), [3, 0]);
    assert_eq!(lifts(&list(1), &[(-9, 9), (0, 9)]), [4, 0]);
    assert_eq!(lifts(&list(2), &[(-9, 9), (1, 3)]), [-5, 9]);
    let lifted = [list(2), vec![rule(1, 1, 2, &[])]].concat();
    assert_eq!(lifts(&lifted, &[(-9, 9), (1, 3)]), [2, 2]);
    assert_eq!(lifts(&lifted, &[(-9, 9), (3, 3)]), [1, 3]);
    // a >= b: b rising. Of kind 2 it is read at its high
    let list = |kind: u8| vec![below(0, 9), variable(kind, 0, 9), rule(1, 0, 0, &[(1, 0, 1)])];
    assert_eq!(lifts(&list(2), &[(0, 9), (1, 3)]), [3, 9]);
    assert_eq!(lifts(&list(1), &[(0, 9), (1, 3)]), [0, 0]);
    // a <= b: swapped, falling for a head of kind 2. Of kind 1 it is read at its low
    let list = |kind: u8| vec![above(0, 9), variable(kind, 0, 9), rule(1, 0, 0, &[(1, 0, 1)])];
    assert_eq!(lifts(&list(1), &[(0, 9), (1, 3)]), [1, 0]);
    assert_eq!(lifts(&list(2), &[(0, 9), (1, 3)]), [9, 9]);
    // a <= 9 - b: rising. Of kind 1 it is kept, of kind 2 read at its high
    let list = |kind: u8| vec![above(0, 9), variable(kind, 0, 9), rule(1, 0, 9, &[(1, 0, -1)])];
    assert_eq!(lifts(&list(1), &[(0, 9), (1, 3)]), [9, 0]);
    assert_eq!(lifts(&list(2), &[(0, 9), (1, 3)]), [6, 9]);
}

#[test]
fn forms() {
    let head = |kind: u8| variable(kind, -99, 99);
    let two = |kind: u8, made: Field, s: Span, t: Span| {
        lifts(&[head(kind), standard(0, 9), standard(0, 9), made], &[(-99, 99), s, t])[0]
    };
    let plain: [Piece; 2] = [(1, 0, 0), (2, 0, 0)];
    for (form, most, least) in [(2, 7, 3), (3, 5, 2), (4, 35, 6)] {
        let of = |kind: u8| two(kind, rule(form, 0, 1, &plain), (2, 5), (3, 7));
        assert_eq!((of(1), of(2)), (most + 1, least + 1), "form {form}");
    }
    // 10 + 2s - 3t
    let sum = rule(1, 0, 10, &[(1, 0, 2), (2, 0, -3)]);
    assert_eq!(two(1, sum.clone(), (2, 5), (3, 7)), 11);
    assert_eq!(two(2, sum, (2, 5), (3, 7)), -7);
    // a third, rounded up for both kinds: 11 / 3, -7 / 3
    let third = quotient(0, 10, 3, &[(1, 0, 2), (2, 0, -3)]);
    assert_eq!(two(1, third.clone(), (2, 5), (3, 7)), 4);
    assert_eq!(two(2, third, (2, 5), (3, 7)), -2);
    // a constant, and a rule without room
    assert_eq!(lifts(&[below(0, 9), rule(1, 0, 4, &[])], &[(0, 9)]), [4]);
    assert_eq!(lifts(&[below(0, 9), rule(1, 0, 4, &[])], &[(0, 0)]), [0]);
    assert_eq!(lifts(&[above(0, 9), rule(1, 0, 4, &[])], &[(6, 6)]), [6]);
    // sums far beyond two bytes are cut off
    let large = vec![below(0, 30_000), standard(0, 30_000), rule(1, 0, 0, &[(1, 0, 1_000)])];
    assert_eq!(lifts(&large, &[(0, 30_000), (1, 66)]), [30_000, 1]);
    assert_eq!(lifts(&large, &[(0, 123), (1, 66)]), [123, 1]);
    assert_eq!(lifts(&large, &[(0, 30_000), (1, 3)]), [3_000, 1]);
    let large = vec![above(-30_000, 0), standard(-30_000, 0), rule(1, 0, 0, &[(1, 0, 1_000)])];
    assert_eq!(lifts(&large, &[(-123, 0), (-66, -1)]), [-123, -66]);
}

#[test]
fn constraints_play_no_part() {
    let list = |c: Vec<Field>| [vec![below(0, 9), rule(1, 0, 5, &[])], c].concat();
    let at_most_two = constraint(1, -2, &[(0, 0, 1)]);
    let never = constraint(1, 1, &[]);
    let literal = constraint(2, 0, &[(0, 2, 1)]);
    assert_eq!(lifts(&list(vec![]), &[(0, 9)]), [5]);
    assert_eq!(lifts(&list(vec![at_most_two, never, literal]), &[(0, 9)]), [5]);
    assert_eq!(lifts(&[constraint(1, 1, &[])], &[]), []);
}

#[test]
fn standard_ones() {
    let list = vec![standard(-30_000, 30_000), below(-7, 7), standard(3, 3)];
    assert_eq!(lifts(&list, &[(-30_000, 30_000), (-7, 7), (3, 3)]), [-30_000, -7, 3]);
    assert_eq!(lifts(&list, &[(-1, 30_000), (7, 7), (3, 3)]), [-1, -7, 3]);
    let ranges = hexadecimal("FF FF 75 30 00 07 00 07 00 03 00 03");
    let written = hexadecimal("FF FF FF F9 00 03");
    assert_eq!(answer(&bytes(&list), &ranges, 6), (Bounded::Bounded, written));
}

#[test]
fn the_wish() {
    // with single ranges and every rule met: the least model's values
    let list = guards();
    let file = bytes(&list);
    for values in [[1, 1, 1], [0, 1, 1], [0, 0, 0]] {
        let spans: Vec<Span> = values.iter().map(|&value| (value, value)).collect();
        let mut model = [0; 6];
        assert_eq!(least(&file, &assignment(&values), &mut model), Solved::Found);
        assert_eq!(assignment(&lifts(&list, &spans)), model);
    }
    // where a rule is not met, a bound stops at the assignment: 1, 0, 0
    assert_eq!(says(&list, &[1, 0, 0]), "rule 0\n");
    assert_eq!(lifts(&list, &[(1, 1), (0, 0), (0, 0)]), [1, 0, 0]);
    // drawn in to the bounds, a mixed variable may be single, and bounds nearer
    let size = vec![below(0, 9), below(-2, 5), rule(5, 0, 0, &[(1, 0, 0)]), rule(1, 1, 1, &[])];
    assert_eq!(lifts(&size, &[(0, 9), (1, 5)]), [9, 1]);
    assert_eq!(lifts(&size, &[(0, 9), (1, 1)]), [1, 1]);
    assert_eq!(says(&size, &[1, 1]), "stable\n");
}

#[test]
fn refusals() {
    let file = bytes(&guards());
    let good = ranged::bytes(&[(0, 1), (0, 1), (0, 1)]);
    assert_eq!(answer(&file, &good, 6).0, Bounded::Bounded);
    // 14: any other length
    for length in (0..40).filter(|&length| length != 12) {
        let mut other = good.clone();
        other.resize(length, 0);
        refuses(&file, &other, 6, 14, 0);
        refuses(&file, &other, 5, 14, 0);
    }
    // 15: under 2 bytes a variable
    for room in 0..6 {
        refuses(&file, &good, room, 15, 0);
    }
    // 20: a range leaves its declared one or is empty, at any variable; before 15
    for v in 0..3 {
        for span in [(-1, 0), (-1, -1), (0, 2), (1, 2), (1, 0), (2, -1), (-32_768, 32_767)] {
            let mut spans = [(0, 1); 3];
            spans[v] = span;
            refuses(&file, &ranged::bytes(&spans), 6, 20, 0);
            refuses(&file, &ranged::bytes(&spans), 5, 20, 0);
            // 14 before 20
            refuses(&file, &[ranged::bytes(&spans), vec![0]].concat(), 5, 14, 0);
            refuses(&file, &ranged::bytes(&spans)[..11], 5, 14, 0);
        }
    }
    // negative numbers are numbers below 0
    let list = vec![below(-3, 3)];
    assert_eq!(lifts(&list, &[(-2, 1)]), [-3]);
    refuses(&bytes(&list), &ranged::bytes(&[(1, -2)]), 2, 20, 0);
    refuses(&bytes(&list), &ranged::bytes(&[(-4, 3)]), 2, 20, 0);
    refuses(&bytes(&list), &ranged::bytes(&[(-3, 4)]), 2, 20, 0);
    // the file's own come first, each with its place
    refuses(&hexadecimal("01 00 05 01"), &[], 0, 2, 0);
    refuses(&hexadecimal("03 00 03 01 00 00 01 00 05 00 00 00 00 01"), &[0; 3], 0, 4, 6);
    refuses(&vec![0; 60_001], &[], 0, 1, 0);
    let knot = [below(0, 9), below(-10, 10), rule(5, 0, 0, &[(1, 0, 0)]), rule(1, 1, -6, &[(0, 0, 2)])];
    refuses(&bytes(&knot), &[0; 7], 0, 13, 16);
    // plain readers refuse tag 5, and so does this call
    refuses(&hexadecimal("01 00 05 01 00 00 00 01 05 00 03 00 00 00"), &[0; 4], 2, 3, 8);
}

#[test]
fn the_empty_file() {
    assert_eq!(answer(&[], &[], 0), (Bounded::Bounded, vec![]));
    assert_eq!(answer(&[], &[], 3), (Bounded::Bounded, vec![0x5A; 3]));
    refuses(&[], &[0], 0, 14, 0);
    refuses(&[], &[0; 4], 3, 14, 0);
}

#[test]
fn limits_of_the_format() {
    // 256 variables in a chain, each one more than the one before, rules last to first
    let mut list: Vec<Field> = (0..256).map(|_| below(0, 300)).collect();
    list.extend((1..256).rev().map(|v| rule(1, v as u8, 1, &[((v - 1) as u8, 0, 1)])));
    let mut spans = vec![(0, 300); 256];
    assert_eq!(lifts(&list, &spans), (0..256).collect::<Vec<i64>>());
    spans[100] = (0, 50);
    let due = |v: i64| if v < 100 { v } else { v - 50 };
    assert_eq!(lifts(&list, &spans), (0..256).map(due).collect::<Vec<i64>>());
    let (file, ranges) = (bytes(&list), ranged::bytes(&spans));
    refuses(&file, &ranges, 511, 15, 0);
    refuses(&file, &ranges[..1_023], 512, 14, 0);
    spans[255] = (0, 301);
    refuses(&file, &ranged::bytes(&spans), 511, 20, 0);
}

fn printed(list: &[Field], spans: &[Span]) -> String {
    String::from_utf8(print_bounds(&framed(&bytes(list), &ranged::bytes(spans)))).unwrap()
}

#[test]
fn the_program() {
    assert_eq!(printed(&[], &[]), "");
    assert_eq!(printed(&[standard(0, 9)], &[(3, 4)]), "");
    let list = vec![standard(-9, 9), above(-9, 9), below(-9, 9), rule(1, 1, -2, &[(0, 0, 1)])];
    assert_eq!(printed(&list, &[(-1, 4), (-9, 9), (0, 9)]), "least 1 -3\nmost 2 -9\n");
    assert_eq!(printed(&list, &[(-1, 4), (-9, 9)]), "refused 14 0\n");
    assert_eq!(printed(&list, &[(-1, 4), (-9, 9), (0, -1)]), "refused 20 0\n");
    assert_eq!(printed(&[below(1, 0)], &[(0, 0)]), "refused 8 0\n");
    for misframed in [&[][..], &[0], &[0, 1], &[0, 9, 1, 0, 5, 1, 0, 0, 0, 1]] {
        assert_eq!(print_bounds(misframed), b"refused 16 0\n");
    }
    assert_eq!(print_bounds(&[0, 0]), b"");
    assert_eq!(print_bounds(&[0, 0, 0]), b"refused 14 0\n");
    // 60,000 bytes of file, 256 variables: 61,026 bytes in all
    let brim = bytes(&limits::brimful(&mut Random::new(1), 50));
    assert!(matches!(read(&brim), Reading::Accepted { variables: 256, .. }));
    let mut input = framed(&brim, &ranged::bytes(&[(0, 1); 256]));
    assert_eq!(input.len(), 61_026);
    let text = String::from_utf8(print_bounds(&input)).unwrap();
    assert_eq!(text.lines().count(), 256);
    input.push(0);
    assert_eq!(print_bounds(&input), b"refused 16 0\n");
    let mut long = vec![0; 61_026];
    assert_eq!(print_bounds(&long), b"refused 14 0\n");
    long[..2].copy_from_slice(&60_001u16.to_be_bytes());
    assert_eq!(print_bounds(&long), b"refused 1 0\n");
    long[..2].copy_from_slice(&61_024u16.to_be_bytes());
    assert_eq!(print_bounds(&long), b"refused 1 0\n");
    long[..2].copy_from_slice(&61_025u16.to_be_bytes());
    assert_eq!(print_bounds(&long), b"refused 16 0\n");
    long.push(0);
    assert_eq!(print_bounds(&long), b"refused 16 0\n");
}

/// Do the sentences fail on some case when the call has this mistake?
fn noticed(wrong: Wrong, cases: std::ops::Range<u64>) -> bool {
    let call =
        |file: &mut [u8], ranges: &mut [u8], buffer: &mut [u8]| bounds_with(file, ranges, buffer, wrong);
    cases.map(case).any(|case| try_case(&brute::OWN, &call, &case, &mut Tally::default()).is_err())
}

#[test]
fn wrong_calls_are_noticed() {
    for &wrong in Wrong::RANGED.iter().filter(|wrong| !bounded::PRINTED.contains(wrong)) {
        // look only where the answers differ
        let differs = |seed: &u64| see(&case(*seed), wrong) != see(&case(*seed), Wrong::Nothing);
        let Some(first) = (0..4_000).find(differs) else { panic!("{wrong:?} shows nowhere") };
        assert!(noticed(wrong, first..first + 1), "{wrong:?} is not noticed");
    }
    assert!(!noticed(Wrong::Nothing, 0..400));
}

#[test]
fn calls_that_write_their_inputs_are_noticed() {
    let writes = |which: usize| {
        let call = |file: &mut [u8], ranges: &mut [u8], buffer: &mut [u8]| {
            let answer = bounds(file, ranges, buffer);
            if let Some(last) = [file, ranges][which].last_mut() {
                *last ^= 1;
            }
            answer
        };
        (0..9).map(case).any(|c| try_case(&brute::OWN, &call, &c, &mut Tally::default()).is_err())
    };
    assert!(writes(0) && writes(1));
}

#[test]
fn wrong_meanings_are_noticed() {
    let fails = |wrong: Wrong, seed: u64| {
        let call = |file: &mut [u8], ranges: &mut [u8], buffer: &mut [u8]| {
            bounds_with(file, ranges, buffer, wrong)
        };
        let (file, lists) = small(seed);
        brute::try_bounds(&call, &file, &lists, &mut Halves::default()).is_err()
    };
    // all that have to do with what bounds are, and not with refusals
    let first = Wrong::RANGED.iter().position(|&wrong| wrong == Wrong::StartsAtLent).unwrap();
    let last = Wrong::RANGED.iter().position(|&wrong| wrong == Wrong::BoundsAtEnd).unwrap();
    for &wrong in Wrong::RANGED[first..=last].iter().filter(|&&w| w != Wrong::BoundsFortyRounds) {
        assert!((0..1_500).any(|seed| fails(wrong, seed)), "{wrong:?} is not noticed");
    }
    assert!(!(0..300).any(|seed| fails(Wrong::Nothing, seed)));
}
