//! Samples of the walk over edges, worked out by hand from document 02, and
//! whether the sentences about it notice wrong calls.

mod common;

use common::hexadecimal;
use second::brute::{try_walk, walks, Stepped};
use second::gen::fields::{bytes, quotient, rule, variable, Field};
use second::gen::walks::{case, small};
use second::graph;
use second::stepped::{self, begins, see, try_begins, try_graphs, try_seen, Walk, OWN};
use second::tally::Tally;
use second::{begin, components, read, step, Begun, Reading, Wrong};

/// The sets of so many variables, each without its words after the first.
fn begun(file: &[u8], variables: usize) -> Vec<u64> {
    let mut sets = vec![!0; 4 * variables];
    assert_eq!(begin(file, &mut sets), Begun::Begun(variables));
    assert!((0..sets.len()).all(|i| i % 4 == 0 || sets[i] == 0));
    firsts(&sets)
}

fn firsts(sets: &[u64]) -> Vec<u64> {
    sets.iter().step_by(4).copied().collect()
}

/// Sets of which the first words are these.
fn sets_of(words: &[u64]) -> Vec<u64> {
    words.iter().flat_map(|&word| [word, 0, 0, 0]).collect()
}

fn with(variables: &[Field], rules: &[Field]) -> Vec<u8> {
    bytes(&[variables, rules].concat())
}

#[test]
fn sample_of_the_printing_program() {
    // The file of document 01: v1 if v0, v1 if v2, v2 if v1; v0 is standard.
    let file = hexadecimal(
        "01 00 05 00 00 00 00 01 01 00 05 01 00 00 00 01 01 00 05 01 00 00 00 01 \
         02 00 08 06 01 00 01 00 01 00 01 02 00 08 06 01 00 01 02 01 00 01 \
         02 00 08 06 02 00 01 01 01 00 01",
    );
    assert_eq!(begun(&file, 3), [0b000, 0b100, 0b010]);
    let mut sets = sets_of(&[0b000, 0b100, 0b010]);
    let mut after = |k: usize| {
        assert!(step(&mut sets, 3, k));
        firsts(&sets)
    };
    assert_eq!(after(0), [0b000, 0b100, 0b010]);
    assert_eq!(after(1), [0b000, 0b100, 0b110]);
    assert_eq!(after(2), [0b000, 0b110, 0b110]);
    let mut buffer = [9; 4];
    assert!(components(&sets, 3, &mut buffer));
    assert_eq!(buffer, [0, 1, 1, 9]);
}

#[test]
fn row_thirteen() {
    // a >= |b|, b >= 2a + c: with -6 a circle, with -30 the second rule is idle.
    let row = |c: i64| {
        let rules = [rule(5, 0, 0, &[(1, 0, 0)]), rule(1, 1, c, &[(0, 0, 2)])];
        with(&[variable(1, 0, 10), variable(1, -10, 10)], &rules)
    };
    assert_eq!(read(&row(-6)), Reading::Refused { number: 13, place: 16 });
    assert_eq!(begun(&row(-6), 2), [0b10, 0b01]);
    assert!(matches!(read(&row(-30)), Reading::Accepted { .. }));
    assert_eq!(begun(&row(-30), 2), [0b10, 0b00]);
    // a >= |a|, and a standard b whose size is mixed, and one whose size is not
    let own = with(&[variable(1, -1, 1)], &[rule(5, 0, 1, &[(0, 0, 0)])]);
    assert_eq!(begun(&own, 1), [1]);
    for (low, due) in [(-1, 0b10), (0, 0b00)] {
        let standard = [variable(1, 0, 3), variable(0, low, 1)];
        assert_eq!(begun(&with(&standard, &[rule(5, 0, 1, &[(1, 0, 0)])]), 2), [due, 0]);
    }
}

#[test]
fn kinds_and_forms() {
    // Head of kind 2: plain terms swap. v0 is of kind 2, v1 of kind 1, v2 of kind 2.
    let three = [variable(2, 0, 9), variable(1, 0, 9), variable(2, 0, 9)];
    let of = |field: Field| begun(&with(&three, &[field]), 3);
    assert_eq!(of(rule(1, 0, 0, &[(1, 0, 1), (2, 0, 1)])), [0b100, 0, 0]);
    assert_eq!(of(rule(1, 0, 9, &[(1, 0, -1), (2, 0, -1)])), [0b010, 0, 0]);
    assert_eq!(of(rule(1, 1, 9, &[(0, 0, -1), (2, 0, 1)])), [0, 0b001, 0]);
    assert_eq!(of(rule(6, 0, 3, &[(0, 1, 1), (1, 1, 1), (2, 2, 1)])), [0b110, 0, 0]);
    assert_eq!(of(rule(6, 1, 3, &[(0, 2, 1), (1, 2, 1), (2, 1, 1)])), [0, 0b001, 0]);
    // A divisor's byte 0 names no variable.
    assert_eq!(of(quotient(1, 0, 2, &[(1, 0, 1)])), [0, 0b010, 0]);
    // v1 >= 9 if v1 >= 10 never gives anything, and v1 >= 0 is its low.
    assert_eq!(of(rule(6, 1, 9, &[(1, 1, 10)])), [0, 0, 0]);
    assert_eq!(of(rule(6, 1, 0, &[(1, 1, 1)])), [0, 0, 0]);
    assert_eq!(of(rule(6, 1, 1, &[(1, 1, 1)])), [0, 0b010, 0]);
}

#[test]
fn layout() {
    let many = vec![variable(1, 0, 9); 256];
    let rules = [rule(2, 255, 1, &[(0, 0, 0), (255, 0, 0)]), rule(2, 0, 1, &[(64, 0, 0), (191, 0, 0)])];
    let mut sets = vec![7; 1_030];
    assert_eq!(begin(&with(&many, &rules), &mut sets), Begun::Begun(256));
    let set: Vec<(usize, u64)> = (0..1_024).filter(|&i| sets[i] != 0).map(|i| (i, sets[i])).collect();
    assert_eq!(set, [(1, 1), (2, 1 << 63), (1_020, 1), (1_023, 1 << 63)]);
    assert_eq!(sets[1_024..], [7; 6]);
    assert!(step(&mut sets, 256, 0));
    assert_eq!(sets[1_020..], [1, 1, 1 << 63, 1 << 63, 7, 7, 7, 7, 7, 7]);
}

#[test]
fn refusals_of_begin() {
    let two = with(&[variable(1, 0, 9), variable(1, 0, 9)], &[rule(1, 0, 1, &[(1, 0, 1)])]);
    let knot = with(&[variable(1, -1, 1)], &[rule(5, 0, 1, &[(0, 0, 0)])]);
    let refused = |number, place| Begun::Refused { number, place };
    for (file, words, due) in [
        (two.clone(), 7, refused(15, 0)),
        (two.clone(), 2, refused(15, 0)),
        (two.clone(), 0, refused(15, 0)),
        (two.clone(), 8, Begun::Begun(2)),
        (two.clone(), 9, Begun::Begun(2)),
        (knot.clone(), 3, refused(15, 0)),
        (knot.clone(), 4, Begun::Begun(1)),
        (vec![], 0, Begun::Begun(0)),
        (vec![], 3, Begun::Begun(0)),
        (vec![0; 60_001], 9, refused(1, 0)),
        (two[..two.len() - 1].to_vec(), 0, refused(2, 16)),
        (hexadecimal("03 00 03 01 00 00 01 00 05 00 00 00 00 01"), 0, refused(4, 6)),
        (bytes(&vec![variable(0, 0, 1); 257]), 1_024, refused(5, 2_048)),
        (bytes(&vec![variable(0, 0, 1); 256]), 1_023, refused(15, 0)),
        (bytes(&vec![variable(0, 0, 1); 256]), 1_024, Begun::Begun(256)),
    ] {
        let mut sets = vec![7; words];
        assert_eq!(begin(&file, &mut sets), due);
        let kept = if let Begun::Begun(n) = due { 4 * n } else { 0 };
        assert!(sets[kept..].iter().all(|&word| word == 7));
    }
}

#[test]
fn limits_of_steps() {
    let ones = vec![!0; 1_032];
    let says = |words: usize, variables: usize, k: usize| {
        let mut sets = ones[..words].to_vec();
        sets.iter_mut().take(2).for_each(|word| *word = 1);
        let before = sets.clone();
        let answer = step(&mut sets, variables, k);
        assert!(answer || sets == before);
        answer
    };
    assert!(says(4, 1, 0) && says(8, 2, 1) && says(1_024, 256, 255) && says(1_032, 256, 255));
    assert!(!says(0, 0, 0) && !says(4, 1, 1) && !says(8, 1, 1) && !says(8, 2, 2) && !says(7, 2, 1));
    assert!(!says(1_023, 256, 0) && !says(1_032, 256, 256) && !says(1_032, 257, 0));
    for many in [257, 1 << 16, 1 << 62, (1 << 62) + 1, 1 << 63, usize::MAX] {
        assert!(!says(1_032, many, 0) && !says(0, many, 0) && !says(1_032, 2, many));
        assert!(!components(&ones, many, &mut [0; 300]));
    }
    // All bits of the set of k are taken in, those of no variable too; a set after
    // the variables' has k and stays.
    let mut sets = vec![0b10, 0, 0, 0, 0, 5, 0, 1 << 63, 0b10, 0, 0, 0];
    assert!(step(&mut sets, 2, 1));
    assert_eq!(sets, [0b10, 5, 0, 1 << 63, 0, 5, 0, 1 << 63, 0b10, 0, 0, 0]);
}

#[test]
fn components_of_any_sets() {
    let mut none: [u8; 0] = [];
    assert!(components(&[], 0, &mut none) && components(&[1], 0, &mut none));
    // 1 and 0 have one another, 2 and 1 too; 2 and 0 do not.
    let sets = sets_of(&[0b010, 0b101, 0b010, 0b111]);
    let mut buffer = [9; 5];
    assert!(components(&sets, 4, &mut buffer));
    assert_eq!(buffer, [0, 0, 1, 3, 9]);
    let mut buffer = [9; 3];
    assert!(!components(&sets, 4, &mut buffer) && !components(&sets[..11], 3, &mut buffer));
    assert_eq!(buffer, [9; 3]);
    assert!(components(&sets[..12], 3, &mut buffer));
    assert_eq!(buffer, [0, 0, 1]);
}

#[test]
fn in_between() {
    // 0 -> 3 -> 1 -> 2 -> 0: what is reached by which round.
    let mut sets = sets_of(&[0b1000, 0b0100, 0b0001, 0b0010]);
    let mut after = |k: usize| {
        assert!(step(&mut sets, 4, k));
        firsts(&sets)
    };
    assert_eq!(after(0), [0b1000, 0b0100, 0b1001, 0b0010]);
    assert_eq!(after(1), [0b1000, 0b0100, 0b1001, 0b0110]);
    assert_eq!(after(2), [0b1000, 0b1101, 0b1001, 0b1111]);
    assert_eq!(after(3), [0b1111; 4]);
}

/// The search over paths against walks that are looked for stop by stop, on every
/// graph of three variables with every choice of stops.
#[test]
fn search_over_paths() {
    for graph in 0..512 {
        let edge = |x: usize, y: usize| graph >> (3 * x + y) & 1 == 1;
        let matrix: Vec<Vec<bool>> = (0..3).map(|x| (0..3).map(|y| edge(x, y)).collect()).collect();
        let lists: Vec<Vec<usize>> = (0..3).map(|x| (0..3).filter(|&y| edge(x, y)).collect()).collect();
        for stops in 0..8 {
            let allowed: Vec<usize> = (0..3).filter(|z| stops >> z & 1 == 1).collect();
            for x in 0..3 {
                let reached = graph::reached_by(&lists, x, |z| allowed.contains(&z));
                let due: Vec<bool> = (0..3).map(|y| walks(&matrix, x, y, &allowed)).collect();
                assert_eq!(reached, due, "graph {graph}, stops {stops}, from {x}");
            }
        }
    }
}

/// Do the sentences fail on this case?
fn fails(walk: &Walk, seed: u64) -> bool {
    let case = case(seed);
    try_seen(&case, &see(walk, &case), &mut Tally::default()).is_err()
}

#[test]
fn wrong_calls_are_noticed() {
    for &wrong in Wrong::WALK {
        let noticed = stepped::with(wrong, |walk| (0..200).any(|seed| fails(walk, seed)));
        assert!(noticed, "{wrong:?} is not noticed");
    }
    assert!(!(0..100).any(|seed| fails(&OWN, seed)));
}

/// Those about the sets before the first round, where reading is right.
#[test]
fn wrong_edges_are_noticed() {
    let fails = |walk: &Walk, seed: u64| {
        let case = case(seed);
        try_begins(&case, read(&case.file), &begins(walk, &case)).is_err()
    };
    for &wrong in stepped::DRAWN {
        let noticed = stepped::with(wrong, |walk| (0..1_200).any(|seed| fails(walk, seed)));
        assert!(noticed, "{wrong:?} is not noticed");
    }
    assert!(!(0..1_200).any(|seed| fails(&OWN, seed)));
}

#[test]
fn wrong_walks_of_small_files_are_noticed() {
    let fails = |walk: &Walk, seed: u64| try_walk(walk, &small(seed), &mut Stepped::default()).is_err();
    for wrong in [
        Wrong::BeginThirteen,
        Wrong::BeginAdds,
        Wrong::BeginAfterRounds,
        Wrong::EdgesBackwards,
        Wrong::EdgesBothWays,
        Wrong::StandardDrawn,
        Wrong::StandardNeverDrawn,
        Wrong::KeptLeftOut,
        Wrong::EdgesToKeptOnly,
        Wrong::EveryVariableDrawn,
        Wrong::IdleDraws,
        Wrong::IdleNever,
        Wrong::SelfReached,
        Wrong::SelfLeftOut,
        Wrong::RoundsDescending,
        Wrong::RoundBefore,
        Wrong::RoundNext,
        Wrong::JoinsIntoK,
        Wrong::LastSetOut,
        Wrong::FirstSetOut,
        Wrong::StepToTheEnd,
        Wrong::ComponentLast,
        Wrong::ComponentOwn,
        Wrong::ComponentOneWay,
        Wrong::LastRoundOut,
        Wrong::FirstRoundOut,
        Wrong::MixedOffends,
    ] {
        let found = stepped::with(wrong, |walk| (0..1_000).any(|seed| fails(walk, seed)));
        assert!(found, "{wrong:?} is not noticed");
    }
    assert!(!(0..300).any(|seed| fails(&OWN, seed)));
}

#[test]
fn wrong_rounds_of_all_graphs_are_noticed() {
    for wrong in [
        Wrong::RoundsDescending,
        Wrong::RoundBefore,
        Wrong::RoundNext,
        Wrong::JoinsIntoK,
        Wrong::KTakesIn,
        Wrong::LaterSetsJoin,
        Wrong::EarlierSetsJoin,
        Wrong::StepReplaces,
        Wrong::StepSelfLeftOut,
        Wrong::StepToTheEnd,
        Wrong::ComponentEither,
    ] {
        let found = stepped::with(wrong, |walk| try_graphs(walk, 3).is_err());
        assert!(found, "{wrong:?} is not noticed");
    }
    assert_eq!(try_graphs(&OWN, 3), Ok(512));
}
