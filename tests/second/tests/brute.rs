//! The brute force notices wrong calls: each mistake about idle rules and about
//! kind 2 that shows in a small file.

use second::brute::{self, Calls, Tried};
use second::calls::{check_with, least_with, read_with};
use second::{gen, Wrong};

fn notices(calls: &Calls) -> bool {
    let differs = |seed| brute::try_file(calls, &gen::small(seed), &mut Tried::default()).is_err();
    (0..4_000).any(differs)
}

macro_rules! noticed {
    ($($wrong:ident)*) => {
        $(
            let calls = Calls {
                read: |file| read_with(file, Wrong::$wrong),
                least: |file, a, buffer| least_with(file, a, buffer, Wrong::$wrong),
                check: |file, a, report| check_with(file, a, report, Wrong::$wrong),
            };
            assert!(notices(&calls), "{:?} is not noticed", Wrong::$wrong);
        )*
    };
}

#[test]
fn wrong_calls_are_noticed() {
    noticed! {
        IdleNever IdleOneMore IdleBelowOnly IdleByHigh IdleByZero IdleByLeast IdleDraws IdleOffends
        IdleNamesPlace IdleEndsEdges IdleEndsSearch IdleWholeHead IdleLiteralsOnly IdleSizesOnly
        IdleNoQuotients IdleFailingOnly IdleIfFailingOnly IdleFailingGives IdleAllFail
        IdleAtLeastEarly IdleAtLeastLate IdleBelowEarly IdleBelowLate IdleSizeAtLow IdleSizeAtHigh
        IdleRoundsDown IdleRoundsToZero IdleRoundsAway IdleUndivided IdleConstantLate IdleNoConstant
        IdleMaxAsMin IdleMinAsMax IdleCarriesNothing IdleAllHigh IdleFirstTerm IdleHeadAtLow
        IdleStandardZero IdleStandardSkipped IdleNoStandard IdleUnlifted IdleNoConditions
        IdleNotMixed IdleNotKept IdleNotCounted IdleNotNumbered
    }
}

#[test]
fn wrong_calls_about_kind_two_are_noticed() {
    noticed! {
        KindTwoRefused KindTwoHeadRefused KindTwoIsOne LiteralsSwap PlainUnswapped StandardUnswapped
        OwnHeadUnswapped CarriedUnswapped SizeUnswapped ProductUnswapped LargestUnswapped
        QuotientUnswapped SwapsByVariable AboveNotKept AboveRisingKept AboveKeptAmongAbove
        BelowKeptAmongBelow AboveNotKeptInLiteral AboveFromLow AboveLargerCounts AboveNoFloor
        AboveCeiling AboveRoundsDown AboveUnmetByMore AboveOpsTurned AboveSetTurned AboveMarkZero
        AboveShowsHigh GroupedByMark AboveFallingAtMost AboveConditionsTurned AboveRulesTurned
        AboveFallingBoth AboveRisingNoCondition AboveKeptCondition AboveMixedOnce NoEdgeToAbove
        EdgeToRisingAbove EdgeToFallingBelow EdgesToKeptOnly AboveDrawsNone ComponentOfOneKind
        AboveNeverOffends AboveIdleNever AboveIdleOneLess AboveIdleOverOnly AboveIdleByLow
        AboveIdleByMost AboveIdleAsBelow AboveFailingGives AboveLiteralsAtLow AboveSizeAtLow
        AboveSizeAtHigh AboveSizeAtNearer AboveSizeAtZero AboveLeastRoundsDown
        AboveLeastRoundsToZero AboveLeastUndivided AboveLeastNoConstant AboveLeastAllLow
        AboveLeastMaxAsMin AboveLeastMinAsMax AboveLeastCarriesNothing AboveLeastProductZero
        AboveLeastFirstTerm AboveLeastHeadAtHigh AboveLeastStandardZero
    }
}

#[test]
fn right_calls_pass() {
    assert!(!notices(&brute::OWN));
}
