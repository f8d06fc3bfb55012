//! How occurrences are read: the right way, and ways that are wrong on purpose.

use second::program::{Kind, Program, Rule, AT_LEAST, BELOW, PLAIN, QUOTIENT, SIZE, SUM};

#[derive(Clone, Copy, Debug, PartialEq, Eq, PartialOrd, Ord)]
pub enum Direction {
    Rising,
    Falling,
    Mixed,
}

impl Direction {
    fn swapped(self) -> Direction {
        match self {
            Direction::Rising => Direction::Falling,
            Direction::Falling => Direction::Rising,
            Direction::Mixed => Direction::Mixed,
        }
    }
}

/// Document 01, "Which way a variable pushes", and 02, wish 3: "In a rule for
/// such a head plain terms swap rising and falling and literals do not".
pub fn direction(program: &Program, rule: &Rule, position: usize) -> Direction {
    direction_by(program, rule, position, Reading::Right)
}

pub fn direction_by(program: &Program, rule: &Rule, position: usize, reading: Reading) -> Direction {
    let term = &rule.terms[position];
    let (low, high) = (program.variables[term.variable].low, program.variables[term.variable].high);
    let way = match term.op {
        AT_LEAST => Direction::Rising,
        BELOW => Direction::Falling,
        _ if [SUM, QUOTIENT].contains(&rule.form) && term.number < 0 => Direction::Falling,
        _ if rule.form == SIZE && low < 0 && 0 < high => Direction::Mixed,
        _ if rule.form == SIZE && low < 0 => Direction::Falling,
        _ => Direction::Rising,
    };
    let swaps = match reading {
        Reading::PlainUnswapped => false,
        Reading::LiteralsSwap => true,
        _ => term.op == PLAIN,
    };
    match program.variables[rule.head].kind {
        Kind::Above if swaps => way.swapped(),
        _ => way,
    }
}

/// What moving a variable away from its starting end makes the rule demand.
#[derive(Clone, Copy, Debug, PartialEq, Eq)]
pub enum Moved {
    More,
    Less,
    Both,
}

/// A standard variable counts as starting at its low.
pub fn moved(program: &Program, rule: &Rule, position: usize, reading: Reading) -> Moved {
    let away = program.variables[rule.terms[position].variable].kind != Kind::Above;
    match direction_by(program, rule, position, reading) {
        Direction::Mixed => Moved::Both,
        Direction::Rising if away => Moved::More,
        Direction::Falling if !away => Moved::More,
        _ => Moved::Less,
    }
}

macro_rules! readings {
    (right: $($(#[$rsays:meta])* $right:ident,)*; wrong: $($(#[$says:meta])* $name:ident,)*) => {
        #[derive(Clone, Copy, Debug, PartialEq, Eq)]
        pub enum Reading {
            /// As the papers say.
            Right,
            $($(#[$rsays])* $right,)*
            $($(#[$says])* $name,)*
        }

        impl Reading {
            /// Right ones that say the same in other words.
            pub const OTHERS: &'static [Reading] = &[$(Reading::$right,)*];

            pub const WRONG: &'static [Reading] = &[$(Reading::$name,)*];
        }
    };
}

readings! {
    right:
    /// The value of a mixed occurrence must be supported. A valid file has a
    /// mixed variable in its head's component only in a rule that is idle (000,
    /// 02), so the support never comes back to the head, or nothing is supported,
    /// and nothing changes.
    MixedSupports,
    /// Idle rules are left out.
    IdleLeftOut,
    ;
    wrong:
    /// Standard variables are founded, so that they fall to their low.
    StandardFounded,
    /// The value of an occurrence that is not kept must itself be supported.
    FallingSupports,
    /// Falling occurrences of kind 1 are kept in the reduct like rising ones.
    FallingKept,
    /// Mixed occurrences are kept in the reduct.
    MixedKept,
    /// No occurrence needs support, so that circles hold themselves up.
    SupportedOnly,
    /// [x >= v] does not follow from [x >= v + 1].
    Unchained,
    /// Founded variables start at 0 and not at their end.
    FromZero,
    /// A rule that gives more than its head's high says nothing.
    NoCeiling,
    /// Op 2 also holds at the number itself.
    BelowOrEqual,
    /// A sum over a divisor is rounded down.
    RoundsDown,
    /// c is added after dividing.
    ConstantLate,
    /// Rules that give one more than their head's low at most are left out.
    IdleOneMore,
    /// Rules are left out by the least that they can give.
    IdleByLeast,
    /// Rules that give their head's high at most are left out.
    IdleByHigh,
    /// Kind 2 is read as kind 1.
    AboveAsBelow,
    /// Variables of kind 2 start at their low.
    AboveFromLow,
    /// [x <= v] does not follow from [x <= v - 1].
    AboveUnchained,
    /// A rule that gives less than the low of its head of kind 2 says nothing.
    AboveNoFloor,
    /// A rule that gives more than the high of its head of kind 2 is broken.
    AboveCeiling,
    /// Rules for kind 2 forbid, and support nothing.
    AboveOnlyForbids,
    /// Falling occurrences of kind 2 need no support.
    AboveNotKept,
    /// Rising occurrences of kind 2 are kept like falling ones.
    AboveRisingKept,
    /// Variables of kind 2 are kept in rules for kind 2 only.
    AboveKeptAmongAbove,
    /// Variables of kind 1 are kept in rules for kind 1 only.
    BelowKeptAmongBelow,
    /// In a rule for kind 2 plain terms do not swap.
    PlainUnswapped,
    /// In a rule for kind 2 literals swap too.
    LiteralsSwap,
    /// Of a variable of kind 2, op 1 means at most its number.
    AboveOpsTurned,
    /// A rule for kind 2 rounds a sum over a divisor down.
    AboveRoundsDown,
    /// Rules that give one less than the high of kind 2 are left out.
    AboveIdleOneLess,
    /// Rules for kind 2 are left out by the most that they can give.
    AboveIdleByMost,
    /// Rules that give the low of their head of kind 2 are left out.
    AboveIdleByLow,
    /// Rules for kind 2 are left out by the ends of the ranges alone.
    AboveIdleByEnds,
}

impl Reading {
    pub fn named(name: &str) -> Option<Reading> {
        let right = [Reading::Right].iter().chain(Reading::OTHERS);
        right.chain(Reading::WRONG).copied().find(|r| format!("{r:?}") == name)
    }
}
