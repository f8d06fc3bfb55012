//! What an accepted file says, taken apart.

use crate::wrong::Wrong;

pub const FILE_BYTES: usize = 60_000;
pub const VARIABLES: usize = 256;
pub const RULES: usize = 2_048;
pub const CONSTRAINTS: usize = 512;
pub const TERMS: usize = 16;
pub const VALUE: i64 = 30_000;
pub const COEFFICIENT: i64 = 1_000;
pub const DIVISOR: i64 = 1_000;

pub const SUM: u8 = 1;
pub const MAX: u8 = 2;
pub const MIN: u8 = 3;
pub const PRODUCT: u8 = 4;
pub const SIZE: u8 = 5;
pub const IF: u8 = 6;
pub const CARRY: u8 = 7;
pub const QUOTIENT: u8 = 8;

pub const AT_MOST_ZERO: u8 = 1;
pub const ONE_HOLDS: u8 = 2;

pub const PLAIN: u8 = 0;
pub const AT_LEAST: u8 = 1;
pub const BELOW: u8 = 2;
/// The op of a divisor, which is no term.
pub const OVER: u8 = 3;

#[derive(Clone, Copy, Debug, PartialEq, Eq)]
pub enum Kind {
    /// Kind 0: any value of its range.
    Standard,
    /// Kind 1: founded from below, lifted from its low.
    Below,
    /// Kind 2: founded from above, pushed down from its high.
    Above,
}

impl Kind {
    pub const ALL: [Kind; 3] = [Kind::Standard, Kind::Below, Kind::Above];

    /// The kind with this number.
    pub fn numbered(number: u8) -> Option<Kind> {
        Kind::ALL.get(usize::from(number)).copied()
    }

    pub fn number(self) -> u8 {
        match self {
            Kind::Standard => 0,
            Kind::Below => 1,
            Kind::Above => 2,
        }
    }

    pub fn founded(self) -> bool {
        self != Kind::Standard
    }
}

#[derive(Clone, Debug)]
pub struct Variable {
    pub kind: Kind,
    pub low: i64,
    pub high: i64,
}

impl Variable {
    pub fn founded(&self) -> bool {
        self.kind.founded()
    }

    /// Founded from above?
    pub fn above(&self) -> bool {
        self.kind == Kind::Above
    }

    /// The end at which the variable starts.
    pub fn start(&self) -> i64 {
        if self.above() {
            self.high
        } else {
            self.low
        }
    }

    /// The other end.
    pub fn far(&self) -> i64 {
        if self.above() {
            self.low
        } else {
            self.high
        }
    }

    /// Does `value` lie further from the starting end than `other`?
    pub fn further(&self, value: i64, other: i64) -> bool {
        if self.above() {
            value < other
        } else {
            value > other
        }
    }
}

#[derive(Clone, Debug)]
pub struct Term {
    pub variable: usize,
    pub op: u8,
    pub number: i64,
}

#[derive(Clone, Debug)]
pub struct Rule {
    /// Offset of the field's tag byte.
    pub place: usize,
    pub form: u8,
    pub head: usize,
    pub c: i64,
    /// 1 in every form but 8.
    pub divisor: i64,
    pub terms: Vec<Term>,
}

#[derive(Clone, Debug)]
pub struct Constraint {
    pub form: u8,
    pub c: i64,
    pub terms: Vec<Term>,
}

#[derive(Clone, Debug)]
pub struct Program {
    pub variables: Vec<Variable>,
    pub rules: Vec<Rule>,
    pub constraints: Vec<Constraint>,
    /// The deliberate mistake this program is to be judged with.
    pub wrong: Wrong,
}

/// Two bytes, big-endian, two's complement.
pub fn signed(bytes: &[u8], at: usize) -> i64 {
    i64::from(i16::from_be_bytes([bytes[at], bytes[at + 1]]))
}

/// Two bytes, big-endian, unsigned.
pub fn unsigned(bytes: &[u8], at: usize) -> usize {
    usize::from(bytes[at]) * 256 + usize::from(bytes[at + 1])
}
