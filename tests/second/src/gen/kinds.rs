//! Which kinds the variables of a file have, and how a variable has to stand in
//! a body to be kept.

use super::prng::Random;
use crate::program::{Kind, AT_LEAST, BELOW};

/// A founded kind: in so many of a hundred cases from above.
pub fn founded(random: &mut Random, above: usize) -> Kind {
    if above > 0 && random.percent(above) {
        Kind::Above
    } else {
        Kind::Below
    }
}

/// Founded in so many of a hundred cases, else standard.
pub fn any(random: &mut Random, founded_ones: usize, above: usize) -> Kind {
    if random.percent(founded_ones) {
        founded(random, above)
    } else {
        Kind::Standard
    }
}

/// The sign of a coefficient with which a founded variable is kept in a rule
/// for this head: moved away from its end, it moves the head away from its own.
pub fn sign(head: Kind, variable: Kind) -> i64 {
    if (head == Kind::Above) == (variable == Kind::Above) {
        1
    } else {
        -1
    }
}

/// The op of a literal in which a founded variable is kept.
pub fn op(variable: Kind) -> u8 {
    match variable {
        Kind::Above => BELOW,
        _ => AT_LEAST,
    }
}

/// 1 where the kind moves up from its starting end, -1 where it moves down.
pub fn away(kind: Kind) -> i64 {
    match kind {
        Kind::Above => -1,
        _ => 1,
    }
}
