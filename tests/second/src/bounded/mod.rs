//! The sentences about bounds, tried on what the given calls answer. What is due is
//! found a second way (src/bounded/system.rs).

mod names;
mod sentences;
mod system;

use crate::bounds::{bounds_with, Bounded, Span};
use crate::brute::Calls;
use crate::gen::fields;
use crate::gen::ranged::{print_input, Case};
use crate::lent::lend_from;
use crate::program::*;
use crate::reader::parse_fields;
use crate::tally::Tally;
use crate::wrong::Wrong;
use crate::Reading;
pub use names::required;
pub use system::System;

/// File and ranges are lent so that it shows when they are written.
pub type Bounds<'a> = &'a dyn Fn(&mut [u8], &mut [u8], &mut [u8]) -> Bounded;

/// This checker's own.
pub const OWN: Bounds = &own;

fn own(file: &mut [u8], ranges: &mut [u8], buffer: &mut [u8]) -> Bounded {
    crate::bounds(file, ranges, buffer)
}

/// The byte that buffers are full of before, and that stands around all of them.
const FILL: u8 = 0xA5;

/// Makes the call with file, ranges and a buffer that holds these bytes, each in the
/// middle of a larger one. Answers the buffer's bytes too; the error says which of them
/// has changed though it may not.
pub fn ask(
    bounds: Bounds,
    file: &[u8],
    ranges: &[u8],
    before: &[u8],
) -> Result<(Bounded, Vec<u8>), String> {
    let (((answer, bytes), after), whole) = lend_from(FILL, file, |file| {
        lend_from(FILL, ranges, |ranges| lend_from(FILL, before, |buffer| bounds(file, ranges, buffer)))
    });
    if whole.as_deref() != Some(file) {
        return Err("the file, or bytes around it, has changed".to_string());
    }
    if after.as_deref() != Some(ranges) {
        return Err("the ranges, or bytes around them, have changed".to_string());
    }
    let bytes = bytes.ok_or("bytes around the buffer have changed")?;
    Ok((answer, bytes))
}

/// The lent ranges, taken apart.
fn spans(ranges: &[u8]) -> Vec<Span> {
    ranges.chunks(4).map(|four| (signed(four, 0), signed(four, 2))).collect()
}

/// A file as it is read, and the ranges that it declares.
pub struct File {
    pub reading: Reading,
    /// Kind, low and high of every variable; nothing where the file is refused.
    pub declared: Vec<(u8, i64, i64)>,
}

impl File {
    pub fn of(file: &[u8]) -> File {
        let reading = crate::read(file);
        let declared = match reading {
            Reading::Accepted { .. } => fields::variables(&fields::taken(file)),
            Reading::Refused { .. } => Vec::new(),
        };
        File { reading, declared }
    }

    /// The refusal that is due, if there is one.
    fn refusal(&self, ranges: &[u8], room: usize) -> Option<Bounded> {
        if let Reading::Refused { number, place } = self.reading {
            return Some(Bounded::Refused { number, place });
        }
        let fours = ranges.chunks_exact(4);
        let fits = fours.remainder().is_empty() && fours.len() == self.declared.len();
        let inside = |(&(a, b), d): (&Span, &(u8, i64, i64))| d.1 <= a && a <= b && b <= d.2;
        let number = if !fits {
            14
        } else if !spans(ranges).iter().zip(&self.declared).all(inside) {
            20
        } else if room / 2 < self.declared.len() {
            15
        } else {
            return None;
        };
        Some(Bounded::Refused { number, place: 0 })
    }
}

/// An accepted file with ranges that pass, and what is due.
pub struct Due {
    pub system: System,
    pub spans: Vec<Span>,
    /// What is written.
    pub values: Vec<i64>,
    pub rounds: usize,
}

impl Due {
    fn of(file: &File, bytes: &[u8], ranges: &[u8]) -> Option<Due> {
        if file.refusal(ranges, usize::MAX).is_some() {
            return None;
        }
        let spans = spans(ranges);
        let system = System::of(parse_fields(bytes, Wrong::Nothing).ok()?, &spans);
        let (least, rounds) = system.least();
        let values = system.small.mirrored(&least);
        Some(Due { system, spans, values, rounds })
    }
}

/// The answer for a buffer that holds these bytes, and all its bytes, are those due.
fn try_buffer(
    bounds: Bounds,
    case: &Case,
    file: &File,
    due: Option<&Due>,
    before: &[u8],
) -> Result<Bounded, String> {
    let (answer, bytes) = ask(bounds, &case.file, &case.ranges, before)?;
    let mut wanted = before.to_vec();
    let refused = file.refusal(&case.ranges, before.len());
    if let (None, Some(due)) = (refused, due) {
        let values = fields::assignment(&due.values);
        wanted[..values.len()].copy_from_slice(&values);
    }
    let room = before.len();
    if answer != refused.unwrap_or(Bounded::Bounded) {
        return Err(format!("buffer of {room}: {answer:?}, {refused:?} was due"));
    }
    match bytes == wanted {
        true => Ok(answer),
        false => Err(format!("buffer of {room}: {bytes:02X?}, {wanted:02X?} was due")),
    }
}

/// Tries everything on a case. The error says what failed.
pub fn try_case(calls: &Calls, bounds: Bounds, case: &Case, tally: &mut Tally) -> Result<(), String> {
    tally.hit(format!("made: {}", case.label));
    let file = File::of(&case.file);
    let due = Due::of(&file, &case.file, &case.ranges);
    let mut rooms = vec![case.buffer];
    if let Some(due) = &due {
        let least = 2 * due.spans.len();
        rooms.extend([least, least.saturating_sub(1), least + 3]);
    }
    for (i, &room) in rooms.iter().enumerate() {
        let before = vec![[FILL, 0, 0xFF, 0x5A][i]; room];
        let answer = try_buffer(bounds, case, &file, due.as_ref(), &before)?;
        if i == 0 && answer != case.due {
            return Err(format!("{:?} by the making, {answer:?}", case.due));
        }
        names::of_answer(case, &file, room, answer).into_iter().for_each(|name| tally.hit(name));
    }
    let reading = (calls.read)(&case.file);
    if let (Reading::Refused { number, place }, Bounded::Refused { number: n, place: p }) =
        (reading, case.due)
    {
        if (number, place) != (n, p) {
            return Err(format!("read says {reading:?}, bounds {:?}", case.due));
        }
    }
    if let Some(due) = &due {
        names::of_bounds(case, due).into_iter().for_each(|name| tally.hit(name));
        sentences::try_all(calls, bounds, case, due, tally)?;
    }
    Ok(())
}

/// Tries what the program prints for the standard input of this seed: lines by the
/// bounds, or the refusal.
pub fn try_printed(
    print: &dyn Fn(&[u8]) -> Vec<u8>,
    seed: u64,
    tally: &mut Tally,
) -> Result<(), String> {
    let input = print_input(seed);
    let text = String::from_utf8(print(&input)).map_err(|_| "not text".to_string())?;
    let announced = input.get(..2).map(|two| 256 * usize::from(two[0]) + usize::from(two[1]));
    let parts = announced.and_then(|length| input[2..].split_at_checked(length));
    let wanted = match parts.filter(|_| input.len() < 61_027) {
        None => "refused 16 0\n".to_string(),
        Some((bytes, ranges)) => lines(bytes, ranges)?,
    };
    names::of_text(&input, &wanted).into_iter().for_each(|name| tally.hit(name));
    match text == wanted {
        true => Ok(()),
        false => Err(format!("{text:?}, {wanted:?} was due")),
    }
}

/// The lines for a file and ranges, found the second way.
fn lines(bytes: &[u8], ranges: &[u8]) -> Result<String, String> {
    let file = File::of(bytes);
    if let Some(Bounded::Refused { number, place }) = file.refusal(ranges, 512) {
        return Ok(format!("refused {number} {place}\n"));
    }
    let due = Due::of(&file, bytes, ranges).ok_or("nothing is due")?;
    let line = |(v, value): (usize, &i64)| match file.declared[v].0 {
        1 => format!("most {v} {value}\n"),
        2 => format!("least {v} {value}\n"),
        _ => String::new(),
    };
    Ok(due.values.iter().enumerate().map(line).collect())
}

/// Mistakes of reading and of what rules mean that bounds have to show as well.
pub const READ: &[Wrong] = &[
    Wrong::KeepsStandard,
    Wrong::StartsAtZero,
    Wrong::DrawsFalling,
    Wrong::MixedAtZero,
    Wrong::EightBeforeSeven,
    Wrong::TenBeforeNine,
    Wrong::ThreeBeforeTwo,
    Wrong::FiveLate,
    Wrong::HeadCountsTwice,
    Wrong::LastOffender,
    Wrong::LoopPasses,
    Wrong::BelowOrEqual,
    Wrong::FirstLiteralOnly,
    Wrong::KeepsFalling,
    Wrong::ShortSums,
    Wrong::NothingIsZero,
    Wrong::CoefficientShort,
    Wrong::ShortProducts,
    Wrong::SeventeenIsTen,
    Wrong::TermByTerm,
    Wrong::ShortCircles,
    Wrong::KeepsOwnComponent,
    Wrong::HeadAlwaysKept,
    Wrong::RoundsDown,
    Wrong::RoundsToZero,
    Wrong::RoundsAway,
    Wrong::ConstantLate,
    Wrong::QuotientRises,
    Wrong::DivisorRepeats,
    Wrong::EightLikeOthers,
    Wrong::ConstraintLikeEight,
    Wrong::NoGroupIsEight,
    Wrong::AloneIsTen,
    Wrong::IdleNever,
    Wrong::IdleOneMore,
    Wrong::IdleBelowOnly,
    Wrong::IdleByHigh,
    Wrong::IdleByZero,
    Wrong::IdleByLeast,
    Wrong::IdleDraws,
    Wrong::IdleOffends,
    Wrong::IdleNamesPlace,
    Wrong::IdleEndsEdges,
    Wrong::IdleEndsSearch,
    Wrong::IdleWholeHead,
    Wrong::IdleLiteralsOnly,
    Wrong::IdleSizesOnly,
    Wrong::IdleNoQuotients,
    Wrong::IdleFailingOnly,
    Wrong::IdleIfFailingOnly,
    Wrong::IdleFailingGives,
    Wrong::IdleAllFail,
    Wrong::IdleAtLeastEarly,
    Wrong::IdleAtLeastLate,
    Wrong::IdleSizeAtLow,
    Wrong::IdleSizeAtHigh,
    Wrong::IdleNoConstant,
    Wrong::IdleShort,
    Wrong::IdleMaxAsMin,
    Wrong::IdleMinAsMax,
    Wrong::IdleAllHigh,
    Wrong::IdleFirstTerm,
    Wrong::IdleHeadAtLow,
    Wrong::IdleStandardZero,
    Wrong::IdleStandardSkipped,
    Wrong::IdleNoStandard,
    Wrong::IdleUnlifted,
    Wrong::IdleNotMixed,
    Wrong::IdleNotLimited,
    Wrong::KindTwoRefused,
    Wrong::KindTwoHeadRefused,
    Wrong::KindThreePasses,
    Wrong::KindTwoIsOne,
    Wrong::AboveProductPasses,
    Wrong::LiteralsSwap,
    Wrong::PlainUnswapped,
    Wrong::StandardUnswapped,
    Wrong::OwnHeadUnswapped,
    Wrong::CarriedUnswapped,
    Wrong::SizeUnswapped,
    Wrong::ProductUnswapped,
    Wrong::LargestUnswapped,
    Wrong::QuotientUnswapped,
    Wrong::SwapsByVariable,
    Wrong::AboveNotKept,
    Wrong::AboveRisingKept,
    Wrong::AboveKeptAmongAbove,
    Wrong::BelowKeptAmongBelow,
    Wrong::AboveNotKeptInLiteral,
    Wrong::AboveFromLow,
    Wrong::AboveRoundsDown,
    Wrong::AboveOpsTurned,
    Wrong::NoEdgeToAbove,
    Wrong::EdgeToRisingAbove,
    Wrong::EdgeToFallingBelow,
    Wrong::EdgesToKeptOnly,
    Wrong::AboveDrawsNone,
    Wrong::ComponentOfOneKind,
    Wrong::AboveNeverOffends,
    Wrong::AboveIdleNever,
    Wrong::AboveIdleOneLess,
    Wrong::AboveIdleOverOnly,
    Wrong::AboveIdleByLow,
    Wrong::AboveIdleByMost,
    Wrong::AboveIdleAsBelow,
    Wrong::AboveSizeAtLow,
    Wrong::AboveSizeAtHigh,
    Wrong::AboveSizeAtNearer,
    Wrong::AboveLeastRoundsDown,
    Wrong::AboveLeastRoundsToZero,
    Wrong::AboveLeastUndivided,
    Wrong::AboveLeastNoConstant,
    Wrong::AboveLeastAllLow,
    Wrong::AboveLeastCarriesNothing,
    Wrong::AboveLeastFirstTerm,
    Wrong::AboveLeastHeadAtHigh,
    Wrong::AboveLeastStandardZero,
];

/// Mistakes that show only in what is printed.
pub const PRINTED: &[Wrong] = &[
    Wrong::BoundsPrintLess,
    Wrong::BoundsPrintOneLess,
    Wrong::BoundsPrintOneMore,
    Wrong::BoundsPrintMost,
    Wrong::BoundsPrintStandard,
    Wrong::BoundsPrintMoved,
];

/// The answer on a case with a mistake, and all bytes of the lent buffer.
pub fn see(case: &Case, wrong: Wrong) -> (Bounded, Vec<u8>) {
    let mut buffer = vec![FILL; case.buffer];
    (bounds_with(&case.file, &case.ranges, &mut buffer, wrong), buffer)
}
