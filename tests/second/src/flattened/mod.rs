//! The sentences about flattening, tried on what the given calls answer. Answers are
//! found a second way (src/flattened/scan.rs), and a plain file is led back to the
//! nested one it came from (src/flattened/back.rs).

mod back;
mod names;
mod scan;

use crate::anew::{lend, Normalize};
use crate::brute::Calls;
use crate::flat::{flatten_with, Flat};
use crate::gen::fields::{self, Field};
use crate::gen::nested::Case;
use crate::graph;
use crate::nested;
use crate::normal::Normal;
use crate::program::*;
use crate::reader::Refusal;
use crate::tally::Tally;
use crate::walk::{begin_with, Begun, WORDS};
use crate::wrong::Wrong;
use crate::{Reading, Solved, Verdict};
pub use back::nested_of;
pub use names::required;
pub use scan::{scan, Scan};

/// The byte that buffers are full of before.
const FILL: u8 = 0xA5;

/// A nested file whose fields pass, gone over a second time.
pub struct Passed {
    /// Kind, low and high of the file's own variables.
    pub variables: Vec<(u8, i64, i64)>,
    pub rules: usize,
    pub constraints: usize,
    /// Where the trees begin.
    pub first: usize,
    /// Each tree's head and what was found in it.
    pub trees: Vec<(usize, Scan)>,
}

impl Passed {
    pub fn added(&self) -> usize {
        self.trees.iter().map(|(_, scan)| scan.added()).sum()
    }

    /// How many bytes the plain file has.
    pub fn room(&self) -> usize {
        self.first + self.trees.iter().map(|(_, scan)| scan.room()).sum::<usize>()
    }

    /// What a plain reader says of the plain file.
    pub fn counts(&self) -> Reading {
        let rules = self.rules + self.added() + self.trees.len();
        let variables = self.variables.len() + self.added();
        Reading::Accepted { variables, rules, constraints: self.constraints }
    }
}

/// Refusals 1 to 12, without 13.
fn fields_refused(file: &[u8]) -> Option<Refusal> {
    match begin_with(file, &mut [0; WORDS * VARIABLES], Wrong::Nothing) {
        Begun::Refused { number, place } => Some(Refusal { number, place }),
        Begun::Begun(_) => None,
    }
}

/// What reading says, field by field; why not, where a reason has a name.
pub fn passed(file: &[u8]) -> Result<Passed, (Refusal, &'static str)> {
    if file.len() > FILE_BYTES {
        return Err((Refusal { number: 1, place: 0 }, ""));
    }
    let taken = fields::taken(file);
    let own = taken.iter().position(|field| field.tag == 5).unwrap_or(taken.len());
    let first = fields::place(&taken, own);
    if let Some(refusal) = fields_refused(&file[..first]) {
        return Err((refusal, "before the trees"));
    }
    let count = |tag: u8| fields::count(&taken[..own], tag);
    let mut passed = Passed {
        variables: fields::variables(&taken[..own]),
        rules: count(2),
        constraints: count(3),
        first,
        trees: Vec::new(),
    };
    let mut place = first;
    for field in &taken[own..] {
        if let Err((number, why)) = try_tree(&mut passed, field) {
            return Err((Refusal { number, place }, why));
        }
        place += 3 + field.value.len();
    }
    match place < file.len() {
        true => Err((Refusal { number: 2, place }, if own < taken.len() { "after a tree" } else { "" })),
        false => Ok(passed),
    }
}

/// A whole field from the first tag 5 on.
fn try_tree(passed: &mut Passed, field: &Field) -> Result<(), (usize, &'static str)> {
    match field.tag {
        5 => {}
        0 | 4 => return Err((3, "tag 0 or 4")),
        1..=3 => return Err((4, "tag 1 to 3")),
        _ => return Err((3, "tag above 5")),
    }
    let range = |v: usize| passed.variables.get(v).map_or((0, 0), |v| (v.1, v.2));
    let scan = scan(&field.value, &range).map_err(|why| (18, why))?;
    let head = usize::from(field.value[0]);
    let declared = passed.variables.len();
    let (added, trees) = (passed.added(), passed.trees.len());
    if declared + added + scan.added() > VARIABLES {
        return Err((5, "variables"));
    }
    if passed.rules + added + trees + scan.added() + 1 > RULES {
        return Err((5, "rules"));
    }
    match passed.variables.get(head) {
        None if head < declared + added => return Err((9, "head, number of an added variable")),
        None => return Err((9, "head")),
        Some((0, ..)) => return Err((9, "standard head")),
        _ => {}
    }
    match scan.leaves.iter().find(|&&leaf| leaf >= declared) {
        Some(&leaf) if leaf < declared + added => return Err((9, "leaf, number of an added variable")),
        Some(&leaf) if leaf < declared + added + scan.added() => {
            return Err((9, "leaf, number of its own tree"))
        }
        Some(_) => return Err((9, "leaf")),
        None => {}
    }
    let same = |i: &usize| scan.leaves[..*i].iter().position(|&leaf| leaf == scan.leaves[*i]);
    if let Some((i, j)) = (0..scan.leaves.len()).find_map(|i| Some((i, same(&i)?))) {
        let one = scan.parents[i] == scan.parents[j];
        return Err((11, if one { "in one node" } else { "in two nodes" }));
    }
    if let Some(&(low, high)) = scan.ranges.iter().find(|r| r.0 < -VALUE || r.1 > VALUE) {
        return Err((19, passes(low, high, scan.root)));
    }
    passed.trees.push((head, scan));
    Ok(())
}

fn passes(low: i64, high: i64, root: (i64, i64)) -> &'static str {
    match (low < -VALUE, high > VALUE) {
        _ if root.0 >= -VALUE && root.1 <= VALUE => "brought back by the root",
        (true, _) if low == -VALUE - 1 => "-30,001",
        (true, _) => "low",
        _ if high == VALUE + 1 => "30,001",
        _ => "high",
    }
}

/// Refusal 13 of a nested file whose fields pass, judged on the program in memory.
fn invalid(file: &[u8]) -> Option<Refusal> {
    let nested = nested::read(file, Wrong::Nothing).ok()?;
    let program = Flat::of(&nested).program(&nested);
    let rule = graph::first_offending_rule(&program)?;
    Some(Refusal { number: 13, place: program.rules[rule].place })
}

/// The answer that is due for a buffer of this length.
pub fn due(file: &[u8], lent: usize) -> Normal {
    let refused = |Refusal { number, place }| Normal::Refused { number, place };
    let passed = match passed(file) {
        Ok(passed) => passed,
        Err((refusal, _)) => return refused(refusal),
    };
    match invalid(file) {
        Some(refusal) => refused(refusal),
        None if passed.room() > FILE_BYTES.min(lent) => Normal::Refused { number: 17, place: 0 },
        None => Normal::Written(passed.room()),
    }
}

/// Tries everything on a case. The error says what failed.
pub fn try_case(
    calls: &Calls,
    flatten: Normalize,
    case: &Case,
    tally: &mut Tally,
) -> Result<(), String> {
    tally.hit(format!("made: {}", case.label));
    let passed = passed(&case.file);
    let mut lengths = vec![case.buffer];
    if let Ok(passed) = &passed {
        lengths.extend([passed.room(), passed.room().saturating_sub(1)]);
    }
    let mut out = None;
    for length in lengths {
        let (answer, written) = try_length(flatten, &case.file, length)?;
        if length == case.buffer && case.due.is_some_and(|due| due != answer) {
            return Err(format!("{:?} by the making, {answer:?}", case.due));
        }
        names::of_answer(case, length, answer, &passed).for_each(|name| tally.hit(name));
        if written.is_some() && out.is_some() && written != out {
            return Err(format!("buffer of {length}: another output"));
        }
        out = written.or(out);
    }
    try_plain_calls(calls, &case.file, &passed)?;
    if let (Some(out), Ok(passed)) = (out, &passed) {
        try_output(calls, flatten, &case.file, passed, &out)?;
        names::of_file(&case.file, passed, &out).into_iter().for_each(|name| tally.hit(name));
    }
    Ok(())
}

/// The answer for a buffer of this length, which is the one that is due, and what is
/// written, if something is. All other bytes are as they were.
fn try_length(
    flatten: Normalize,
    file: &[u8],
    length: usize,
) -> Result<(Normal, Option<Vec<u8>>), String> {
    let wanted = due(file, length);
    let (answer, bytes) = lend(length, |buffer| flatten(file, buffer));
    let Some(bytes) = bytes.filter(|_| answer == wanted) else {
        return Err(format!("buffer of {length}: {answer:?}, {wanted:?} was due; or bytes around it"));
    };
    let written = if let Normal::Written(n) = answer { n } else { 0 };
    if bytes[written..].iter().any(|&byte| byte != FILL) {
        return Err(format!("buffer of {length}: a byte after the output, or of a refusal"));
    }
    let out = matches!(answer, Normal::Written(_)).then(|| bytes[..written].to_vec());
    Ok((answer, out))
}

/// Plain readers refuse the first tag 5 where the fields before it pass.
fn try_plain_calls(
    calls: &Calls,
    file: &[u8],
    passed: &Result<Passed, (Refusal, &'static str)>,
) -> Result<(), String> {
    let taken = fields::taken(file);
    let tree = taken.iter().position(|field| field.tag == 5);
    let wanted = match (passed, tree) {
        (Err((Refusal { number: 1, .. }, _)), _) => Refusal { number: 1, place: 0 },
        (Err((refusal, "before the trees")), _) => *refusal,
        (_, Some(tree)) => Refusal { number: 3, place: fields::place(&taken, tree) },
        (Err((refusal, _)), None) => *refusal,
        (Ok(_), None) => return Ok(()),
    };
    let Refusal { number, place } = wanted;
    let read = (calls.read)(file) == Reading::Refused { number, place };
    let (solved, model) = lend(9, |buffer| (calls.least)(file, &[0], buffer));
    let (verdict, report) = lend(9, |buffer| (calls.check)(file, &[0], buffer));
    let refused =
        solved == Solved::Refused { number, place } && verdict == Verdict::Refused { number, place };
    let untouched = model == Some(vec![FILL; 9]) && report == Some(vec![FILL; 9]);
    match read && refused && untouched {
        true => Ok(()),
        false => Err(format!("plain readers: {wanted:?} was due")),
    }
}

/// An output is accepted with the counts that are due, leads back to the nested file,
/// and stays as it is.
fn try_output(
    calls: &Calls,
    flatten: Normalize,
    file: &[u8],
    passed: &Passed,
    out: &[u8],
) -> Result<(), String> {
    let reading = (calls.read)(out);
    if reading != passed.counts() {
        return Err(format!("the output is read so: {reading:?}, {:?} was due", passed.counts()));
    }
    let before = nested_of(out, passed.variables.len(), passed.rules)?;
    if before != back::canonical(file) {
        return Err("the output leads back to another file".to_string());
    }
    let (again, bytes) = lend(out.len(), |buffer| flatten(out, buffer));
    match again == Normal::Written(out.len()) && bytes.as_deref() == Some(out) {
        true => Ok(()),
        false => Err("the output is flattened otherwise".to_string()),
    }
}

/// Mistakes of reading that flattening has to show as well.
pub const READ: &[Wrong] = &[
    Wrong::DrawsFalling,
    Wrong::MixedAtZero,
    Wrong::EightBeforeSeven,
    Wrong::ThreeBeforeTwo,
    Wrong::HeadCountsTwice,
    Wrong::LoopPasses,
    Wrong::CoefficientShort,
    Wrong::ShortCircles,
    Wrong::DivisorRepeats,
    Wrong::AloneIsTen,
    Wrong::IdleNever,
    Wrong::IdleOneMore,
    Wrong::IdleBelowOnly,
    Wrong::IdleByHigh,
    Wrong::IdleByZero,
    Wrong::IdleByLeast,
    Wrong::IdleDraws,
    Wrong::IdleEndsEdges,
    Wrong::IdleEndsSearch,
    Wrong::IdleWholeHead,
    Wrong::IdleLiteralsOnly,
    Wrong::IdleSizesOnly,
    Wrong::IdleFailingOnly,
    Wrong::IdleSizeAtLow,
    Wrong::IdleSizeAtHigh,
    Wrong::IdleMinAsMax,
    Wrong::IdleAllHigh,
    Wrong::IdleFirstTerm,
    Wrong::IdleNoStandard,
    Wrong::IdleUnlifted,
    Wrong::KindTwoRefused,
    Wrong::KindTwoHeadRefused,
    Wrong::KindTwoIsOne,
    Wrong::PlainUnswapped,
    Wrong::LargestUnswapped,
    Wrong::SwapsByVariable,
    Wrong::NoEdgeToAbove,
    Wrong::EdgeToRisingAbove,
    Wrong::EdgeToFallingBelow,
    Wrong::EdgesToKeptOnly,
    Wrong::AboveDrawsNone,
    Wrong::AboveNeverOffends,
    Wrong::AboveIdleNever,
    Wrong::AboveIdleOverOnly,
    Wrong::AboveIdleByLow,
    Wrong::AboveIdleByMost,
    Wrong::AboveIdleAsBelow,
    Wrong::AboveSizeAtLow,
    Wrong::AboveSizeAtHigh,
    Wrong::AboveSizeAtNearer,
    Wrong::AboveLeastNoConstant,
    Wrong::AboveLeastMaxAsMin,
    Wrong::AboveLeastFirstTerm,
];

/// The answer on a case with a mistake, and all bytes of the lent buffer.
pub fn see(case: &Case, wrong: Wrong) -> (Normal, Option<Vec<u8>>) {
    lend(case.buffer, |buffer| flatten_with(&case.file, buffer, wrong))
}
