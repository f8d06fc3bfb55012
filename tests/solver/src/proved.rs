//! The proved calls, through libfounded.a: the check on every assignment in the
//! ranges, a file written anew, the walk over its edges, and the bounds of half-filled
//! plans.

use second::bounds::Span;
use second::gen::ranged;
use second::program::{signed, Program};

extern "C" {
    fn founded_check(
        file: *const u8,
        length: usize,
        a: *const u8,
        n: usize,
        report: *mut u8,
        room: usize,
    ) -> u64;
    fn founded_normalize(file: *const u8, length: usize, buffer: *mut u8, room: usize) -> u64;
    fn founded_read(file: *const u8, length: usize) -> u64;
    fn founded_begin(file: *const u8, length: usize, sets: *mut u64, words: usize) -> u64;
    fn founded_step(sets: *mut u64, words: usize, variables: usize, k: usize) -> bool;
    fn founded_components(
        sets: *const u64,
        words: usize,
        variables: usize,
        buffer: *mut u8,
        room: usize,
    ) -> bool;
    fn founded_bounds(
        file: *const u8,
        length: usize,
        ranges: *const u8,
        n: usize,
        buffer: *mut u8,
        room: usize,
    ) -> u64;
}

const REFUSED: u64 = 6;
const WRITTEN: u64 = 10;
const BEGUN: u64 = 11;
const BOUNDED: u64 = 12;

/// Bytes lent beyond those that are written, and what is in them.
const BEYOND: usize = 3;
const FILL: u8 = 0xA5;

#[derive(Clone, Debug, PartialEq, Eq)]
pub enum Word {
    Stable,
    /// The variables of the set shown.
    Unfounded(Vec<usize>),
    Constraint,
    Rule,
    /// A refusal or `range`; neither is due here.
    Other(u64),
}

pub fn check(file: &[u8], values: &[i64]) -> Word {
    let assignment: Vec<u8> = values.iter().flat_map(|v| (*v as i16).to_be_bytes()).collect();
    let mut report = vec![0; 12 * values.len()];
    // SAFETY: each pointer is lent with the length of its buffer.
    let packed = unsafe {
        let (f, a, r) = (file.as_ptr(), assignment.as_ptr(), report.as_mut_ptr());
        founded_check(f, file.len(), a, assignment.len(), r, report.len())
    };
    match packed & 0xFF {
        1 => Word::Stable,
        2 => {
            let bounds = (packed >> 8 & 0xFFFF) as usize;
            Word::Unfounded(report.chunks(4).take(bounds).map(|e| usize::from(e[0])).collect())
        }
        3 => Word::Constraint,
        4 => Word::Rule,
        other => Word::Other(other),
    }
}

/// The file written anew, or nothing where it is refused.
pub fn normalize(file: &[u8]) -> Option<Vec<u8>> {
    let mut buffer = vec![0; file.len()];
    // SAFETY: each pointer is lent with the length of its buffer.
    let packed =
        unsafe { founded_normalize(file.as_ptr(), file.len(), buffer.as_mut_ptr(), buffer.len()) };
    let length = (packed >> 8) as usize;
    (packed & 0xFF == WRITTEN && length <= file.len()).then(|| buffer[..length].to_vec())
}

/// The walk over the edges of a file, stepped through.
pub struct Walked {
    /// All sets before the first round and after each.
    pub sets: Vec<Vec<u64>>,
    /// The component of each variable.
    pub firsts: Vec<u8>,
    /// The place of refusal 13.
    pub refused: Option<usize>,
}

/// Nothing where a call answers what is not due for a file whose fields pass.
pub fn walked(file: &[u8], variables: usize) -> Option<Walked> {
    let mut sets = vec![!0; 4 * variables];
    let words = sets.len();
    // SAFETY: each pointer is lent with the length of its buffer.
    let begun = unsafe { founded_begin(file.as_ptr(), file.len(), sets.as_mut_ptr(), words) };
    if begun != BEGUN + ((variables as u64) << 8) {
        return None;
    }
    let mut all = vec![sets.clone()];
    for k in 0..variables {
        // SAFETY: as above.
        if !unsafe { founded_step(sets.as_mut_ptr(), words, variables, k) } {
            return None;
        }
        all.push(sets.clone());
    }
    let mut firsts = vec![0; variables];
    // SAFETY: as above.
    let written = unsafe {
        founded_components(sets.as_ptr(), words, variables, firsts.as_mut_ptr(), firsts.len())
    };
    // SAFETY: as above.
    let read = unsafe { founded_read(file.as_ptr(), file.len()) };
    let refused = (read & 0xFF == REFUSED).then_some((read >> 24 & 0xFFFF) as usize);
    let other = refused.is_some() && read >> 8 & 0xFFFF != 13;
    (written && !other).then_some(Walked { sets: all, firsts, refused })
}

/// The bounds for lent ranges, a number for each variable. Nothing where the call
/// answers or writes what is not due.
pub fn bounds(file: &[u8], lent: &[Span]) -> Option<Vec<i64>> {
    let ranges = ranged::bytes(lent);
    let mut buffer = vec![FILL; 2 * lent.len() + BEYOND];
    // SAFETY: each pointer is lent with the length of its buffer.
    let packed = unsafe {
        let (f, r, b) = (file.as_ptr(), ranges.as_ptr(), buffer.as_mut_ptr());
        founded_bounds(f, file.len(), r, ranges.len(), b, buffer.len())
    };
    let kept = buffer[2 * lent.len()..].iter().all(|byte| *byte == FILL);
    (packed == BOUNDED && kept).then(|| (0..lent.len()).map(|v| signed(&buffer, 2 * v)).collect())
}

/// Every assignment in the ranges of a program, with the check's word on a file.
pub fn words(file: &[u8], program: &Program) -> Vec<(Vec<i64>, Word)> {
    let word = |values: Vec<i64>| {
        let word = check(file, &values);
        (values, word)
    };
    assignments(program).into_iter().map(word).collect()
}

/// Every assignment in the ranges.
fn assignments(program: &Program) -> Vec<Vec<i64>> {
    let mut all = vec![Vec::new()];
    for variable in &program.variables {
        let longer = |a: &Vec<i64>| -> Vec<Vec<i64>> {
            (variable.low..=variable.high).map(|v| [a.as_slice(), &[v]].concat()).collect()
        };
        all = all.iter().flat_map(longer).collect();
    }
    all
}
