//! The walk over edges through libfounded.a: every answer, and every word and byte of the lent buffers and around them, against the second checker;
//! then each sentence about the walk tried on the proved calls alone.

use crate::{parts, proved_read};
use second::brute;
use second::gen::{self, walks::Case};
use second::stepped::{self, Walk, OWN};
use second::tally::Tally;
use second::Begun;

extern "C" {
    fn founded_begin(file: *const u8, length: usize, sets: *mut u64, words: usize) -> u64;
    fn founded_step(sets: *mut u64, words: usize, variables: usize, k: usize) -> u8;
    fn founded_components(sets: *const u64, words: usize, variables: usize, buffer: *mut u8, room: usize) -> u8;
}

const PROVED: Walk = Walk { read: &proved_read, begin: &proved_begin, step: &proved_step, components: &proved_components };

fn proved_begin(file: &[u8], sets: &mut [u64]) -> Begun {
    let packed = unsafe { founded_begin(file.as_ptr(), file.len(), sets.as_mut_ptr(), sets.len()) };
    match parts(packed) {
        (6, number, place, 0) if packed >> 56 == 0 => Begun::Refused { number, place },
        (11, variables, 0, 0) if packed >> 56 == 0 => Begun::Begun(variables),
        _ => panic!("begin answers {packed:#x}"),
    }
}

/// A bool of C is a byte that is 0 or 1.
fn truth(call: &str, byte: u8) -> bool {
    match byte {
        0 => false,
        1 => true,
        _ => panic!("{call} answers {byte}"),
    }
}

fn proved_step(sets: &mut [u64], variables: usize, k: usize) -> bool {
    truth("step", unsafe { founded_step(sets.as_mut_ptr(), sets.len(), variables, k) })
}

/// The sets are lent so that it shows when they are written.
fn proved_components(sets: &mut [u64], variables: usize, buffer: &mut [u8]) -> bool {
    let (words, room) = (sets.len(), buffer.len());
    truth("components", unsafe { founded_components(sets.as_mut_ptr().cast_const(), words, variables, buffer.as_mut_ptr(), room) })
}

/// What differs when the walk over this file's edges is begun.
pub fn differs_begin(file: &[u8]) -> Option<String> {
    let before = vec![!0; 9];
    let (proved, own) = (stepped::begin(&PROVED, file, before.clone()), stepped::begin(&OWN, file, before));
    (proved != own).then(|| format!("begin: {proved:?}, second {own:?}"))
}

/// What differs on this case, or what is not as the sentences say.
fn differs(case: &Case, tally: &mut Tally) -> Option<String> {
    let (proved, own) = (stepped::see(&PROVED, case), stepped::see(&OWN, case));
    let sentence = stepped::try_seen(case, &proved, tally).err();
    stepped::difference(&proved, &own).map(|what| format!("{what}, library and second")).or(sentence)
}

/// Files made for the walk, then those of the inputs.
pub fn walks(first: u64, cases: u64, failures: &mut Vec<String>) {
    let mut tally = Tally::default();
    for (seed, (name, case)) in (first..first + cases).flat_map(|seed| gen::walks::cases(seed).map(|c| (seed, c))) {
        if let Some(what) = differs(&case, &mut tally) {
            failures.push(format!("{name} {seed}, {}: {what}", case.label));
        }
    }
    tally.print();
    failures.extend(tally.missing_of(stepped::required(), (cases / 200).max(1) as usize));
    println!("{cases} walks through the library, and those of {cases} inputs");
}

/// Every walk of small files, stop by stop, and every graph of up to four variables.
pub fn brute_force(first: u64, programs: u64, failures: &mut Vec<String>) {
    let (tried, graphs, failed) = brute::try_walks(&PROVED, first..first + programs);
    println!("brute force, walks {tried:?}, {graphs} graphs");
    failures.extend(failed);
    for (name, count) in tried.each() {
        if programs >= 1_000 && count < 20 {
            failures.push(format!("brute force tried too little: walks, {name} {count}"));
        }
    }
}
