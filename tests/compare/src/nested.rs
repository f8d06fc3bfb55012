//! Flattening through libfounded.a: every answer and every byte of the lent buffers and around them against the second checker; then each sentence
//! about flattening tried on the proved calls alone, and the stable assignments of small nested files held against those of what is written.

use crate::{printed, proved_normalize, proved_read, walk, written, FILL, PROVED};
use second::anew::{lend_from, Normalize};
use second::brute::{self, Nests};
use second::flattened;
use second::gen::{self, nested::Case};
use second::tally::Tally;
use second::Normal;

extern "C" {
    fn founded_flatten(nested: *const u8, length: usize, buffer: *mut u8, room: usize) -> u64;
}

const FLATTENS: Normalize = &proved_flatten;

fn proved_flatten(file: &[u8], buffer: &mut [u8]) -> Normal {
    written("flatten", unsafe { founded_flatten(file.as_ptr(), file.len(), buffer.as_mut_ptr(), buffer.len()) })
}

/// What differs when this file is flattened into a buffer that holds these bytes.
fn differs_flat(case: &Case, before: &[u8]) -> Option<String> {
    let (answer, bytes) = lend_from(before, |buffer| proved_flatten(&case.file, buffer));
    let (wanted, due) = lend_from(before, |buffer| second::flatten(&case.file, buffer));
    let same = answer == wanted && bytes.is_some() && bytes == due;
    (!same).then(|| format!("flatten, buffer of {}: {answer:?}, second {wanted:?}", before.len()))
}

/// What differs when plain readers are given the nested file: they refuse the first tag 5.
fn differs_plain(case: &Case) -> Option<String> {
    let before = vec![FILL; case.file.len()];
    let (read, wanted) = (proved_read(&case.file), second::read(&case.file));
    if read != wanted {
        return Some(format!("read: {read:?}, second {wanted:?}"));
    }
    let anew = lend_from(&before, |buffer| proved_normalize(&case.file, buffer));
    let due = lend_from(&before, |buffer| second::normalize(&case.file, buffer));
    if anew != due || anew.1.is_none() {
        return Some(format!("normalize: {:?}, second {:?}", anew.0, due.0));
    }
    walk::differs_begin(&case.file)
}

/// Buffers of several lengths and with several bytes before: the case's own, one as long as the output, a longer one of zeros, one that is a byte
/// too short, and one that holds the input.
fn buffers(case: &Case) -> [Vec<u8>; 5] {
    let n = flattened::passed(&case.file).map_or(case.file.len(), |passed| passed.room());
    [vec![FILL; case.buffer], vec![0xFF; n], vec![0; n + 7], vec![0x5A; n.saturating_sub(1)], case.file.clone()]
}

/// The bytes of a short file, to be looked at.
fn shown(file: &[u8]) -> String {
    if file.len() > 200 {
        return format!("{} bytes", file.len());
    }
    file.iter().map(|byte| format!("{byte:02X} ")).collect::<String>().trim_end().to_string()
}

pub fn flattenings(first: u64, cases: u64, failures: &mut Vec<String>) {
    let mut tally = Tally::default();
    let mut compared = 0;
    for seed in first..first + cases {
        let case = gen::nested::case(seed);
        let mut found: Vec<String> = buffers(&case).iter().filter_map(|before| differs_flat(&case, before)).collect();
        compared += 5;
        found.extend(differs_plain(&case));
        found.extend(flattened::try_case(&PROVED, FLATTENS, &case, &mut tally).err());
        failures.extend(found.iter().map(|what| format!("nested file {seed}, {}: {what}; {}", case.label, shown(&case.file))));
    }
    tally.print();
    failures.extend(tally.missing_of(flattened::required(), (cases / 200).max(1) as usize));
    println!("{cases} nested files flattened by the library, {compared} buffers");
}

/// Every assignment of small nested files and of what is written for them.
pub fn brute_force(first: u64, programs: u64, failures: &mut Vec<String>) {
    let mut tried = Nests::default();
    for seed in first..first + programs {
        let file = gen::nested::small(seed);
        if let Err(what) = brute::try_nested(&PROVED, FLATTENS, &file, &mut tried) {
            failures.push(format!("small nested file {seed}: {what}; {}", shown(&file)));
        }
    }
    println!("brute force, nested files {tried:?}");
    for (name, count) in tried.each() {
        if programs >= 1_000 && count < 20 {
            failures.push(format!("brute force tried too little: nested files, {name} {count}"));
        }
    }
}

pub fn program(path: &str, first: u64, inputs: u64, failures: &mut Vec<String>) {
    let (mut refused, mut long, mut other) = (0, 0, 0);
    for seed in first..first + inputs {
        let input = gen::nested::print_input(seed);
        let want = second::print_flat(&input);
        refused += u64::from(want.starts_with(b"refused"));
        long += u64::from(want == b"refused 1 0\n");
        other += u64::from(!want.starts_with(b"refused") && want != input);
        match printed(path, &input) {
            Ok(got) if got == want => {}
            Ok(got) => failures.push(format!("nested file {seed}: printed {got:02X?}, second {want:02X?}; {}", shown(&input))),
            Err(e) => failures.push(format!("{path}: {e}")),
        }
    }
    println!("{inputs} inputs through the program that flattens, {refused} of them refused, {long} too long, {other} changed");
    if refused < inputs / 20 || long < inputs / 200 || other < inputs / 4 {
        failures.push("too few inputs refused, too long or changed by the program that flattens".to_string());
    }
}
