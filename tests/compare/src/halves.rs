//! Half-filled plans through libfounded.a: every answer of the bounds and every byte of the lent buffers and around them, file and ranges among them,
//! against the second checker; then each sentence about bounds tried on the proved calls alone, and small plans by enumeration.

use crate::{parts, printed, FILL, PROVED};
use second::bounded::{self, ask, Bounds};
use second::brute::{self, Halves};
use second::gen::{self, ranged::Case};
use second::tally::Tally;
use second::Bounded;

extern "C" {
    fn founded_bounds(file: *const u8, length: usize, ranges: *const u8, n: usize, buffer: *mut u8, room: usize) -> u64;
}

const LIFTS: Bounds = &proved_bounds;

/// File and ranges are lent so that it shows when they are written.
fn proved_bounds(file: &mut [u8], ranges: &mut [u8], buffer: &mut [u8]) -> Bounded {
    let (length, n, room) = (file.len(), ranges.len(), buffer.len());
    let (file, ranges) = (file.as_mut_ptr().cast_const(), ranges.as_mut_ptr().cast_const());
    let packed = unsafe { founded_bounds(file, length, ranges, n, buffer.as_mut_ptr(), room) };
    match parts(packed) {
        (6, number, place, 0) if packed >> 56 == 0 => Bounded::Refused { number, place },
        (12, 0, 0, 0) if packed >> 56 == 0 => Bounded::Bounded,
        _ => panic!("bounds answers {packed:#x}"),
    }
}

/// What differs when the bounds go into a buffer that holds these bytes.
fn differs(case: &Case, before: &[u8]) -> Option<String> {
    let proved = ask(LIFTS, &case.file, &case.ranges, before);
    let own = ask(bounded::OWN, &case.file, &case.ranges, before);
    let same = proved.is_ok() && proved == own;
    (!same).then(|| format!("bounds, buffer of {}: {}, second {}", before.len(), told(&proved), told(&own)))
}

fn told(seen: &Result<(Bounded, Vec<u8>), String>) -> String {
    match seen {
        Ok((answer, bytes)) => format!("{answer:?} {}", shown(bytes)),
        Err(what) => what.clone(),
    }
}

/// Buffers of several lengths and with several bytes before: the case's own, one as long as the bounds, a longer one of zeros, one that is a byte too
/// short, one that holds the ranges, and none.
fn buffers(case: &Case) -> [Vec<u8>; 6] {
    let n = case.ranges.len() / 2;
    [vec![FILL; case.buffer], vec![0xFF; n], vec![0; n + 7], vec![0x5A; n.saturating_sub(1)], case.ranges.clone(), Vec::new()]
}

/// The bytes of a short case, to be looked at.
fn shown(bytes: &[u8]) -> String {
    if bytes.len() > 200 {
        return format!("{} bytes", bytes.len());
    }
    bytes.iter().map(|byte| format!("{byte:02X} ")).collect::<String>().trim_end().to_string()
}

pub fn half_filled(first: u64, cases: u64, failures: &mut Vec<String>) {
    let mut tally = Tally::default();
    let mut compared = 0;
    for seed in first..first + cases {
        let case = gen::ranged::case(seed);
        let mut found: Vec<String> = buffers(&case).iter().filter_map(|before| differs(&case, before)).collect();
        compared += 6;
        found.extend(bounded::try_case(&PROVED, LIFTS, &case, &mut tally).err());
        let named = |what: &String| format!("half-filled plan {seed}, {}: {what}; {}; ranges {}", case.label, shown(&case.file), shown(&case.ranges));
        failures.extend(found.iter().map(named));
    }
    tally.print();
    let missing = tally.missing_of(bounded::required(), (cases / 200).max(1) as usize);
    failures.extend(missing.into_iter().filter(|m| !m.starts_with("printed")));
    println!("{cases} half-filled plans through the library, {compared} buffers");
}

/// All models and all stable assignments of small half-filled plans.
pub fn brute_force(first: u64, programs: u64, failures: &mut Vec<String>) {
    let mut tried = Halves::default();
    for seed in first..first + programs {
        let (file, lists) = gen::ranged::small(seed);
        if let Err(what) = brute::try_bounds(LIFTS, &file, &lists, &mut tried) {
            failures.push(format!("small half-filled plan {seed}: {what}; {}", shown(&file)));
        }
    }
    println!("brute force, half-filled plans {tried:?}");
    for (name, count) in tried.each() {
        if programs >= 1_000 && count < 20 {
            failures.push(format!("brute force tried too little: half-filled plans, {name} {count}"));
        }
    }
}

pub fn program(path: &str, first: u64, inputs: u64, failures: &mut Vec<String>) {
    let (mut refused, mut misframed, mut above, mut full) = (0, 0, 0, 0);
    for seed in first..first + inputs {
        let input = gen::ranged::print_input(seed);
        let want = second::print_bounds(&input);
        refused += u64::from(want.starts_with(b"refused"));
        misframed += u64::from(want == b"refused 16 0\n");
        above += u64::from(want.starts_with(b"least ") || want.windows(7).any(|w| w == b"\nleast "));
        full += u64::from(input.len() == 61_026);
        match printed(path, &input) {
            Ok(got) if got == want => {}
            Ok(got) => failures.push(format!("half-filled plan {seed}: printed {:?}, second {:?}; {}", text(&got), text(&want), shown(&input))),
            Err(e) => failures.push(format!("{path}: {e}")),
        }
    }
    println!("{inputs} inputs through the program that bounds, {refused} of them refused, {misframed} misframed, {above} with a bound of kind 2, {full} of 61,026 bytes");
    if refused < inputs / 20 || misframed < inputs / 100 || above < inputs / 10 || full < inputs / 400 {
        failures.push("too few inputs refused, misframed, of kind 2 or full for the program that bounds".to_string());
    }
}

fn text(bytes: &[u8]) -> String {
    String::from_utf8_lossy(bytes).to_string()
}
