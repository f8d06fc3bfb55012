//! Compares the proved calls, through libfounded.a, with the second checker on seeded inputs: every answer and every byte of the lent buffers and
//! around them. Small programs are tried by brute force, and a smaller number of inputs goes through the four programs. A twentieth of the inputs
//! more are files to be written anew, a twentieth are nested files and a twentieth half-filled plans, if their numbers are not given, and a fiftieth
//! are walks over edges.
//!
//! compare [first seed] [inputs] [small programs] [inputs of each program] [path of the printing one] [path of the one that writes anew]
//!     [path of the one that flattens] [path of the one that bounds] [nested files] [half-filled plans]

mod halves;
mod nested;
mod walk;

use second::anew::{self, Normalize};
use second::brute::{self, Anew, Calls, Tried};
use second::gen::anew::Case;
use second::gen::{self, Input};
use second::mirror::{self, Turned};
use second::tally::{see, Seen, Tally};
use second::{Normal, Reading, Solved, Verdict, Wrong};
use std::io::Write;
use std::process::{Command, Stdio};

extern "C" {
    fn founded_read(file: *const u8, length: usize) -> u64;
    fn founded_least(file: *const u8, length: usize, a: *const u8, n: usize, buffer: *mut u8, room: usize) -> u64;
    fn founded_check(file: *const u8, length: usize, a: *const u8, n: usize, report: *mut u8, room: usize) -> u64;
    fn founded_normalize(file: *const u8, length: usize, buffer: *mut u8, room: usize) -> u64;
}

const PROVED: Calls = Calls { read: proved_read, least: proved_least, check: proved_check };
const WRITES: Normalize = &proved_normalize;

/// What the buffers hold before, and how many such bytes stand on each side.
const FILL: u8 = 0xA5;
const GUARD: usize = 64;

/// An answer's word and its three numbers.
fn parts(packed: u64) -> (u64, usize, usize, usize) {
    let number = |bit: u32| (packed >> bit & 0xFFFF) as usize;
    (packed & 0xFF, number(8), number(24), number(40))
}

/// An empty buffer, too, has a pointer that is not null.
fn proved_read(file: &[u8]) -> Reading {
    match parts(unsafe { founded_read(file.as_ptr(), file.len()) }) {
        (7, variables, rules, constraints) => Reading::Accepted { variables, rules, constraints },
        (6, number, place, 0) => Reading::Refused { number, place },
        other => panic!("read answers {other:?}"),
    }
}

fn proved_least(file: &[u8], a: &[u8], buffer: &mut [u8]) -> Solved {
    match parts(unsafe { founded_least(file.as_ptr(), file.len(), a.as_ptr(), a.len(), buffer.as_mut_ptr(), buffer.len()) }) {
        (6, number, place, 0) => Solved::Refused { number, place },
        (5, v, 0, 0) => Solved::Range(v),
        (9, 0, 0, 0) => Solved::None,
        (8, 0, 0, 0) => Solved::Found,
        other => panic!("least answers {other:?}"),
    }
}

fn proved_check(file: &[u8], a: &[u8], report: &mut [u8]) -> Verdict {
    match parts(unsafe { founded_check(file.as_ptr(), file.len(), a.as_ptr(), a.len(), report.as_mut_ptr(), report.len()) }) {
        (6, number, place, 0) => Verdict::Refused { number, place },
        (5, v, 0, 0) => Verdict::Range(v),
        (4, i, 0, 0) => Verdict::Rule(i),
        (3, i, 0, 0) => Verdict::Constraint(i),
        (2, n, k, 0) => Verdict::Unfounded(n, k),
        (1, 0, 0, 0) => Verdict::Stable,
        other => panic!("check answers {other:?}"),
    }
}

/// A length has 32 bits, and none stands above them.
fn written(call: &str, packed: u64) -> Normal {
    match (packed & 0xFF, packed >> 8, parts(packed)) {
        (10, length, _) if length <= u64::from(u32::MAX) => Normal::Written(length as usize),
        (6, _, (_, number, place, 0)) if packed >> 56 == 0 => Normal::Refused { number, place },
        _ => panic!("{call} answers {packed:#x}"),
    }
}

fn proved_normalize(file: &[u8], buffer: &mut [u8]) -> Normal {
    written("normalize", unsafe { founded_normalize(file.as_ptr(), file.len(), buffer.as_mut_ptr(), buffer.len()) })
}

/// Makes a call with a buffer lent from the middle of a larger one, and answers the buffer's bytes, or nothing where one around it has changed.
fn lend<A>(call: fn(&[u8], &[u8], &mut [u8]) -> A, input: &Input) -> (A, Option<Vec<u8>>) {
    let mut room = vec![FILL; input.buffer + 2 * GUARD];
    let (before, rest) = room.split_at_mut(GUARD);
    let (lent, after) = rest.split_at_mut(input.buffer);
    let answer = call(&input.file, &input.assignment, lent);
    let kept = before.iter().chain(after.iter()).all(|&x| x == FILL);
    (answer, kept.then(|| lent.to_vec()))
}

/// What differs on this input.
fn differs(input: &Input, seen: &Seen) -> Option<String> {
    let read = proved_read(&input.file);
    if read != seen.reading {
        return Some(format!("read: {read:?}, second {:?}", seen.reading));
    }
    let (solved, model) = lend(proved_least, input);
    if solved != seen.solved || model.as_ref() != Some(&seen.model) {
        return Some(format!("least: {solved:?}, second {:?}", seen.solved));
    }
    let (verdict, report) = lend(proved_check, input);
    if verdict != seen.verdict || report.as_ref() != Some(&seen.report) {
        return Some(format!("check: {verdict:?}, second {:?}", seen.verdict));
    }
    None
}

fn calls(first: u64, inputs: u64, failures: &mut Vec<String>) {
    let mut tally = Tally::default();
    let mut mirrored = 0;
    for seed in first..first + inputs {
        let input = gen::input(seed);
        let seen = see(&input, FILL, Wrong::Nothing);
        tally.add(&input, &seen);
        if let Some(what) = differs(&input, &seen) {
            failures.push(format!("seed {seed}: {what}"));
        }
        // kinds 1 and 2 in one another's place; what is due follows from the answers on the input itself
        if let Some(other) = mirror::mirror(&input, Turned::All) {
            mirrored += 1;
            if let Some(what) = differs(&other, &mirror::mirrored(&input, Turned::All, &seen)) {
                failures.push(format!("seed {seed}, mirrored: {what}"));
            }
        }
    }
    tally.print();
    for (number, places) in &tally.places {
        println!("refusal {number:02} at {} places", places.len());
    }
    let missing = tally.missing((inputs / 600).max(1) as usize);
    failures.extend(missing.into_iter().filter(|m| !m.contains("refusal 16")));
    println!("{inputs} inputs through the library, and {mirrored} of them mirrored");
    if mirrored < inputs / 20 {
        failures.push("too few mirrored inputs".to_string());
    }
}

/// What differs when this file is written anew into a buffer that holds these bytes.
fn differs_anew(case: &Case, before: &[u8]) -> Option<String> {
    let (answer, bytes) = anew::lend_from(before, |buffer| proved_normalize(&case.file, buffer));
    let (wanted, due) = anew::lend_from(before, |buffer| second::normalize(&case.file, buffer));
    let same = answer == wanted && bytes.is_some() && bytes == due;
    (!same).then(|| format!("normalize, buffer of {}: {answer:?}, second {wanted:?}", before.len()))
}

/// Buffers of several lengths and with several bytes before: the case's own, one as long as the file that holds it already, a longer one of
/// zeros, and one that is a byte too short.
fn buffers(case: &Case) -> [Vec<u8>; 4] {
    let n = case.file.len();
    [vec![FILL; case.buffer], case.file.clone(), vec![0; n + 7], vec![0xFF; n.saturating_sub(1)]]
}

/// Files written anew: every answer and byte, then each sentence about the normal form tried on the proved calls alone.
fn normal_forms(first: u64, cases: u64, failures: &mut Vec<String>) {
    let mut tally = Tally::default();
    let mut compared = 0;
    for seed in first..first + cases {
        let case = gen::anew::case(seed);
        for before in buffers(&case) {
            compared += 1;
            if let Some(what) = differs_anew(&case, &before) {
                failures.push(format!("normal form {seed}, {}: {what}", case.label));
            }
        }
        if let Err(what) = anew::try_case(&PROVED, WRITES, &case, &mut tally) {
            failures.push(format!("normal form {seed}, {}: {what}", case.label));
        }
    }
    tally.print();
    failures.extend(tally.missing_of(anew::required(), (cases / 200).max(1) as usize));
    println!("{cases} files written anew by the library, {compared} buffers");
}

/// Every assignment of small programs, each sentence of the third demand tried on what the proved check shows; and their stable assignments
/// held against those of what is written anew.
fn brute_force(first: u64, programs: u64, failures: &mut Vec<String>) {
    let mut tried = Tried::default();
    let mut anew = Anew::default();
    for seed in first..first + programs {
        if let Err(what) = brute::try_file(&PROVED, &gen::small(seed), &mut tried) {
            failures.push(format!("small program {seed}: {what}"));
        }
        if let Err(what) = brute::try_normal(WRITES, &gen::anew::small(seed), &mut anew) {
            failures.push(format!("small program {seed}, written anew: {what}"));
        }
    }
    println!("brute force {tried:?}, written anew {anew:?}");
    for (name, count) in tried.each().into_iter().chain(anew.each()) {
        if programs >= 1_000 && count < 20 {
            failures.push(format!("brute force tried too little: {name} {count}"));
        }
    }
}

fn printed(program: &str, input: &[u8]) -> std::io::Result<Vec<u8>> {
    let mut child = Command::new(program).stdin(Stdio::piped()).stdout(Stdio::piped()).spawn()?;
    let mut stdin = child.stdin.take().expect("piped");
    // the program may stop reading an input that is too long
    let _ = stdin.write_all(input);
    drop(stdin);
    Ok(child.wait_with_output()?.stdout)
}

fn program(path: &str, first: u64, inputs: u64, failures: &mut Vec<String>) {
    let (mut misframed, mut arrivals) = (0, 0);
    for seed in first..first + inputs {
        let input = gen::print_input(seed);
        let want = second::print(&input);
        misframed += u64::from(want == b"refused 16 0\n");
        arrivals += u64::from(want.windows(7).any(|w| w == b"\nleast "));
        match printed(path, &input) {
            Ok(got) if got == want => {}
            Ok(got) => failures.push(format!("seed {seed}: printed {:?}, second {:?}", String::from_utf8_lossy(&got), String::from_utf8_lossy(&want))),
            Err(e) => failures.push(format!("{path}: {e}")),
        }
    }
    println!("{inputs} inputs through the printing program, {misframed} of them misframed, {arrivals} with a bound of kind 2");
    if misframed < inputs / 100 || arrivals < inputs / 100 {
        failures.push("too few misframed inputs, or too few with a bound of kind 2".to_string());
    }
}

fn normal_program(path: &str, first: u64, inputs: u64, failures: &mut Vec<String>) {
    let (mut refused, mut long, mut other) = (0, 0, 0);
    for seed in first..first + inputs {
        let input = gen::anew::print_input(seed);
        let want = second::print_normal(&input);
        refused += u64::from(want.starts_with(b"refused"));
        long += u64::from(want == b"refused 1 0\n");
        other += u64::from(!want.starts_with(b"refused") && want != input);
        match printed(path, &input) {
            Ok(got) if got == want => {}
            Ok(got) => failures.push(format!("normal form {seed}: printed {got:02X?}, second {want:02X?}")),
            Err(e) => failures.push(format!("{path}: {e}")),
        }
    }
    println!("{inputs} inputs through the program that writes anew, {refused} of them refused, {long} too long, {other} changed");
    if refused < inputs / 20 || long < inputs / 200 || other < inputs / 4 {
        failures.push("too few inputs refused, too long or changed by the program that writes anew".to_string());
    }
}

fn main() {
    let given: Vec<String> = std::env::args().skip(1).collect();
    let amount = |i: usize, usual: u64| given.get(i).map_or(usual, |a| a.parse().expect("a number"));
    let (first, inputs, small, prints) = (amount(0, 0), amount(1, 60_000), amount(2, 4_000), amount(3, 0));
    let mut failures = Vec::new();
    calls(first, inputs, &mut failures);
    normal_forms(first, inputs / 20, &mut failures);
    brute_force(first, small, &mut failures);
    walk::walks(first, inputs / 50, &mut failures);
    walk::brute_force(first, small, &mut failures);
    nested::flattenings(first, amount(8, inputs / 20), &mut failures);
    nested::brute_force(first, small, &mut failures);
    halves::half_filled(first, amount(9, inputs / 20), &mut failures);
    halves::brute_force(first, small, &mut failures);
    if prints > 0 {
        program(given.get(4).expect("the printing program's path"), first, prints, &mut failures);
        normal_program(given.get(5).expect("the path of the program that writes anew"), first, prints, &mut failures);
        nested::program(given.get(6).expect("the path of the program that flattens"), first, prints, &mut failures);
        halves::program(given.get(7).expect("the path of the program that bounds"), first, prints, &mut failures);
    }
    for failure in failures.iter().take(20) {
        println!("differs: {failure}");
    }
    println!("{}", if failures.is_empty() { "compare passed" } else { "compare failed" });
    std::process::exit(i32::from(!failures.is_empty()));
}
