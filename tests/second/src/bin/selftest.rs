//! Runs the generator over many seeds, the brute force over many small
//! programs, and looks for a difference to every wrong variant.
//!
//! selftest [inputs] [small programs] [inputs for each wrong variant]

use second::anew::{self, lend};
use second::bounded;
use second::bounds::print_bounds_with;
use second::brute::{self, Anew, Halves, Nests, Tried};
use second::flattened;
use second::gen::walks::Case;
use second::mirror::{self, Turned};
use second::normal::normalize_with;
use second::printing::print_with;
use second::stepped::{self, Walk, OWN};
use second::tally::{see, Tally};
use second::{gen, Reading, Solved, Verdict, Wrong};
use std::collections::BTreeMap;

fn main() {
    let given: Vec<u64> = std::env::args().skip(1).map(|a| a.parse().expect("a number")).collect();
    let amount = |i: usize, usual: u64| given.get(i).copied().unwrap_or(usual);
    let mut failures = Vec::new();
    tallies(amount(0, 60_000), &mut failures);
    mirrors(amount(0, 60_000), Turned::Above, &mut failures);
    mirrors(amount(0, 60_000), Turned::All, &mut failures);
    brute_force(amount(1, 12_000), &mut failures);
    normal_forms(amount(0, 60_000) / 4, &mut failures);
    normal_force(amount(1, 12_000), &mut failures);
    variants(amount(2, 20_000), &mut failures);
    normal_variants(amount(2, 20_000), &mut failures);
    walks(amount(0, 60_000) / 20, &mut failures);
    walk_force(amount(1, 12_000), &mut failures);
    walk_variants(amount(2, 20_000), &mut failures);
    flattenings(amount(0, 60_000) / 2, &mut failures);
    flat_force(amount(1, 12_000) / 2, &mut failures);
    flat_variants(amount(2, 20_000), &mut failures);
    half_filled(amount(0, 60_000) / 4, &mut failures);
    half_force(amount(1, 12_000) / 2, &mut failures);
    half_variants(amount(2, 20_000), &mut failures);
    let lists = [Wrong::ALL, Wrong::NORMAL, Wrong::WALK, Wrong::NESTED, Wrong::RANGED];
    println!("wrong variants: {}", lists.concat().len());
    for failure in failures.iter().take(40) {
        println!("FAILED {failure}");
    }
    println!("{}", if failures.is_empty() { "selftest passed" } else { "selftest failed" });
    std::process::exit(if failures.is_empty() { 0 } else { 1 });
}

fn tallies(seeds: u64, failures: &mut Vec<String>) {
    let mut tally = Tally::default();
    let mut due_met = 0;
    for seed in 0..seeds {
        let input = gen::input(seed);
        let seen = see(&input, 0xA5, Wrong::Nothing);
        tally.add(&input, &seen);
        let untouched = |bytes: &[u8]| bytes.iter().all(|&b| b == 0xA5);
        if seen.solved != Solved::Found && !untouched(&seen.model) {
            failures.push(format!("seed {seed}: least wrote, {:?}", seen.solved));
        }
        if !matches!(seen.verdict, Verdict::Unfounded(..)) && !untouched(&seen.report) {
            failures.push(format!("seed {seed}: check wrote, {:?}", seen.verdict));
        }
        if let Some((number, place)) = input.due {
            let fits = match seen.reading {
                Reading::Refused { number: n, place: p } => {
                    n == number && (p == place || place == usize::MAX)
                }
                Reading::Accepted { .. } => number == 0,
            };
            due_met += usize::from(fits);
            if !fits {
                failures.push(format!("seed {seed}: {number} {place} due, {:?}", seen.reading));
            }
        }
        if second::print(&gen::print_input(seed)) == b"refused 16 0\n" {
            tally.hit("refusal 16");
        }
    }
    println!("inputs {seeds}, answers due and given {due_met}");
    tally.print();
    for (number, places) in &tally.places {
        println!("refusal {number:02} at {} places", places.len());
    }
    let least = (seeds / 600).max(1) as usize;
    let missing = tally.missing(least);
    println!("names hit less than wanted: {}", missing.len());
    failures.extend(missing);
}

/// Answers on a file and on the file that 000's mirror makes of it.
fn mirrors(seeds: u64, which: Turned, failures: &mut Vec<String>) {
    let mut counts: BTreeMap<&str, usize> = BTreeMap::new();
    for word in ["stable", "unfounded", "rule", "constraint", "range", "refused", "least none"] {
        counts.insert(word, 0);
    }
    for seed in 0..seeds {
        let input = gen::input(seed);
        let Some(other) = mirror::mirror(&input, which) else { continue };
        let seen = see(&input, 0xA5, Wrong::Nothing);
        if see(&other, 0xA5, Wrong::Nothing) != mirror::mirrored(&input, which, &seen) {
            failures.push(format!("seed {seed}: the mirrored file, {which:?}, is answered otherwise"));
        }
        let word = match seen.verdict {
            Verdict::Stable => "stable",
            Verdict::Unfounded(..) => "unfounded",
            Verdict::Rule(_) => "rule",
            Verdict::Constraint(_) => "constraint",
            Verdict::Range(_) => "range",
            Verdict::Refused { .. } => "refused",
        };
        *counts.entry(word).or_default() += 1;
        *counts.entry("least none").or_default() += usize::from(seen.solved == Solved::None);
    }
    println!("mirrored files, {which:?}, by what the check says: {counts:?}");
    for (word, count) in counts.into_iter().filter(|(_, count)| (*count as u64) < seeds / 1_000) {
        failures.push(format!("mirrored files, {which:?}, too seldom {word}: {count}"));
    }
}

fn brute_force(programs: u64, failures: &mut Vec<String>) {
    let mut tried = Tried::default();
    for seed in 0..programs {
        if let Err(what) = brute::try_file(&brute::OWN, &gen::small(seed), &mut tried) {
            failures.push(format!("brute force, small program {seed}: {what}"));
        }
    }
    println!("brute force {tried:?}");
    for (name, count) in tried.each() {
        if programs >= 1_000 && count < 50 {
            failures.push(format!("brute force tried too little: {name} {count}"));
        }
    }
}

/// Does a mistake of the printing program alone show nothing on this input?
fn prints_alike(input: &gen::Input, wrong: Wrong) -> bool {
    let framed = || gen::framed(&input.file, &input.assignment);
    wrong != Wrong::PrintsMost || print_with(&framed(), wrong) == second::print(&framed())
}

/// Looks for a seed on which each of these mistakes shows. `at` says of a seed and a
/// mistake whether the answers stay the same.
fn find<F: Fn(Wrong) -> bool>(
    list: &[Wrong],
    bound: u64,
    what: &str,
    at: impl Fn(u64) -> F,
    failures: &mut Vec<String>,
) {
    let mut unseen = list.to_vec();
    for seed in 0..bound {
        if unseen.is_empty() {
            break;
        }
        let stays = at(seed);
        unseen.retain(|&wrong| {
            let same = stays(wrong);
            if !same {
                println!("wrong variant {wrong:?}: first differs on {what} {seed}");
            }
            same
        });
    }
    let missed = |wrong: &Wrong| format!("wrong variant {wrong:?} not found in {bound}, {what}");
    failures.extend(unseen.iter().map(missed));
}

fn variants(bound: u64, failures: &mut Vec<String>) {
    let at = |seed: u64| {
        let input = gen::input(seed);
        let right = see(&input, 0xA5, Wrong::Nothing);
        move |wrong| see(&input, 0xA5, wrong) == right && prints_alike(&input, wrong)
    };
    find(Wrong::ALL, bound, "input", at, failures);
}

/// The sentences about the normal form.
fn normal_forms(cases: u64, failures: &mut Vec<String>) {
    let mut tally = Tally::default();
    for seed in 0..cases {
        let case = gen::anew::case(seed);
        if let Err(what) = anew::try_case(&brute::OWN, &second::normalize, &case, &mut tally) {
            failures.push(format!("normal form {seed}, {}: {what}", case.label));
        }
    }
    println!("normal forms {cases}");
    failures.extend(counted(&tally, anew::required(), cases));
}

/// Prints the counts of a tally, and answers the names hit less than wanted.
fn counted(tally: &Tally, required: Vec<(String, usize)>, cases: u64) -> Vec<String> {
    tally.print();
    let missing = tally.missing_of(required, (cases / 200).max(1) as usize);
    println!("names hit less than wanted: {}", missing.len());
    missing
}

/// The stable assignments of small files and of their normal forms.
fn normal_force(programs: u64, failures: &mut Vec<String>) {
    let mut tried = Anew::default();
    for seed in 0..programs {
        let file = gen::anew::small(seed);
        if let Err(what) = brute::try_normal(&second::normalize, &file, &mut tried) {
            failures.push(format!("normal form of small program {seed}: {what}"));
        }
    }
    println!("brute force, normal forms {tried:?}");
    for (name, count) in tried.each() {
        if programs >= 1_000 && count < 50 {
            failures.push(format!("brute force tried too little: normal forms, {name} {count}"));
        }
    }
}

fn normal_variants(bound: u64, failures: &mut Vec<String>) {
    let at = |seed: u64| {
        let case = gen::anew::case(seed);
        let see = move |wrong| lend(case.buffer, |buffer| normalize_with(&case.file, buffer, wrong));
        let right = see(Wrong::Nothing);
        move |wrong| see(wrong) == right
    };
    find(Wrong::NORMAL, bound, "normal form", at, failures);
}

/// The sentences about the walk over edges.
fn walks(cases: u64, failures: &mut Vec<String>) {
    let mut tally = Tally::default();
    for (seed, (name, case)) in (0..cases).flat_map(|seed| gen::walks::cases(seed).map(|c| (seed, c))) {
        if let Err(what) = stepped::try_seen(&case, &stepped::see(&OWN, &case), &mut tally) {
            failures.push(format!("{name} {seed}, {}: {what}", case.label));
        }
    }
    println!("walks {cases}, and those of {cases} inputs");
    failures.extend(counted(&tally, stepped::required(), cases));
}

/// Every walk of small files, stop by stop, and every graph of up to four variables.
fn walk_force(programs: u64, failures: &mut Vec<String>) {
    let (tried, graphs, failed) = brute::try_walks(&OWN, 0..programs);
    println!("brute force, walks {tried:?}, {graphs} graphs");
    failures.extend(failed);
    for (name, count) in tried.each() {
        if programs >= 1_000 && count < 50 {
            failures.push(format!("brute force tried too little: walks, {name} {count}"));
        }
    }
}

/// Mistakes of the walk, and those of reading that the sets before the first
/// round show.
fn walk_variants(bound: u64, failures: &mut Vec<String>) {
    find(Wrong::WALK, bound, "walk", |seed| stays(seed, stepped::see), failures);
    find(stepped::DRAWN, bound, "walk", |seed| stays(seed, stepped::begins), failures);
}

/// Does a mistake change nothing that is seen of this walk?
fn stays<S: PartialEq>(seed: u64, see: fn(&Walk, &Case) -> S) -> impl Fn(Wrong) -> bool {
    let case = gen::walks::case(seed);
    let right = see(&OWN, &case);
    move |wrong| stepped::with(wrong, |walk| see(walk, &case) == right)
}

/// The sentences about flattening.
fn flattenings(cases: u64, failures: &mut Vec<String>) {
    let mut tally = Tally::default();
    let mut due = 0;
    for seed in 0..cases {
        let case = gen::nested::case(seed);
        due += usize::from(case.due.is_some());
        if let Err(what) = flattened::try_case(&brute::OWN, &second::flatten, &case, &mut tally) {
            failures.push(format!("nested file {seed}, {}: {what}", case.label));
        }
    }
    println!("nested files {cases}, answers due and given {due}");
    failures.extend(counted(&tally, flattened::required(), cases));
}

/// Mistakes of flattening, and those of reading that it shows.
fn flat_variants(bound: u64, failures: &mut Vec<String>) {
    let at = |seed: u64| {
        let case = gen::nested::case(seed);
        let right = flattened::see(&case, Wrong::Nothing);
        move |wrong| flattened::see(&case, wrong) == right
    };
    find(Wrong::NESTED, bound, "nested file", at, failures);
    find(flattened::READ, bound, "nested file", at, failures);
}

/// The stable assignments of small nested files and of their plain ones.
fn flat_force(programs: u64, failures: &mut Vec<String>) {
    let mut tried = Nests::default();
    for seed in 0..programs {
        let file = gen::nested::small(seed);
        if let Err(what) = brute::try_nested(&brute::OWN, &second::flatten, &file, &mut tried) {
            failures.push(format!("small nested file {seed}: {what}"));
        }
    }
    println!("brute force, nested files {tried:?}");
    for (name, count) in tried.each() {
        if programs >= 1_000 && count < 50 {
            failures.push(format!("brute force tried too little: nested files, {name} {count}"));
        }
    }
}

/// The sentences about bounds, and what the program prints.
fn half_filled(cases: u64, failures: &mut Vec<String>) {
    let mut tally = Tally::default();
    for seed in 0..cases {
        let case = gen::ranged::case(seed);
        if let Err(what) = bounded::try_case(&brute::OWN, bounded::OWN, &case, &mut tally) {
            failures.push(format!("half-filled plan {seed}, {}: {what}", case.label));
        }
        bounded::try_printed(&second::print_bounds, seed, &mut tally)
            .unwrap_or_else(|what| failures.push(format!("half-filled plan {seed}, printed: {what}")));
    }
    println!("half-filled plans {cases}");
    failures.extend(counted(&tally, bounded::required(), cases));
}

/// Mistakes of bounds, those of their program, and those of reading that they show.
fn half_variants(bound: u64, failures: &mut Vec<String>) {
    let at = |seed: u64| {
        let case = gen::ranged::case(seed);
        let right = bounded::see(&case, Wrong::Nothing);
        move |wrong| bounded::see(&case, wrong) == right
    };
    let called: Vec<Wrong> =
        Wrong::RANGED.iter().copied().filter(|wrong| !bounded::PRINTED.contains(wrong)).collect();
    find(&called, bound, "half-filled plan", at, failures);
    find(bounded::READ, bound, "half-filled plan", at, failures);
    let printed = |seed: u64| {
        let input = gen::ranged::print_input(seed);
        move |wrong| print_bounds_with(&input, wrong) == second::print_bounds(&input)
    };
    find(bounded::PRINTED, bound, "half-filled plan, printed", printed, failures);
}

/// The models and the stable assignments of small half-filled plans.
fn half_force(programs: u64, failures: &mut Vec<String>) {
    let mut tried = Halves::default();
    for seed in 0..programs {
        let (file, lists) = gen::ranged::small(seed);
        if let Err(what) = brute::try_bounds(bounded::OWN, &file, &lists, &mut tried) {
            failures.push(format!("small half-filled plan {seed}: {what}"));
        }
    }
    println!("brute force, half-filled plans {tried:?}");
    for (name, count) in tried.each() {
        if programs >= 1_000 && count < 50 {
            failures.push(format!("brute force tried too little: half-filled plans, {name} {count}"));
        }
    }
}
