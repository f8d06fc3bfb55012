//! Compares the proved check with an answer set solver: for each small
//! program, the assignments called stable against the answer sets of its
//! translation. The same on the file written anew. The rounds of the walk over
//! edges against the answer set of a program that says what a walk is. The bounds of
//! half-filled plans against that of one that says what they are.
//!
//! solver [first seed] [programs]                  compares, then tries the wrong readings
//! solver --reading NAME [first seed] [programs]   compares under another reading
//! solver --bounds [first seed] [programs]         the bounds of half-filled plans alone
//! solver --show SEED                              prints a program and its translation

mod anew;
mod answers;
mod bounds;
mod families;
mod half;
mod inputs;
mod mistakes;
mod proved;
mod reading;
mod show;
mod tally;
mod translate;
mod walk;

use proved::Word;
use reading::Reading;
use second::calls::check_with;
use second::gen::fields;
use second::program::Program;
use second::reader::parse;
use second::{Verdict, Wrong};
use std::cell::OnceCell;
use std::collections::BTreeSet;
use tally::Tally;

/// Differences printed.
const PRINTED: usize = 3;

/// Mistakes of the second checker that change what is stable.
const WRONG_CHECKERS: [Wrong; 38] = [
    Wrong::KeepsStandard,
    Wrong::StartsAtZero,
    Wrong::BelowOrEqual,
    Wrong::FirstLiteralOnly,
    Wrong::KeepsFalling,
    Wrong::StrikesCircles,
    Wrong::OneRound,
    Wrong::NothingIsZero,
    Wrong::HeadAlwaysKept,
    Wrong::RoundsDown,
    Wrong::RoundsToZero,
    Wrong::RoundsAway,
    Wrong::ConstantLate,
    Wrong::QuotientRises,
    Wrong::LiteralsSwap,
    Wrong::PlainUnswapped,
    Wrong::OwnHeadUnswapped,
    Wrong::SwapsByVariable,
    Wrong::AboveNotKept,
    Wrong::AboveRisingKept,
    Wrong::AboveKeptAmongAbove,
    Wrong::BelowKeptAmongBelow,
    Wrong::AboveFromLow,
    Wrong::AboveLargerCounts,
    Wrong::AboveRoundsDown,
    Wrong::AboveUnmetByMore,
    Wrong::AboveOpsTurned,
    Wrong::AboveSetTurned,
    // These turn a file down.
    Wrong::IdleNever,
    Wrong::IdleBelowOnly,
    Wrong::IdleDraws,
    Wrong::IdleOffends,
    Wrong::IdleSizesOnly,
    Wrong::IdleFailingGives,
    Wrong::AboveIdleNever,
    Wrong::AboveIdleOverOnly,
    Wrong::AboveIdleAsBelow,
    Wrong::AboveFailingGives,
];

/// A program to compare, taken apart, with the check's words.
struct Case {
    name: String,
    file: Vec<u8>,
    /// The same plan in another order, and the file written anew.
    copy: Vec<u8>,
    output: Vec<u8>,
    program: Program,
    words: Vec<(Vec<i64>, Word)>,
    /// What the solver says by the right reading, once asked.
    answers: OnceCell<Result<Vec<Vec<i64>>, String>>,
}

impl Case {
    /// Nothing for a file that the second reader turns down.
    fn new((name, file): (String, Vec<u8>)) -> Option<Case> {
        let program = parse(&file, Wrong::Nothing).ok()?;
        let words = proved::words(&file, &program);
        let copy = anew::copy(&file);
        let output = proved::normalize(&file).unwrap_or_default();
        Some(Case { name, file, copy, output, program, words, answers: OnceCell::new() })
    }

    fn stable(&self) -> BTreeSet<Vec<i64>> {
        let stable = self.words.iter().filter(|(_, word)| *word == Word::Stable);
        stable.map(|(values, _)| values.clone()).collect()
    }

    /// What a wrong checker calls stable. Compared with `stable`, which by then
    /// the solver has confirmed, or the run has failed.
    fn stable_with(&self, wrong: Wrong) -> BTreeSet<Vec<i64>> {
        let mut report = vec![0; 12 * self.program.variables.len()];
        let mut is_stable = |values: &Vec<i64>| {
            let assignment = fields::assignment(values);
            check_with(&self.file, &assignment, &mut report, wrong) == Verdict::Stable
        };
        let all = self.words.iter().map(|(values, _)| values);
        all.filter(|values| is_stable(values)).cloned().collect()
    }

    /// Does the reading say anything else here than the right one?
    fn reads_otherwise(&self, reading: Reading) -> bool {
        let text = |reading| translate::translate(&self.program, reading);
        match reading {
            Reading::Right => true,
            Reading::IdleLeftOut => self.program.idle_rules().contains(&true),
            _ => text(reading) != text(Reading::Right),
        }
    }

    /// The assignment of every answer set, or what went wrong.
    fn solved(&self, reading: Reading) -> Result<Vec<Vec<i64>>, String> {
        match reading {
            Reading::Right => self.answers.get_or_init(|| self.solve(reading)).clone(),
            _ => self.solve(reading),
        }
    }

    fn solve(&self, reading: Reading) -> Result<Vec<Vec<i64>>, String> {
        let text = translate::translate(&self.program, reading);
        let answers = answers::answers(&text, self.program.variables.len());
        answers.map_err(|what| format!("{}\n{text}{what}\n", self.title()))
    }

    /// Does a wrong reading have other answer sets? One that the solver cannot
    /// read has none.
    fn notices(&self, reading: Reading) -> bool {
        let others = |list: Vec<Vec<i64>>| BTreeSet::from_iter(list) != self.stable();
        self.reads_otherwise(reading) && self.solved(reading).is_ok_and(others)
    }

    /// What differs between the check and the solver, in readable form.
    fn difference(&self, reading: Reading) -> Option<String> {
        let list = match self.solved(reading) {
            Ok(list) => list,
            Err(what) => return Some(what),
        };
        let solver: BTreeSet<Vec<i64>> = list.iter().cloned().collect();
        let check = self.stable();
        let other = self.words.iter().find(|(_, word)| matches!(word, Word::Other(_)));
        if solver == check && list.len() == solver.len() && other.is_none() {
            return None;
        }
        let mut out = format!("{}\n", self.title());
        out += &format!("  check:  {check:?}\n  solver: {solver:?}\n");
        if list.len() != solver.len() {
            out += &format!("  {} answer sets for {} assignments\n", list.len(), solver.len());
        }
        for (values, word) in other.into_iter().take(1) {
            out += &format!("  {values:?}: the check says {word:?}\n");
        }
        for values in check.symmetric_difference(&solver) {
            let mut report = vec![0; 12 * values.len()];
            let verdict = second::check(&self.file, &fields::assignment(values), &mut report);
            out += &format!("  {values:?}: the second checker says {verdict:?}\n");
        }
        Some(out)
    }

    fn title(&self) -> String {
        format!("{}\n{}", self.name, show::program(&self.program))
    }
}

/// The samples, then so many seeded programs that are not turned down.
fn cases(first: u64, programs: usize) -> Vec<Case> {
    let sample = |given| Case::new(given).expect("samples are accepted");
    let mut cases: Vec<Case> = inputs::samples().into_iter().map(sample).collect();
    let wanted = cases.len() + programs;
    let mut seed = first;
    while cases.len() < wanted {
        cases.extend(Case::new(inputs::seeded(seed)));
        seed += 1;
    }
    println!("seeds {first}..{seed}, {} files turned down", seed - first - programs as u64);
    cases
}

/// How many programs differ; the first few are printed.
fn compare(cases: &[Case], reading: Reading) -> usize {
    let cases: Vec<&Case> = cases.iter().filter(|case| case.reads_otherwise(reading)).collect();
    let mut differing = 0;
    for case in &cases {
        if let Some(what) = case.difference(reading) {
            differing += 1;
            if differing <= PRINTED {
                println!("differs: {what}");
            }
        }
    }
    println!("{} programs, {differing} differ, reading {reading:?}", cases.len());
    differing
}

fn count(cases: &[Case]) -> Vec<String> {
    let mut tally = Tally::default();
    for case in cases {
        tally.add(&case.program, &case.words);
        tally.met(anew::names(&case.file, &case.copy, &case.output));
    }
    for (name, count) in &tally.programs {
        println!("{count:>6}  {name}");
    }
    println!(
        "{} programs, {} assignments, {} of them stable",
        cases.len(),
        tally.assignments,
        tally.stable
    );
    tally.missing(cases.len())
}

/// Each wrong reading, and each wrong checker, must be noticed somewhere.
fn sharp(cases: &[Case]) -> Vec<String> {
    let mut unseen = Vec::new();
    let mut note = |what: String, found: Vec<&Case>| match found.as_slice() {
        [] => unseen.push(format!("{what}: not noticed")),
        some => {
            let names: Vec<&str> = some.iter().map(|case| case.name.as_str()).collect();
            println!("{what}: differs on {}", names.join("; "));
        }
    };
    for &reading in Reading::WRONG {
        let found = cases.iter().filter(|case| case.notices(reading)).take(PRINTED);
        note(format!("wrong reading {reading:?}"), found.collect());
    }
    for wrong in WRONG_CHECKERS {
        let found = cases.iter().filter(|case| case.stable_with(wrong) != case.stable()).take(PRINTED);
        note(format!("wrong checker {wrong:?}"), found.collect());
    }
    unseen
}

fn main() {
    let mut given: Vec<String> = std::env::args().skip(1).collect();
    if let [option, seed] = given.as_slice() {
        if option == "--show" {
            let (name, file) = inputs::seeded(seed.parse().expect("a seed"));
            let program = parse(&file, Wrong::Nothing).expect("a file that is not turned down");
            println!("{name}\n{}", show::program(&program));
            println!("{}", translate::translate(&program, Reading::Right));
            return;
        }
    }
    let alone = given.first().is_some_and(|a| a == "--bounds");
    if alone {
        given.remove(0);
    }
    let mut reading = Reading::Right;
    if given.first().is_some_and(|a| a == "--reading") {
        reading = given.get(1).and_then(|name| Reading::named(name)).expect("the name of a reading");
        given.drain(..2);
    }
    let amount = |i: usize, usual: u64| given.get(i).map_or(usual, |a| a.parse().expect("a number"));
    let (first, programs) = (amount(0, 0), amount(1, 400));
    let (mut failed, mut failures) = (false, Vec::new());
    if !alone {
        let cases = cases(first, programs as usize);
        failed |= compare(&cases, reading) > 0;
        if reading == Reading::Right {
            for &other in Reading::OTHERS {
                failed |= compare(&cases, other) > 0;
            }
            failed |= anew::compare(&cases) > 0;
            failures.extend(sharp(&cases));
            failures.extend(anew::sharp(&cases));
            failures.extend(count(&cases));
            failures.extend(walk::compare(first, programs));
        }
    }
    if reading == Reading::Right {
        failures.extend(bounds::compare(first, programs));
    }
    for failure in &failures {
        println!("failed: {failure}");
    }
    failed |= !failures.is_empty();
    println!("{}", if failed { "solver comparison failed" } else { "solver comparison passed" });
    std::process::exit(i32::from(failed));
}
