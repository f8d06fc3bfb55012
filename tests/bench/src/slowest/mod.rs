//! A search for slow files: a pool of files, changed at random, in which the slowest stay. It begins with the families of circles and with the files
//! of the second checker's generator. And how the Rust code is held to the proved calls on small files that are changed so.
mod change;

use crate::bounds::{drawn, BOUNDS};
use crate::files::circles::{families, plan, tiny};
use crate::files::draft::{Draft, BYTES};
use crate::files::{Plan, Seed};
use crate::{fast, port, proved_check, proved_least, same, shown, Call, CHECK, LEAST};
use std::cmp::Reverse;
use std::process::exit;
use std::time::{Duration, Instant};

/// Whether a file is read.
fn is_read(draft: &Draft) -> bool {
    fast::read_call(&draft.plan("").file) & 0xFF == 7
}

/// A small file that climbs, changed a few times; none of the changes makes it large.
fn climbing(seed: u64) -> Draft {
    const LARGE: usize = 40;
    let mut s = Seed(seed.wrapping_mul(0xA24B_AED4_963E_E407) | 1);
    let starts = tiny();
    let (a, b) = (s.next(starts.len()), s.next(starts.len()));
    let mut draft = if s.next(3) == 0 { starts[a].mirrored() } else { starts[a].clone() };
    for _ in 0..s.next(6) {
        let mut next = draft.clone();
        change::changed(&mut s, &mut next, &starts[b]);
        if next.rules.len() < LARGE && is_read(&next) {
            draft = next;
        }
    }
    draft.settled()
}

/// Small files that climb, with assignments at and past the least model, and with ranges of their own.
pub fn hold(first: u64, inputs: u64) {
    let (mut jumped, mut found) = (0, 0);
    for seed in first..first + inputs {
        let p = climbing(seed).plan("");
        let ranges = drawn(&mut Seed(seed.wrapping_mul(0xD6E8_FEB8_6659_FD93) | 1), &p.file, &p.assignment);
        let room = 6 * p.assignment.len();
        if !same(&[LEAST, CHECK], &p.file, &p.assignment, room) || !same(&[BOUNDS], &p.file, &ranges, room) {
            println!("answers differ: seed {seed}, a file that climbs");
            exit(1);
        }
        let mut answer = 0;
        let done = fast::tallied(|| answer = fast::least_call(&p.file, &p.assignment, &mut vec![0; room]));
        jumped += (done.jumps > 0) as u64;
        found += (answer == 8) as u64;
    }
    println!("The fast and the ported least, check and bounds answer as the proved ones on {inputs} seeded files that climb, of which {found}");
    println!("have a least model; in {jumped} of them the fast least jumps.");
}

/// What is asked for: the cost, which is the proved calls' time or how often the fast ones look at a rule; a seed; how long; and how many variables
/// and rules a file may have.
pub struct Asked {
    fast: bool,
    seed: u64,
    seconds: u64,
    variables: usize,
    rules: usize,
}

impl Asked {
    pub fn of(words: &[String]) -> Asked {
        let fast = words.first().is_some_and(|w| w == "fast");
        let numbers = &words[fast as usize..];
        let number = |i: usize, usual: usize| numbers.get(i).map_or(usual, |w| w.parse().expect("a number"));
        let (variables, rules) = (number(2, port::VARIABLES), number(3, port::RULES));
        Asked { fast, seed: number(0, 0) as u64, seconds: number(1, 60) as u64, variables, rules }
    }
}

struct Found {
    draft: Draft,
    cost: u64,
}

/// Both calls, proved and fast.
const CALLS: [(&str, Call, Call); 2] = [("least", proved_least, fast::least_call), ("check", proved_check, fast::check_call)];

/// The time of a call, or of the shorter of two where that is not long.
fn timed(call: Call, p: &Plan) -> Duration {
    const LONG: Duration = Duration::from_millis(500);
    let mut buffer = vec![0; BYTES];
    let mut once = || {
        let start = Instant::now();
        call(&p.file, &p.assignment, &mut buffer);
        start.elapsed()
    };
    let first = once();
    if first > LONG {
        first
    } else {
        first.min(once())
    }
}

struct Search {
    asked: Asked,
    end: Instant,
    pool: Vec<Found>,
}

impl Search {
    const POOL: usize = 48;

    /// Takes a file into the pool if it is read, is of the size that is asked for, and costs more than the least there.
    fn try_file(&mut self, draft: Draft) {
        if draft.variables.len() > self.asked.variables || draft.rules.len() > self.asked.rules || Instant::now() > self.end {
            return;
        }
        if !is_read(&draft) {
            return;
        }
        let draft = draft.settled();
        let p = draft.plan("");
        let cost = |(_, proved, plain): &(_, Call, Call)| {
            if self.asked.fast {
                fast::tallied(|| plain(&p.file, &p.assignment, &mut vec![0; BYTES])).looked
            } else {
                timed(*proved, &p).as_nanos() as u64
            }
        };
        let cost = CALLS.iter().map(cost).max().unwrap_or(0);
        let slowest = self.pool.first().map_or(0, |f| f.cost);
        if cost > slowest {
            let unit = if self.asked.fast { format!("{cost} looks") } else { shown(Duration::from_nanos(cost)) };
            println!("{unit:>16}, {} variables, {} rules", draft.variables.len(), draft.rules.len());
        }
        self.pool.push(Found { draft, cost });
        self.pool.sort_by_key(|f| Reverse(f.cost));
        self.pool.dedup_by_key(|f| f.cost);
        self.pool.truncate(Self::POOL);
    }

    /// Small files first, so that there is a pool before the time is over.
    fn begin(&mut self) {
        tiny().into_iter().for_each(|d| self.try_file(d));
        for seed in self.asked.seed..self.asked.seed + 1_000 {
            let input = second::gen::input(seed);
            if port::read(&input.file).is_ok_and(|k| k.variables > 0 && input.assignment.len() == 2 * k.variables) {
                self.try_file(Draft::of(&input.file, &input.assignment));
            }
        }
        for (size, order) in [(0, 0), (3, 0), (3, 1), (3, 3), (0, 2), (3, 2)] {
            for family in families() {
                let p = plan(&family, size, order);
                self.try_file(Draft::of(&p.file, &p.assignment));
            }
        }
    }

    fn run(&mut self) -> u64 {
        let mut s = Seed(self.asked.seed.wrapping_mul(0x9E37_79B9_7F4A_7C15) | 1);
        let mut tries = 0;
        while Instant::now() < self.end && !self.pool.is_empty() {
            let n = self.pool.len();
            let (a, b) = (s.next(n).min(s.next(n)), s.next(n));
            let mut draft = self.pool[a].draft.clone();
            change::changed(&mut s, &mut draft, &self.pool[b].draft);
            self.try_file(draft);
            tries += 1;
        }
        tries
    }
}

/// Prints the slowest file that is found, and writes it, as the printing program is given it, to target/slowest.bin.
pub fn search(asked: Asked) {
    let (start, time) = (Instant::now(), Duration::from_secs(asked.seconds));
    let mut search = Search { asked, end: start + time / 2, pool: Vec::new() };
    search.begin();
    search.end = start + time;
    let tries = search.run();
    let Some(Found { draft, .. }) = search.pool.first() else { return println!("no file of that size is read") };
    let p = draft.plan("");
    println!("\nThe slowest of {tries} changed files: {} variables, {} rules, {} bytes", draft.variables.len(), draft.rules.len(), p.file.len());
    println!("{:<10} {:>10} {:>10} {:>7} {:>7} {:>6}", "call", "proved", "fast", "/ fast", "rounds", "jumps");
    for (name, proved, plain) in CALLS {
        let (a, b) = (timed(proved, &p), timed(plain, &p));
        let done = fast::tallied(|| plain(&p.file, &p.assignment, &mut vec![0; BYTES]));
        let ratio = a.as_secs_f64() / b.as_secs_f64();
        println!("{name:<10} {:>10} {:>10} {ratio:>7.2} {:>7} {:>6}", shown(a), shown(b), done.rounds, done.jumps);
    }
    if draft.rules.len() <= 20 {
        print!("{draft}");
    }
    let frame = [&(p.file.len() as u16).to_be_bytes()[..], &p.file, &p.assignment].concat();
    std::fs::write("target/slowest.bin", frame).expect("target/slowest.bin is written");
}
