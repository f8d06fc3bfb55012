//! How long the proved calls take, beside (1) Rust written for speed alone, (2) a port of the proved code as it was before leaps, and (3) naive
//! iteration, the second checker. Rows of one kind double in size, so that the table shows how the time grows. Before anything is timed, the first
//! two are held to the proved calls: every answer, and every byte of the lent buffer and around it, on the rows, on seeded inputs, on the same
//! inputs with variables founded from above, on seeded files to be written anew, on seeded nested files, on seeded files with lent ranges and, of the
//! search of components, on seeded sets.
//!
//! bench: the tables, that of circles in part. bench hold [seeded inputs] [first seed]: no table. bench flatten: the table of flatten alone. bench
//! bounds [seeded inputs] [first seed]: those of bounds alone, which is held to the proved call before. bench circles: the whole table of files that
//! climb by little a lap. bench climbs [seeded inputs] [first seed]: least, check and bounds held to the proved calls on small ones of these alone.
//! bench slowest [fast] [seed] [seconds] [variables] [rules]: a search for slow files, by the time of the proved calls or by the fast calls' work.
mod bounds;
mod circles;
mod fast;
mod files;
mod flat;
mod port;
mod search;
mod slowest;
mod turned;

use files::orders;
use files::{arrivals, capped, circle, circle_of, desk, followers, halves, led, led_by_two, mixed, mixed_in_use, ring, ring_of_both, roster};
use files::{roster_of, row_13, Plan, Posts, Seed, ABOVE, ALL, BELOW, BOTH, DIVIDED, LONG, UNDIVIDED, UNUSED, USED, WITHOUT_SIZE};
use std::hint::black_box;
use std::process::exit;
use std::time::{Duration, Instant};

extern "C" {
    fn founded_read(file: *const u8, length: usize) -> u64;
    fn founded_least(file: *const u8, length: usize, a: *const u8, n: usize, buffer: *mut u8, room: usize) -> u64;
    fn founded_check(file: *const u8, length: usize, a: *const u8, n: usize, report: *mut u8, room: usize) -> u64;
    fn founded_normalize(file: *const u8, length: usize, buffer: *mut u8, room: usize) -> u64;
}

/// File, assignment and lent buffer; the answer is packed.
type Call = fn(&[u8], &[u8], &mut [u8]) -> u64;

fn proved_read(file: &[u8], _: &[u8], _: &mut [u8]) -> u64 {
    unsafe { founded_read(file.as_ptr(), file.len()) }
}

fn proved_least(file: &[u8], a: &[u8], b: &mut [u8]) -> u64 {
    unsafe { founded_least(file.as_ptr(), file.len(), a.as_ptr(), a.len(), b.as_mut_ptr(), b.len()) }
}

fn proved_check(file: &[u8], a: &[u8], b: &mut [u8]) -> u64 {
    unsafe { founded_check(file.as_ptr(), file.len(), a.as_ptr(), a.len(), b.as_mut_ptr(), b.len()) }
}

fn proved_normalize(file: &[u8], _: &[u8], b: &mut [u8]) -> u64 {
    unsafe { founded_normalize(file.as_ptr(), file.len(), b.as_mut_ptr(), b.len()) }
}

/// One call in four programs: proved, fast, port, naive. The naive one's answer is not looked at.
struct Row {
    name: &'static str,
    calls: [Call; 4],
}

const READ: Row = Row {
    name: "read",
    calls: [
        proved_read,
        |file, _, _| fast::read_call(file),
        |file, _, _| port::read_call(file),
        |file, _, _| {
            black_box(second::read(file));
            0
        },
    ],
};

const LEAST: Row = Row {
    name: "least",
    calls: [
        proved_least,
        fast::least_call,
        port::least_call,
        |file, a, b| {
            black_box(second::least(file, a, b));
            0
        },
    ],
};

const CHECK: Row = Row {
    name: "check",
    calls: [
        proved_check,
        fast::check_call,
        port::check_call,
        |file, a, b| {
            black_box(second::check(file, a, b));
            0
        },
    ],
};

const NORMALIZE: Row = Row {
    name: "normalize",
    calls: [
        proved_normalize,
        |file, _, b| fast::normalize_call(file, b),
        |file, _, b| port::normalize_call(file, b),
        |file, _, b| {
            black_box(second::normalize(file, b));
            0
        },
    ],
};

/// Whether the fast and the ported calls answer what the proved ones do, on a lent buffer of this length between guards.
fn same(rows: &[Row], file: &[u8], assignment: &[u8], room: usize) -> bool {
    const GUARD: usize = 64;
    rows.iter().all(|row| {
        let seen = |call: Call| {
            let mut buffer = vec![0xA5; room + 2 * GUARD];
            let answer = call(file, assignment, &mut buffer[GUARD..GUARD + room]);
            (answer, buffer)
        };
        let want = seen(row.calls[0]);
        seen(row.calls[1]) == want && seen(row.calls[2]) == want
    })
}

/// The calls for files with an assignment.
const ASSIGNED: [Row; 3] = [READ, LEAST, CHECK];

/// The same of normalize, on a buffer as long as the file, on a longer one, on one that is too short and on one of this length.
fn same_written(file: &[u8], room: usize) -> bool {
    let n = file.len();
    [n, n + 40, n.saturating_sub(1), room].iter().all(|&room| same(&[NORMALIZE], file, &[], room))
}

fn hold_rows(plans: &[Plan]) {
    for p in plans {
        let n = p.assignment.len() / 2;
        let rooms = [12 * n, 12 * n + 8, 12 * n - 1, 2 * n, 2 * n - 1];
        if !rooms.iter().all(|&room| same(&ASSIGNED, &p.file, &p.assignment, room)) || !same_written(&p.file, 0) {
            println!("answers differ: {}", p.name);
            exit(1);
        }
    }
}

fn hold(first: u64, inputs: u64) {
    // how many of the turned inputs are stable, and unfounded
    let (mut stable, mut unfounded) = (0, 0);
    for seed in first..first + inputs {
        let input = second::gen::input(seed);
        let turned = turned::turned(seed, &input.file, &input.assignment);
        let fine = |file: &[u8], a: &[u8]| same(&ASSIGNED, file, a, input.buffer) && same_written(file, input.buffer);
        if !fine(&input.file, &input.assignment) || !fine(&turned.file, &turned.assignment) {
            println!("answers differ: seed {seed}");
            exit(1);
        }
        let mut report = [0; 12 * port::VARIABLES];
        let word = if turned.file == input.file { 0 } else { port::check_call(&turned.file, &turned.assignment, &mut report) & 0xFF };
        stable += (word == 1) as u64;
        unfounded += (word == 2) as u64;
    }
    println!("The fast and the ported calls answer as the proved ones, byte for byte, on the rows, on {inputs} seeded inputs and on the same with");
    println!("variables founded from above, of which {stable} are stable and {unfounded} unfounded.");
}

/// Files to be written anew, and where they are accepted the same plan written otherwise.
fn hold_written(first: u64, inputs: u64) {
    let (mut written, mut shorter) = (0, 0);
    for seed in first..first + inputs {
        let case = second::gen::anew::case(seed);
        let copy = case.copy.as_deref().unwrap_or(&[]);
        if !same_written(&case.file, case.buffer) || !same_written(copy, case.buffer) {
            println!("answers differ: seed {seed}, written anew");
            exit(1);
        }
        let answer = port::normalize_call(&case.file, &mut vec![0; case.file.len()]);
        written += (answer & 0xFF == 10) as u64;
        shorter += (answer & 0xFF == 10 && answer >> 8 < case.file.len() as u64) as u64;
    }
    println!("So does normalize on these, and on {inputs} seeded files to be written anew, of which {written} are written, {shorter} of these shorter.");
}

/// Of so many seeded inputs one is a file that climbs, on which the calls are slow.
const CLIMBS: u64 = 25;

const ROUNDS: usize = 25;
const SLOW: usize = 3;

/// A program's turn: it does so often what is timed.
type Turn<'a> = Box<dyn FnMut(u32) + 'a>;

fn repeated<'a>(mut once: impl FnMut() + 'a) -> Turn<'a> {
    Box::new(move |times| (0..times).for_each(|_| once()))
}

/// A call on this plan.
fn turn(call: Call, p: &Plan) -> Turn<'_> {
    let mut buffer = vec![0u8; port::MAX_FILE];
    repeated(move || {
        black_box(call(black_box(&p.file), black_box(&p.assignment), black_box(&mut buffer)));
    })
}

/// The median of each program's times, and of the first one's ratios to it, over rounds in which every program has its turn.
fn medians(turns: &mut [Turn]) -> Vec<(Duration, f64)> {
    let timed = |turn: &mut Turn, times: u32| {
        let start = Instant::now();
        turn(times);
        start.elapsed() / times
    };
    let once: Vec<Duration> = turns.iter_mut().map(|turn| timed(turn, 1).min(timed(turn, 1))).collect();
    let slow = once.iter().any(|t| *t > Duration::from_millis(20));
    let mut rounds = vec![Vec::new(); turns.len()];
    for _ in 0..if slow { SLOW } else { ROUNDS } {
        for (i, turn) in turns.iter_mut().enumerate() {
            let times = (1_000_000 / once[i].as_nanos().max(1)).clamp(1, 20_000) as u32;
            rounds[i].push(timed(turn, times));
        }
    }
    let one = |r: &Vec<Duration>| {
        let ratios = rounds[0].iter().zip(r).map(|(a, b)| a.as_secs_f64() / b.as_secs_f64());
        (middle(r.clone()), middle(ratios.collect()))
    };
    rounds.iter().map(one).collect()
}

fn middle<T: Copy + PartialOrd>(mut all: Vec<T>) -> T {
    all.sort_by(|a, b| a.partial_cmp(b).expect("a number"));
    all[all.len() / 2]
}

/// One line of the table; naive iteration is left out where it would take minutes, and where it reads the file in another way.
fn line(p: &Plan, row: &Row) {
    let accepts = matches!(second::read(&p.file), second::Reading::Accepted { .. });
    let naive = accepts == port::read(&p.file).is_ok() && (row.name != "least" || !p.name.contains("reverse"));
    let calls = &row.calls[..if naive { 4 } else { 3 }];
    print_line((&p.name, row.name), calls.iter().map(|&call| turn(call, p)).collect());
}

fn header() {
    print!("{:<38} {:<10} {:>10}", "input", "call", "proved");
    println!(" {:>10} {:>7} {:>10} {:>7} {:>7}", "fast", "/ fast", "port", "/ port", "/ naive");
}

fn print_line((input, call): (&str, &str), mut turns: Vec<Turn>) {
    let times = medians(&mut turns);
    let ratio = |i: usize| times.get(i).map_or("-".to_string(), |t| format!("{:.2}", t.1));
    print!("{input:<38} {call:<10} {:>10}", shown(times[0].0));
    println!(" {:>10} {:>7} {:>10} {:>7} {:>7}", shown(times[1].0), ratio(1), shown(times[2].0), ratio(2), ratio(3));
}

fn shown(t: Duration) -> String {
    match t.as_nanos() {
        n @ 0..=999 => format!("{n} ns"),
        n @ 1_000..=999_999 => format!("{:.1} µs", n as f64 / 1e3),
        n => format!("{:.1} ms", n as f64 / 1e6),
    }
}

/// One bit is flipped in the second half, so that the file is refused.
fn damaged(p: &Plan, name: &str, seed: u64) -> Plan {
    let mut s = Seed(seed);
    loop {
        let mut file = p.file.clone();
        let i = file.len() / 2 + s.next(file.len() / 2);
        file[i] ^= 1 << s.next(8);
        if port::read(&file).is_err() {
            return Plan { name: name.to_string(), file, assignment: p.assignment.clone() };
        }
    }
}

fn plans() -> Vec<Plan> {
    let limit = desk("file at the limits, literals", 256, 1_180, 512, 9);
    let divided = roster("file at the limits, 17 groups a rule", 256, 704, 512, 16, DIVIDED);
    let mut plans = vec![
        row_13("mixed circle of 2, refused 13"),
        mixed_in_use("mixed 128, just not idle, refused 13", Some(USED)),
        mixed_in_use("mixed 128, last rule idle, accepted", Some(UNUSED)),
        mixed_in_use("1,024 mixed places, none idle", None),
        mixed("mixed circle of 128, all idle", true),
        mixed("1,024 mixed places, all idle", false),
        damaged(&limit, "file at the limits, a bit flipped", 7),
        damaged(&limit, "file at the limits, another bit", 8),
        damaged(&divided, "17 groups a rule, a bit flipped", 7),
        desk("small roster, 16 variables", 16, 40, 4, 3),
        roster("small roster, forms 1 to 7", 16, 40, 4, 3, UNDIVIDED),
        roster("small roster, sums over divisors", 16, 40, 4, 3, DIVIDED),
        desk("week's desk, 64 variables", 64, 300, 20, 4),
        roster("week's desk, forms 1 to 7", 64, 300, 20, 4, UNDIVIDED),
        roster("week's desk, forms 1 to 8", 64, 300, 20, 4, ALL),
        roster("week's desk, sums over divisors", 64, 300, 20, 4, DIVIDED),
        limit,
        roster("file at the limits, forms 1 to 7", 256, 1_380, 512, 9, UNDIVIDED),
        divided,
        roster("2,048 rules, forms 1 to 7", 256, 2_048, 512, 4, UNDIVIDED),
    ];
    plans.extend(idle_plans());
    for n in [64, 128, 256] {
        plans.push(ring(&format!("unfounded ring of {n}"), n));
    }
    for n in [64, 128, 256] {
        plans.push(circle(&format!("circle of {n}, whole range"), n, false));
        plans.push(circle(&format!("circle of {n}, reverse order"), n, true));
    }
    for n in [64, 128, 256] {
        plans.push(followers(&format!("followers, {n}, file order"), n, false));
        plans.push(followers(&format!("followers, {n}, reverse order"), n, true));
    }
    plans.push(led("followers and leader in one circle", 256));
    for n in [64, 128, 256] {
        plans.push(halves(&format!("circle of {n}, halves of two"), n, false));
    }
    plans.push(halves("circle of 256, halves, reverse order", 256, true));
    for n in [32, 64, 127] {
        plans.push(capped(&format!("circle of {n}, halves up to a cap"), n));
    }
    plans.push(led_by_two("followers of two in one circle", 256));
    plans.extend(plans_from_above());
    plans
}

/// Plans with variables that are founded from above.
fn plans_from_above() -> Vec<Plan> {
    let week = Posts { kinds: ABOVE, variables: 64, rules: 300, constraints: 20, terms: 4, forms: UNDIVIDED, mixed: 40, idle: 150 };
    let limit = Posts { kinds: ABOVE, variables: 256, rules: 748, constraints: 512, terms: 16, forms: LONG, mixed: 16, idle: 180 };
    let both = Posts { kinds: BOTH, ..limit };
    vec![
        arrivals("arrivals, 16 variables", 16, 40),
        arrivals("arrivals, 64 variables", 64, 256),
        arrivals("arrivals, 256 variables, 1,024 rules", 256, 1_024),
        roster_of("week's desk from above, forms 1 to 8", ABOVE, 64, 300, 20, 4, ALL),
        roster_of("week's desk, both kinds, forms 1 to 8", BOTH, 64, 300, 20, 4, ALL),
        roster_of("at the limits, both kinds, forms 1-8", BOTH, 256, 1_350, 512, 9, ALL),
        week.plan("week's desk from above, mixed places"),
        limit.plan("at the limits, from above, mixed"),
        both.plan("at the limits, both kinds, mixed"),
        circle_of("circle of 256 from above, whole range", ABOVE, 256, false),
        circle_of("circle of 256, both kinds, whole range", BOTH, 256, false),
        ring_of_both("unfounded ring of 256, both kinds", 256, false),
        ring_of_both("ring of 256, both kinds, conditions", 256, true),
    ]
}

/// Plans that are accepted thanks to their idle rules.
fn idle_plans() -> [Plan; 3] {
    let small = Posts { kinds: BELOW, variables: 16, rules: 40, constraints: 4, terms: 3, forms: WITHOUT_SIZE, mixed: 1, idle: 12 };
    let week = Posts { kinds: BELOW, variables: 64, rules: 300, constraints: 20, terms: 4, forms: UNDIVIDED, mixed: 40, idle: 150 };
    let limit = Posts { kinds: BELOW, variables: 256, rules: 748, constraints: 512, terms: 16, forms: LONG, mixed: 16, idle: 180 };
    [
        small.plan("small roster, a mixed place, 12 idle"),
        week.plan("week's desk, mixed places, half idle"),
        limit.plan("file at the limits, mixed, some idle"),
    ]
}

fn main() {
    let given: Vec<String> = std::env::args().skip(1).collect();
    let amount = |i: usize, usual: u64| given.get(i).map_or(usual, |a| a.parse().expect("a number"));
    let asked = |word: &str| given.first().is_some_and(|first| first == word);
    if asked("slowest") {
        return slowest::search(slowest::Asked::of(&given[1..]));
    }
    let (first, inputs) = (amount(2, 0), amount(1, 50_000));
    if asked("bounds") {
        let half_filled = bounds::rows();
        bounds::hold(first, inputs);
        return bounds::table(&half_filled);
    }
    if asked("climbs") {
        return slowest::hold(first, inputs);
    }
    if asked("circles") {
        return circles::table(true);
    }
    if asked("timed") {
        return circles::child(std::array::from_fn(|i| amount(i + 1, 0) as usize));
    }
    if asked("flatten") {
        return flat::table(&flat::rows());
    }
    let (plans, orders, searches, nested, half_filled) = (plans(), orders::plans(), search::rows(), flat::rows(), bounds::rows());
    hold_rows(&plans);
    hold_rows(&orders);
    hold(first, inputs);
    hold_written(first, inputs);
    search::hold(first, inputs);
    flat::hold(first, inputs);
    bounds::hold(first, inputs);
    slowest::hold(first, inputs / CLIMBS);
    if asked("hold") {
        return;
    }
    println!("Times and ratios (the proved call's time by the other's) are medians of {ROUNDS} rounds of one run, {SLOW} for calls over 20 ms; in a");
    println!("round every program has its turn, about 1 ms.");
    println!("fast: Rust for speed alone, by its own algorithms; port: the proved code in Rust as it was before leaps; naive: the second checker.");
    println!("search: begin and every step; step: one step and then the next, on sets that no step changes.\n");
    header();
    for p in &plans {
        ASSIGNED.iter().for_each(|row| line(p, row));
    }
    for p in &orders {
        [READ, NORMALIZE].iter().for_each(|row| line(p, row));
    }
    for row in &searches {
        print_line(row.names(), row.turns());
    }
    flat::table(&nested);
    bounds::table(&half_filled);
    circles::table(false);
}
