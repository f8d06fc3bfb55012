//! Files that climb by little a lap, in families whose sizes double, so that a line of the table shows how the time grows. Each call is timed in a
//! process of its own, which is ended where it takes too long; the fast call is held to the proved one where both end.
use crate::bounds::BOUNDS;
use crate::files::circles::{families, plan, tiny, Family, ORDERS};
use crate::files::draft::Draft;
use crate::files::{lent, Plan};
use crate::port::number;
use crate::{fast, middle, shown, turn, Call, Row, CHECK, LEAST};
use std::process::{exit, Child, Command, Stdio};
use std::time::{Duration, Instant};

/// How long a process may take.
const LIMIT: Duration = Duration::from_millis(1_200);
/// The programs of the table, by their places in a row: proved, fast, naive.
const PROGRAMS: [usize; 3] = [0, 1, 3];

const ROWS: [&Row; 3] = [&LEAST, &CHECK, &BOUNDS];

/// The plan of a row; bounds are asked for with the declared ranges.
fn input(family: &Family, size: usize, order: usize, row: &Row) -> Plan {
    let p = plan(family, size, order);
    if row.name == BOUNDS.name {
        lent::whole(&p, &p.name)
    } else {
        p
    }
}

/// What a call answers and leaves in the buffer, each as a number.
fn seen(call: Call, p: &Plan) -> (u64, u64) {
    let mut buffer = vec![0; crate::port::MAX_FILE];
    let answer = call(&p.file, &p.assignment, &mut buffer);
    (answer, buffer.iter().fold(0, |h, &b| (h ^ u64::from(b)).wrapping_mul(0x0100_0000_01B3)))
}

/// The median of a few rounds, about 1 ms each; of a slow call fewer.
fn time(call: Call, p: &Plan) -> Duration {
    let mut turn = turn(call, p);
    let mut timed = |times: u32| {
        let start = Instant::now();
        turn(times);
        start.elapsed() / times
    };
    let once = timed(1);
    let times = (1_000_000 / once.as_nanos().max(1)).clamp(1, 20_000) as u32;
    let rounds = match once.as_millis() {
        0..=4 => 9,
        5..=50 => 3,
        _ => return once,
    };
    middle((0..rounds).map(|_| timed(times)).collect())
}

/// One call of one program, in a process of its own: prints its time in nanoseconds and what is seen.
pub fn child(at: [usize; 5]) {
    let [family, size, order, row, program] = at;
    let row = ROWS[row];
    let p = input(&families()[family], size, order, row);
    let time = time(row.calls[program], &p);
    let (answer, left) = seen(row.calls[program], &p);
    println!("{} {answer} {left}", time.as_nanos());
}

/// A call's time, its answer and what it leaves in the buffer.
type Timed = (Duration, u64, u64);

/// What a process says, if it ends in time.
fn waited(mut child: Child) -> Option<Timed> {
    let end = Instant::now() + LIMIT;
    while child.try_wait().expect("a process of this one").is_none() {
        if Instant::now() > end {
            let _ = child.kill();
            let _ = child.wait();
            return None;
        }
        std::thread::sleep(Duration::from_millis(1));
    }
    let said = child.wait_with_output().expect("what it said").stdout;
    let numbers: Vec<u64> = String::from_utf8_lossy(&said).split_whitespace().filter_map(|w| w.parse().ok()).collect();
    match numbers[..] {
        [nanos, answer, left] => Some((Duration::from_nanos(nanos), answer, left)),
        _ => None,
    }
}

fn started(at: [usize; 5]) -> Option<Timed> {
    let this = std::env::current_exe().expect("this program");
    let mut command = Command::new(this);
    command.arg("timed").args(at.map(|n| n.to_string())).stdout(Stdio::piped());
    waited(command.spawn().expect("a process"))
}

/// The times by size; a size is left out where a smaller one took too long.
fn times(sizes: usize, at: impl Fn(usize) -> [usize; 5]) -> Vec<Option<Timed>> {
    let mut out = Vec::new();
    for size in 0..sizes {
        let before = out.last().is_none_or(Option::is_some);
        out.push(if before { started(at(size)) } else { None });
    }
    out
}

fn fail(what: &str) -> ! {
    println!("answers differ: {what}");
    exit(1);
}

/// One line: a call on all sizes of a family in one order.
fn line(families: &[Family], family: usize, order: usize, row: usize) {
    let sizes = families[family].drafts.len();
    // naive iteration is asked in file order alone
    let all = PROGRAMS.map(|p| if p == 3 && order > 0 { vec![None; sizes] } else { times(sizes, |size| [family, size, order, row, p]) });
    for (size, (a, b)) in all[0].iter().zip(&all[1]).enumerate() {
        if let (Some(a), Some(b)) = (a, b) {
            if (a.1, a.2) != (b.1, b.2) {
                fail(&format!("{} of {}", ROWS[row].name, plan(&families[family], size, order).name));
            }
        }
    }
    let cell = |t: &Option<Timed>| t.map_or("-".to_string(), |t| shown(t.0));
    print!("{:<20}", format!("  {}{}", ROWS[row].name, ORDERS[order]));
    for (program, some) in all.iter().enumerate() {
        some.iter().for_each(|t| print!(" {:>8}", cell(t)));
        let last = some.iter().zip(&all[0]).rev().find_map(|(b, a)| Some(a.as_ref()?.0.as_secs_f64() / b.as_ref()?.0.as_secs_f64()));
        if program == 1 {
            print!(" {:>8}", last.map_or("-".to_string(), |r| format!("{r:.1}")));
        }
    }
    let p = input(&families[family], sizes - 1, order, ROWS[row]);
    let done = fast::tallied(|| seen(ROWS[row].calls[1], &p));
    println!(" {:>7} {:>6}", done.rounds, done.jumps);
}

/// Whether the naive program answers on a file and on the mirrored one alike: the model with all values negated, the verdict, and the entries of
/// the report with the same variables and negated values.
fn mirrors(d: &Draft) -> bool {
    let (p, q) = (d.plan(""), d.mirrored().plan(""));
    let n = d.variables.len();
    let (mut a, mut b) = (vec![0; 12 * n], vec![0; 12 * n]);
    let negated = |a: &[u8], b: &[u8], at: usize| number(a, at) == -number(b, at);
    let same = second::least(&p.file, &p.assignment, &mut a) == second::least(&q.file, &q.assignment, &mut b);
    let values = (0..n).all(|v| negated(&a, &b, 2 * v));
    let verdict = second::check(&p.file, &p.assignment, &mut a);
    let entries = |v: &second::Verdict| if let second::Verdict::Unfounded(x, y) = v { x + y } else { 0 };
    let alike = verdict == second::check(&q.file, &q.assignment, &mut b);
    same && values && alike && (0..entries(&verdict)).all(|i| a[4 * i] == b[4 * i] && negated(&a, &b, 4 * i + 2))
}

/// All of it, or least alone in file order and behind other rules.
pub fn table(all: bool) {
    if let Some(i) = tiny().into_iter().map(Draft::settled).position(|d| !mirrors(&d)) {
        fail(&format!("small file {i} and the one from above"));
    }
    println!("\ncircles: the four times of a program are those of the family's four sizes; -: that or a smaller one took over a second, or was not asked.");
    println!("/ fast is that of the largest size that both were timed on; rounds and jumps are those of the fast program on the largest.\n");
    let families = families();
    print!("{:<20} {:>8} {:>27} {:>8} {:>27}", "family", "proved", "", "fast", "");
    println!(" {:>8} {:>8} {:>27} {:>7} {:>6}", "/ fast", "naive", "", "rounds", "jumps");
    for (f, family) in families.iter().enumerate() {
        let sizes: Vec<&str> = family.drafts.iter().map(|d| d.0.as_str()).collect();
        println!("{}: {}", family.name, sizes.join(", "));
        if !all {
            [0, 2].into_iter().for_each(|order| line(&families, f, order, 0));
            continue;
        }
        for row in [0, 1] {
            (0..ORDERS.len()).for_each(|order| line(&families, f, order, row));
        }
        line(&families, f, 0, 2);
    }
}
