//! The bounds of half-filled plans: how the Rust code is held to the proved call, and what is timed. With single ranges it stands beside `least`.
use crate::files::lent::{self, single};
use crate::files::{capped, Plan, Seed, ABOVE, BELOW};
use crate::{fast, header, line, medians, port, same, shown, turn, Row, LEAST};
use std::hint::black_box;
use std::process::exit;

extern "C" {
    fn founded_bounds(file: *const u8, length: usize, ranges: *const u8, n: usize, buffer: *mut u8, room: usize) -> u64;
}

fn proved_bounds(file: &[u8], ranges: &[u8], b: &mut [u8]) -> u64 {
    unsafe { founded_bounds(file.as_ptr(), file.len(), ranges.as_ptr(), ranges.len(), b.as_mut_ptr(), b.len()) }
}

/// The ranges stand in the place of an assignment.
pub const BOUNDS: Row = Row {
    name: "bounds",
    calls: [
        proved_bounds,
        fast::bounds_call,
        port::bounds_call,
        |file, ranges, b| {
            black_box(second::bounds(file, ranges, b));
            0
        },
    ],
};

/// Whether the Rust code answers and writes what the proved call does, on a buffer of this length, on one as long as the bounds, on a longer one, on
/// one that is too short and on none.
fn same_bounds(file: &[u8], ranges: &[u8], room: usize) -> bool {
    let n = ranges.len() / 2;
    [room, n, n + 7, n.saturating_sub(1), 0].iter().all(|&room| same(&[BOUNDS], file, ranges, room))
}

fn fail(what: &str) -> ! {
    println!("answers differ: {what}");
    exit(1);
}

/// The rows, held to the proved call.
pub fn rows() -> Vec<Plan> {
    let rows = lent::plans();
    if let Some(row) = rows.iter().find(|row| !same_bounds(&row.file, &row.assignment, port::MAX_FILE)) {
        fail(&row.name);
    }
    rows
}

/// Ranges for a file's first fields, inside the declared ones but for a few: single, declared, or drawn.
pub fn drawn(s: &mut Seed, file: &[u8], assignment: &[u8]) -> Vec<u8> {
    let singles = s.next(5);
    let mut ranges = Vec::new();
    for (field, value) in file.as_chunks::<8>().0.iter().zip(assignment.as_chunks::<2>().0) {
        let [.., a, b, c, d] = *field;
        let ends = [[a, b], [c, d]].map(|two| i64::from(i16::from_be_bytes(two)));
        let mut inside = || ends[0] + s.next((ends[1] - ends[0]).max(0) as usize + 1) as i64;
        let (one, other) = (inside(), inside());
        let (low, high) = match (s.next(4) < singles, s.next(4)) {
            (true, _) => (i64::from(i16::from_be_bytes(*value)), i64::from(i16::from_be_bytes(*value))),
            (_, 0) => (ends[0], one),
            (_, 1) => (one, ends[1]),
            (_, 2) => (one.min(other), one.max(other)),
            _ => (ends[0], ends[1]),
        };
        ranges.extend([low, high].map(|z| (z as i16).to_be_bytes()).concat());
    }
    ranges
}

/// Seeded files with lent ranges, and the seeded inputs, also with variables founded from above, with ranges of their own.
pub fn hold(first: u64, inputs: u64) {
    let (mut bounded, mut drawn_bounded) = (0, 0);
    for seed in first..first + inputs {
        let case = second::gen::ranged::case(seed);
        if !same_bounds(&case.file, &case.ranges, case.buffer) {
            fail(&format!("seed {seed}, bounds"));
        }
        bounded += (port::bounds_call(&case.file, &case.ranges, &mut [0; 2 * port::VARIABLES]) == 12) as u64;
        let mut s = Seed(seed.wrapping_mul(0xD6E8_FEB8_6659_FD93) | 1);
        let input = second::gen::input(seed);
        let turned = crate::turned::turned(seed, &input.file, &input.assignment);
        for (file, assignment) in [(&input.file, &input.assignment), (&turned.file, &turned.assignment)] {
            let ranges = drawn(&mut s, file, assignment);
            if !same_bounds(file, &ranges, input.buffer) {
                fail(&format!("seed {seed}, bounds with drawn ranges"));
            }
            drawn_bounded += (port::bounds_call(file, &ranges, &mut [0; 2 * port::VARIABLES]) == 12) as u64;
        }
    }
    println!("The fast and the ported bounds answer and write what the proved call does on the rows, on {inputs} seeded files with lent ranges, of which");
    println!("{bounded} are bounded, and on the seeded inputs with drawn ranges, of which {drawn_bounded} are.");
}

/// Stable plans, on which `least` finds the assigned values.
fn singles() -> [(&'static str, Plan); 5] {
    [
        ("small roster, 16 variables", lent::small(BELOW)),
        ("week's desk, 64 variables", lent::week(BELOW)),
        ("2,048 rules", lent::limit(BELOW)),
        ("2,048 rules, from above", lent::limit(ABOVE)),
        ("circle of 127, halves up to a cap", capped("", 127)),
    ]
}

/// Both calls of one program after the other, on single ranges and on the assignment.
fn beside_least(name: &str, p: &Plan) {
    let ranged = single(p, name);
    for (i, program) in ["proved", "fast", "port"].iter().enumerate() {
        let (bounds, least) = (BOUNDS.calls[i], LEAST.calls[i]);
        let (mut a, mut b) = (vec![0; p.assignment.len()], vec![1; p.assignment.len()]);
        if bounds(&ranged.file, &ranged.assignment, &mut a) != 12 || least(&p.file, &p.assignment, &mut b) != 8 || a != b {
            fail(&format!("{name}, bounds beside least"));
        }
        let times = medians(&mut [turn(bounds, &ranged), turn(least, p)]);
        println!("{name:<38} {program:<10} {:>10} {:>10} {:>7.2}", shown(times[0].0), shown(times[1].0), times[1].1);
    }
}

pub fn table(rows: &[Plan]) {
    println!("\nbounds: half-filled plans.\n");
    header();
    rows.iter().for_each(|p| line(p, &BOUNDS));
    println!("\nbounds with single ranges beside least on the same file with these values, each by the same program.\n");
    println!("{:<38} {:<10} {:>10} {:>10} {:>7}", "input", "program", "bounds", "least", "/ least");
    singles().iter().for_each(|(name, p)| beside_least(name, p));
}
