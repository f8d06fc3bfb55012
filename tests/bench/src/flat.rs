//! Flattening: how the fast program is held to the proved call, and what is timed. There is no port of it. Beside it stands the proved read of the
//! file that is written.
use crate::files::trees::plans;
use crate::files::Plan;
use crate::{fast, medians, port, proved_read, same, shown, turn, Call, Row};
use std::hint::black_box;
use std::process::exit;

extern "C" {
    fn founded_flatten(nested: *const u8, length: usize, buffer: *mut u8, room: usize) -> u64;
}

fn proved_flatten(file: &[u8], _: &[u8], b: &mut [u8]) -> u64 {
    unsafe { founded_flatten(file.as_ptr(), file.len(), b.as_mut_ptr(), b.len()) }
}

fn fast_flatten(file: &[u8], _: &[u8], b: &mut [u8]) -> u64 {
    fast::flatten_call(file, b)
}

fn naive_flatten(file: &[u8], _: &[u8], b: &mut [u8]) -> u64 {
    black_box(second::flatten(file, b));
    0
}

/// The fast program stands in the port's place too.
const FLATTEN: Row = Row { name: "flatten", calls: [proved_flatten, fast_flatten, fast_flatten, naive_flatten] };

/// What is written for a file, or its refusal's number.
fn written(file: &[u8]) -> Result<Vec<u8>, u64> {
    let mut buffer = vec![0; port::MAX_FILE];
    let answer = proved_flatten(file, &[], &mut buffer);
    match answer & 0xFF {
        10 => {
            buffer.truncate((answer >> 8) as usize);
            Ok(buffer)
        }
        _ => Err(answer >> 8 & 0xFFFF),
    }
}

/// Whether the fast program answers and writes what the proved one does, on a buffer of this length, on one as long as the file, as long as what is
/// written, longer, and too short.
fn same_flat(file: &[u8], room: usize) -> bool {
    let n = written(file).map_or(file.len(), |plain| plain.len());
    [room, file.len(), n, n + 40, n.saturating_sub(1)].iter().all(|&room| same(&[FLATTEN], file, &[], room))
}

/// The rows, held to the proved call.
pub fn rows() -> Vec<Plan> {
    let rows = plans();
    if let Some(row) = rows.iter().find(|row| !same_flat(&row.file, port::MAX_FILE)) {
        println!("answers differ: {}", row.name);
        exit(1);
    }
    rows
}

/// Nested files of the seeds, and the plain files of the seeded inputs.
pub fn hold(first: u64, inputs: u64) {
    let (mut longer, mut refused) = (0, 0);
    for seed in first..first + inputs {
        let case = second::gen::nested::case(seed);
        let plain = second::gen::input(seed).file;
        if !same_flat(&case.file, case.buffer) || !same_flat(&plain, plain.len()) {
            println!("answers differ: seed {seed}, flattened");
            exit(1);
        }
        match written(&case.file) {
            Ok(plain) => longer += (plain.len() > case.file.len()) as u64,
            Err(number) => refused += (number == 13) as u64,
        }
    }
    println!("The fast flatten answers and writes what the proved one does on the rows, on the seeded inputs, and on {inputs} seeded nested files, of which");
    println!("{longer} become longer and {refused} are refused with 13.");
}

/// One line of a table of its own.
fn line(p: &Plan) {
    let plain = written(&p.file).ok().map(|file| Plan { name: String::new(), file, assignment: Vec::new() });
    let calls: [Call; 3] = [proved_flatten, fast_flatten, naive_flatten];
    let mut turns: Vec<_> = calls.iter().map(|&call| turn(call, p)).collect();
    turns.extend(plain.iter().map(|plain| turn(proved_read, plain)));
    let times = medians(&mut turns);
    print!("{:<38} {:<10} {:>10}", p.name, FLATTEN.name, shown(times[0].0));
    print!(" {:>10} {:>7.2}", shown(times[1].0), times[1].1);
    match times.get(3) {
        Some(read) => print!(" {:>10} {:>7.2}", shown(read.0), read.1),
        None => print!(" {:>10} {:>7}", "-", "-"),
    }
    println!(" {:>7.2}", times[2].1);
}

pub fn table(rows: &[Plan]) {
    println!("\nread: the proved read of the file that is written. Flattening has no port.\n");
    print!("{:<38} {:<10} {:>10}", "input", "call", "proved");
    println!(" {:>10} {:>7} {:>10} {:>7} {:>7}", "fast", "/ fast", "read", "/ read", "/ naive");
    rows.iter().for_each(line);
}
