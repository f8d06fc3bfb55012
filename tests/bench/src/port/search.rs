//! The search of components: for each variable a row of those that it reaches, four words each, and a round for each variable in turn.
use super::{body, direction, is_idle, is_kept, pack, positions, rules, scan, Counts, Direction, Values, VARIABLES};

pub const WORDS: usize = 4;

type Rows = [u64; WORDS * VARIABLES];

fn row_has(rows: &[u64], i: usize, v: usize) -> bool {
    let w = rows[WORDS * i + v / 64];
    (w >> (v % 64)) % 2 == 1
}

/// Row i takes in v where the test says so, without a branch.
fn mark_where(rows: &mut Rows, i: usize, v: usize, test: bool) {
    let at = WORDS * i + v / 64;
    rows[at] |= u64::from(test) << (v % 64);
}

/// The edges that a rule draws: an idle one draws none.
fn mark_rule(rows: &mut Rows, values: &mut Values, file: &[u8], v: &[u8]) {
    if is_idle(values, file, v) {
        return;
    }
    for i in 0..positions(v) {
        let x = body(v)[4 * i] as usize;
        let d = direction(file, v, i);
        mark_where(rows, v[1] as usize, x, is_kept(file, x, d) | (d == Direction::Mixed));
    }
}

pub fn mark_edges(rows: &mut Rows, values: &mut Values, file: &[u8], k: Counts) {
    rules(file, k).for_each(|(_, v)| mark_rule(rows, values, file, v));
}

/// Row i takes in row k.
fn join(rows: &mut [u64], i: usize, k: usize) {
    let (p, q) = (WORDS * i, WORDS * k);
    for t in 0..WORDS {
        let w = rows[q + t];
        rows[p + t] |= w;
    }
}

fn round(rows: &mut [u64], k: usize, n: usize) {
    for i in 0..n {
        if row_has(rows, i, k) {
            join(rows, i, k);
        }
    }
}

/// Variable k's round.
pub fn step_call(sets: &mut [u64], variables: usize, k: usize) -> bool {
    if VARIABLES < variables {
        return false;
    }
    if sets.len() < WORDS * variables {
        return false;
    }
    if variables <= k {
        return false;
    }
    round(sets, k, variables);
    true
}

/// What the variables reach over one edge or more.
pub fn close(sets: &mut [u64], variables: usize) {
    for k in 0..variables {
        step_call(sets, variables, k);
    }
}

pub fn share(sets: &[u64], x: usize, y: usize) -> bool {
    if x == y {
        return true;
    }
    row_has(sets, x, y) & row_has(sets, y, x)
}

fn first_sharing(sets: &[u64], x: usize) -> usize {
    (0..x).find(|&y| share(sets, x, y)).unwrap_or(x)
}

/// The first variable of each component.
pub fn components_call(sets: &[u64], variables: usize, buffer: &mut [u8]) -> bool {
    if VARIABLES < variables {
        return false;
    }
    if sets.len() < WORDS * variables {
        return false;
    }
    if buffer.len() < variables {
        return false;
    }
    for x in 0..variables {
        buffer[x] = first_sharing(sets, x) as u8;
    }
    true
}

/// The sets before the first round.
pub fn begin_call(file: &[u8], sets: &mut [u64]) -> u64 {
    let k = match scan(file) {
        Ok(k) => k,
        Err((n, at)) => return pack(6, n, at, 0),
    };
    let n = k.variables;
    if sets.len() < WORDS * n {
        return pack(6, 15, 0, 0);
    }
    let mut rows = [0; WORDS * VARIABLES];
    let mut values = [0; VARIABLES];
    mark_edges(&mut rows, &mut values, file, k);
    for i in 0..WORDS * n {
        sets[i] = rows[i];
    }
    pack(11, n, 0, 0)
}
