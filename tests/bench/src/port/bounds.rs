//! The bounds of half-filled plans: the tables of a run, their masks written again with the lent ranges, and a run that stops at the far ends.
use super::{body, direction, high, is_from_above, is_founded, is_kept, kind, low, number, pack, positions, read, reckon, rule_value};
use super::{tables, write_values, Counts, Direction, Ends, Tables, Values, FREE, VARIABLES};

fn load(ranges: &[u8], lows: &mut Values, highs: &mut Values) {
    for v in 0..ranges.len() / 4 {
        lows[v] = number(ranges, 4 * v);
        highs[v] = number(ranges, 4 * v + 2);
    }
}

/// Whether a range lies inside the declared one of x and is not empty.
fn fits(file: &[u8], x: usize, from: i64, to: i64) -> bool {
    (low(file, x) <= from) & ((from <= to) & (to <= high(file, x)))
}

fn all_fit(file: &[u8], variables: usize, lows: &Values, highs: &Values) -> bool {
    for v in 0..variables {
        if !fits(file, v, lows[v], highs[v]) {
            return false;
        }
    }
    true
}

/// Whether a position is read in the model, and whether it is mixed with a range that is not single.
fn way_at(file: &[u8], v: &[u8], i: usize, lows: &Values, highs: &Values) -> (bool, bool) {
    let x = body(v)[4 * i] as usize;
    let d = direction(file, v, i);
    let falls = d == Direction::Falling;
    let first = is_kept(file, x, d) | (!is_founded(file, x) & falls);
    (first, (d == Direction::Mixed) & (lows[x] < highs[x]))
}

fn mask_of(file: &[u8], v: &[u8], lows: &Values, highs: &Values) -> u32 {
    let mut i = positions(v);
    let mut bits = 0;
    let mut free = false;
    while 0 < i {
        i -= 1;
        let (first, loose) = way_at(file, v, i, lows, highs);
        bits = 2 * bits + first as u32;
        free |= loose;
    }
    if free {
        bits | 1 << FREE
    } else {
        bits
    }
}

fn set_masks(file: &[u8], k: Counts, t: &mut Tables, lows: &Values, highs: &Values) {
    for i in 0..k.rules {
        let v = rule_value(file, t.offsets[i]);
        t.masks[i] = mask_of(file, v, lows, highs);
    }
}

/// The end at which a position of x that is not read in the model is read.
fn other_end(file: &[u8], x: usize, low: i64, high: i64) -> i64 {
    if kind(file, x) == 1 {
        low
    } else {
        high
    }
}

/// The end at which lifts of x stop.
fn stop_end(file: &[u8], x: usize, low: i64, high: i64) -> i64 {
    if is_from_above(file, x) {
        low
    } else {
        high
    }
}

fn set_ends(file: &[u8], variables: usize, lows: &Values, highs: &Values, others: &mut Values, stops: &mut Values) {
    for v in 0..variables {
        others[v] = other_end(file, v, lows[v], highs[v]);
        stops[v] = stop_end(file, v, lows[v], highs[v]);
    }
}

/// Ranges that fit: the bounds are written.
fn bound(file: &[u8], k: Counts, lows: &Values, highs: &Values, buffer: &mut [u8]) {
    let (mut others, mut stops, mut model) = ([0; VARIABLES], [0; VARIABLES], [0; VARIABLES]);
    let mut t = tables(file, k);
    set_masks(file, k, &mut t, lows, highs);
    set_ends(file, k.variables, lows, highs, &mut others, &mut stops);
    reckon(file, k, &t, Ends { assigned: lows, others: &others, stops: &stops, cut: true }, &mut model);
    write_values(&model, k.variables, buffer);
}

pub fn bounds_call(file: &[u8], ranges: &[u8], buffer: &mut [u8]) -> u64 {
    let k = match read(file) {
        Ok(k) => k,
        Err((n, at)) => return pack(6, n, at, 0),
    };
    if ranges.len() != 4 * k.variables {
        return pack(6, 14, 0, 0);
    }
    let (mut lows, mut highs) = ([0; VARIABLES], [0; VARIABLES]);
    load(ranges, &mut lows, &mut highs);
    if !all_fit(file, k.variables, &lows, &highs) {
        return pack(6, 20, 0, 0);
    }
    if buffer.len() < 2 * k.variables {
        return pack(6, 15, 0, 0);
    }
    bound(file, k, &lows, &highs, buffer);
    pack(12, 0, 0, 0)
}
