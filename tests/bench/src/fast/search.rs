//! A search of components, stepped through, on rows of 256 bits.
use super::read::{self, Ends, Rule, Sink, Variable};
use super::refused;
use crate::port::pack;

const VARIABLES: usize = 256;

type Row = [u64; 4];

/// The edges of rules as they are read.
struct Edges<'a> {
    variables: &'a [Variable],
    ends: Ends,
    rows: [Row; VARIABLES],
}

impl<'a> Sink<'a> for Edges<'a> {
    fn variables(&mut self, variables: &'a [Variable]) {
        self.variables = variables;
        self.ends = Ends::of(variables);
    }

    fn rule(&mut self, rule: Rule<'a>) {
        if self.ends.idle(self.variables, &rule) {
            return;
        }
        let row = &mut self.rows[rule.head as usize];
        read::draw(self.variables, &rule, |x, drawn| row[x as usize / 64] |= u64::from(drawn) << (x % 64));
    }
}

pub fn begin_call(file: &[u8], sets: &mut [u64]) -> u64 {
    let mut edges = Edges { variables: &[], ends: Ends::of(&[]), rows: [[0; 4]; VARIABLES] };
    if let Err(r) = read::fields(file, &mut edges) {
        return refused(r);
    }
    let n = edges.variables.len();
    if sets.len() < 4 * n {
        return pack(6, 15, 0, 0);
    }
    sets[..4 * n].copy_from_slice(edges.rows[..n].as_flattened());
    pack(11, n, 0, 0)
}

/// The rows of so many variables, where there are so many.
fn rows(sets: &[u64], variables: usize) -> Option<&[Row]> {
    if variables > VARIABLES {
        return None;
    }
    sets.as_chunks().0.get(..variables)
}

/// A row that has the bit takes in another.
fn join(row: &mut Row, taken: &Row, w: usize, bit: u64) {
    if row[w] & bit != 0 {
        *row = std::array::from_fn(|i| row[i] | taken[i]);
    }
}

pub fn step_call(sets: &mut [u64], variables: usize, k: usize) -> bool {
    if variables > VARIABLES {
        return false;
    }
    let Some(rows) = sets.as_chunks_mut::<4>().0.get_mut(..variables) else { return false };
    let Some(&taken) = rows.get(k) else { return false };
    let (w, bit): (usize, u64) = (k / 64, 1 << (k % 64));
    let (fours, rest) = rows.as_chunks_mut::<4>();
    for four in fours {
        if (four[0][w] | four[1][w] | four[2][w] | four[3][w]) & bit != 0 {
            four.iter_mut().for_each(|row| join(row, &taken, w, bit));
        }
    }
    rest.iter_mut().for_each(|row| join(row, &taken, w, bit));
    true
}

pub fn components_call(sets: &[u64], variables: usize, buffer: &mut [u8]) -> bool {
    let (Some(rows), Some(names)) = (rows(sets, variables), buffer.get_mut(..variables)) else { return false };
    let mut columns = None;
    for (x, (row, name)) in rows.iter().zip(names).enumerate() {
        let y = lowest(row);
        *name = if y >= x {
            x
        } else if has(&rows[y], x) {
            y
        } else {
            let column = &columns.get_or_insert_with(|| transposed(rows))[x];
            lowest(&std::array::from_fn(|w| row[w] & column[w])).min(x)
        } as u8;
    }
    true
}

fn has(row: &Row, v: usize) -> bool {
    row[v / 64] >> (v % 64) & 1 == 1
}

/// The lowest number of a row; of an empty one a number that none has.
fn lowest(row: &Row) -> usize {
    for (w, word) in row.iter().enumerate() {
        if *word != 0 {
            return 64 * w + word.trailing_zeros() as usize;
        }
    }
    VARIABLES
}

/// For each variable the rows that have it.
fn transposed(rows: &[Row]) -> [Row; VARIABLES] {
    let mut columns = [[0; 4]; VARIABLES];
    for (i, columns) in columns.chunks_mut(64).enumerate() {
        rows.chunks(64).enumerate().for_each(|(w, rows)| turn(rows, i, columns, w));
    }
    columns
}

/// Word w of columns, from word i of up to 64 rows.
fn turn(rows: &[Row], i: usize, columns: &mut [Row], w: usize) {
    let mut block = [0; 64];
    block.iter_mut().zip(rows).for_each(|(word, row)| *word = row[i]);
    for (step, low) in [(32, !0 >> 32), (16, !0 / 0x1_0001), (8, !0 / 0x101), (4, !0 / 0x11), (2, !0 / 5), (1, !0 / 3)] {
        exchange(&mut block, step, low);
    }
    block.iter().zip(columns).for_each(|(word, column)| column[w] = *word);
}

/// Exchanges the upper bits of words with the lower ones of those that are so many words on; `low` has the lower ones.
fn exchange(block: &mut [u64; 64], step: usize, low: u64) {
    for pair in block.chunks_mut(2 * step) {
        let (a, b) = pair.split_at_mut(step);
        a.iter_mut().zip(b).for_each(|(a, b)| {
            let moved = (*a >> step ^ *b) & low;
            *a ^= moved << step;
            *b ^= moved;
        });
    }
}
