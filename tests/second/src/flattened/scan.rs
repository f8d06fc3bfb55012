//! What a tree has in it, found a second way: without taking it apart, by a stack of
//! the nodes whose children are still to come.

use crate::program::{MAX, SUM, TERMS};
use crate::tree::LEVELS;

#[derive(Clone, Debug, Default)]
pub struct Scan {
    /// Variables at leaves, and for each the number of the node it stands in.
    pub leaves: Vec<usize>,
    pub parents: Vec<usize>,
    /// Low and high of each inner node but the root, in the order in which these
    /// end.
    pub ranges: Vec<(i64, i64)>,
    /// Low and high of the root.
    pub root: (i64, i64),
    pub inner: usize,
    /// The most levels, and the most children of a node.
    pub levels: usize,
    pub wide: usize,
}

impl Scan {
    /// How many variables the tree adds.
    pub fn added(&self) -> usize {
        self.inner.saturating_sub(1)
    }

    /// How many bytes its variables and rules take.
    pub fn room(&self) -> usize {
        let children = self.inner + self.leaves.len() - 1;
        match self.inner {
            0 => 11,
            inner => 7 * inner + 4 * children + 8 * (inner - 1),
        }
    }
}

/// A node whose children are not all there yet.
struct Open {
    number: usize,
    form: u8,
    left: usize,
    range: Option<(i64, i64)>,
}

impl Open {
    fn take(&mut self, (low, high): (i64, i64)) {
        self.left -= 1;
        self.range = Some(match (self.range, self.form) {
            (None, _) => (low, high),
            (Some((a, b)), SUM) => (a + low, b + high),
            (Some((a, b)), MAX) => (a.max(low), b.max(high)),
            (Some((a, b)), _) => (a.min(low), b.min(high)),
        });
    }
}

/// Goes over the value of a tag 5 field. The error says what is wrong with it.
pub fn scan(value: &[u8], range: &dyn Fn(usize) -> (i64, i64)) -> Result<Scan, &'static str> {
    let mut scan = Scan::default();
    let mut open: Vec<Open> = Vec::new();
    match value.len() {
        0 => return Err("no head"),
        1 => return Err("no tree"),
        _ => {}
    }
    for (i, node) in value[1..].chunks(2).enumerate() {
        let [kind, second] = node else { return Err("cut short") };
        scan.levels = scan.levels.max(open.len() + 1);
        let done = match kind {
            0..=3 if open.len() == LEVELS => return Err("too deep"),
            0 => {
                scan.leaves.push(usize::from(*second));
                scan.parents.push(open.last().map_or(0, |node| node.number));
                Some(range(usize::from(*second)))
            }
            1..=3 if *second == 0 => return Err("child count 0"),
            1..=3 if usize::from(*second) > TERMS => return Err("child count over 16"),
            1..=3 => {
                let left = usize::from(*second);
                scan.inner += 1;
                scan.wide = scan.wide.max(left);
                open.push(Open { number: i, form: *kind, left, range: None });
                None
            }
            _ => return Err("node byte"),
        };
        if done.is_some_and(|range| close(&mut open, &mut scan, range)) {
            return if value.len() == 3 + 2 * i { Ok(scan) } else { Err("bytes left over") };
        }
    }
    Err("cut short")
}

/// A child is there; so are the nodes of which it was the last. Was it the root?
fn close(open: &mut Vec<Open>, scan: &mut Scan, child: (i64, i64)) -> bool {
    let mut range = child;
    while let Some(node) = open.last_mut() {
        node.take(range);
        if node.left > 0 {
            return false;
        }
        range = node.range.unwrap_or((0, 0));
        open.pop();
        if !open.is_empty() {
            scan.ranges.push(range);
        }
    }
    scan.root = range;
    true
}
