//! Flattening: a tree is walked once from its first node to its last, to be judged, and once back, children before their parents, to be written.
use super::read::{self, Sink, Variable, BYTES, RULES, TERMS, VARIABLES};
use super::refused;
use super::set::Set;
use crate::port::pack;

const LEVELS: usize = 8;

/// A leaf is 0 and its variable; another node is its form and the count of its children.
type Node = [u8; 2];

/// The bytes from the first constraint on.
struct FromConstraints(usize);

impl<'a> Sink<'a> for FromConstraints {
    fn room(&mut self, _rules: usize, constraints: usize) {
        self.0 = constraints;
    }
}

/// What is judged of a well-formed tree after its form.
struct Shape {
    /// Nodes that are no leaf, but for the root.
    inner: usize,
    /// The bytes of all rules.
    bytes: usize,
    /// The highest variable at a leaf.
    highest: u8,
    twice: bool,
}

/// Nothing where these nodes are not one tree within the limits.
fn shape(nodes: &[Node]) -> Option<Shape> {
    let mut shape = Shape { inner: 0, bytes: 0, highest: 0, twice: false };
    let mut seen = Set::EMPTY;
    // how many nodes are still to come at each level
    let mut left = [0u8; LEVELS];
    let mut level = 0;
    left[0] = 1;
    for &[form, second] in nodes {
        while left[level] == 0 {
            level = level.checked_sub(1)?;
        }
        left[level] -= 1;
        if form == 0 {
            shape.highest = shape.highest.max(second);
            shape.twice |= seen.has(second);
            seen.put(second);
        } else {
            level += 1;
            if form > 3 || !(1..=TERMS as u8).contains(&second) || level == LEVELS {
                return None;
            }
            left[level] = second;
            shape.inner += 1;
            shape.bytes += 7 + 4 * second as usize;
        }
    }
    if left != [0; LEVELS] {
        return None;
    }
    match shape.inner {
        0 => shape.bytes = 11,
        _ => shape.inner -= 1,
    }
    Some(shape)
}

struct Flat {
    /// Those of the file, how many they are, and those that trees add.
    variables: Vec<Variable>,
    declared: usize,
    lows: [i16; VARIABLES],
    highs: [i16; VARIABLES],
    /// How many rules there are, and the fields of those of trees.
    count: usize,
    rules: Vec<u8>,
}

impl Flat {
    fn new(variables: &[Variable], count: usize) -> Flat {
        let mut flat =
            Flat { variables: variables.to_vec(), declared: variables.len(), lows: [0; VARIABLES], highs: [0; VARIABLES], count, rules: Vec::new() };
        for (x, v) in variables.iter().enumerate() {
            (flat.lows[x], flat.highs[x]) = (read::low(v), read::high(v));
        }
        flat
    }

    /// Takes in the field at the start of `rest`, which is not empty, and answers the bytes after it, or why it is refused.
    fn field<'a>(&mut self, rest: &'a [u8]) -> Result<&'a [u8], usize> {
        let [tag, long, short, tail @ ..] = rest else { return Err(2) };
        let (value, after) = tail.split_at_checked(256 * *long as usize + *short as usize).ok_or(2usize)?;
        match tag {
            5 => self.tree(value)?,
            1..=3 => return Err(4),
            _ => return Err(3),
        }
        Ok(after)
    }

    fn tree(&mut self, value: &[u8]) -> Result<(), usize> {
        let [head, tail @ ..] = value else { return Err(18) };
        let (nodes, []) = tail.as_chunks() else { return Err(18) };
        let Some(shape) = shape(nodes) else { return Err(18) };
        if self.variables.len() + shape.inner > VARIABLES || self.count + shape.inner + 1 > RULES {
            return Err(5);
        }
        let declared = &self.variables[..self.declared];
        if !declared.get(*head as usize).is_some_and(read::founded) || shape.highest as usize >= self.declared {
            return Err(9);
        }
        if shape.twice {
            return Err(11);
        }
        self.count += shape.inner + 1;
        self.write(*head, nodes, &shape)
    }

    /// Its rules are written from the last to the first.
    fn write(&mut self, head: u8, nodes: &[Node], shape: &Shape) -> Result<(), usize> {
        let first = self.rules.len();
        self.rules.resize(first + shape.bytes, 0);
        let mut room = &mut self.rules[first..];
        if let [[0, x]] = nodes {
            room.copy_from_slice(&[2, 0, 8, 1, head, 0, 0, *x, 0, 0, 1]);
            return Ok(());
        }
        let kind = self.variables[head as usize][3];
        let mut number = self.variables.len() + shape.inner;
        self.variables.resize(number, [0; 8]);
        // trees that are done, from the last to the first
        let mut done = [0u8; LEVELS * TERMS];
        let mut top = 0;
        for (i, &[form, second]) in nodes.iter().enumerate().rev() {
            if form == 0 {
                done[top] = second;
                top += 1;
                continue;
            }
            let children = &done[top - second as usize..top];
            let at = room.len() - 7 - 4 * children.len();
            let (before, field) = room.split_at_mut(at);
            room = before;
            let own = if i == 0 { head } else { number.wrapping_sub(1) as u8 };
            field[..7].copy_from_slice(&[2, 0, 4 + 4 * second, form, own, 0, 0]);
            for (term, x) in field[7..].as_chunks_mut().0.iter_mut().zip(children.iter().rev()) {
                *term = [*x, 0, 0, u8::from(form == 1)];
            }
            if i == 0 {
                return Ok(());
            }
            let over = |ends: &[i16; VARIABLES]| {
                let values = children.iter().map(|x| ends[*x as usize] as i32);
                match form {
                    1 => values.sum(),
                    2 => values.fold(i32::MIN, i32::max),
                    _ => values.fold(i32::MAX, i32::min),
                }
            };
            let (low, high) = (over(&self.lows), over(&self.highs));
            if low < -30_000 || high > 30_000 {
                return Err(19);
            }
            number -= 1;
            let (low, high) = (low as i16, high as i16);
            (self.lows[number], self.highs[number]) = (low, high);
            let ([a, b], [c, d]) = (low.to_be_bytes(), high.to_be_bytes());
            self.variables[number] = [1, 0, 5, kind, a, b, c, d];
            top -= second as usize;
            done[top] = number as u8;
            top += 1;
        }
        Ok(())
    }
}

pub fn flatten_call(file: &[u8], buffer: &mut [u8]) -> u64 {
    let mut from_constraints = FromConstraints(0);
    let (n, mixed, mut rest) = match read::fields_in_order(file, &mut from_constraints) {
        Ok(read) => read,
        Err(r) => return refused(r),
    };
    if !rest.is_empty() && rest[0] != 5 {
        return pack(6, read::why(rest, &n), file.len() - rest.len(), 0);
    }
    let (declared, trees) = (8 * n.variables.len(), file.len() - rest.len());
    let mut flat = Flat::new(n.variables, n.rules);
    while !rest.is_empty() {
        rest = match flat.field(rest) {
            Ok(after) => after,
            Err(number) => return pack(6, number, file.len() - rest.len(), 0),
        };
    }
    if let Some(left) = read::first_offending(&flat.variables, [&file[declared..], &flat.rules], &mixed) {
        return pack(6, 13, file.len() - left, 0);
    }
    let constraints = file.len() - from_constraints.0;
    let parts = [flat.variables.as_flattened(), &file[declared..constraints], &flat.rules, &file[constraints..trees]];
    let length = parts.iter().map(|part| part.len()).sum();
    if length > BYTES || length > buffer.len() {
        return pack(6, 17, 0, 0);
    }
    let mut at = 0;
    for part in parts {
        buffer[at..at + part.len()].copy_from_slice(part);
        at += part.len();
    }
    pack(10, length, 0, 0)
}
