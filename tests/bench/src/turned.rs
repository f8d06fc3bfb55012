//! Seeded inputs in which variables are founded from above.
use crate::files::Seed;
use crate::port::{self, Counts};

pub struct Turned {
    pub file: Vec<u8>,
    pub assignment: Vec<u8>,
}

/// An input with all or some of its founded variables turned into ones that are founded from above. Of a file that is accepted, most have the
/// value at the other side of their range, most rules give what the assignment meets, and half of the assignments are taken to be stable or, from
/// there, further from some starting ends.
pub fn turned(seed: u64, file: &[u8], assignment: &[u8]) -> Turned {
    let mut s = Seed(seed.wrapping_mul(0x9E37_79B9_7F4A_7C15) | 1);
    let mut t = Turned { file: file.to_vec(), assignment: assignment.to_vec() };
    let share = [1, 2, 2, 4][s.next(4)];
    for field in t.file.as_chunks_mut::<8>().0.iter_mut().take_while(|f| f[..3] == [1, 0, 5]) {
        if field[3] == 1 && s.next(share) == 0 {
            field[3] = 2;
        }
    }
    if let Ok(k) = port::read(&t.file) {
        if t.assignment.len() == 2 * k.variables {
            t.mirror(&mut s, k);
            t.meet(&mut s, k);
            t.settle(&mut s, k);
        }
    }
    t
}

impl Turned {
    fn field(&self, v: usize) -> (u8, i64, i64) {
        (self.file[8 * v + 3], port::number(&self.file, 8 * v + 4), port::number(&self.file, 8 * v + 6))
    }

    fn value(&self, v: usize) -> i64 {
        port::number(&self.assignment, 2 * v)
    }

    fn assign(&mut self, v: usize, z: i64) {
        self.assignment[2 * v..2 * v + 2].copy_from_slice(&(z as i16).to_be_bytes());
    }

    fn mirror(&mut self, s: &mut Seed, k: Counts) {
        for v in 0..k.variables {
            let (kind, low, high) = self.field(v);
            if kind == 2 && (low..=high).contains(&self.value(v)) && s.next(8) > 0 {
                self.assign(v, low + high - self.value(v));
            }
        }
    }

    /// The c of most rules that are not met is moved, so that they are.
    fn meet(&mut self, s: &mut Seed, k: Counts) {
        let values = port::load(&self.assignment);
        let mut moves = Vec::new();
        for (at, rule) in port::rules(&self.file, k) {
            let head = rule[1] as usize;
            let over = port::gives(rule, 0, &values, &values).map_or(0, |a| a - values[head]);
            let unmet = if self.field(head).0 == 2 { over < 0 } else { over > 0 };
            if unmet && s.next(20) > 0 {
                let d = if rule[0] == 8 { port::divisor(rule) } else { 1 };
                moves.push((at + 5, port::number(rule, 2) - d * over));
            }
        }
        for (at, c) in moves {
            if c.abs() <= 30_000 {
                self.file[at..at + 2].copy_from_slice(&(c as i16).to_be_bytes());
            }
        }
    }

    fn settle(&mut self, s: &mut Seed, k: Counts) {
        let how = s.next(4);
        if how < 2 {
            return;
        }
        for _ in 0..8 {
            let mut least = self.assignment.clone();
            port::least_call(&self.file, &self.assignment, &mut least);
            if least == self.assignment {
                break;
            }
            self.assignment = least;
        }
        if how == 3 && k.variables > 0 {
            for _ in 0..1 + s.next(3) {
                let v = s.next(k.variables);
                match self.field(v) {
                    (1, _, high) => self.assign(v, high),
                    (2, low, _) => self.assign(v, low),
                    _ => {}
                }
            }
        }
    }
}
