//! The bounds of half-filled plans: the run of `least` with a goal at the lent far ends.
use super::read::{self, Program, Rule, Sink, Variable};
use super::{refused, run};
use crate::port::pack;

/// The rules, and of those with a mixed place the head and the variable there. Constraints play no part.
struct Rules<'a> {
    program: Program<'a>,
    mixed: Vec<(u8, u8)>,
}

impl<'a> Sink<'a> for Rules<'a> {
    fn variables(&mut self, variables: &'a [Variable]) {
        self.program.variables(variables);
    }

    fn room(&mut self, rules: usize, _constraints: usize) {
        self.program.room(rules, 0);
    }

    fn rule(&mut self, rule: Rule<'a>) {
        if rule.form == 5 {
            let x = rule.terms[0][0];
            let v = &self.program.variables[x as usize];
            if read::low(v) < 0 && read::high(v) > 0 {
                self.mixed.push((rule.head, x));
            }
        }
        self.program.rule(rule);
    }
}

pub fn bounds_call(file: &[u8], ranges: &[u8], buffer: &mut [u8]) -> u64 {
    let program = Program { variables: &[], rules: Vec::new(), constraints: Vec::new() };
    let mut rules = Rules { program, mixed: Vec::new() };
    if let Err(r) = read::read(file, &mut rules) {
        return refused(r);
    }
    let Rules { program, mixed } = rules;
    let n = program.variables.len();
    if ranges.len() != 4 * n {
        return pack(6, 14, 0, 0);
    }
    let (mut lows, mut highs) = ([0; read::VARIABLES], [0; read::VARIABLES]);
    let mut fit = true;
    for (x, (v, [a, b, c, d])) in program.variables.iter().zip(ranges.as_chunks().0).enumerate() {
        let (low, high) = (i16::from_be_bytes([*a, *b]), i16::from_be_bytes([*c, *d]));
        fit &= (read::low(v) <= low) & (low <= high) & (high <= read::high(v));
        (lows[x], highs[x]) = (low, high);
    }
    if !fit {
        return pack(6, 20, 0, 0);
    }
    if buffer.len() < 2 * n {
        return pack(6, 15, 0, 0);
    }
    let loose = mixed.iter().filter(|(_, x)| lows[*x as usize] < highs[*x as usize]);
    let bounds = run::bounds(&program, &lows, &highs, loose.map(|(head, _)| *head));
    for (out, z) in buffer.as_chunks_mut::<2>().0.iter_mut().zip(&bounds[..n]) {
        *out = z.to_be_bytes();
    }
    pack(12, 0, 0, 0)
}
