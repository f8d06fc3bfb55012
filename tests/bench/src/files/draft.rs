//! Files as lists of fields, to be put in another order, mirrored and changed.
use super::{Builder, Plan, Term};
use crate::port::{number, word};

#[derive(Clone, PartialEq)]
pub struct Field {
    pub form: u8,
    pub head: usize,
    pub c: i64,
    pub terms: Vec<Term>,
}

/// A variable's kind, low and high.
pub type Range = (u8, i64, i64);

/// Form 8 has its divisor among its terms, before the others.
#[derive(Clone, Default)]
pub struct Draft {
    pub variables: Vec<Range>,
    pub values: Vec<i64>,
    pub rules: Vec<Field>,
    pub constraints: Vec<Field>,
}

pub const BYTES: usize = crate::port::MAX_FILE;

impl Draft {
    /// A variable with the value that it is assigned; its number.
    pub fn variable(&mut self, kind: u8, low: i64, high: i64, value: i64) -> usize {
        self.variables.push((kind, low, high));
        self.values.push(value);
        self.values.len() - 1
    }

    pub fn rule(&mut self, form: u8, head: usize, c: i64, terms: &[Term]) {
        self.rules.push(Field { form, head, c, terms: terms.to_vec() });
    }

    pub fn divided(&mut self, head: usize, c: i64, d: i64, terms: &[Term]) {
        self.rule(8, head, c, &[&[(0, 3, d)], terms].concat());
    }

    /// A file that is read, and its assignment.
    pub fn of(file: &[u8], assignment: &[u8]) -> Draft {
        let mut draft = Draft { values: (0..assignment.len() / 2).map(|v| number(assignment, 2 * v)).collect(), ..Draft::default() };
        let mut rest = file;
        while let [tag, ..] = rest {
            let (field, after) = rest.split_at(3 + word(rest, 1));
            let start = if *tag == 2 { 7 } else { 6 };
            let terms = || field[start..].chunks_exact(4).map(|t| (t[0] as usize, t[1], number(t, 2))).collect();
            match tag {
                1 => draft.variables.push((field[3], number(field, 4), number(field, 6))),
                2 => draft.rules.push(Field { form: field[3], head: field[4] as usize, c: number(field, 5), terms: terms() }),
                _ => draft.constraints.push(Field { form: field[3], head: 0, c: number(field, 4), terms: terms() }),
            }
            rest = after;
        }
        draft
    }

    pub fn bytes(&self) -> usize {
        let rules = self.rules.iter().map(|r| 7 + 4 * r.terms.len()).sum::<usize>();
        8 * self.variables.len() + rules + self.constraints.iter().map(|r| 6 + 4 * r.terms.len()).sum::<usize>()
    }

    pub fn plan(&self, name: &str) -> Plan {
        let mut b = Builder::new();
        for (&(kind, low, high), &value) in self.variables.iter().zip(&self.values) {
            b.variable(kind, low, high, value);
        }
        self.rules.iter().for_each(|r| b.rule(r.form, r.head, r.c, &r.terms));
        self.constraints.iter().for_each(|r| b.constraint(r.form, r.c, &r.terms));
        b.plan(name)
    }

    /// The same with the founded variables moved so far from these values, each within its range.
    fn moved(&self, values: &[i64], by: i64) -> Draft {
        let value = |(&z, &(kind, low, high)): (&i64, &Range)| match kind {
            1 => (z + by).min(high),
            2 => (z - by).max(low),
            _ => z,
        };
        Draft { values: values.iter().zip(&self.variables).map(value).collect(), ..self.clone() }
    }

    /// The same with founded variables a little past the least model where all rules are met there, else at it; where there is none, at their far
    /// ends.
    pub fn settled(self) -> Draft {
        const FURTHER: i64 = 500;
        let p = self.plan("");
        let mut model = p.assignment.clone();
        if crate::fast::least_call(&p.file, &p.assignment, &mut model) != 8 {
            return self.moved(&self.values, 60_000);
        }
        let least: Vec<i64> = (0..self.values.len()).map(|v| number(&model, 2 * v)).collect();
        let further = self.moved(&least, FURTHER);
        let q = further.plan("");
        let unfounded = crate::fast::check_call(&q.file, &q.assignment, &mut vec![0; 12 * least.len()]) & 0xFF == 2;
        if unfounded {
            further
        } else {
            self.moved(&least, 0)
        }
    }

    pub fn reversed(mut self) -> Draft {
        self.rules.reverse();
        self
    }

    /// As many rules of 16 terms before all others as the file holds, which between them read all variables that are founded from below equally
    /// often and never lift one: every other is an `if` that is read to its last literal, the others are less than the smallest of what they read.
    pub fn behind(mut self) -> Draft {
        let heads: Vec<usize> = (0..self.variables.len()).filter(|&v| self.variables[v].0 == 1).collect();
        let terms = heads.len().min(16);
        let room = BYTES.saturating_sub(self.bytes()) / (7 + 4 * terms);
        let before = (0..room.min(crate::port::RULES - self.rules.len())).map(|i| {
            let read = (0..terms).map(|j| heads[(i * terms + j) % heads.len()]);
            let head = heads[i % heads.len()];
            if i % 2 == 0 {
                let mut literals: Vec<Term> = read.map(|x| (x, 1, self.variables[x].1)).collect();
                literals[terms - 1].2 = 30_000;
                Field { form: 6, head, c: 30_000, terms: literals }
            } else {
                Field { form: 3, head, c: -30_000, terms: read.map(|x| (x, 0, 0)).collect() }
            }
        });
        let before: Vec<Field> = if terms > 0 { before.collect() } else { Vec::new() };
        self.rules.splice(0..0, before);
        self
    }

    /// Each variable x replaced by -x: what is founded from below is founded from above, and the other way round. Products and sizes cannot be
    /// written so.
    pub fn mirrored(&self) -> Draft {
        let mut draft = self.clone();
        for v in &mut draft.variables {
            *v = ([0, 2, 1][v.0 as usize], -v.2, -v.1);
        }
        draft.values.iter_mut().for_each(|z| *z = -*z);
        for r in &mut draft.rules {
            r.c = -r.c;
            match r.form {
                2 => r.form = 3,
                3 => r.form = 2,
                // minus a number rounded up is the negative one rounded down
                8 => r.c -= r.terms[0].2 - 1,
                4 | 5 => unreachable!("forms that cannot be mirrored"),
                _ => {}
            }
            r.terms.iter_mut().filter(|t| t.1 == 1 || t.1 == 2).for_each(|t| *t = (t.0, 3 - t.1, 1 - t.2));
        }
        for r in &mut draft.constraints {
            if r.form == 1 {
                r.terms.iter_mut().for_each(|t| t.2 = -t.2);
            } else {
                r.terms.iter_mut().for_each(|t| *t = (t.0, 3 - t.1, 1 - t.2));
            }
        }
        draft
    }
}

impl std::fmt::Display for Draft {
    fn fmt(&self, f: &mut std::fmt::Formatter) -> std::fmt::Result {
        for (v, ((kind, low, high), value)) in self.variables.iter().zip(&self.values).enumerate() {
            writeln!(f, "variable {v}: kind {kind}, {low}..{high}, assigned {value}")?;
        }
        for r in &self.rules {
            let terms: Vec<String> = r.terms.iter().map(|(x, op, k)| format!("({x}, {op}, {k})")).collect();
            writeln!(f, "rule for {}: form {}, c {}, terms {}", r.head, r.form, r.c, terms.join(" "))?;
        }
        Ok(())
    }
}
