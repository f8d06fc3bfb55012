//! Files that are written anew: rules, constraints and terms in other orders, and more than once.
use super::{names, roster, Builder, Plan, Seed, Term, ALL, LONG};
use crate::port::number;

/// A file cut into whole fields.
#[derive(Clone)]
struct Fields {
    variables: Vec<u8>,
    rules: Vec<Vec<u8>>,
    constraints: Vec<Vec<u8>>,
    values: Vec<u8>,
}

/// The terms of a rule or constraint that may stand in any order.
fn terms(field: &mut [u8]) -> &mut [[u8; 4]] {
    let start = match (field[0], field[3]) {
        (2, 7 | 8) => 11,
        (2, _) => 7,
        _ => 6,
    };
    field[start..].as_chunks_mut().0
}

fn shuffle<T>(s: &mut Seed, list: &mut [T]) {
    for i in (1..list.len()).rev() {
        list.swap(i, s.next(i + 1));
    }
}

impl Fields {
    fn of(b: Builder) -> Fields {
        let mut fields = Fields { variables: Vec::new(), rules: Vec::new(), constraints: Vec::new(), values: b.values };
        let mut rest = &b.file[..];
        while !rest.is_empty() {
            let (field, after) = rest.split_at(3 + rest[2] as usize);
            match field[0] {
                1 => fields.variables.extend(field),
                2 => fields.rules.push(field.to_vec()),
                _ => fields.constraints.push(field.to_vec()),
            }
            rest = after;
        }
        fields
    }

    fn all(&mut self) -> impl Iterator<Item = &mut Vec<u8>> {
        self.rules.iter_mut().chain(&mut self.constraints)
    }

    fn sort(&mut self) {
        self.all().for_each(|field| terms(field).sort());
        self.rules.sort();
        self.constraints.sort();
    }

    fn reverse(&mut self) {
        self.all().for_each(|field| terms(field).reverse());
        self.rules.reverse();
        self.constraints.reverse();
    }

    fn shuffle(&mut self, s: &mut Seed) {
        shuffle(s, &mut self.rules);
        shuffle(s, &mut self.constraints);
    }

    fn shuffle_bodies(&mut self, s: &mut Seed) {
        self.all().for_each(|field| shuffle(s, terms(field)));
    }

    /// Fewer of the fields, each so often.
    fn repeat(&mut self, times: usize) {
        for list in [&mut self.rules, &mut self.constraints] {
            list.truncate(list.len() / times);
            *list = vec![list.clone(); times].concat();
        }
    }

    fn plan(self, name: &str) -> Plan {
        let file = [self.variables, self.rules.concat(), self.constraints.concat()].concat();
        Plan { name: name.to_string(), file, assignment: self.values }
    }
}

/// A stable plan whose constraints have so many terms too.
fn full(variables: usize, rules: usize, terms: usize, constraints: usize, wide: usize, forms: &[u8]) -> Fields {
    let Plan { file, assignment, .. } = roster("", variables, rules, 0, terms, forms);
    let mut s = Seed(0xC2B2_AE3D_27D4_EB4F ^ variables as u64);
    let mut b = Builder { file, values: assignment };
    let value: Vec<i64> = (0..variables).map(|v| number(&b.values, 2 * v)).collect();
    for i in 0..constraints {
        let names = names(&mut s, wide, variables, |_| true);
        if i % 2 == 0 {
            let sum: i64 = names.iter().map(|&x| value[x]).sum();
            b.constraint(1, -sum, &names.iter().map(|&x| (x, 0, 1)).collect::<Vec<Term>>());
        } else {
            b.constraint(2, 0, &names.iter().map(|&x| (x, 1, value[x])).collect::<Vec<Term>>());
        }
    }
    Fields::of(b)
}

/// Rules and constraints that differ in their last number alone.
fn alike(name: &str, last: impl Fn(usize) -> i64) -> Plan {
    let mut b = Builder::new();
    for v in 0..256 {
        b.variable((v == 255) as u8, 0, 2_047, 1);
    }
    for i in 0..2_048 {
        b.rule(6, 255, 1, &[(0, 1, 1), (1, 1, 1), (2, 1, 1), (3, 1, last(i))]);
    }
    for i in 0..512 {
        b.constraint(2, 0, &[(0, 1, 1), (1, 1, 1), (2, 1, last(i))]);
    }
    b.plan(name)
}

/// A file at the limits in several orders.
fn one_file() -> Vec<Plan> {
    let s = &mut Seed(0x1656_67B1_9E37_79F9);
    let mut sorted = full(256, 2_048, 5, 512, 2, ALL);
    sorted.sort();
    let [mut reversed, mut fields, mut all] = [&sorted; 3].map(Fields::clone);
    reversed.reverse();
    fields.shuffle(s);
    all.shuffle(s);
    all.shuffle_bodies(s);
    vec![
        all.plan("2,560 fields, all shuffled"),
        fields.plan("2,560 fields, bodies in order"),
        reversed.plan("2,560 fields, all reversed"),
        sorted.plan("2,560 fields, in normal form"),
    ]
}

pub fn plans() -> Vec<Plan> {
    let s = &mut Seed(0x27D4_EB2F_1656_67C5);
    let mut shuffled = |name: &str, mut fields: Fields| {
        fields.shuffle(s);
        fields.shuffle_bodies(s);
        fields.plan(name)
    };
    let long = full(256, 700, 16, 104, 16, LONG);
    let mut repeated = long.clone();
    repeated.repeat(16);
    let mut plans = vec![
        shuffled("small roster, 30 rules, all shuffled", full(16, 30, 3, 4, 2, ALL)),
        shuffled("320 fields, all shuffled", full(32, 256, 5, 64, 2, ALL)),
        shuffled("640 fields, all shuffled", full(64, 512, 5, 128, 2, ALL)),
        shuffled("1,280 fields, all shuffled", full(128, 1_024, 5, 256, 2, ALL)),
    ];
    plans.extend(one_file());
    plans.extend([
        shuffled("16 terms a body, all shuffled", long),
        shuffled("16 terms a body, 16 orders of each", repeated),
        alike("one rule 2,048 times", |_| 1),
        alike("last number differs, 2,560 fields", |i| (i * 37 % 2_048) as i64),
    ]);
    plans
}
