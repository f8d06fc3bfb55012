//! Inputs drawn from a seed. The same seed always gives the same input.

pub mod anew;
pub mod arrivals;
pub mod assignments;
pub mod astray;
pub mod bodies;
pub mod damage;
pub mod divisors;
pub mod fields;
pub mod idle;
pub mod kinds;
pub mod limits;
pub mod line;
pub mod little;
pub mod nested;
pub mod prng;
pub mod programs;
pub mod ranged;
pub mod slack;
pub mod spoil;
pub mod trees;
pub mod vary;
pub mod walks;
pub mod whole;

use fields::Field;
use prng::Random;

/// What the calls are given.
#[derive(Clone, Debug)]
pub struct Input {
    pub file: Vec<u8>,
    pub assignment: Vec<u8>,
    /// Length of the lent buffer.
    pub buffer: usize,
    /// Which part of the generator made it.
    pub label: &'static str,
    /// The refusal (number, place) that reading must give, where the way the
    /// file was made says so. Number 0: the file is accepted. Place
    /// `usize::MAX`: not said.
    pub due: Option<(usize, usize)>,
}

/// How many of a hundred founded variables are founded from above: none in
/// every other six of the seeds.
fn above(seed: u64) -> usize {
    match seed / 6 % 8 {
        1 | 5 => 50,
        3 => 75,
        7 => 100,
        _ => 0,
    }
}

/// The input of this seed.
pub fn input(seed: u64) -> Input {
    let random = &mut Random::new(seed);
    let above = above(seed);
    if seed % 6 == 5 || above > 0 && seed % 6 == 2 {
        return idle(random, above);
    }
    let drawn = random.below(100);
    let shape = |shape| programs::Shape { above, ..shape };
    let mut made = match drawn {
        10..=19 if above > 0 => {
            let made = slack::slack(random, 6);
            let mut input = dress(random, "slack", &made);
            if random.percent(60) {
                input.assignment = fields::assignment(&made.1);
            }
            input
        }
        0..=19 => plan(random, "small", shape(programs::SMALL)),
        20..=33 => plan(random, "middle", shape(programs::MIDDLE)),
        34..=36 => plan(random, "large", shape(programs::LARGE)),
        37..=40 => plan(random, "extreme", shape(programs::EXTREME)),
        41..=49 if above > 0 => arrival(random, drawn, above),
        41..=47 => {
            let made = programs::ring(random);
            dress(random, "ring", &made)
        }
        48 => {
            let made = programs::climb(random);
            dress(random, "climb", &made)
        }
        49 => {
            let made = programs::crowded(random);
            dress(random, "crowded", &made)
        }
        50..=68 => spoilt(random, above),
        69 | 70 => {
            let (file, variables, due) = limits::at_limit(random, above);
            let top = random.between(0, 1);
            let values: Vec<i64> =
                (0..variables).map(|_| if random.percent(20) { 0 } else { top }).collect();
            let buffer = 12 * variables;
            Input { file, assignment: fields::assignment(&values), buffer, label: "limit", due }
        }
        71..=73 => misdivided(random, above),
        74..=94 => {
            let shape = shape(random.pick(&[programs::SMALL, programs::MIDDLE]));
            let mut input = plan(random, "damaged", shape);
            damage::damage(random, &mut input.file);
            input
        }
        95 => {
            let file = damage::noise(random);
            Input { file, assignment: vec![0; 2], buffer: 24, label: "noise", due: None }
        }
        _ => {
            let mut input = plan(random, "assignment length", shape(programs::SMALL));
            let n = input.assignment.len();
            let other = random.pick(&[n + 1, n.saturating_sub(1), n + 2, 0, 2 * n, 600]);
            input.assignment.resize(other, 0);
            input
        }
    };
    made.buffer = lent(random, &made);
    made
}

/// Buffers at, above and below their least size.
fn lent(random: &mut Random, made: &Input) -> usize {
    let variables = match crate::read(&made.file) {
        crate::Reading::Accepted { variables, .. } => variables,
        crate::Reading::Refused { .. } => made.assignment.len() / 2,
    };
    match random.below(40) {
        0 => (12 * variables).saturating_sub(1),
        1 => 2 * variables,
        2 => (2 * variables).saturating_sub(1),
        3 => 0,
        4 => 12 * variables + random.below(40),
        5 => random.below(12 * variables + 1),
        _ => 12 * variables,
    }
}

/// A file around variables founded from above.
fn arrival(random: &mut Random, drawn: usize, above: usize) -> Input {
    let (label, made) = match drawn {
        41..=43 => {
            let high = random.between(2, 40);
            ("network", arrivals::network(random, 30, high))
        }
        44..=47 => ("both kinds", arrivals::both(random, 20, 30)),
        48 => ("descent", arrivals::descent(random)),
        _ => ("crowded, kind 2", arrivals::crowded(random, above)),
    };
    dress(random, label, &made)
}

/// A file in which it matters whether a rule is idle.
fn idle(random: &mut Random, above: usize) -> Input {
    let idle::Made { fields, witness, due, label } = idle::made(random, above);
    let room = 12 * witness.len();
    let full = label == idle::FULL;
    let mut made = dress(random, label, &(fields, witness.clone()));
    made.due = due;
    if full && random.percent(80) {
        made.assignment = fields::assignment(&witness);
    }
    made.buffer = match full {
        true => random.pick(&[room, room, room - 1, room + 1, room + 5]),
        false => lent(random, &made),
    };
    made
}

fn plan(random: &mut Random, label: &'static str, shape: programs::Shape) -> Input {
    let made = programs::program(random, shape);
    dress(random, label, &made)
}

/// Fields and witness become a file and an assignment.
fn dress(random: &mut Random, label: &'static str, made: &(Vec<Field>, Vec<i64>)) -> Input {
    let file = fields::bytes(&made.0);
    let values = assignments::assign(random, &file, &made.1);
    Input { file, assignment: fields::assignment(&values), buffer: 0, label, due: None }
}

/// A file with faults that are known.
fn spoilt(random: &mut Random, above: usize) -> Input {
    let shape = random.pick(&[programs::SMALL, programs::MIDDLE]);
    let (mut list, witness) = programs::program(random, programs::Shape { above, ..shape });
    let assignment = fields::assignment(&witness);
    let accepted = matches!(crate::read(&fields::bytes(&list)), crate::Reading::Accepted { .. });
    let mut due = None;
    let mut file = None;
    if accepted && !list.is_empty() {
        match random.below(10) {
            0 => {
                let (bytes, cut) = whole::cut(random, &list);
                file = Some(bytes);
                due = cut;
            }
            1 => due = whole::disorder(random, &mut list),
            2 | 3 => due = whole::knot(random, &mut list),
            4 if above > 0 => due = spoil::spoil_product(random, &mut list),
            _ => due = spoil::spoil_some(random, &mut list),
        }
    }
    let file = file.unwrap_or_else(|| fields::bytes(&list));
    Input { file, assignment, buffer: 0, label: "spoilt", due }
}

/// A file with a fault that has to do with a divisor.
fn misdivided(random: &mut Random, above: usize) -> Input {
    let shape = random.pick(&[programs::SMALL, programs::MIDDLE]);
    let shape = programs::Shape { above, ..shape };
    let accepted =
        |list: &[Field]| matches!(crate::read(&fields::bytes(list)), crate::Reading::Accepted { .. });
    let (mut list, witness) = loop {
        let made = programs::program(random, shape);
        if fields::count(&made.0, 2) > 0 && accepted(&made.0) {
            break made;
        }
    };
    let due = divisors::spoil(random, &mut list);
    let (file, assignment) = (fields::bytes(&list), fields::assignment(&witness));
    Input { file, assignment, buffer: 0, label: "divisor", due }
}

/// A small program for the brute force: few variables, short ranges. Every
/// other four have no variable founded from above.
pub fn small(seed: u64) -> Vec<u8> {
    let random = &mut Random::new(seed ^ 0xB207_E0F0_0000_0000);
    let above = above(seed / 4 * 6);
    if seed % 4 == 3 || above > 0 && seed % 4 == 1 {
        return fields::bytes(&idle::small(random, above));
    }
    if above > 0 && random.percent(35) {
        return fields::bytes(&small_arrival(random));
    }
    let mut list = programs::program(random, programs::Shape { above, ..programs::SMALL }).0;
    if random.percent(10) {
        whole::knot(random, &mut list);
    }
    fields::bytes(&list)
}

/// A small network, or a small circle through both kinds.
pub fn small_arrival(random: &mut Random) -> Vec<Field> {
    if random.percent(40) {
        let high = random.between(1, 2);
        return arrivals::network(random, 2, high).0;
    }
    arrivals::both(random, 3, 2).0
}

/// A standard input for the printing program.
pub fn framed(file: &[u8], assignment: &[u8]) -> Vec<u8> {
    let length = file.len().min(65_535) as u16;
    [&length.to_be_bytes(), file, assignment].concat()
}

/// A standard input for the printing program, well framed or not.
pub fn print_input(seed: u64) -> Vec<u8> {
    let random = &mut Random::new(seed ^ 0x0F12_0000_0000_0000);
    let made = input(random.word() % 1_000_000);
    let mut out = framed(&made.file, &made.assignment);
    match random.below(20) {
        0 => out.truncate(random.below(3)),
        1 => out.truncate(random.below(out.len())),
        2 => out.resize(random.pick(&[60_999, 61_000, 61_001, 61_500]), 0),
        3 => out[..2].copy_from_slice(&(random.word() as u16).to_be_bytes()),
        _ => {}
    }
    out
}
