//! Files to be written anew, each with another way to write the same plan, and
//! with a plan that is not the same.

use super::fields::{self, Field};
use super::prng::Random;
use super::programs::Shape;
use super::vary::{changed, shuffled, vary};
use super::{arrivals, assignments, bodies, damage, idle, limits, programs, slack, spoil, whole};
use crate::plan::Plan;

#[derive(Clone, Debug)]
pub struct Case {
    pub file: Vec<u8>,
    /// Length of the lent buffer.
    pub buffer: usize,
    /// Which part of the generator made it.
    pub label: &'static str,
    /// The same plan written otherwise, where the file is accepted.
    pub copy: Option<Vec<u8>>,
    /// Another plan that is accepted, and what was changed.
    pub other: Option<(&'static str, Vec<u8>)>,
    /// Assignments, each with the length of the report that is lent.
    pub assignments: Vec<(Vec<u8>, usize)>,
}

/// Label, file, and an assignment to begin with.
type Made = (&'static str, Vec<u8>, Vec<i64>);

const AS_IT_IS: &str = "as it is";
const IN_NORMAL_FORM: &str = "in normal form";
const DAMAGED: &str = "damaged";

/// The case of this seed.
pub fn case(seed: u64) -> Case {
    let random = &mut Random::new(seed ^ 0x0A4E_3000_0000_0000);
    let (label, mut file, witness) = made(random);
    if let Some(plan) = Plan::of(&file) {
        file = match label {
            AS_IT_IS => file,
            IN_NORMAL_FORM => plan.bytes(),
            _ => fields::bytes(&vary(random, &fields::taken(&file))),
        };
    }
    if label == DAMAGED {
        damage::damage(random, &mut file);
    }
    dress(random, label, file, &witness)
}

/// A small file for enumeration, its terms and fields in any order and some of
/// them repeated.
pub fn small(seed: u64) -> Vec<u8> {
    let random = &mut Random::new(seed ^ 0x0A4E_5000_0000_0000);
    fields::bytes(&vary(random, &fields::taken(&super::small(seed))))
}

/// A standard input for the program of the normal form.
pub fn print_input(seed: u64) -> Vec<u8> {
    let random = &mut Random::new(seed ^ 0x0A4E_7000_0000_0000);
    let mut input = case(random.word() % 1_000_000).file;
    if random.percent(3) {
        let length = random.pick(&[60_000, 60_001, 60_002, 65_536, 70_000, 200_000]);
        input.resize(length, random.pick(&[0, 1]));
    }
    input
}

/// Everything that belongs to a file.
fn dress(random: &mut Random, label: &'static str, file: Vec<u8>, witness: &[i64]) -> Case {
    let plan = Plan::of(&file);
    let buffer = lent(random, &file, plan.as_ref());
    let mut case = Case { file, buffer, label, copy: None, other: None, assignments: Vec::new() };
    let Some(plan) = plan else { return case };
    let list = fields::taken(&case.file);
    case.copy = Some(fields::bytes(&vary(random, &list)));
    let other = changed(random, &list);
    case.other = other.map(|(name, list)| (name, fields::bytes(&vary(random, &list))));
    let known = witness.len() == plan.variables.len();
    let lows = fields::variables(&list).into_iter().map(|(_, low, _)| low);
    let witness = if known { witness.to_vec() } else { lows.collect() };
    for _ in 0..if case.file.len() > 10_000 { 1 } else { 3 } {
        let values = assignments::assign(random, &case.file, &witness);
        let mut assignment = fields::assignment(&values);
        let report = random.pick(&[12, 12, 12, 12, 12, 12, 12, 12, 2, 1]) * values.len();
        if random.percent(4) {
            assignment.push(0);
        }
        case.assignments.push((assignment, report));
    }
    case
}

/// Buffers as long as the file, longer, and shorter.
fn lent(random: &mut Random, file: &[u8], plan: Option<&Plan>) -> usize {
    let n = file.len();
    match random.below(20) {
        0..=8 => n,
        9..=12 => n + 1 + random.below(80),
        13 | 14 => n.saturating_sub(1),
        15 | 16 => plan.map_or(n, |plan| plan.bytes().len()),
        17 => 0,
        18 => random.below(n + 1),
        _ => random.pick(&[60_000, 60_001, 65_536]),
    }
}

fn made(random: &mut Random) -> Made {
    let above = random.pick(&[0, 50, 100]);
    let drawn = random.below(100);
    let (label, list, witness) = match drawn {
        0..=39 => plan(random, drawn, above),
        40..=67 => {
            let style = &bodies::STYLES[random.below(bodies::STYLES.len())];
            (style.label, bodies::of_style(random, style), Vec::new())
        }
        68..=74 => ("late", bodies::late(random), Vec::new()),
        75..=77 => repeats(random, above),
        78 if random.percent(60) => ("full", bodies::full(random), Vec::new()),
        78 | 79 if random.percent(12) => ("limit", limits::brimful(random, above), Vec::new()),
        78 | 79 => return ("limit", limits::at_limit(random, above).0, Vec::new()),
        80..=83 => program(random, DAMAGED, programs::MIDDLE, above),
        84 => return ("long", vec![random.byte(); 60_001 + random.below(9)], Vec::new()),
        85..=90 => return ("spoilt", spoilt(random, above), Vec::new()),
        91..=93 => {
            let label = random.pick(&[AS_IT_IS, "any"]);
            return (label, super::input(random.word() % 1_000_000).file, Vec::new());
        }
        94 | 95 => few(random),
        96 => {
            let (label, mut list, witness) = program(random, "knot", programs::SMALL, above);
            whole::knot(random, &mut list);
            (label, list, witness)
        }
        _ => program(random, IN_NORMAL_FORM, programs::MIDDLE, above),
    };
    (label, fields::bytes(&list), witness)
}

/// Label, fields, and an assignment to begin with.
type List = (&'static str, Vec<Field>, Vec<i64>);

fn program(random: &mut Random, label: &'static str, shape: Shape, above: usize) -> List {
    let (list, witness) = programs::program(random, Shape { above, ..shape });
    (label, list, witness)
}

/// Plans around an assignment.
fn plan(random: &mut Random, drawn: usize, above: usize) -> List {
    let (label, (list, witness)) = match drawn {
        0..=11 => return program(random, "small", programs::SMALL, above),
        12..=21 => return program(random, "middle", programs::MIDDLE, above),
        22 => return program(random, "large", programs::LARGE, above),
        23..=25 => return program(random, "extreme", programs::EXTREME, above),
        26..=28 => ("ring", programs::ring(random)),
        29..=30 => ("network", arrivals::network(random, 30, 20)),
        31..=33 => ("both kinds", arrivals::both(random, 20, 30)),
        34..=36 => ("slack", slack::slack(random, 6)),
        _ => {
            let made = idle::made(random, above);
            ("idle", (made.fields, made.witness))
        }
    };
    (label, list, witness)
}

/// A sound file with one fault in it, if it can have that one, or with several.
fn spoilt(random: &mut Random, above: usize) -> Vec<u8> {
    let (_, mut list, _) = program(random, "", programs::MIDDLE, above);
    if list.is_empty() || random.percent(25) {
        return super::spoilt(random, above).file;
    }
    match random.pick(&[4, 8, 9, 10, 11, 12]) {
        4 => {
            whole::disorder(random, &mut list);
        }
        12 => {
            spoil::spoil_product(random, &mut list);
        }
        number => {
            let i = random.below(list.len());
            spoil::spoil(random, &mut list, i, number);
        }
    }
    fields::bytes(&list)
}

/// One rule or one constraint, or one of both, many times.
fn repeats(random: &mut Random, above: usize) -> List {
    let (_, mut list, witness) = program(random, "", programs::MIDDLE, above);
    let first = list.iter().take_while(|field| field.tag == 1).count();
    let mut kept: Vec<Field> = Vec::new();
    for tag in [2, 3] {
        let all: Vec<&Field> = list[first..].iter().filter(|field| field.tag == tag).collect();
        if !all.is_empty() && random.percent(80) {
            let one = all[random.below(all.len())];
            kept.extend((0..1 + random.below(30)).map(|_| shuffled(random, one)));
        }
    }
    list.truncate(first);
    list.extend(kept);
    ("repeats", list, witness)
}

/// The empty file, variables alone, or constraints without a variable.
fn few(random: &mut Random) -> List {
    let list = match random.below(3) {
        0 => Vec::new(),
        1 => {
            let high = |random: &mut Random| random.between(0, 2);
            (0..random.below(9)).map(|_| fields::variable(1, 0, high(random))).collect()
        }
        _ => (0..3).map(|_| fields::constraint(1, random.between(-1, 0), &[])).collect(),
    };
    ("few", list, Vec::new())
}
