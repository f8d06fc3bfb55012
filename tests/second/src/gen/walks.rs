//! Files for the walk over edges: chains, circles, circles joined one way, rules
//! that can do nothing in between, mixed positions inside and outside a
//! component. With each the words and bytes that are lent, and sets that no file
//! has.

use std::collections::BTreeSet;

use super::fields::{self, Field};
use super::idle::{self, FEW};
use super::kinds;
use super::line::{draft, rule_field, shuffle, size, tune, Scale};
use super::prng::Random;
use super::{damage, limits};
use crate::program::*;
use crate::wrong::Wrong;

#[derive(Clone, Debug)]
pub struct Case {
    pub file: Vec<u8>,
    /// Which part of the generator made it.
    pub label: &'static str,
    /// What the lent words hold before.
    pub sets: Vec<u64>,
    /// Length of the buffer for the components.
    pub buffer: usize,
    pub shots: Vec<Shot>,
}

/// Sets that may come from nowhere, and what is asked of them.
#[derive(Clone, Debug)]
pub struct Shot {
    pub sets: Vec<u64>,
    pub variables: usize,
    pub k: usize,
    pub buffer: usize,
    /// Are all rounds made, too?
    pub all: bool,
}

/// The case of this seed, and that of the input's file, each with a name.
pub fn cases(seed: u64) -> [(&'static str, Case); 2] {
    [("walk", case(seed)), ("walk of input", of_input(seed))]
}

/// The case of this seed.
pub fn case(seed: u64) -> Case {
    let random = &mut Random::new(seed ^ 0x05E7_5000_0000_0000);
    let (label, file) = made(random);
    let shots = (0..3).map(|_| shot(random)).collect();
    Case { shots, ..dress(random, label, file) }
}

/// The file of `gen::input(seed)`.
pub fn of_input(seed: u64) -> Case {
    let random = &mut Random::new(seed ^ 0x05E7_9000_0000_0000);
    dress(random, "any", super::input(seed).file)
}

/// Words and bytes for a file.
fn dress(random: &mut Random, label: &'static str, file: Vec<u8>) -> Case {
    let count = fields::taken(&file).iter().take_while(|field| field.tag == 1).count();
    let words = lent(random, 4 * count.min(VARIABLES));
    let sets = words_of(random, words);
    let buffer = lent(random, count.min(VARIABLES));
    Case { file, label, sets, buffer, shots: Vec::new() }
}

/// A small file for enumeration: few variables, short ranges, short bodies.
pub fn small(seed: u64) -> Vec<u8> {
    let random = &mut Random::new(seed ^ 0x05E7_7000_0000_0000);
    let n = 2 + random.below(4);
    fields::bytes(&drawing(random, n).1)
}

/// So many, more, one too few, or fewer.
fn lent(random: &mut Random, needed: usize) -> usize {
    match random.below(20) {
        0..=8 => needed,
        9..=13 => needed + 1 + random.below(9),
        14 | 15 => needed.saturating_sub(1),
        16 => random.below(needed + 1),
        17 => needed / 4,
        18 => 0,
        _ => 1_024 + random.below(9),
    }
}

/// Words of one sort: none, all, few or half of the bits.
fn words_of(random: &mut Random, count: usize) -> Vec<u64> {
    let sort = random.below(6);
    let mut word = || match sort {
        0 => 0,
        1 => u64::MAX,
        2 => random.word(),
        3 => random.word() & random.word() & random.word(),
        4 => 1 << random.below(64) | 1 << random.below(64),
        _ => random.word() & random.word() & random.word() & random.word() & random.word(),
    };
    (0..count).map(|_| word()).collect()
}

/// Numbers of variables that no sets can have.
const TOO_MANY: [usize; 11] =
    [257, 258, 300, 65_536, 65_539, 1 << 32, 1 << 62, (1 << 62) + 1, (1 << 62) + 3, 1 << 63, usize::MAX];

fn shot(random: &mut Random) -> Shot {
    let variables = match random.below(40) {
        0 | 1 => 0,
        2..=25 => 1 + random.below(9),
        26..=29 => random.pick(&[63, 64, 65, 66]),
        30 => random.pick(&[127, 128, 129, 192, 193]),
        31 | 32 => random.pick(&[255, 256, 256]),
        33 | 34 => 257,
        _ => random.pick(&TOO_MANY),
    };
    let sane = variables.min(260);
    let words = match variables > 260 {
        true => random.pick(&[0, 3, 4, 12, 13, 1_024, 1_028]),
        false => lent(random, 4 * sane),
    };
    let mut sets = words_of(random, words);
    if random.percent(50) {
        mend(random, &mut sets, sane);
    }
    let k = match random.below(12) {
        0 => variables,
        1 => variables.wrapping_add(1),
        2 => random.pick(&[0, 255, 256, 257, 1 << 16, 1 << 62, usize::MAX]),
        3 => variables.wrapping_sub(1),
        _ => random.below(sane.max(1)),
    };
    let buffer = lent(random, sane);
    let few = sets.iter().map(|word| word.count_ones()).sum::<u32>() < 2_000;
    let all = words >= 4 * sane && variables <= 256 && (sane < 10 || few && random.percent(5));
    Shot { sets, variables, k, buffer, all }
}

/// Leaves few variables in each set, so that rounds have something to add.
fn mend(random: &mut Random, sets: &mut [u64], variables: usize) {
    for (i, word) in sets.iter_mut().enumerate() {
        let first = i % 4 * 64;
        let below = variables.saturating_sub(first).min(64);
        let kept = if below == 0 { 0 } else { 1 << random.below(below) };
        let others = if below == 64 { 0 } else { u64::MAX << below };
        *word = *word & others | if random.percent(70) { kept } else { 0 };
    }
}

/// Label and file.
fn made(random: &mut Random) -> (&'static str, Vec<u8>) {
    match random.below(100) {
        0..=67 => {
            let n = count(random);
            let (label, list) = drawing(random, n);
            (label, fields::bytes(&list))
        }
        68 if random.percent(60) => {
            let (_, mut list) = drawing(random, 256);
            list.retain(|field| field.tag < 3);
            ("256 variables", fields::bytes(&list))
        }
        68..=78 => ("any", super::input(random.word() % 1_000_000).file),
        79..=85 => {
            let above = random.pick(&[0, 50]);
            ("spoilt", super::spoilt(random, above).file)
        }
        86..=90 => {
            let above = random.pick(&[0, 50, 100]);
            ("idle", fields::bytes(&idle::made(random, above).fields))
        }
        91..=95 => {
            let (_, list) = drawing(random, 6);
            let mut file = fields::bytes(&list);
            damage::damage(random, &mut file);
            ("damaged", file)
        }
        96 => ("limit", limits::at_limit(random, 50).0),
        97 => ("long", vec![random.byte(); 60_001 + random.below(9)]),
        _ => ("few", fields::bytes(&few(random))),
    }
}

/// The empty file, constraints without a variable, or variables without a rule.
fn few(random: &mut Random) -> Vec<Field> {
    match random.below(3) {
        0 => Vec::new(),
        1 => vec![fields::constraint(1, 0, &[])],
        _ => vec![fields::variable(random.below(3) as u8, -1, 1); 1 + random.below(9)],
    }
}

/// How many variables; mostly few, some where a word ends.
fn count(random: &mut Random) -> usize {
    match random.below(100) {
        0..=69 => 2 + random.below(6),
        70..=95 => 2 + random.below(16),
        96 => 63 + random.below(3),
        97 => 127 + random.below(3),
        98 => 191 + random.below(3),
        _ => 254 + random.below(3),
    }
}

/// How a rule stands for an edge.
#[derive(Clone, Copy, PartialEq, Eq)]
enum Way {
    Kept,
    Mixed,
    /// It would be drawn if the rule were not idle.
    Idle,
    /// The variable is neither kept nor mixed.
    Loose,
}

type Edge = (usize, usize, Way);

fn chain(first: usize, end: usize) -> Vec<Edge> {
    (first + 1..end).map(|x| (x - 1, x, Way::Kept)).collect()
}

fn circle(first: usize, end: usize) -> Vec<Edge> {
    let mut edges = chain(first, end);
    edges.extend((first < end).then(|| (end - 1, first, Way::Kept)));
    edges
}

/// Two circles, an edge from the first to the second, and perhaps one back that
/// is idle, or drawn.
fn circles(random: &mut Random, n: usize) -> Vec<Edge> {
    let middle = 1 + random.below(n - 1);
    let mut edges = [circle(0, middle), circle(middle, n)].concat();
    let way = random.pick(&[Way::Kept, Way::Mixed, Way::Mixed]);
    let (one, other) = (random.below(middle), middle + random.below(n - middle));
    edges.push((one, other, way));
    match random.below(8) {
        0 | 1 => edges.push((other, one, Way::Idle)),
        2 => edges.push((other, one, Way::Loose)),
        3 => edges.push((other, one, Way::Kept)),
        _ => {}
    }
    edges
}

/// A circle that a rule leaves open because it is idle or keeps nothing.
fn open(random: &mut Random, n: usize) -> Vec<Edge> {
    let mut edges = circle(0, n);
    let at = random.below(edges.len());
    edges[at].2 = random.pick(&[Way::Idle, Way::Idle, Way::Loose]);
    let mixed = random.below(edges.len());
    if mixed != at && random.percent(50) {
        edges[mixed].2 = Way::Mixed;
    }
    edges
}

/// Many to one and one to many, perhaps with a way back.
fn hub(random: &mut Random, n: usize) -> Vec<Edge> {
    let middle = random.below(n);
    let side = |x: usize| if x < middle { (x, middle) } else { (middle, x) };
    let others = (0..n).filter(|&x| x != middle || n < 3);
    let mut edges: Vec<Edge> = others.map(|x| (side(x).0, side(x).1, Way::Kept)).collect();
    if random.percent(40) {
        edges.push((random.below(n), random.below(n), Way::Kept));
    }
    edges
}

fn tangle(random: &mut Random, n: usize) -> Vec<Edge> {
    let many = n / 2 + random.below(2 * n);
    (0..many).map(|_| (random.below(n), random.below(n), Way::Kept)).collect()
}

/// A file around a drawing of this many variables.
fn drawing(random: &mut Random, n: usize) -> (&'static str, Vec<Field>) {
    let (label, mut edges) = match random.below(20) {
        0..=3 => ("chain", chain(0, n)),
        4..=8 => ("circle", circle(0, n)),
        9..=12 => ("two circles", circles(random, n)),
        13..=15 => ("open circle", open(random, n)),
        16 => ("hub", hub(random, n)),
        _ => ("tangle", tangle(random, n)),
    };
    let mixes = random.pick(&[0, 0, 10, 30]);
    for edge in edges.iter_mut().filter(|edge| edge.2 == Way::Kept) {
        edge.2 = match random.below(100) {
            drawn if drawn < mixes => Way::Mixed,
            98 => Way::Idle,
            99 => Way::Loose,
            _ => Way::Kept,
        };
    }
    rename(random, n, &mut edges);
    let mut program = variables(random, n, &edges);
    add_rules(random, &mut program, edges);
    shuffle(random, &mut program.rules);
    let mut out: Vec<Field> =
        program.variables.iter().map(|v| fields::variable(v.kind.number(), v.low, v.high)).collect();
    out.extend(program.rules.iter().map(rule_field));
    if random.percent(8) {
        idle::sprinkle(random, &mut out, Scale { above: 50, ..FEW });
    }
    if random.percent(10) {
        out.push(fields::constraint(1, -9, &[(0, 0, 1)]));
    }
    (label, out)
}

/// Ascending along the edges, descending, or in any order.
fn rename(random: &mut Random, n: usize, edges: &mut [Edge]) {
    let names: Vec<usize> = match random.below(4) {
        0 => (0..n).collect(),
        1 => (0..n).rev().collect(),
        _ => random.distinct(n, n),
    };
    edges.iter_mut().for_each(|edge| (edge.0, edge.1) = (names[edge.0], names[edge.1]));
}

/// The variables of these edges. One that heads no rule may be standard.
fn variables(random: &mut Random, n: usize, edges: &[Edge]) -> Program {
    let above = random.pick(&[0, 0, 50, 100]);
    let around = random.pick(&[20, 100]);
    let mut program =
        Program { variables: vec![], rules: vec![], constraints: vec![], wrong: Wrong::Nothing };
    for v in 0..n {
        let heads = edges.iter().any(|edge| edge.0 == v);
        let mixed = edges.iter().any(|edge| edge.1 == v && edge.2 == Way::Mixed);
        let founded = if heads { 100 } else { 40 };
        let (low, high) = match mixed || random.percent(around) {
            true => random.pick(&[(-1, 1), (-2, 1), (-1, 2), (-2, 2)]),
            false => random.pick(&[(0, 1), (0, 3), (1, 3), (0, 2)]),
        };
        program.variables.push(Variable { kind: kinds::any(random, founded, above), low, high });
    }
    program
}

/// A rule for each edge, or one for several edges of a head.
fn add_rules(random: &mut Random, program: &mut Program, mut edges: Vec<Edge>) {
    if random.percent(25) {
        edges = gather(random, program, edges);
    }
    for (from, to, way) in edges {
        let mut rule = match way {
            Way::Mixed => size(random, program, from, to, 1),
            _ => {
                let form = random.pick(&forms(program, from, to));
                draft(random, program, form, from, &[to])
            }
        };
        if way == Way::Loose {
            loosen(program, &mut rule);
        }
        let more = if way == Way::Idle { random.pick(&[0, 0, -1]) } else { random.pick(&[1, 1, 2]) };
        tune(random, program, &mut rule, more);
        program.rules.push(rule);
    }
}

/// The forms in which one variable alone is kept, in a rule for this head.
fn forms(program: &Program, head: usize, to: usize) -> Vec<u8> {
    let mut forms = vec![SUM, SUM, QUOTIENT, IF];
    if kinds::sign(program.variables[head].kind, program.variables[to].kind) == 1 {
        forms.extend([MAX, MIN]);
        if program.variables[to].low >= 0 {
            forms.push(SIZE);
        }
    }
    forms
}

/// Turns the one position of a rule of form 1, 6 or 8, so that it is not kept;
/// another form becomes form 1.
fn loosen(program: &Program, rule: &mut Rule) {
    let v = rule.terms[0].variable;
    let Variable { kind, low, high } = program.variables[v];
    match rule.form {
        SUM | QUOTIENT => rule.terms[0].number *= -1,
        IF => {
            let op = 3 - kinds::op(kind);
            let number = if op == AT_LEAST { high } else { low + 1 };
            rule.terms[0] = Term { variable: v, op, number };
        }
        _ => {
            rule.form = SUM;
            rule.terms[0].number = -kinds::sign(program.variables[rule.head].kind, kind);
        }
    }
}

/// One rule of form 1, 2 or 3 for all kept edges of each head, or more where a body
/// has no room. The edges that are left are handed back.
fn gather(random: &mut Random, program: &mut Program, edges: Vec<Edge>) -> Vec<Edge> {
    let (kept, others): (Vec<Edge>, Vec<Edge>) = edges.into_iter().partition(|e| e.2 == Way::Kept);
    for head in 0..program.variables.len() {
        let body: BTreeSet<usize> = kept.iter().filter(|e| e.0 == head).map(|e| e.1).collect();
        let body: Vec<usize> = body.into_iter().collect();
        let rules: Vec<Rule> =
            body.chunks(TERMS).map(|part| together(random, program, head, part)).collect();
        program.rules.extend(rules);
    }
    others
}

/// A rule in which all of these are kept.
fn together(random: &mut Random, program: &Program, head: usize, body: &[usize]) -> Rule {
    let sign = |v: usize| kinds::sign(program.variables[head].kind, program.variables[v].kind);
    let alike = body.iter().all(|&v| sign(v) == 1);
    let form = if alike { random.pick(&[SUM, MAX, MIN]) } else { SUM };
    let number = |v: usize| if form == SUM { sign(v) } else { 0 };
    let term = |&v: &usize| Term { variable: v, op: PLAIN, number: number(v) };
    let terms = body.iter().map(term).collect();
    let mut rule = Rule { place: 0, form, head, c: 0, divisor: 1, terms };
    tune(random, program, &mut rule, 1);
    rule
}
