//! Files with lent ranges for the bounds: files of many sorts, ranges inside the
//! declared ones and others, and the length of the lent buffer.

use super::fields::{self, Field, Piece};
use super::line::{self, rule_field, Scale};
use super::prng::Random;
use super::programs::{self, Shape};
use super::{arrivals, assignments, damage, framed, idle, kinds, limits, Input};
use crate::bounds::{Bounded, Span};
use crate::program::*;
use crate::reader::parse;
use crate::wrong::Wrong;
use crate::Reading;

#[derive(Clone, Debug)]
pub struct Case {
    pub file: Vec<u8>,
    pub ranges: Vec<u8>,
    /// Length of the lent buffer.
    pub buffer: usize,
    /// Which part of the generator made it.
    pub label: &'static str,
    /// The answer that follows from the file's own and from what was done to the
    /// ranges and the buffer.
    pub due: Bounded,
    /// Assignments in the declared ranges, some of them stable.
    pub assignments: Vec<Vec<i64>>,
}

/// A file before ranges are lent, with the witness it was built around.
struct Made {
    label: &'static str,
    file: Vec<u8>,
    witness: Vec<i64>,
}

fn made(label: &'static str, (list, witness): (Vec<Field>, Vec<i64>)) -> Made {
    Made { label, file: fields::bytes(&list), witness }
}

/// The bytes of lent ranges.
pub fn bytes(spans: &[Span]) -> Vec<u8> {
    spans.iter().flat_map(|&(low, high)| [fields::number(low), fields::number(high)].concat()).collect()
}

/// The case of this seed.
pub fn case(seed: u64) -> Case {
    let random = &mut Random::new(seed ^ 0x4A1F_0000_0000_0000);
    let Made { label, file, witness } = any(random);
    let reading = crate::read(&file);
    let program = parse(&file, Wrong::Nothing).ok();
    let declared: Vec<Variable> = match &program {
        Some(program) => program.variables.clone(),
        None => roughly(&file),
    };
    let inside = |(v, variable): (usize, &Variable)| {
        witness.get(v).map_or(variable.low, |value| *value.clamp(&variable.low, &variable.high))
    };
    let witness: Vec<i64> = declared.iter().enumerate().map(inside).collect();
    let settled = match label {
        "climb" | "limit" | "brim" => None,
        _ => assignments::settle(&file, &witness),
    };
    let mut spans = lend(random, &declared, settled.as_ref().unwrap_or(&witness));
    let (fourteen, twenty, fifteen) = match label {
        "brim" => (false, false, false),
        _ => faults(random),
    };
    let twenty = twenty && !declared.is_empty();
    if twenty {
        spoil(random, &declared, &mut spans, fourteen);
    }
    let mut ranges = bytes(&spans);
    if fourteen {
        misfit(random, &mut ranges, declared.len());
    }
    let fifteen = fifteen && !declared.is_empty();
    let buffer = room(random, declared.len(), fifteen);
    let refused = |number: usize| Bounded::Refused { number, place: 0 };
    let due = match reading {
        Reading::Refused { number, place } => Bounded::Refused { number, place },
        _ if fourteen => refused(14),
        _ if twenty => refused(20),
        _ if fifteen => refused(15),
        _ => Bounded::Bounded,
    };
    let assignments = match &program {
        Some(program) => tried(random, program, &file, label, &spans, &witness, settled),
        None => Vec::new(),
    };
    Case { file, ranges, buffer, label, due, assignments }
}

/// Kind, low and high of what looks like a variable of a refused file.
fn roughly(file: &[u8]) -> Vec<Variable> {
    let taken = fields::taken(file);
    let like = |f: &&Field| f.tag == 1 && f.value.len() == 5;
    let of = |f: &Field| {
        let (low, high) = (signed(&f.value, 1), signed(&f.value, 3));
        let kind = Kind::numbered(f.value[0]).unwrap_or(Kind::Standard);
        Variable { kind, low: low.min(high), high: low.max(high) }
    };
    taken.iter().take_while(like).take(300).map(of).collect()
}

/// Whether there is to be refusal 14, 20 and 15, or several of them.
fn faults(random: &mut Random) -> (bool, bool, bool) {
    match random.below(100) {
        0..=9 => (true, false, false),
        10..=22 => (false, true, false),
        23..=27 => (false, false, true),
        28..=31 => (true, true, false),
        32..=34 => (false, true, true),
        35 | 36 => (true, false, true),
        37 | 38 => (true, true, true),
        _ => (false, false, false),
    }
}

/// Makes at least one range empty or leave the declared one; the first where another
/// fault follows from the length.
fn spoil(random: &mut Random, declared: &[Variable], spans: &mut [Span], short: bool) {
    let last = spans.len() - 1;
    for _ in 0..random.pick(&[1, 1, 1, 2]) {
        let v = match random.below(5) {
            _ if short => random.below(last.min(2) + 1),
            0 | 1 => 0,
            2 | 3 => last,
            _ => random.below(spans.len()),
        };
        let Variable { low, high, .. } = declared[v];
        let inside = random.between(low, high);
        spans[v] = match random.below(10) {
            0 | 1 => (low - 1, inside),
            2 | 3 => (inside, high + 1),
            4 | 5 if inside < high => (inside + 1, inside),
            4 | 5 => (inside, inside - 1),
            6 => (high, low - 1),
            7 => random.pick(&[(low - 1, low - 1), (high + 1, high + 1)]),
            8 => random.pick(&[(-32_768, inside), (inside, 32_767), (-32_768, 32_767)]),
            _ => random.pick(&[(32_767, -32_768), (high + 1, low - 1), (low - 300, high + 300)]),
        };
    }
}

/// Gives ranges another length.
fn misfit(random: &mut Random, ranges: &mut Vec<u8>, count: usize) {
    let n = ranges.len();
    let less = [n.saturating_sub(1), n.saturating_sub(2), n.saturating_sub(4), 2 * count, 0];
    let more = [n + 1, n + 2, n + 3, n + 4, 2 * n, 3 * n];
    let to = if random.percent(50) { random.pick(&less) } else { random.pick(&more) };
    let fill = random.pick(&[0, 0xFF]);
    ranges.resize(if to == n { n + 1 } else { to }, fill);
}

/// The length of the buffer: long enough, or too short.
fn room(random: &mut Random, count: usize, short: bool) -> usize {
    if short {
        let some = random.below(2 * count);
        return random.pick(&[2 * count - 1, 2 * count - 1, 2 * count - 2, 0, some]);
    }
    let more = random.below(40);
    random.pick(&[
        2 * count,
        2 * count,
        2 * count,
        2 * count + 1,
        2 * count + more,
        4 * count,
        12 * count,
    ])
}

/// Ranges inside the declared ones, around or beside these values.
pub fn lend(random: &mut Random, declared: &[Variable], values: &[i64]) -> Vec<Span> {
    let style = random.below(16);
    let near = random.pick(&[0, 0, 1, 1, 2, 5]);
    let mut spans = Vec::new();
    for (v, variable) in declared.iter().enumerate() {
        let style = match style {
            10..=14 => random.below(11),
            style => style,
        };
        spans.push(one(random, variable, values[v], style, near));
    }
    spans
}

/// One range of this style.
fn one(random: &mut Random, variable: &Variable, value: i64, style: usize, near: i64) -> Span {
    let &Variable { low, high, .. } = variable;
    let inside = random.between(low, high);
    let little = random.between(0, near);
    match style {
        0 => (low, high),
        1 => (inside, inside),
        2 => (value, value),
        // half of them single
        3 if random.percent(50) => (inside, inside),
        3 => (low, high),
        // narrow at either end
        4 => (low, high.min(low + little)),
        5 => (low.max(high - little), high),
        // without the starting end, and without the far end
        6 if low < high => match variable.above() {
            true => (low, high - 1 - random.between(0, (high - low - 1).min(near))),
            false => (low + 1 + random.between(0, (high - low - 1).min(near)), high),
        },
        7 if low < high => match variable.above() {
            true => (low + 1 + random.between(0, (high - low - 1).min(near)), high),
            false => (low, high - 1 - random.between(0, (high - low - 1).min(near))),
        },
        8 => (low.max(value - little), high.min(value + little)),
        // of one sign where the declared one is not
        9 if low < 0 && 0 < high => {
            random.pick(&[(low, -1), (1, high), (0, high), (low, 0), (-1, 1), (1, 1), (-1, -1), (0, 0)])
        }
        _ => {
            let other = random.between(low, high);
            (inside.min(other), inside.max(other))
        }
    }
}

/// The assignments that are tried: what the file settles to from several starts, and
/// some inside the ranges.
fn tried(
    random: &mut Random,
    program: &Program,
    file: &[u8],
    label: &str,
    spans: &[Span],
    witness: &[i64],
    settled: Option<Vec<i64>>,
) -> Vec<Vec<i64>> {
    let inside = |(&(low, high), v): (&Span, &Variable)| {
        let (low, high) = (low.max(v.low), high.min(v.high));
        if low <= high {
            random.between(low, high)
        } else {
            v.low
        }
    };
    let some: Vec<i64> = spans.iter().zip(&program.variables).map(inside).collect();
    let again = match label {
        "climb" | "limit" | "brim" => None,
        _ => assignments::settle(file, &some),
    };
    let mut all: Vec<Vec<i64>> = settled.into_iter().chain(again).collect();
    all.extend([witness.to_vec(), some]);
    all.dedup();
    all
}

fn any(random: &mut Random) -> Made {
    let above = random.pick(&[0, 50, 50, 100]);
    let shape = |shape| Shape { above, ..shape };
    match random.below(106) {
        0..=13 => general(random),
        14..=21 => made("small", programs::program(random, shape(programs::SMALL))),
        22..=31 => made("middle", programs::program(random, shape(programs::MIDDLE))),
        32 => made("large", programs::program(random, shape(programs::LARGE))),
        33..=37 => made("extreme", programs::program(random, shape(programs::EXTREME))),
        38..=40 => made("ring", programs::ring(random)),
        41..=43 => {
            let high = random.between(2, 40);
            made("network", arrivals::network(random, 12, high))
        }
        44..=47 => made("both kinds", arrivals::both(random, 10, 30)),
        48 if random.percent(50) => made("climb", climb(random)),
        49..=66 => roomy(random, above),
        67..=84 => sizes(random, above, 12),
        85..=90 => {
            let idle::Made { fields, witness, .. } = idle::made(random, above);
            made("idle", (fields, witness))
        }
        91 | 92 => limit(random, above),
        93 | 94 => few(random),
        95..=97 => damaged(random, above),
        98..=101 => of_input("spoilt", super::spoilt(random, above)),
        _ => constrained(random, above),
    }
}

/// A file of the other generator.
fn general(random: &mut Random) -> Made {
    of_input("input", super::input(random.word() % 1_000_000))
}

fn of_input(label: &'static str, input: Input) -> Made {
    let count = input.assignment.len() / 2;
    let witness = (0..count).map(|v| signed(&input.assignment, 2 * v)).collect();
    Made { label, file: input.file, witness }
}

/// A file at a limit, or one beyond it.
fn limit(random: &mut Random, above: usize) -> Made {
    let one = random.between(0, 1);
    match random.below(20) {
        0 | 1 => made("brim", (limits::brimful(random, above), vec![one; VARIABLES])),
        2 | 3 => {
            let kind = |random: &mut Random| kinds::founded(random, above).number();
            let mut list =
                vec![fields::variable(kind(random), 0, 9), fields::variable(kind(random), 0, 9)];
            let rule = |random: &mut Random, i: usize| {
                let other = [(1 - (i % 2) as u8, 0, 1)];
                fields::rule(SUM, (i % 2) as u8, random.between(-9, 3), &other[..random.below(2)])
            };
            list.extend((0..RULES).map(|i| rule(random, i)));
            made("brim", (list, vec![one; 2]))
        }
        _ => {
            let (file, variables, _) = limits::at_limit(random, above);
            Made { label: "limit", file, witness: vec![one; variables] }
        }
    }
}

fn climb(random: &mut Random) -> (Vec<Field>, Vec<i64>) {
    match random.below(2) {
        0 => programs::climb(random),
        _ => arrivals::descent(random),
    }
}

fn damaged(random: &mut Random, above: usize) -> Made {
    let shape = random.pick(&[programs::SMALL, programs::MIDDLE]);
    let mut out = made("damaged", programs::program(random, Shape { above, ..shape }));
    damage::damage(random, &mut out.file);
    out
}

/// Files with next to nothing in them.
fn few(random: &mut Random) -> Made {
    let mut list = Vec::new();
    let founded = fields::variable(1 + random.below(2) as u8, -1, 1);
    match random.below(6) {
        0 | 1 => {}
        2 => list.push(fields::constraint(1, random.between(0, 1), &[])),
        3 => list.push(fields::variable(0, -1, 1)),
        4 => list.push(founded),
        _ => list.extend([founded, fields::rule(1, 0, random.between(-2, 2), &[])]),
    }
    let witness = vec![0; fields::count(&list, 1)];
    made("few", (list, witness))
}

/// Is the file with these fields accepted?
fn accepted(list: &[Field]) -> bool {
    matches!(crate::read(&fields::bytes(list)), Reading::Accepted { .. })
}

/// The first of these drafts that is accepted, or the last of several.
fn sound(
    random: &mut Random,
    draft: impl Fn(&mut Random) -> (Vec<Field>, Vec<i64>),
) -> (Vec<Field>, Vec<i64>) {
    let mut last = draft(random);
    for _ in 0..6 {
        if accepted(&last.0) {
            break;
        }
        last = draft(random);
    }
    last
}

/// Rules of all forms over a few variables, some with more room than the rules ask.
fn roomy(random: &mut Random, above: usize) -> Made {
    made("roomy", sound(random, |random| body(random, above, (6, 7), false)))
}

/// Small ones for enumeration.
fn cramped(random: &mut Random, above: usize) -> Vec<Field> {
    sound(random, |random| body(random, above, (4, 5), true)).0
}

fn body(
    random: &mut Random,
    above: usize,
    (variables, rules): (usize, usize),
    small: bool,
) -> (Vec<Field>, Vec<i64>) {
    let count = 2 + random.below(variables - 1);
    let wide = [(0, 9), (-9, 9), (-9, 0), (2, 30), (-400, 400), (-1_000, 1_000), (0, 600), (-5, 40)];
    let narrow = [(0, 2), (-1, 1), (-2, 0), (0, 1), (-1, 2), (1, 3), (0, 3), (0, 2)];
    let mut list = Vec::new();
    let mut all: Vec<(Kind, i64, i64)> = Vec::new();
    for v in 0..count {
        let kind = if v == 0 { kinds::founded(random, above) } else { kinds::any(random, 65, above) };
        let (low, high) = if small { random.pick(&narrow) } else { random.pick(&wide) };
        all.push((kind, low, high));
        list.push(fields::variable(kind.number(), low, high));
    }
    let heads: Vec<usize> = (0..count).filter(|&v| all[v].0.founded()).collect();
    for _ in 0..1 + random.below(rules) {
        let head = random.pick(&heads);
        list.push(rule(random, &all, head, small));
    }
    if random.percent(25) {
        let v = random.below(count);
        let number = random.between(all[v].1, all[v].2);
        list.push(random.pick(&[
            fields::constraint(1, -number, &[(v as u8, 0, 1)]),
            fields::constraint(1, number, &[(v as u8, 0, -1)]),
            fields::constraint(2, 0, &[(v as u8, 1, number)]),
            fields::constraint(2, 0, &[(v as u8, 2, number)]),
        ]));
    }
    let witness = all.iter().map(|&(_, low, high)| random.between(low, high)).collect();
    (list, witness)
}

/// A rule of any form for this head.
fn rule(random: &mut Random, all: &[(Kind, i64, i64)], head: usize, small: bool) -> Field {
    let most = if small { 2 } else { 4 };
    let many = 1 + random.below(all.len().min(most));
    let body = random.distinct(all.len(), many);
    let (_, low, high) = all[head];
    let (name, c) = (head as u8, if small { random.between(-1, 1) } else { random.between(-12, 12) });
    let plain: Vec<Piece> = body.iter().map(|&v| (v as u8, 0, 0)).collect();
    let literal = |random: &mut Random, v: usize| {
        let op = match random.below(3) {
            0 | 1 => kinds::op(all[v].0),
            _ => random.pick(&[AT_LEAST, BELOW]),
        };
        (v as u8, op, random.between(all[v].1, all[v].2 + 1))
    };
    let literals: Vec<Piece> = body.iter().map(|&v| literal(random, v)).collect();
    let terms = |random: &mut Random| -> Vec<Piece> {
        let sizes: &[i64] = if small { &[1, 1, 2] } else { &[1, 1, 1, 2, 3, 40] };
        let sign = |random: &mut Random, v: usize| match random.percent(60) {
            true => kinds::sign(all[head].0, all[v].0),
            false => random.pick(&[1, -1]),
        };
        body.iter().map(|&v| (v as u8, 0, sign(random, v) * random.pick(sizes))).collect()
    };
    let factors: Vec<usize> = (0..all.len()).filter(|&v| all[v].1 >= 0).collect();
    match random.below(8) {
        0 => fields::rule(SUM, name, c, &terms(random)),
        1 => fields::rule(MAX, name, c, &plain),
        2 => fields::rule(MIN, name, c, &plain),
        3 if factors.len() > 1 => {
            let two = random.distinct(factors.len(), 2);
            let pieces: Vec<Piece> = two.iter().map(|&i| (factors[i] as u8, 0, 0)).collect();
            fields::rule(PRODUCT, name, c, &pieces)
        }
        4 => fields::rule(SIZE, name, c, &plain[..1]),
        5 => fields::rule(IF, name, random.between(low, high), &literals),
        6 if many > 1 => {
            let mut pieces = literals;
            pieces[0] = plain[0];
            fields::rule(CARRY, name, c, &pieces)
        }
        _ => {
            let pieces = terms(random);
            let divisor = random.pick(&[2, 2, 3, 5, 1]);
            fields::quotient(name, c, divisor, &pieces)
        }
    }
}

/// Sizes of variables around 0, some in idle rules, that lift others on.
fn sizes(random: &mut Random, above: usize, reach: i64) -> Made {
    made("sizes", sound(random, |random| mixed(random, above, reach)))
}

fn mixed(random: &mut Random, above: usize, reach: i64) -> (Vec<Field>, Vec<i64>) {
    let (variables, rules, constraints) = (Vec::new(), Vec::new(), Vec::new());
    let mut program = Program { variables, rules, constraints, wrong: Wrong::Nothing };
    let span = |random: &mut Random| (random.between(-reach, 0), random.between(0, reach));
    // sizes of the first ones are taken, the next ones are heads, then comes a standard one
    let (many, heads) = (1 + random.below(2), 1 + random.below(if reach > 3 { 3 } else { 2 }));
    for _ in 0..many {
        let (low, high) = (-random.between(1, reach.max(2) - 1), random.between(1, reach.max(2) - 1));
        program.variables.push(Variable { kind: kinds::any(random, 70, above), low, high });
    }
    for _ in 0..heads {
        let (low, high) = span(random);
        program.variables.push(Variable { kind: kinds::founded(random, above), low, high });
    }
    let (low, high) = span(random);
    program.variables.push(Variable { kind: Kind::Standard, low, high: high.min(low + 4) });
    let first = |random: &mut Random| many + random.below(heads);
    for v in 0..many {
        for _ in 0..1 + random.below(2) {
            let more = random.pick(&[-3, -1, 0, 0, 1, 1, 2, 3]);
            let head = first(random);
            program.rules.push(line::size(random, &program, head, v, more));
        }
        if program.variables[v].founded() && random.percent(60) {
            let mut lift = line::draft(random, &program, SUM, v, &[]);
            lift.c = random.between(program.variables[v].low, program.variables[v].high);
            program.rules.push(lift);
        }
    }
    for _ in 0..random.below(4) {
        let (head, through) = (first(random), first(random));
        let scale = Scale { reach, span: reach, others: 1, more: 2, terms: 2, above };
        let near = random.percent(50);
        let rule = match near {
            true => line::near(random, &program, head, through, scale),
            false => line::link(random, &program, head, through),
        };
        program.rules.push(rule);
    }
    line::shuffle(random, &mut program.rules);
    let mut list: Vec<Field> =
        program.variables.iter().map(|v| fields::variable(v.kind.number(), v.low, v.high)).collect();
    list.extend(program.rules.iter().map(rule_field));
    let witness = program.variables.iter().map(|v| random.between(v.low, v.high)).collect();
    (list, witness)
}

/// Constraints of one variable that a bound passes.
fn constrained(random: &mut Random, above: usize) -> Made {
    let (mut list, witness) = sound(random, |random| body(random, above, (5, 6), false));
    list.retain(|field| field.tag != 3);
    let all = fields::variables(&list);
    for _ in 0..1 + random.below(4) {
        let v = random.below(all.len());
        let number = random.between(all[v].1, all[v].2);
        let (sign, op) = random.pick(&[(1, 1), (1, 2), (-1, 1), (-1, 2)]);
        list.push(match random.below(2) {
            0 => fields::constraint(1, -sign * number, &[(v as u8, 0, sign)]),
            _ => fields::constraint(2, 0, &[(v as u8, op, number)]),
        });
    }
    made("constrained", (list, witness))
}

/// A small file for enumeration, and some ranges to be lent.
pub fn small(seed: u64) -> (Vec<u8>, Vec<Vec<Span>>) {
    let random = &mut Random::new(seed ^ 0x4A1F_5000_0000_0000);
    let above = random.pick(&[0, 50, 50, 100]);
    let file = match random.below(10) {
        0..=2 => super::small(random.word() % 1_000_000),
        3..=6 => sizes(random, above, 2).file,
        _ => fields::bytes(&cramped(random, above)),
    };
    let declared = roughly(&file);
    let values: Vec<i64> = declared.iter().map(|v| random.between(v.low, v.high)).collect();
    let settled = assignments::settle(&file, &values).unwrap_or(values);
    let mut lists: Vec<Vec<Span>> = (0..5).map(|_| lend(random, &declared, &settled)).collect();
    lists.push(declared.iter().map(|v| (v.low, v.high)).collect());
    (file, lists)
}

/// A standard input for the program, well framed or not.
pub fn print_input(seed: u64) -> Vec<u8> {
    let random = &mut Random::new(seed ^ 0x4A1F_7000_0000_0000);
    if random.below(150) == 0 {
        return brim(random);
    }
    let Case { file, ranges, .. } = case(random.word() % 1_000_000);
    let mut out = framed(&file, &ranges);
    match random.below(24) {
        0 => out.truncate(random.below(3)),
        1 => out.truncate(random.below(out.len())),
        2 => out.resize(random.pick(&[61_000, 61_001, 61_025, 61_026, 61_027, 61_500, 70_000]), 0),
        3 => out[..2].copy_from_slice(&(random.word() as u16).to_be_bytes()),
        4 => {
            // one byte more than there is, or just as many
            let length = (out.len() - 2 + random.below(2)).min(65_535) as u16;
            out[..2].copy_from_slice(&length.to_be_bytes());
        }
        _ => {}
    }
    out
}

/// 60,000 bytes of file and 1,024 of ranges; or one byte more or less.
fn brim(random: &mut Random) -> Vec<u8> {
    let above = random.pick(&[0, 50, 100]);
    let list = limits::brimful(random, above);
    let span = |random: &mut Random| random.pick(&[(0, 0), (0, 1), (0, 1), (0, 1), (1, 1)]);
    let spans: Vec<Span> = (0..VARIABLES).map(|_| span(random)).collect();
    let mut out = framed(&fields::bytes(&list), &bytes(&spans));
    match random.below(5) {
        0 => out.push(0),
        1 => drop(out.pop()),
        _ => {}
    }
    out
}
