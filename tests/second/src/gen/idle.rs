//! Files in which it matters whether a rule can do anything: circles through a
//! mixed variable that one rule closes, or leaves open because it is idle.

use super::fields::{self, Field};
use super::kinds;
use super::line::{amount, draft, idle, link, loose, near, rule_field, shuffle, size, tune, Scale};
use super::prng::Random;
use super::programs::{self, Shape};
use crate::program::*;
use crate::wrong::Wrong;

/// A file, a witness, and the refusal due: number 0 when it is accepted.
pub struct Made {
    pub fields: Vec<Field>,
    pub witness: Vec<i64>,
    pub due: Option<(usize, usize)>,
    pub label: &'static str,
}

pub const FEW: Scale = Scale { reach: 2, span: 3, others: 1, more: 2, terms: 3, above: 0 };
pub const SOME: Scale = Scale { reach: 15, span: 30, others: 4, more: 5, terms: 4, above: 0 };
pub const MANY: Scale = Scale { reach: 9, span: 9, others: 18, more: 12, terms: 16, above: 0 };
/// No constant is too large for a rule to be idle.
pub const HALF: Scale = Scale { reach: 15_000, span: 30_001, others: 6, more: 4, terms: 5, above: 0 };
pub const FAR: Scale = Scale { reach: 30_000, span: 60_001, others: 6, more: 4, terms: 5, above: 0 };

/// A variable around 0, so that its size is mixed.
fn around(random: &mut Random, scale: Scale) -> Variable {
    let kind = kinds::founded(random, scale.above);
    let (low, high) = if scale.span < 4 {
        random.pick(&[(-1, 1), (-1, 1), (-2, 1), (-1, 2)])
    } else {
        let most = scale.reach.min(scale.span / 2);
        (-random.between(1, most), random.between(1, most))
    };
    Variable { kind, low, high }
}

fn any(random: &mut Random, scale: Scale, kind: Kind) -> Variable {
    let values = if random.percent(15) { 1 } else { random.between(1, scale.span) };
    // A head of kind 2 that starts below 0 makes negative sums decide.
    let negative = kind == Kind::Above && random.percent(35);
    let top = if negative { -values } else { scale.reach - values + 1 };
    let low = random.between(-scale.reach, top.max(-scale.reach));
    Variable { kind, low, high: (low + values - 1).min(scale.reach) }
}

/// From 0 on or above, as a product wants it.
fn over_zero(random: &mut Random, scale: Scale, kind: Kind) -> Variable {
    let zero = if scale.above > 0 { 30 } else { 60 };
    let low = if random.percent(zero) { 0 } else { random.between(0, scale.reach.min(4)) };
    Variable { kind, low, high: low + random.between(0, (scale.span - 1).min(scale.reach - low)) }
}

fn other(random: &mut Random, scale: Scale) -> Variable {
    let kind = kinds::any(random, 50, scale.above);
    match random.below(4) {
        0 => over_zero(random, scale, kind),
        1 => Variable { kind, ..around(random, scale) },
        _ => any(random, scale, kind),
    }
}

/// Rules that close no circle: idle ones of any sort, constants, sums in which
/// nothing is kept.
fn add_more(random: &mut Random, program: &mut Program, scale: Scale) {
    let heads: Vec<usize> =
        (0..program.variables.len()).filter(|&v| program.variables[v].founded()).collect();
    for _ in 0..random.below(scale.more + 1) {
        let head = random.pick(&heads);
        let through = random.below(program.variables.len());
        let mut rule = near(random, program, head, through, scale);
        match random.below(5) {
            0 => rule = draft(random, program, SUM, head, &[]),
            1 => {
                rule = draft(random, program, SUM, head, &[through]);
                rule.terms[0].number *= -1;
            }
            _ if !idle(program, &rule) => tune(random, program, &mut rule, 0),
            _ => {}
        }
        let head = program.variables[rule.head].kind;
        let sign = |t: &Term| kinds::sign(head, program.variables[t.variable].kind);
        let harmless = rule.terms.iter().all(|t| rule.form == SUM && sign(t) * t.number < 0);
        if harmless {
            let more = random.between(0, 2);
            tune(random, program, &mut rule, more);
        }
        if harmless || idle(program, &rule) {
            program.rules.push(rule);
        }
    }
}

/// Numbers the variables anew.
fn rename(random: &mut Random, program: &mut Program) {
    let names = random.distinct(program.variables.len(), program.variables.len());
    let mut variables = program.variables.clone();
    for (v, variable) in program.variables.iter().enumerate() {
        variables[names[v]] = variable.clone();
    }
    program.variables = variables;
    for rule in &mut program.rules {
        rule.head = names[rule.head];
        rule.terms.iter_mut().for_each(|t| t.variable = names[t.variable]);
    }
}

fn variable_fields(program: &Program) -> Vec<Field> {
    program.variables.iter().map(|v| fields::variable(v.kind.number(), v.low, v.high)).collect()
}

fn empty() -> Program {
    let (variables, rules, constraints) = (Vec::new(), Vec::new(), Vec::new());
    Program { variables, rules, constraints, wrong: Wrong::Nothing }
}

/// Fields and witness. Where the circle is closed, the first size of a variable
/// around 0 that is not idle is the one to be named.
fn finish(random: &mut Random, program: Program, closed: bool, label: &'static str) -> Made {
    let mut fields = variable_fields(&program);
    let mut due = (0, 0);
    for rule in &program.rules {
        if due.0 == 0 && closed && mixed(&program, rule) && !idle(&program, rule) {
            due = (13, fields::place(&fields, fields.len()));
        }
        fields.push(rule_field(rule));
    }
    let witness = program.variables.iter().map(|v| random.between(v.low, v.high)).collect();
    Made { fields, witness, due: Some(due), label }
}

fn mixed(program: &Program, rule: &Rule) -> bool {
    let around = |v: &Variable| v.low < 0 && 0 < v.high;
    rule.form == SIZE && around(&program.variables[rule.terms[0].variable])
}

/// Is none of these rules idle?
fn all_drawn(program: &Program, rules: &[Rule]) -> bool {
    rules.iter().all(|rule| !idle(program, rule))
}

fn add_others(random: &mut Random, program: &mut Program, scale: Scale) {
    for _ in 0..1 + random.below(scale.others) {
        program.variables.push(other(random, scale));
    }
}

/// A founded variable, from 0 on in so many of a hundred cases.
fn founded(random: &mut Random, scale: Scale, percent: usize) -> Variable {
    let kind = kinds::founded(random, scale.above);
    if random.percent(percent) {
        over_zero(random, scale, kind)
    } else {
        any(random, scale, kind)
    }
}

/// A size rule in a circle that one rule, near the line, closes or not.
fn closing(random: &mut Random, scale: Scale) -> Made {
    let (a, b, between) = (0, 1, 2);
    let first = founded(random, scale, 60);
    let mut program = empty();
    program.variables.extend([first, around(random, scale)]);
    let longer = random.percent(45);
    if longer {
        let middle = founded(random, scale, 50);
        program.variables.push(middle);
    }
    add_others(random, &mut program, scale);
    let more = random.pick(&[1, 1, 2]);
    let mut circle = vec![size(random, &program, a, b, more)];
    if !longer {
        circle.push(near(random, &program, b, a, scale));
    } else if random.percent(50) {
        circle.push(link(random, &program, b, between));
        circle.push(near(random, &program, between, a, scale));
    } else {
        circle.push(link(random, &program, between, a));
        circle.push(near(random, &program, b, between, scale));
    }
    // Where a constant out of reach makes another rule idle, the last one may
    // still close a circle of its own.
    let sure = all_drawn(&program, &circle[..circle.len() - 1]);
    let closed = all_drawn(&program, &circle);
    program.rules = circle;
    add_more(random, &mut program, scale);
    shuffle(random, &mut program.rules);
    rename(random, &mut program);
    let made = finish(random, program, closed, "idle: closing");
    Made { due: made.due.filter(|_| sure), ..made }
}

/// A size rule in a circle that is open because one variable of it is not
/// kept.
fn open(random: &mut Random, scale: Scale) -> Made {
    let (a, b, between) = (0, 1, 2);
    let mut program = empty();
    program.variables.extend([founded(random, scale, 60), around(random, scale)]);
    let longer = random.percent(45);
    if longer {
        let middle = founded(random, scale, 50);
        program.variables.push(middle);
    }
    let first_other = program.variables.len();
    add_others(random, &mut program, scale);
    let more = random.pick(&[1, 1, 2]);
    program.rules.push(size(random, &program, a, b, more));
    let last = if longer { between } else { a };
    if longer {
        let made = link(random, &program, between, a);
        program.rules.push(made);
    }
    for _ in 0..1 + random.below(2) {
        let made = loose(random, &program, b, last, first_other);
        program.rules.push(made);
    }
    add_more(random, &mut program, scale);
    shuffle(random, &mut program.rules);
    rename(random, &mut program);
    finish(random, program, false, "idle: open")
}

/// One to three sizes, each in its head's component unless it is idle.
fn offending(random: &mut Random, scale: Scale) -> Made {
    let mut program = empty();
    program.variables.push(around(random, scale));
    let head = if random.percent(40) { 0 } else { 1 };
    if head == 1 {
        let kind = kinds::founded(random, scale.above);
        program.variables.push(any(random, scale, kind));
    }
    add_others(random, &mut program, scale);
    let links = if head == 1 { vec![link(random, &program, 0, 1)] } else { Vec::new() };
    let closed = all_drawn(&program, &links);
    let count = random.pick(&[1, 1, 2, 2, 3]);
    program.rules = links;
    add_more(random, &mut program, scale);
    shuffle(random, &mut program.rules);
    // An idle size first, then one that is near the line.
    let mut at = 0;
    for i in 0..count {
        let more = if i + 1 < count { -random.between(0, 2) } else { amount(random, scale) };
        let made = size(random, &program, head, 0, more);
        at = random.between(at as i64, program.rules.len() as i64) as usize;
        program.rules.insert(at, made);
        at += 1;
    }
    rename(random, &mut program);
    finish(random, program, closed, "idle: offending")
}

/// A report filled to its last entry: every variable in the set, and each of
/// them mixed in an idle rule that heads into it.
fn full(random: &mut Random, scale: Scale, count: usize) -> Made {
    let mut program = empty();
    program.variables = (0..count).map(|_| around(random, scale)).collect();
    let heads = random.distinct(count, count);
    for (v, &head) in heads.iter().enumerate() {
        let more = -random.pick(&[0, 0, 1, 5]);
        let made = size(random, &program, head, v, more);
        program.rules.push(made);
    }
    let moved = |v: &Variable| match v.kind {
        Kind::Above => (v.low, v.high - 1),
        _ => (v.low + 1, v.high),
    };
    let ends: Vec<(i64, i64)> = program.variables.iter().map(moved).collect();
    let witness: Vec<i64> = ends.iter().map(|&(low, high)| random.between(low, high)).collect();
    for _ in 0..random.below(4) {
        // Some are moved a little.
        let head = random.below(count);
        let variable = &program.variables[head];
        let last = witness[head] - kinds::away(variable.kind);
        let (least, most) = (variable.start().min(last), variable.start().max(last));
        let mut made = draft(random, &program, SUM, head, &[]);
        made.c = random.between(least, most);
        program.rules.push(made);
    }
    shuffle(random, &mut program.rules);
    Made { witness, ..finish(random, program, true, FULL) }
}

pub const FULL: &str = "idle: full";

/// Puts rules near the line among the rules of a file.
pub fn sprinkle(random: &mut Random, list: &mut Vec<Field>, scale: Scale) {
    let heads = programs::heads(list);
    let mut program = empty();
    for (kind, low, high) in fields::variables(list) {
        let kind = Kind::numbered(kind).unwrap_or(Kind::Standard);
        program.variables.push(Variable { kind, low, high });
    }
    let count = program.variables.len();
    if heads.is_empty() || count < 2 {
        return;
    }
    for _ in 0..1 + random.below(scale.more) {
        let (head, through) = (usize::from(random.pick(&heads)), random.below(count));
        let rule = near(random, &program, head, through, scale);
        let end = list.iter().take_while(|f| f.tag < 3).count();
        list.insert(random.between(count as i64, end as i64) as usize, rule_field(&rule));
    }
}

/// A program of the other kind with rules near the line among its own.
fn among(random: &mut Random, shape: Shape, scale: Scale) -> Made {
    let (mut fields, witness) = programs::program(random, shape);
    sprinkle(random, &mut fields, scale);
    Made { fields, witness, due: None, label: "idle: among others" }
}

/// Examples: row 13 with another constant, a rule needing 9 from a variable
/// ending at 4, and a >= |a| with a large negative constant.
fn example(random: &mut Random) -> Made {
    let founded = |low, high| fields::variable(1, low, high);
    let last = |list: &[Field], r: usize| fields::place(list, list.len() - r);
    let label = "idle: example";
    match random.below(3) {
        0 => {
            let c = random.pick(&[-6, -29, -30, -31]);
            let rules = [fields::rule(5, 0, 0, &[(1, 0, 0)]), fields::rule(1, 1, c, &[(0, 0, 2)])];
            let list = [vec![founded(0, 10), founded(-10, 10)], rules.to_vec()].concat();
            let due = if c <= -30 { (0, 0) } else { (13, last(&list, 2)) };
            Made { fields: list, witness: vec![10, -10], due: Some(due), label }
        }
        1 => {
            let (number, end) = random.pick(&[(9, 4), (9, 4), (9, 4), (4, 4), (9, 9), (5, 4)]);
            let closed = fields::variable(u8::from(random.percent(50)), 0, end);
            let needs = [(0, 1, 1), (2, 1, number)];
            let rules =
                [fields::rule(6, 1, random.between(0, 2), &needs), fields::rule(5, 0, 0, &[(1, 0, 0)])];
            let list = [vec![founded(0, 2), founded(-2, 2), closed], rules.to_vec()].concat();
            let due = if number > end { (0, 0) } else { (13, last(&list, 1)) };
            Made { fields: list, witness: vec![2, random.between(-2, 2), end], due: Some(due), label }
        }
        _ => {
            let c = random.pick(&[-9, -10, -10, -11]);
            let list = vec![founded(-5, 5), fields::rule(5, 0, c, &[(0, 0, 0)])];
            let due = if c <= -10 { (0, 0) } else { (13, last(&list, 1)) };
            Made { fields: list, witness: vec![random.between(-5, 5)], due: Some(due), label }
        }
    }
}

/// Examples of kind 2: a <= |a| with a constant, row 13 turned over, and a head
/// that needs 9 from a variable ending at 4.
fn example_above(random: &mut Random) -> Made {
    let above = |low, high| fields::variable(2, low, high);
    let place = |list: &[Field], r: usize| fields::place(list, r);
    let label = "idle: example of kind 2";
    match random.below(3) {
        0 => {
            let c = random.pick(&[4, 4, 5, 5, 6]);
            let list = vec![above(-5, 5), fields::rule(5, 0, c, &[(0, 0, 0)])];
            let due = if c >= 5 { (0, 0) } else { (13, place(&list, 1)) };
            Made { fields: list, witness: vec![random.between(-5, 5)], due: Some(due), label }
        }
        1 => {
            // a <= |b|, b <= 2a + c: the least of the second is c - 20.
            let c = random.pick(&[6, 29, 30, 31]);
            let rules = [fields::rule(5, 0, 0, &[(1, 0, 0)]), fields::rule(1, 1, c, &[(0, 0, 2)])];
            let list = [vec![above(-10, 10), above(-10, 10)], rules.to_vec()].concat();
            let due = if c >= 30 { (0, 0) } else { (13, place(&list, 2)) };
            Made { fields: list, witness: vec![-10, 10], due: Some(due), label }
        }
        _ => {
            // b moves if a < 1 and d >= 9, b of any founded kind; a <= |b| - 1.
            let (number, end) = random.pick(&[(9, 4), (9, 4), (9, 4), (4, 4), (9, 9)]);
            let closed = fields::variable(random.pick(&[0, 1, 2]), 0, end);
            let kind = kinds::founded(random, 60);
            let needs = [(0, 2, 1), (2, 1, number)];
            let c = kinds::away(kind) * random.between(0, 2);
            let rules = [fields::rule(6, 1, c, &needs), fields::rule(5, 0, -1, &[(1, 0, 0)])];
            let b = fields::variable(kind.number(), -2, 2);
            let list = [vec![above(-2, 2), b, closed], rules.to_vec()].concat();
            let due = if number > end { (0, 0) } else { (13, place(&list, 4)) };
            Made { fields: list, witness: vec![-1, random.between(-2, 2), end], due: Some(due), label }
        }
    }
}

/// A file for all calls; so many of a hundred founded variables are founded
/// from above.
pub fn made(random: &mut Random, above: usize) -> Made {
    let scale = random.pick(&[FEW, FEW, SOME, SOME, SOME, SOME, SOME, MANY, FAR, FAR]);
    let scale = Scale { above, ..scale };
    match random.below(100) {
        40..=47 if above > 0 => open(random, scale),
        0..=47 => closing(random, scale),
        48..=67 => offending(random, scale),
        68..=75 => {
            let count = random.pick(&[1, 1, 1, 2, 2, 3, 5, 17, 64, 256]);
            let scale = random.pick(&[FEW, SOME, HALF]);
            full(random, Scale { above, ..scale }, count)
        }
        76..=93 => {
            let shape = random.pick(&[programs::SMALL, programs::SMALL, programs::MIDDLE]);
            among(random, Shape { above, ..shape }, Scale { above, ..SOME })
        }
        _ if above > 0 && random.percent(80) => example_above(random),
        _ => example(random),
    }
}

/// A file for the brute force.
pub fn small(random: &mut Random, above: usize) -> Vec<Field> {
    let few = Scale { above, ..FEW };
    let made = match random.below(20) {
        7 | 8 if above > 0 => open(random, few),
        0..=8 => closing(random, few),
        9..=13 => offending(random, few),
        14 | 15 => {
            let count = 1 + random.below(2);
            full(random, few, count)
        }
        _ => among(random, Shape { above, ..programs::SMALL }, few),
    };
    made.fields
}
