//! The three calls: read, least, check.

use crate::graph;
use crate::meaning::Direction;
use crate::program::{signed, Kind, Program, Rule, QUOTIENT};
use crate::reader::{parse, Refusal};
use crate::wrong::Wrong;

#[derive(Clone, Copy, Debug, PartialEq, Eq)]
pub enum Reading {
    Accepted { variables: usize, rules: usize, constraints: usize },
    Refused { number: usize, place: usize },
}

#[derive(Clone, Copy, Debug, PartialEq, Eq)]
pub enum Solved {
    Refused { number: usize, place: usize },
    Range(usize),
    None,
    Found,
}

#[derive(Clone, Copy, Debug, PartialEq, Eq)]
pub enum Verdict {
    Refused { number: usize, place: usize },
    Range(usize),
    Rule(usize),
    Constraint(usize),
    Unfounded(usize, usize),
    Stable,
}

/// One line of the report.
#[derive(Clone, Copy, Debug, PartialEq, Eq)]
pub struct Entry {
    pub variable: usize,
    pub mark: u8,
    pub number: i64,
}

pub fn read_with(file: &[u8], wrong: Wrong) -> Reading {
    match parse(file, wrong) {
        Err(Refusal { number, place }) => Reading::Refused { number, place },
        Ok(program) => Reading::Accepted {
            variables: program.variables.len(),
            rules: rule_number(&program, program.rules.len(), Wrong::IdleNotCounted),
            constraints: program.constraints.len(),
        },
    }
}

/// How many rules stand before this one; for one wrong variant, not idle ones.
fn rule_number(program: &Program, rule: usize, passes_over: Wrong) -> usize {
    let counts = |r: &&Rule| program.wrong != passes_over || !program.idle(r);
    program.rules[..rule].iter().filter(counts).count()
}

/// The program and the assigned values, or a refusal from 1 to 15.
fn open(
    file: &[u8],
    assignment: &[u8],
    lent: usize,
    bytes_each: usize,
    wrong: Wrong,
) -> Result<(Program, Vec<i64>), Refusal> {
    let program = parse(file, wrong)?;
    let count = program.variables.len();
    let bad_assignment = assignment.len() != 2 * count;
    let bad_buffer = match wrong {
        Wrong::LeastAsksTwelve => lent < 12 * count,
        Wrong::OneByteShort if bytes_each == 12 => lent + 1 < bytes_each * count,
        _ => lent < bytes_each * count,
    };
    if bad_assignment && !(bad_buffer && wrong == Wrong::FifteenBeforeFourteen) {
        return Err(Refusal { number: 14, place: 0 });
    }
    if bad_buffer {
        return Err(Refusal { number: 15, place: 0 });
    }
    let values = (0..count).map(|v| signed(assignment, 2 * v)).collect();
    Ok((program, values))
}

/// The first variable assigned outside its range.
fn first_outside(program: &Program, values: &[i64]) -> Option<usize> {
    (0..values.len()).find(|&v| {
        let variable = &program.variables[v];
        let tried = variable.founded() || program.wrong != Wrong::RangeOfFounded;
        tried && !(variable.low..=variable.high).contains(&values[v])
    })
}

pub fn least_with(file: &[u8], assignment: &[u8], buffer: &mut [u8], wrong: Wrong) -> Solved {
    let (program, assigned) = match open(file, assignment, buffer.len(), 2, wrong) {
        Ok(opened) => opened,
        Err(Refusal { number, place }) => return Solved::Refused { number, place },
    };
    if let Some(variable) = first_outside(&program, &assigned) {
        return Solved::Range(variable);
    }
    let Some(mut model) = program.least_model(&assigned) else {
        return Solved::None;
    };
    if wrong == Wrong::HandsBack {
        model = assigned;
    }
    for (v, value) in model.iter().enumerate() {
        buffer[2 * v..2 * v + 2].copy_from_slice(&(*value as i16).to_be_bytes());
    }
    Solved::Found
}

pub fn check_with(file: &[u8], assignment: &[u8], report: &mut [u8], wrong: Wrong) -> Verdict {
    let (program, assigned) = match open(file, assignment, report.len(), 12, wrong) {
        Ok(opened) => opened,
        Err(Refusal { number, place }) => return Verdict::Refused { number, place },
    };
    if let Some(variable) = first_outside(&program, &assigned) {
        return Verdict::Range(variable);
    }
    let unmet_rule = program.rules.iter().position(|r| !program.rule_met(r, &assigned));
    let unmet_constraint =
        program.constraints.iter().position(|c| !program.constraint_met(c, &assigned));
    if let (Some(constraint), Wrong::ConstraintsFirst) = (unmet_constraint, wrong) {
        return Verdict::Constraint(constraint);
    }
    if let Some(rule) = unmet_rule {
        return Verdict::Rule(rule_number(&program, rule, Wrong::IdleNotNumbered));
    }
    if let Some(constraint) = unmet_constraint {
        return Verdict::Constraint(constraint);
    }
    // Every rule is met, so the assignment itself is a model of its reduct
    // and a least one exists below it.
    let Some(least) = program.least_model(&assigned) else {
        return Verdict::Stable;
    };
    let bounds = bounds(&program, &assigned, &least);
    if bounds.is_empty() {
        return Verdict::Stable;
    }
    let mut conditions = conditions(&program, &assigned, &bounds);
    if wrong != Wrong::Nothing {
        // A wrong variant may have more to show than the report holds.
        conditions.truncate(report.len() / 4 - bounds.len());
    }
    let entries: Vec<Entry> = bounds.iter().chain(&conditions).copied().collect();
    for (i, entry) in entries.iter().enumerate() {
        let number = (entry.number as i16).to_be_bytes();
        let bytes = [entry.variable as u8, entry.mark, number[0], number[1]];
        report[4 * i..4 * i + 4].copy_from_slice(&bytes);
    }
    if wrong == Wrong::ClearsRest {
        report[4 * entries.len()..].fill(0);
    }
    Verdict::Unfounded(bounds.len(), conditions.len())
}

/// Mark 0: each variable of kind 1 whose least value is below its assigned
/// one. Mark 3: each of kind 2 whose least value is above its assigned one.
fn bounds(program: &Program, assigned: &[i64], least: &[i64]) -> Vec<Entry> {
    let edges = graph::edges(program);
    let mut bounds = Vec::new();
    for (v, variable) in program.variables.iter().enumerate() {
        let moved = variable.further(assigned[v], variable.start());
        let struck = || moved && graph::reached(&edges, v)[v];
        let in_set = match program.wrong {
            Wrong::AboveSetTurned => least[v] < assigned[v],
            _ => variable.further(assigned[v], least[v]),
        };
        let number = match program.wrong {
            Wrong::AboveShowsHigh if variable.above() => variable.high,
            _ if in_set => least[v],
            _ => variable.start(),
        };
        let mark = match variable.kind {
            Kind::Above if program.wrong != Wrong::AboveMarkZero => 3,
            _ => 0,
        };
        if variable.founded() && (in_set || program.wrong == Wrong::StrikesCircles && struck()) {
            bounds.push(Entry { variable: v, mark, number });
        }
    }
    match program.wrong {
        Wrong::ShowsFirstOnly => bounds.truncate(1),
        Wrong::GroupedByMark => bounds.sort_by_key(|entry| entry.mark),
        _ => {}
    }
    bounds
}

/// Does this occurrence of a variable of the set give no condition?
fn drops(program: &Program, rule: &Rule, position: usize) -> bool {
    let above = program.variables[rule.terms[position].variable].above();
    match program.wrong {
        Wrong::DropsAllOfSet => true,
        Wrong::AboveRisingNoCondition if above => program.direction(rule, position) != Direction::Mixed,
        Wrong::AboveKeptCondition if above => false,
        _ => program.kept(rule, position),
    }
}

/// At most for a rising position, at least for a falling one, both for a
/// mixed one, whatever the kinds.
fn asks(program: &Program, rule: &Rule, position: usize) -> (bool, bool) {
    let above = program.variables[rule.terms[position].variable].above();
    let into_above = program.variables[rule.head].above();
    let (most, least) = match program.direction(rule, position) {
        Direction::Rising => (true, false),
        Direction::Falling => (false, true),
        Direction::Mixed => (true, true),
    };
    match program.wrong {
        Wrong::AboveFallingAtMost if above && !most => (true, false),
        Wrong::AboveConditionsTurned if above => (least, most),
        Wrong::AboveRulesTurned if into_above => (least, most),
        Wrong::AboveFallingBoth if into_above => (true, least),
        Wrong::AboveMixedOnce if into_above && least => (false, true),
        _ => (most, least),
    }
}

/// Marks 1 and 2: what the rules heading into the set rest on.
fn conditions(program: &Program, assigned: &[i64], bounds: &[Entry]) -> Vec<Entry> {
    let in_set = |v: usize| bounds.iter().any(|entry| entry.variable == v);
    // For every variable: how often "at most" and "at least" are needed.
    let mut at_most = vec![0; assigned.len()];
    let mut at_least = vec![0; assigned.len()];
    let counts = |rule: &&Rule| program.wrong != Wrong::IdleNoConditions || !program.idle(rule);
    for rule in program.rules.iter().filter(|rule| in_set(rule.head)).filter(counts) {
        if rule.form == QUOTIENT && program.wrong == Wrong::DivisorIsCondition && !in_set(0) {
            at_most[0] += 1;
        }
        for position in 0..rule.terms.len() {
            let v = rule.terms[position].variable;
            if in_set(v) && drops(program, rule, position) {
                continue;
            }
            let (most, least) = asks(program, rule, position);
            at_most[v] += usize::from(most);
            at_least[v] += usize::from(least);
        }
    }
    let mut entries = Vec::new();
    for v in 0..assigned.len() {
        let mut marks = [(1, at_most[v]), (2, at_least[v])];
        match program.wrong {
            Wrong::MarkTwoFirst => marks.swap(0, 1),
            Wrong::ShowsEverything => marks = [(1, 1), (2, 1)],
            _ => {}
        }
        for (mark, needed) in marks {
            let times = if program.wrong == Wrong::ShowsTwice { needed.min(2) } else { needed.min(1) };
            for _ in 0..times {
                entries.push(Entry { variable: v, mark, number: assigned[v] });
            }
        }
    }
    entries
}
