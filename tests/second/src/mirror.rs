//! Document 000's mirror on whole files: "for each ub-founded variable x in the
//! program, create an lb-founded variable x' and replace every occurrence of x in
//! P with -x', and then map the stable models of the modified program to the
//! original program". A file so mirrored has no variable of kind 2, so that all
//! answers on it are those of kinds 0 and 1. Or all variables are mirrored, and
//! kinds 1 and 2 change places.
//!
//! Not every rule can be written so: none for a mirrored head of forms 4, 5 and
//! 8, nor those of forms 2, 3, 4 and 7 that have variables of both sides.

use crate::calls::{Solved, Verdict};
use crate::gen::fields::{self, Field, Piece};
use crate::gen::Input;
use crate::program::*;
use crate::reader::parse_fields;
use crate::tally::Seen;
use crate::wrong::Wrong;

/// Which variables are mirrored.
#[derive(Clone, Copy, Debug, PartialEq, Eq)]
pub enum Turned {
    /// Those of kind 2.
    Above,
    All,
}

impl Turned {
    fn has(self, variable: &Variable) -> bool {
        self == Turned::All || variable.above()
    }
}

/// The same input mirrored, where its rules can be written so.
pub fn mirror(input: &Input, which: Turned) -> Option<Input> {
    let program = parse_fields(&input.file, Wrong::Nothing).ok()?;
    let count = program.variables.len();
    let any = program.variables.iter().any(|v| which.has(v));
    if !any || input.assignment.len() != 2 * count {
        return None;
    }
    let mut out: Vec<Field> =
        program.variables.iter().map(|v| mirrored_variable(v, which.has(v))).collect();
    for rule in &program.rules {
        out.push(mirrored_rule(&program, which, rule)?);
    }
    for constraint in &program.constraints {
        let terms = constraint.terms.iter().map(|t| turned(&program, which, t));
        let terms: Vec<Piece> = terms.collect::<Option<_>>()?;
        out.push(fields::constraint(constraint.form, constraint.c, &terms));
    }
    let sign = |v: usize| if which.has(&program.variables[v]) { -1 } else { 1 };
    let value = |v: usize| sign(v) * signed(&input.assignment, 2 * v);
    // The least number of two bytes has no negative.
    if (0..count).any(|v| value(v) > i64::from(i16::MAX)) {
        return None;
    }
    let assignment = fields::assignment(&(0..count).map(value).collect::<Vec<_>>());
    Some(Input { file: fields::bytes(&out), assignment, ..input.clone() })
}

fn mirrored_variable(variable: &Variable, turns: bool) -> Field {
    let Variable { kind, low, high } = *variable;
    match kind {
        _ if !turns => fields::variable(kind.number(), low, high),
        Kind::Standard => fields::variable(0, -high, -low),
        Kind::Below => fields::variable(2, -high, -low),
        Kind::Above => fields::variable(1, -high, -low),
    }
}

/// The term of a sum or a literal with -x' for x; x >= n is x' < 1 - n.
fn turned(program: &Program, which: Turned, term: &Term) -> Option<Piece> {
    let v = term.variable as u8;
    if !which.has(&program.variables[term.variable]) {
        return Some((v, term.op, term.number));
    }
    match term.op {
        PLAIN => Some((v, PLAIN, -term.number)),
        _ if term.number == -VALUE => None,
        op => Some((v, 3 - op, 1 - term.number)),
    }
}

fn mirrored_rule(program: &Program, which: Turned, rule: &Rule) -> Option<Field> {
    let has = |v: usize| which.has(&program.variables[v]);
    let (head, turns) = (rule.head as u8, has(rule.head));
    let side = if turns { -1 } else { 1 };
    // Are all plain variables on the head's side?
    let mut plain = rule.terms.iter().filter(|t| t.op == PLAIN);
    let together = plain.all(|t| has(t.variable) == turns);
    let terms = rule.terms.iter().map(|t| turned(program, which, t));
    let terms: Vec<Piece> = terms.collect::<Option<_>>()?;
    let with = |form: u8, terms: &[Piece]| Some(fields::rule(form, head, side * rule.c, terms));
    match rule.form {
        SUM => with(SUM, &terms.iter().map(|t| (t.0, t.1, side * t.2)).collect::<Vec<_>>()),
        MAX | MIN if together && turns => with(MAX + MIN - rule.form, &terms),
        MAX | MIN | PRODUCT if together && !turns => with(rule.form, &terms),
        CARRY if together => with(CARRY, &terms),
        IF => with(IF, &terms),
        // |-x'| is |x'|.
        SIZE if !turns => with(SIZE, &terms),
        QUOTIENT if !turns => Some(fields::quotient(head, rule.c, rule.divisor, &terms)),
        _ => None,
    }
}

/// What has to be seen on the mirrored input where `seen` was seen on the
/// input itself: of mirrored variables the values negated, and marks 0 and 3,
/// and 1 and 2, as one another.
pub fn mirrored(input: &Input, which: Turned, seen: &Seen) -> Seen {
    let mut due = seen.clone();
    let Ok(program) = parse_fields(&input.file, Wrong::Nothing) else { return due };
    if seen.solved == Solved::Found {
        for v in (0..program.variables.len()).filter(|&v| which.has(&program.variables[v])) {
            negate(&mut due.model[2 * v..2 * v + 2]);
        }
    }
    let Verdict::Unfounded(bounds, conditions) = seen.verdict else { return due };
    let mut entries: Vec<Vec<u8>> =
        seen.report.chunks(4).take(bounds + conditions).map(<[u8]>::to_vec).collect();
    for entry in entries.iter_mut().filter(|e| which.has(&program.variables[usize::from(e[0])])) {
        entry[1] = 3 - entry[1];
        negate(&mut entry[2..]);
    }
    entries[bounds..].sort_by_key(|e| (e[0], e[1]));
    let bytes = entries.concat();
    due.report[..bytes.len()].copy_from_slice(&bytes);
    due
}

fn negate(bytes: &mut [u8]) {
    let value = -signed(bytes, 0);
    bytes.copy_from_slice(&fields::number(value));
}
