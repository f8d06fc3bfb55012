//! What two files must have in common to be the same plan: the variables, and the
//! sets of ordered rules and of ordered constraints. Bodies are put together from
//! the numbers of the file and not from its bytes, variable by variable, and the
//! order of fields is looked for byte by byte.

use std::collections::BTreeSet;

use crate::gen::fields::{self, Field, Piece};
use crate::program::*;
use crate::reader::parse;
use crate::wrong::Wrong;

#[derive(Clone, Debug, PartialEq, Eq)]
pub struct Plan {
    pub variables: Vec<Vec<u8>>,
    pub rules: BTreeSet<Vec<u8>>,
    pub constraints: BTreeSet<Vec<u8>>,
}

impl Plan {
    /// The plan of an accepted file.
    pub fn of(file: &[u8]) -> Option<Plan> {
        let program = parse(file, Wrong::Nothing).ok()?;
        let variable = |v: &Variable| whole(fields::variable(v.kind.number(), v.low, v.high));
        Some(Plan {
            variables: program.variables.iter().map(variable).collect(),
            rules: program.rules.iter().map(rule).collect(),
            constraints: program.constraints.iter().map(constraint).collect(),
        })
    }

    /// The bytes of its normal form.
    pub fn bytes(&self) -> Vec<u8> {
        let all = self.variables.iter().chain(&self.rules).chain(&self.constraints);
        all.flatten().copied().collect()
    }

    /// Is this its normal form? The error says what is not as it should be.
    pub fn is_written(&self, out: &[u8]) -> Result<(), String> {
        let all: Vec<Vec<u8>> = fields::taken(out).into_iter().map(whole).collect();
        if all.concat() != out {
            return Err("not a list of fields".to_string());
        }
        let (variables, rest) = all.split_at(self.variables.len().min(all.len()));
        let (rules, constraints) = rest.split_at(self.rules.len().min(rest.len()));
        if variables != self.variables {
            return Err("variables are not as they were".to_string());
        }
        has_each_once(rules, &self.rules).map_err(|what| format!("rules: {what}"))?;
        has_each_once(constraints, &self.constraints).map_err(|what| format!("constraints: {what}"))
    }
}

/// Does the list have every field of the set and no other, each before the next?
fn has_each_once(list: &[Vec<u8>], set: &BTreeSet<Vec<u8>>) -> Result<(), String> {
    let found: BTreeSet<Vec<u8>> = list.iter().cloned().collect();
    if let Some(field) = set.symmetric_difference(&found).next() {
        return Err(format!("{field:02X?} is missing or is none of them"));
    }
    match list.windows(2).find(|two| !stands_before(&two[0], &two[1])) {
        Some(two) => Err(format!("{:02X?} stands before {:02X?}", two[0], two[1])),
        None => Ok(()),
    }
}

/// Where two fields differ first.
pub fn first_difference(one: &[u8], other: &[u8]) -> Option<usize> {
    (0..one.len().min(other.len())).find(|&i| one[i] != other[i])
}

/// Has the one the smaller byte where they differ first? No field begins with
/// another whole one, for the length stands among the first bytes.
pub fn stands_before(one: &[u8], other: &[u8]) -> bool {
    first_difference(one, other).is_some_and(|i| u32::from(one[i]) < u32::from(other[i]))
}

/// Tag, length and value.
pub fn whole(field: Field) -> Vec<u8> {
    fields::bytes(&[field])
}

/// The terms of variable 0, then that of 1, and so on.
fn by_variable(terms: &[Term]) -> Vec<Piece> {
    let mut out = Vec::new();
    for v in 0..VARIABLES {
        let named = terms.iter().filter(|term| term.variable == v);
        out.extend(named.map(|term| (v as u8, term.op, term.number)));
    }
    out
}

/// A rule's field with its terms ordered.
pub fn rule(rule: &Rule) -> Vec<u8> {
    let (head, c) = (rule.head as u8, rule.c);
    let stay = if rule.form == CARRY { 1 } else { 0 };
    let mut terms: Vec<Piece> =
        rule.terms[..stay].iter().map(|term| (term.variable as u8, term.op, term.number)).collect();
    terms.extend(by_variable(&rule.terms[stay..]));
    whole(match rule.form {
        QUOTIENT => fields::quotient(head, c, rule.divisor, &terms),
        form => fields::rule(form, head, c, &terms),
    })
}

/// A constraint's field with its terms ordered.
pub fn constraint(constraint: &Constraint) -> Vec<u8> {
    let terms = by_variable(&constraint.terms);
    whole(fields::constraint(constraint.form, constraint.c, &terms))
}
