//! What the refusal of a rule or constraint has to do with divisors.

use crate::program::*;

/// A refused rule or constraint, its groups taken apart as far as they are there.
pub struct Refused {
    rule: bool,
    form: u8,
    c: i64,
    groups: Vec<Term>,
    /// No byte stands after the last group.
    whole: bool,
}

impl Refused {
    /// The field at the start of `rest`, whose bytes are all there.
    fn of(rest: &[u8]) -> Option<Refused> {
        let value = &rest[3..3 + unsigned(rest, 1)];
        let rule = rest[0] == 2;
        let start = if rule { 4 } else { 3 };
        if rest[0] == 1 || value.len() < start {
            return None;
        }
        let groups = value[start..].chunks_exact(4);
        let whole = groups.remainder().is_empty();
        let term = |g: &[u8]| Term { variable: usize::from(g[0]), op: g[1], number: signed(g, 2) };
        let groups = groups.map(term).collect();
        Some(Refused { rule, form: value[0], c: signed(value, start - 2), groups, whole })
    }

    /// A rule of this form, or a constraint.
    fn is(&self, rule: bool, form: u8) -> bool {
        self.rule == rule && self.form == form
    }

    fn has(&self, groups: usize) -> bool {
        self.whole && self.groups.len() == groups
    }

    /// Form 8 without a group.
    fn bare(&self) -> bool {
        self.is(true, QUOTIENT) && self.groups.is_empty()
    }

    /// Does this hold of the first group of form 8?
    fn first(&self, holds: fn(&Term) -> bool) -> bool {
        self.is(true, QUOTIENT) && self.groups.first().is_some_and(holds)
    }

    /// Does this hold of a group after a sound first one of form 8?
    fn later(&self, holds: fn(&Term) -> bool) -> bool {
        self.first(|d| named_so(d) && !outside(d)) && self.groups[1..].iter().any(holds)
    }

    fn op_three(&self) -> bool {
        self.groups.iter().any(|g| g.op == OVER)
    }
}

fn named_so(divisor: &Term) -> bool {
    divisor.variable == 0 && divisor.op == OVER
}

fn outside(divisor: &Term) -> bool {
    !(1..=DIVISOR).contains(&divisor.number)
}

type Case = (usize, &'static str, fn(&Refused) -> bool);

/// Number, name, and when a refusal of that number is such a case.
pub const CASES: [Case; 23] = [
    (6, "form 8 of 18 groups", |f| f.is(true, QUOTIENT) && f.has(18)),
    (6, "form 1 of 17 groups", |f| f.is(true, SUM) && f.has(17)),
    (6, "form 9 of 17 groups", |f| f.is(true, 9) && f.has(17)),
    (6, "constraint of form 8, 17 groups", |f| f.is(false, QUOTIENT) && f.has(17)),
    (7, "constraint of form 8", |f| f.is(false, QUOTIENT)),
    (7, "variable byte of the divisor", |f| f.first(|d| d.variable != 0 && d.op == OVER)),
    (7, "op of the divisor", |f| f.first(|d| d.variable == 0 && d.op != OVER)),
    (7, "op 3 after the divisor", |f| f.later(|t| t.op == OVER)),
    (7, "literal after the divisor", |f| f.later(|t| t.op == AT_LEAST || t.op == BELOW)),
    (7, "op 3 in form 1", |f| f.is(true, SUM) && f.op_three()),
    (7, "op 3 in forms 2 to 7", |f| f.rule && (MAX..=CARRY).contains(&f.form) && f.op_three()),
    (7, "op 3 in a constraint", |f| !f.rule && f.form <= ONE_HOLDS && f.op_three()),
    (7, "7 before 8, divisor outside", |f| f.first(|d| named_so(d) && outside(d))),
    (8, "divisor 0", |f| f.first(|d| d.number == 0)),
    (8, "divisor below 0", |f| f.first(|d| d.number < 0)),
    (8, "divisor 1,001", |f| f.first(|d| d.number == DIVISOR + 1)),
    (8, "coefficient 0 after the divisor", |f| f.later(|t| t.number == 0)),
    (8, "coefficient beyond 1,000", |f| f.later(|t| t.number.abs() > COEFFICIENT)),
    (8, "c without a group", |f| f.bare() && f.c.abs() > VALUE),
    (9, "head without a group", |f| f.bare()),
    (9, "variable after the divisor", |f| f.is(true, QUOTIENT) && !f.bare()),
    (10, "no group", |f| f.bare()),
    (11, "terms after the divisor", |f| f.is(true, QUOTIENT)),
];

pub fn name(case: &Case) -> String {
    format!("divisor, refusal {:02}: {}", case.0, case.1)
}

/// The names of the cases that a refusal of the field at the start of `rest` is.
pub fn names(number: usize, rest: &[u8]) -> Vec<String> {
    if !CASES.iter().any(|case| case.0 == number) {
        return Vec::new();
    }
    let met = |field: &Refused| {
        CASES.iter().filter(|case| case.0 == number && case.2(field)).map(name).collect()
    };
    Refused::of(rest).as_ref().map_or(Vec::new(), met)
}
