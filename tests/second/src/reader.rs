//! Refusals 1 to 13. Every field is tried against 2, 3, ... 12 in turn, each
//! number over the whole field before the next.

use crate::graph;
use crate::program::*;
use crate::wrong::Wrong;

#[derive(Clone, Copy, Debug, PartialEq, Eq)]
pub struct Refusal {
    pub number: usize,
    pub place: usize,
}

const VARIABLE: u8 = 1;
const RULE: u8 = 2;
const CONSTRAINT: u8 = 3;

/// The whole reading: the fields, then refusal 13.
pub fn parse(file: &[u8], wrong: Wrong) -> Result<Program, Refusal> {
    let program = parse_fields(file, wrong)?;
    match graph::first_offending_rule(&program) {
        Some(rule) => Err(Refusal { number: 13, place: program.rules[rule].place }),
        None => Ok(program),
    }
}

/// Refusals 1 to 12.
pub fn parse_fields(file: &[u8], wrong: Wrong) -> Result<Program, Refusal> {
    if file.len() > FILE_BYTES {
        return Err(Refusal { number: 1, place: 0 });
    }
    let mut program =
        Program { variables: Vec::new(), rules: Vec::new(), constraints: Vec::new(), wrong };
    let mut previous_tag = 0;
    let mut at = 0;
    while at < file.len() {
        for number in order(wrong) {
            if refuses(number, &program, previous_tag, &file[at..]) {
                return Err(Refusal { number, place: at });
            }
        }
        let field = &file[at..at + 3 + unsigned(file, at + 1)];
        take(&mut program, field, at);
        previous_tag = field[0];
        at += field.len();
    }
    Ok(program)
}

/// The numbers in the order in which they are tried on a field.
fn order(wrong: Wrong) -> Vec<usize> {
    let mut numbers: Vec<usize> = (2..=12).collect();
    match wrong {
        Wrong::EightBeforeSeven => numbers.swap(5, 6),
        Wrong::TenBeforeNine => numbers.swap(7, 8),
        Wrong::ThreeBeforeTwo => numbers.swap(0, 1),
        Wrong::FiveLate => numbers = vec![2, 3, 4, 6, 7, 5, 8, 9, 10, 11, 12],
        _ => {}
    }
    numbers
}

/// Does this refusal apply to the field at the start of `rest`? The numbers
/// that look into the field are asked only after 2 and 6 have passed.
fn refuses(number: usize, program: &Program, previous_tag: u8, rest: &[u8]) -> bool {
    match number {
        2 => rest.len() < 3 || rest.len() < 3 + unsigned(rest, 1),
        3 => !(VARIABLE..=CONSTRAINT).contains(&rest[0]),
        4 => rest[0] < previous_tag,
        5 => full(program, rest[0]),
        6 => !length_fits(rest, program.wrong),
        _ => {
            let value = &rest[3..3 + unsigned(rest, 1)];
            if rest[0] == VARIABLE {
                refuses_variable(number, value, program.wrong)
            } else {
                refuses_body(number, program, &Body::of(rest[0], value))
            }
        }
    }
}

fn full(program: &Program, tag: u8) -> bool {
    match tag {
        VARIABLE => program.variables.len() == VARIABLES,
        RULE if program.wrong == Wrong::IdleNotLimited => {
            program.rules.iter().filter(|rule| !program.idle(rule)).count() == RULES
        }
        RULE => program.rules.len() == RULES,
        _ => program.constraints.len() == CONSTRAINTS,
    }
}

fn length_fits(rest: &[u8], wrong: Wrong) -> bool {
    let (tag, length) = (rest[0], unsigned(rest, 1));
    // No length below 3 fits, so that a form is asked for only where one is.
    let most = if length < 3 { 0 } else { most_groups(tag, rest[3], wrong) };
    match tag {
        VARIABLE => length == 5,
        RULE => (0..=most).any(|n| length == 4 + 4 * n),
        _ => (0..=most).any(|n| length == 3 + 4 * n),
    }
}

/// The most groups of four bytes: a divisor stands beside the 16 terms.
fn most_groups(tag: u8, form: u8, wrong: Wrong) -> usize {
    let one_more = match wrong {
        Wrong::SeventeenIsTen => true,
        Wrong::SeventeenPass if form == SUM => tag == RULE,
        Wrong::EightLikeOthers => false,
        Wrong::UnknownLikeEight => tag == RULE && form >= QUOTIENT,
        Wrong::ConstraintLikeEight => form == QUOTIENT,
        _ => tag == RULE && form == QUOTIENT,
    };
    TERMS + usize::from(one_more)
}

fn refuses_variable(number: usize, value: &[u8], wrong: Wrong) -> bool {
    let (low, high) = (signed(value, 1), signed(value, 3));
    match number {
        7 => kind(value[0], wrong).is_none(),
        8 => low.abs() > VALUE || high.abs() > VALUE || low > high,
        _ => false,
    }
}

fn kind(number: u8, wrong: Wrong) -> Option<Kind> {
    match (number, wrong) {
        (2, Wrong::KindTwoRefused) => None,
        (2, Wrong::KindTwoIsOne) => Some(Kind::Below),
        (3, Wrong::KindThreePasses) => Some(Kind::Above),
        _ => Kind::numbered(number),
    }
}

/// A rule or a constraint, taken apart.
struct Body {
    tag: u8,
    form: u8,
    /// Only a rule has one.
    head: Option<usize>,
    c: i64,
    /// The first group of a rule of form 8, as it stands.
    divisor: Option<Term>,
    terms: Vec<Term>,
}

impl Body {
    fn of(tag: u8, value: &[u8]) -> Body {
        let start = if tag == RULE { 4 } else { 3 };
        let term = |bytes: &[u8]| Term {
            variable: usize::from(bytes[0]),
            op: bytes[1],
            number: signed(bytes, 2),
        };
        let mut terms: Vec<Term> = value[start..].chunks(4).map(term).collect();
        let divided = tag == RULE && value[0] == QUOTIENT && !terms.is_empty();
        Body {
            tag,
            form: value[0],
            head: if tag == RULE { Some(usize::from(value[1])) } else { None },
            c: signed(value, start - 2),
            divisor: if divided { Some(terms.remove(0)) } else { None },
            terms,
        }
    }

    fn form_known(&self) -> bool {
        (1..=if self.tag == RULE { QUOTIENT } else { ONE_HOLDS }).contains(&self.form)
    }

    /// May a term at this position have this op?
    fn op_allowed(&self, position: usize, op: u8) -> bool {
        let literal = op == AT_LEAST || op == BELOW;
        match (self.tag, self.form) {
            (RULE, IF) | (CONSTRAINT, ONE_HOLDS) => literal,
            (RULE, CARRY) if position > 0 => literal,
            _ => op == PLAIN,
        }
    }

    /// Do plain terms of this form carry a coefficient?
    fn has_coefficients(&self) -> bool {
        match self.tag {
            RULE => self.form == SUM || self.form == QUOTIENT,
            _ => self.form == AT_MOST_ZERO,
        }
    }

    fn count_allowed(&self, wrong: Wrong) -> bool {
        let count = self.terms.len();
        if count > TERMS && wrong != Wrong::SeventeenPass {
            return false;
        }
        match (self.tag, self.form) {
            (RULE, QUOTIENT) if wrong == Wrong::AloneIsTen => count >= 1,
            (RULE, QUOTIENT) => self.divisor.is_some(),
            (RULE, SUM) | (CONSTRAINT, AT_MOST_ZERO) => true,
            (RULE, MAX) | (RULE, MIN) | (RULE, IF) | (CONSTRAINT, ONE_HOLDS) => count >= 1,
            (RULE, PRODUCT) => count == 2,
            (RULE, SIZE) => count == 1,
            (RULE, CARRY) => count >= 2,
            _ => false,
        }
    }
}

fn refuses_body(number: usize, program: &Program, body: &Body) -> bool {
    match number {
        7 => refuses_seven(program, body),
        8 => {
            let bad_c = body.c.abs() > VALUE;
            bad_c
                || divisor_outside(body, program.wrong)
                || body.terms.iter().any(|t| number_outside(program, body, t))
        }
        9 => {
            let heads = |v: &Variable| match program.wrong {
                Wrong::KindTwoHeadRefused => v.kind == Kind::Below,
                _ => v.founded(),
            };
            let bad_head = body.head.is_some_and(|head| !program.variables.get(head).is_some_and(heads));
            bad_head || body.terms.iter().any(|t| t.variable >= program.variables.len())
        }
        10 => !body.count_allowed(program.wrong),
        11 => {
            let mut names: Vec<usize> = body.terms.iter().map(|t| t.variable).collect();
            if program.wrong == Wrong::HeadCountsTwice {
                names.extend(body.head);
            }
            if program.wrong == Wrong::DivisorRepeats {
                names.extend(body.divisor.iter().map(|d| d.variable));
            }
            (0..names.len()).any(|i| names[..i].contains(&names[i]))
        }
        12 => {
            let passes = |v: &Variable| program.wrong == Wrong::AboveProductPasses && v.above();
            let below = |v: &Variable| v.low < 0 && !passes(v);
            let bad = |t: &Term| below(&program.variables[t.variable]);
            body.tag == RULE && body.form == PRODUCT && body.terms.iter().any(bad)
        }
        _ => false,
    }
}

/// Unknown form, op not for this form and position, or a number that must be 0.
fn refuses_seven(program: &Program, body: &Body) -> bool {
    let wrong = program.wrong;
    let must_be_zero = |n: i64| n != 0 && (wrong != Wrong::BigZeroIsEight || n.abs() <= VALUE);
    let bad_term = |i: &usize| {
        let term = &body.terms[*i];
        let plain_zero = term.op == PLAIN && !body.has_coefficients();
        !body.op_allowed(*i, term.op) || plain_zero && must_be_zero(term.number)
    };
    let bad_c = body.tag == CONSTRAINT && body.form == ONE_HOLDS && must_be_zero(body.c);
    let names_none = |d: &Term| d.variable == 0 || wrong == Wrong::DivisorNamesAny;
    let bad_divisor = body.divisor.iter().any(|d| d.op != OVER || !names_none(d));
    let first_bad = (0..body.terms.len()).find(bad_term);
    if wrong == Wrong::CarryOneIsSeven
        && body.head.is_some()
        && body.form == CARRY
        && body.terms.len() == 1
    {
        return true;
    }
    if let (Wrong::TermByTerm, Some(i), false) = (wrong, first_bad, bad_divisor) {
        let outside = |t: &Term| number_outside(program, body, t);
        return !divisor_outside(body, wrong) && !body.terms[..i].iter().any(outside);
    }
    !body.form_known() || bad_c || bad_divisor || first_bad.is_some()
}

/// Is there a divisor outside its range?
fn divisor_outside(body: &Body, wrong: Wrong) -> bool {
    let (least, most) = match wrong {
        Wrong::DivisorZeroPasses => (0, DIVISOR),
        Wrong::DivisorOverPasses => (1, DIVISOR + 1),
        _ => (1, DIVISOR),
    };
    let missing = wrong == Wrong::NoGroupIsEight && body.tag == RULE && body.form == QUOTIENT;
    body.divisor.as_ref().map_or(missing, |d| !(least..=most).contains(&d.number))
}

/// Is the number of this term outside its range?
fn number_outside(program: &Program, body: &Body, term: &Term) -> bool {
    let short = program.wrong == Wrong::CoefficientShort;
    let most = if short { COEFFICIENT - 1 } else { COEFFICIENT };
    match term.op {
        PLAIN if body.has_coefficients() => term.number == 0 || term.number.abs() > most,
        _ => term.number.abs() > VALUE,
    }
}

/// Adds a field that no refusal applies to.
fn take(program: &mut Program, field: &[u8], place: usize) {
    let value = &field[3..];
    if field[0] == VARIABLE {
        let kind = kind(value[0], program.wrong).unwrap_or(Kind::Standard);
        program.variables.push(Variable { kind, low: signed(value, 1), high: signed(value, 3) });
        return;
    }
    let Body { form, head, c, divisor, terms, .. } = Body::of(field[0], value);
    let divisor = divisor.map_or(1, |d| d.number);
    match head {
        Some(head) => program.rules.push(Rule { place, form, head, c, divisor, terms }),
        None => program.constraints.push(Constraint { form, c, terms }),
    }
}
