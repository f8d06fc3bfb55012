//! A program as an answer set program, by the papers' own reading.
//!
//! 000, section 3: "It is intuitive to think of an lb-founded integer x with
//! domain [L..U] as a set of ASP variables [x >= L], [x >= L + 1], ..." and
//! "ub-founded variables are analogous, but with ASP variables representing
//! x <= v instead". Here `ge(x,v)` is [x >= v], `le(x,v)` is [x <= v], and
//! `is(s,v)` says that standard s has the value v. The grounder does all
//! arithmetic; nothing is evaluated on this side.

use crate::reading::{moved, Moved, Reading};
use second::program::*;
use std::fmt::Write;

/// The answer set program; its answer sets are the stable assignments.
pub fn translate(program: &Program, reading: Reading) -> String {
    if reading == Reading::AboveAsBelow {
        let mut other = program.clone();
        other.variables.iter_mut().filter(|v| v.above()).for_each(|v| v.kind = Kind::Below);
        return translate(&other, Reading::Right);
    }
    let from = Translation { program, reading };
    let mut out = String::new();
    for (x, variable) in program.variables.iter().enumerate() {
        out += &from.variable(x, variable);
    }
    for (number, rule) in program.rules.iter().enumerate() {
        out += &from.rule(number, rule);
    }
    for constraint in &program.constraints {
        out += &from.constraint(constraint);
    }
    out + "#show ge/2.\n#show le/2.\n#show is/2.\n"
}

/// Says of each rule that is not idle that it can, the rules numbered from this on.
pub fn not_idle(program: &Program, from: usize) -> String {
    let translation = Translation { program, reading: Reading::IdleLeftOut };
    let says = |(r, rule): (usize, &Rule)| translation.idle(from + r, rule).0;
    program.rules.iter().enumerate().map(says).collect()
}

pub struct Translation<'a> {
    pub program: &'a Program,
    pub reading: Reading,
}

impl Translation<'_> {
    fn kind(&self, x: usize) -> Kind {
        match (self.program.variables[x].kind, self.reading) {
            (Kind::Standard, Reading::StandardFounded) => Kind::Below,
            (kind, _) => kind,
        }
    }

    fn founded(&self, x: usize) -> bool {
        self.kind(x) != Kind::Standard
    }

    fn above(&self, x: usize) -> bool {
        self.kind(x) == Kind::Above
    }

    /// That founded x has come as far as `value` from its starting end.
    fn come(&self, x: usize, value: &str) -> String {
        format!("{}({x},{value})", if self.above(x) { "le" } else { "ge" })
    }

    /// The value one further from the starting end.
    fn next(&self, x: usize, value: &str) -> String {
        format!("{value}{}1", if self.above(x) { "-" } else { "+" })
    }

    fn variable(&self, x: usize, variable: &Variable) -> String {
        let Variable { low, high, .. } = *variable;
        if !self.founded(x) {
            // 000: founded variables need a rule "in order to be valid in a
            // stable model"; standard ones take any value of their domain.
            return format!("1 {{ is({x},V) : V = {low}..{high} }} 1.\n");
        }
        // 000: "[x >= L]."; analogous [x <= U]
        let start = match self.reading {
            Reading::FromZero => 0.clamp(low, high),
            _ if !self.above(x) => low,
            Reading::AboveFromLow => low,
            _ => high,
        };
        let mut out = format!("{}.\n", self.come(x, &start.to_string()));
        // 000: "[x >= v] <- [x >= v + 1]" for v in L..U - 1; analogous
        // [x <= v] <- [x <= v - 1] for v in L + 1..U
        let unchained = if self.above(x) { Reading::AboveUnchained } else { Reading::Unchained };
        if self.reading != unchained {
            let range = if self.above(x) { (low + 1, high) } else { (low, high - 1) };
            let (this, next) = (self.come(x, "V"), self.come(x, &self.next(x, "V")));
            let _ = writeln!(out, "{this} :- {next}, V = {}..{}.", range.0, range.1);
        }
        // 000: "<- [x >= U + 1]" stands with the rules that would give it.
        out
    }

    /// Binds `X` to the assigned value of x without supporting anything: both
    /// tests are decided by the assignment when the reduct is made.
    fn assigned(&self, x: usize, position: usize) -> String {
        let Variable { low, high, .. } = self.program.variables[x];
        let value = format!("X{position}");
        let domain = format!("{value} = {low}..{high}");
        if self.founded(x) {
            // 000: the value is v with [x >= v] true but [x >= v + 1] false.
            let (this, next) = (self.come(x, &value), self.come(x, &self.next(x, &value)));
            format!("{domain}, not not {this}, not {next}")
        } else {
            format!("{domain}, not not is({x},{value})")
        }
    }

    /// Binds the value of the variable at this position of a rule.
    fn bound(&self, rule: &Rule, position: usize) -> String {
        let x = rule.terms[position].variable;
        let value = format!("X{position}");
        let kept = self.come(x, &value);
        let supported = || format!("{kept}, not {}", self.come(x, &self.next(x, &value)));
        let moved = moved(self.program, rule, position, self.reading);
        match (self.reading, moved) {
            _ if !self.founded(x) => self.assigned(x, position),
            (Reading::SupportedOnly, _) => self.assigned(x, position),
            (Reading::FallingKept, Moved::Less) if !self.above(x) => kept,
            (Reading::FallingSupports, Moved::Less) => supported(),
            (Reading::MixedKept, Moved::Both) => kept,
            (Reading::MixedSupports, Moved::Both) => supported(),
            (Reading::AboveNotKept, _) if self.above(x) => self.assigned(x, position),
            (Reading::AboveRisingKept, Moved::Less) if self.above(x) => kept,
            (Reading::AboveKeptAmongAbove, _) if self.above(x) && !self.above(rule.head) => {
                self.assigned(x, position)
            }
            (Reading::BelowKeptAmongBelow, _) if !self.above(x) && self.above(rule.head) => {
                self.assigned(x, position)
            }
            // 02: "A body variable is kept when moving it away from its starting
            // end makes the rule demand more". Every value it has been moved to
            // counts, and must be derived.
            (_, Moved::More) => kept,
            // 01: "every other is replaced by its assigned value". 000: "for
            // each x_i where x_i is not in F, or for which c is not decreasing
            // w.r.t. x_i, we substitute the value of theta(x_i)". The head is
            // "a body variable like any other" (01).
            _ => self.assigned(x, position),
        }
    }

    /// 01: op 1 means variable >= number, op 2 means variable < number.
    fn literal(&self, term: &Term, position: usize, holds: bool) -> String {
        let number = term.number;
        let below = if self.reading == Reading::BelowOrEqual { number + 1 } else { number };
        let turned = self.reading == Reading::AboveOpsTurned && self.above(term.variable);
        match (term.op == AT_LEAST, holds) {
            (true, true) if turned => format!("X{position} <= {number}"),
            (true, false) if turned => format!("X{position} > {number}"),
            (true, true) => format!("X{position} >= {number}"),
            (true, false) => format!("X{position} < {number}"),
            (false, true) => format!("X{position} < {below}"),
            (false, false) => format!("X{position} >= {below}"),
        }
    }

    /// 000: a rule is a constraint with a head; 01: "each head is at least
    /// what its rule gives"; 02, wish 3: "at most what I give". For every way to
    /// bind the body, [head >= V] or [head <= V].
    fn rule(&self, number: usize, rule: &Rule) -> String {
        let Variable { low, high, .. } = self.program.variables[rule.head];
        let above = self.above(rule.head);
        let (mut out, unless_idle) = self.idle(number, rule);
        let mut body: Vec<String> = (0..rule.terms.len()).map(|i| self.bound(rule, i)).collect();
        body.extend(unless_idle);
        body.extend(self.given(rule));
        let body = body.join(", ");
        // What holds at the starting end is there already.
        let values = match (rule.form, above) {
            (QUOTIENT, false) => format!("V = {}..{high}, {}", low + 1, self.past(rule, "V - 1")),
            (QUOTIENT, true) => format!("V = {low}..{}, {}", high - 1, self.past(rule, "V + 1")),
            (_, false) => format!("V > {low}, V <= {high}"),
            (_, true) => format!("V < {high}, V >= {low}"),
        };
        if self.reading == Reading::AboveOnlyForbids && above {
            let head = self.assigned(rule.head, rule.terms.len());
            let past = self.past(rule, &format!("X{}", rule.terms.len()));
            let _ = writeln!(out, ":- {body}, {head}, {past}.");
        } else {
            let _ = writeln!(out, "{} :- {body}, {values}.", self.come(rule.head, "V"));
        }
        // 000: "<- [x >= U + 1]"; 01: "founded values lie in low..high".
        let says_nothing = if above { Reading::AboveNoFloor } else { Reading::NoCeiling };
        if self.reading != says_nothing {
            let far = if above { low } else { high };
            let _ = writeln!(out, ":- {body}, {}.", self.past(rule, &far.to_string()));
        }
        if self.reading == Reading::AboveCeiling && above && rule.form != QUOTIENT {
            let _ = writeln!(out, ":- {body}, V > {high}.");
        }
        out
    }

    /// The rule demands more than `n`: it gives more, or for kind 2 less. 02,
    /// wish 1: "the smallest whole number not below the sum, c included, over the
    /// divisor". 000 states such rules without dividing, as "2x >= y" in example
    /// 1: more than n is given where n, taken divisor times, is below the sum;
    /// less than n where the sum is not above n - 1, taken divisor times.
    pub fn past(&self, rule: &Rule, n: &str) -> String {
        let (c, divisor) = (rule.c, rule.divisor);
        let above = self.above(rule.head);
        match (rule.form, above, self.reading) {
            (QUOTIENT, false, Reading::RoundsDown) => format!("({n} + 1) * {divisor} <= S"),
            (QUOTIENT, true, Reading::RoundsDown | Reading::AboveRoundsDown) => {
                format!("S < ({n}) * {divisor}")
            }
            (QUOTIENT, false, Reading::ConstantLate) => {
                format!("({n} - ({c})) * {divisor} < S - ({c})")
            }
            (QUOTIENT, true, Reading::ConstantLate) => {
                format!("S - ({c}) <= ({n} - ({c}) - 1) * {divisor}")
            }
            (QUOTIENT, false, _) => format!("({n}) * {divisor} < S"),
            (QUOTIENT, true, _) => format!("S <= ({n} - 1) * {divisor}"),
            (_, false, _) => format!("V > {n}"),
            (_, true, _) => format!("V < {n}"),
        }
    }

    /// The value of its head up to which a rule is left out by this reading.
    fn line(&self, rule: &Rule) -> Option<i64> {
        let Variable { low, high, .. } = self.program.variables[rule.head];
        match (self.reading, self.above(rule.head)) {
            (Reading::IdleLeftOut, false) => Some(low),
            (Reading::IdleByLeast, false) => Some(low),
            (Reading::IdleOneMore, false) => Some(low + 1),
            (Reading::IdleByHigh, false) => Some(high),
            (Reading::IdleLeftOut, true) => Some(high),
            (Reading::AboveIdleByMost | Reading::AboveIdleByEnds, true) => Some(high),
            (Reading::AboveIdleOneLess, true) => Some(high - 1),
            (Reading::AboveIdleByLow, true) => Some(low),
            _ => None,
        }
    }

    /// Where a reading leaves out rules: what decides that, and what the body
    /// asks. 02, wish 2: a rule is idle when "the most it can give, over all
    /// values in the ranges, is at most its head's low, or it can never give
    /// anything"; by wish 3 for kind 2 the least, at least the high. The grounder
    /// goes through all values; `can` says that some of them demand more, `may`
    /// that some demand no more.
    fn idle(&self, number: usize, rule: &Rule) -> (String, Option<String>) {
        let Some(line) = self.line(rule) else { return (String::new(), None) };
        let variable = |i: usize| &self.program.variables[rule.terms[i].variable];
        let range = |i: usize| match self.reading {
            Reading::AboveIdleByEnds => format!("X{i} = ({};{})", variable(i).low, variable(i).high),
            _ => format!("X{i} = {}..{}", variable(i).low, variable(i).high),
        };
        let mut body: Vec<String> = (0..rule.terms.len()).map(range).collect();
        body.extend(self.given(rule));
        let (body, past) = (body.join(", "), self.past(rule, &line.to_string()));
        if [Reading::IdleByLeast, Reading::AboveIdleByMost].contains(&self.reading) {
            return (
                format!("may({number}) :- {body}, not {past}.\n"),
                Some(format!("not may({number})")),
            );
        }
        (format!("can({number}) :- {body}, {past}.\n"), Some(format!("can({number})")))
    }

    /// What the rule gives, as `V`, and when it gives anything (01, rule forms);
    /// of form 8 the sum alone, as `S`.
    pub fn given(&self, rule: &Rule) -> Vec<String> {
        let c = rule.c;
        let all: Vec<String> = (0..rule.terms.len()).map(|i| format!("X{i}")).collect();
        let holds = |i: usize| self.literal(&rule.terms[i], i, true);
        match rule.form {
            SUM => vec![sum("V", c, &rule.terms)],
            QUOTIENT => vec![sum("S", c, &rule.terms)],
            MAX => vec![format!("M = #max {{ {} }}", all.join("; ")), format!("V = {c} + M")],
            MIN => vec![format!("M = #min {{ {} }}", all.join("; ")), format!("V = {c} + M")],
            PRODUCT => vec![format!("V = {c} + X0 * X1")],
            SIZE => vec![format!("V = {c} + |X0|")],
            IF => (0..all.len()).map(holds).chain([format!("V = {c}")]).collect(),
            _ => (1..all.len()).map(holds).chain([format!("V = {c} + X0")]).collect(),
        }
    }

    /// Constraints have no head and support nothing: 003 has them apart from
    /// the rules, and a stable model "satisfies all the constraints in P".
    fn constraint(&self, constraint: &Constraint) -> String {
        let terms = &constraint.terms;
        let mut body: Vec<String> =
            terms.iter().enumerate().map(|(i, t)| self.assigned(t.variable, i)).collect();
        if constraint.form == AT_MOST_ZERO {
            body.push(sum("V", constraint.c, terms));
            body.push("V > 0".to_string());
        } else {
            body.extend(terms.iter().enumerate().map(|(i, t)| self.literal(t, i, false)));
        }
        format!(":- {}.\n", body.join(", "))
    }
}

fn sum(name: &str, c: i64, terms: &[Term]) -> String {
    let mut out = format!("{name} = {c}");
    for (i, term) in terms.iter().enumerate() {
        let _ = write!(out, " + ({}) * X{i}", term.number);
    }
    out
}
