//! What rules and constraints mean, and the least model of a reduct.

use crate::graph;
use crate::program::*;
use crate::wrong::Wrong;

#[derive(Clone, Copy, Debug, PartialEq, Eq)]
pub enum Direction {
    Rising,
    Falling,
    Mixed,
}

impl Direction {
    fn swapped(self) -> Direction {
        match self {
            Direction::Rising => Direction::Falling,
            Direction::Falling => Direction::Rising,
            Direction::Mixed => Direction::Mixed,
        }
    }
}

impl Program {
    /// Which way the term at this position pushes its rule: a larger value of
    /// a rising one makes the rule demand more of its head, a smaller value of
    /// a falling one. A head of kind 2 is asked to be at most what is given.
    pub fn direction(&self, rule: &Rule, position: usize) -> Direction {
        let way = self.for_kind_one(rule, position);
        if self.swaps(rule, position) {
            way.swapped()
        } else {
            way
        }
    }

    /// The direction in a rule for a head of kind 1.
    fn for_kind_one(&self, rule: &Rule, position: usize) -> Direction {
        let term = &rule.terms[position];
        let variable = &self.variables[term.variable];
        let mixed_low = if self.wrong == Wrong::MixedAtZero { 0 } else { -1 };
        match (rule.form, term.op) {
            (_, AT_LEAST) => Direction::Rising,
            (_, BELOW) => Direction::Falling,
            (QUOTIENT, _) if self.wrong == Wrong::QuotientRises => Direction::Rising,
            (SUM | QUOTIENT, _) if term.number < 0 => Direction::Falling,
            (SIZE, _) if self.wrong == Wrong::IdleNotMixed && self.idle(rule) => Direction::Rising,
            (SIZE, _) if variable.low <= mixed_low && variable.high > 0 => Direction::Mixed,
            (SIZE, _) if variable.low < 0 => Direction::Falling,
            _ => Direction::Rising,
        }
    }

    /// In a rule for a head of kind 2 plain terms swap and literals do not.
    fn swaps(&self, rule: &Rule, position: usize) -> bool {
        let term = &rule.terms[position];
        let variable = &self.variables[term.variable];
        let swaps = self.variables[rule.head].above() && term.op == PLAIN;
        let unswapped = match self.wrong {
            Wrong::LiteralsSwap => return self.variables[rule.head].above(),
            Wrong::SwapsByVariable => return variable.above() && term.op == PLAIN,
            Wrong::PlainUnswapped => true,
            Wrong::StandardUnswapped => !variable.founded(),
            Wrong::OwnHeadUnswapped => term.variable == rule.head,
            Wrong::CarriedUnswapped => rule.form == CARRY,
            Wrong::SizeUnswapped => rule.form == SIZE,
            Wrong::ProductUnswapped => rule.form == PRODUCT,
            Wrong::LargestUnswapped => rule.form == MAX || rule.form == MIN,
            Wrong::QuotientUnswapped => rule.form == QUOTIENT,
            _ => false,
        };
        swaps && !unswapped
    }

    /// Does moving the variable away from its starting end make the rule
    /// demand more? A standard variable has no starting end.
    pub fn pulls(&self, rule: &Rule, position: usize) -> bool {
        let direction = self.direction(rule, position);
        match self.variables[rule.terms[position].variable].kind {
            Kind::Standard => false,
            Kind::Below => direction == Direction::Rising,
            Kind::Above => direction == Direction::Falling,
        }
    }

    /// Is the variable at this position kept in the reduct?
    pub fn kept(&self, rule: &Rule, position: usize) -> bool {
        let term = &rule.terms[position];
        let (kind, head) = (self.variables[term.variable].kind, self.variables[rule.head].kind);
        let direction = self.direction(rule, position);
        let pulls = self.pulls(rule, position);
        match self.wrong {
            Wrong::KeepsStandard if kind == Kind::Standard => direction == Direction::Rising,
            Wrong::KeepsOwnComponent => {
                pulls && graph::reached(&graph::edges(self), term.variable)[rule.head]
            }
            Wrong::HeadAlwaysKept if term.variable == rule.head => true,
            Wrong::KeepsFalling if kind == Kind::Below => direction != Direction::Mixed,
            Wrong::IdleNotKept if self.idle(rule) => false,
            Wrong::AboveNotKept if kind == Kind::Above => false,
            Wrong::AboveRisingKept if kind == Kind::Above => direction != Direction::Mixed,
            Wrong::AboveKeptAmongAbove if kind == Kind::Above => pulls && head == Kind::Above,
            Wrong::BelowKeptAmongBelow if kind == Kind::Below => pulls && head == Kind::Below,
            Wrong::AboveNotKeptInLiteral if kind == Kind::Above => pulls && term.op == PLAIN,
            _ => pulls,
        }
    }

    /// Does a literal of this variable hold?
    fn holds(&self, term: &Term, value: i64) -> bool {
        let turned = self.wrong == Wrong::AboveOpsTurned && self.variables[term.variable].above();
        match term.op {
            AT_LEAST if turned => value <= term.number,
            _ if turned => value > term.number,
            AT_LEAST => value >= term.number,
            _ if self.wrong == Wrong::BelowOrEqual => value <= term.number,
            _ => value < term.number,
        }
    }

    /// The smallest whole number not below `sum` over the divisor, for heads of
    /// both kinds: `div_euclid` rounds down, which is up between two turns of
    /// the sign.
    fn over(&self, rule: &Rule, sum: i64) -> i64 {
        let divisor = rule.divisor;
        match self.wrong {
            Wrong::RoundsDown => sum.div_euclid(divisor),
            Wrong::RoundsToZero => sum / divisor,
            Wrong::RoundsAway if sum < 0 => sum.div_euclid(divisor),
            Wrong::AboveRoundsDown if self.variables[rule.head].above() => sum.div_euclid(divisor),
            _ => -(-sum).div_euclid(divisor.max(1)),
        }
    }

    /// What a rule gives when its positions have these values.
    pub fn gives(&self, rule: &Rule, value: impl Fn(usize) -> i64) -> Option<i64> {
        let count = rule.terms.len();
        let all_hold = |mut positions: std::ops::Range<usize>| {
            if self.wrong == Wrong::FirstLiteralOnly {
                positions.end = positions.start + 1;
            }
            positions.into_iter().all(|i| self.holds(&rule.terms[i], value(i)))
        };
        let nothing = if self.wrong == Wrong::NothingIsZero { Some(0) } else { None };
        match rule.form {
            SUM | QUOTIENT => {
                let sum: i64 = (0..count).map(|i| rule.terms[i].number * value(i)).sum();
                match self.wrong {
                    Wrong::ShortSums => Some(self.over(rule, i64::from((rule.c + sum) as i16))),
                    Wrong::ConstantLate => Some(rule.c + self.over(rule, sum)),
                    _ => Some(self.over(rule, rule.c + sum)),
                }
            }
            MAX => (0..count).map(&value).max().map(|m| rule.c + m),
            MIN => (0..count).map(&value).min().map(|m| rule.c + m),
            PRODUCT if self.wrong == Wrong::ShortProducts => {
                Some(rule.c + i64::from((value(0) * value(1)) as i16))
            }
            PRODUCT => Some(rule.c + value(0) * value(1)),
            SIZE => Some(rule.c + value(0).abs()),
            IF if all_hold(0..count) => Some(rule.c),
            CARRY if all_hold(1..count) => Some(rule.c + value(0)),
            _ => nothing,
        }
    }

    /// Is the rule met? Its head is at least what it gives, or for kind 2 at
    /// most what it gives.
    pub fn rule_met(&self, rule: &Rule, values: &[i64]) -> bool {
        let above = self.variables[rule.head].above();
        match self.gives(rule, |i| values[rule.terms[i].variable]) {
            Some(given) if above && self.wrong != Wrong::AboveUnmetByMore => given >= values[rule.head],
            Some(given) => given <= values[rule.head],
            None => true,
        }
    }

    pub fn constraint_met(&self, constraint: &Constraint, values: &[i64]) -> bool {
        let mut terms = constraint.terms.iter();
        if constraint.form == AT_MOST_ZERO {
            constraint.c + terms.map(|t| t.number * values[t.variable]).sum::<i64>() <= 0
        } else {
            terms.any(|t| self.holds(t, values[t.variable]))
        }
    }

    /// The values with which the least model begins.
    fn starts(&self, assigned: &[i64]) -> Vec<i64> {
        let start = |(v, variable): (usize, &Variable)| match self.wrong {
            Wrong::KeepsStandard => variable.start(),
            _ if !variable.founded() => assigned[v],
            Wrong::StartsAtZero => 0,
            Wrong::AboveFromLow => variable.low,
            _ => variable.start(),
        };
        self.variables.iter().enumerate().map(start).collect()
    }

    /// What the rule gives in the reduct, kept variables read from the model.
    fn gives_in_reduct(&self, rule: &Rule, assigned: &[i64], model: &[i64]) -> Option<i64> {
        let from = |i: usize| if self.kept(rule, i) { model } else { assigned };
        let given = self.gives(rule, |i| from(i)[rule.terms[i].variable])?;
        match self.wrong {
            Wrong::AboveNoFloor if self.variables[rule.head].above() => {
                Some(given.max(self.variables[rule.head].low))
            }
            _ => Some(given),
        }
    }

    /// What counts of the rules for the head of this one.
    fn counts(&self, rule: &Rule, assigned: &[i64], model: &[i64]) -> Option<i64> {
        if self.wrong == Wrong::AboveLargerCounts && self.variables[rule.head].above() {
            let rules = self.rules.iter().filter(|other| other.head == rule.head);
            return rules.filter_map(|other| self.gives_in_reduct(other, assigned, model)).max();
        }
        self.gives_in_reduct(rule, assigned, model)
    }

    /// The least model of the reduct by an assignment that lies in its ranges:
    /// from the starting ends, no further than the rules ask. All rules are
    /// gone through again and again until nothing moves any more. The error is
    /// a rule that asks for more than its head's range has.
    pub fn least_or_past(&self, assigned: &[i64]) -> Result<Vec<i64>, usize> {
        let mut model = self.starts(assigned);
        let mut rounds = 0;
        loop {
            let mut moved = false;
            for (r, rule) in self.rules.iter().enumerate() {
                let head = &self.variables[rule.head];
                let Some(given) = self.counts(rule, assigned, &model) else { continue };
                let over = self.wrong == Wrong::AboveCeiling && given > head.high;
                if head.further(given, head.far()) || over {
                    return Err(r);
                }
                if head.further(given, model[rule.head]) {
                    if self.wrong == Wrong::NoneAtOnce {
                        return Err(r);
                    }
                    model[rule.head] = given;
                    moved = true;
                }
            }
            rounds += 1;
            let stop = match self.wrong {
                Wrong::OneRound => true,
                Wrong::FortyRounds => rounds == 40,
                _ => false,
            };
            if !moved || stop {
                return Ok(model);
            }
        }
    }

    /// The least model, or nothing when the reduct has no model in the ranges.
    pub fn least_model(&self, assigned: &[i64]) -> Option<Vec<i64>> {
        self.least_or_past(assigned).ok()
    }
}
