//! Rules for heads of kind 2 that can do nothing: the least that a rule can
//! give is at least its head's high. Worked out form by form from the ends of
//! the ranges, and for a size from 0.

use crate::idle::Range;
use crate::program::*;
use crate::wrong::Wrong;

impl Program {
    /// Is the least that the rule can give at least its head's high, or can it
    /// never give anything?
    pub(crate) fn idle_above(&self, rule: &Rule) -> bool {
        let Variable { low, high, .. } = self.variables[rule.head];
        let (least, most) = (self.least(rule), || self.most(rule));
        match self.wrong {
            Wrong::AboveIdleNever => false,
            Wrong::AboveIdleOneLess => least.is_none_or(|least| least >= high - 1),
            Wrong::AboveIdleOverOnly => least.is_none_or(|least| least > high),
            Wrong::AboveIdleByLow => least.is_none_or(|least| least >= low),
            Wrong::AboveIdleByMost => most().is_none_or(|most| most >= high),
            Wrong::AboveIdleAsBelow => most().is_none_or(|most| most <= low),
            _ => least.is_none_or(|least| least >= high),
        }
    }

    /// The least that a rule can give while each variable of its body goes
    /// through its own range; nothing when some literal never holds.
    pub fn least(&self, rule: &Rule) -> Option<i64> {
        let body: Vec<(&Term, Range)> = (0..rule.terms.len())
            .filter(|&i| i == 0 || self.wrong != Wrong::AboveLeastFirstTerm)
            .map(|i| (&rule.terms[i], self.least_range(rule, &rule.terms[i])))
            .collect();
        if self.wrong != Wrong::AboveFailingGives && !self.literals_can_hold(&body) {
            return None;
        }
        let c = if self.wrong == Wrong::AboveLeastNoConstant { 0 } else { rule.c };
        let lows = || body.iter().filter(|(t, _)| t.op == PLAIN).map(|(_, (low, _))| *low);
        let least = match rule.form {
            SUM | QUOTIENT => self.least_over(c + self.least_sum(&body), rule.divisor),
            MAX if self.wrong == Wrong::AboveLeastMaxAsMin => c + lows().min().unwrap_or(0),
            MAX => c + lows().max().unwrap_or(0),
            MIN if self.wrong == Wrong::AboveLeastMinAsMax => c + lows().max().unwrap_or(0),
            MIN => c + lows().min().unwrap_or(0),
            PRODUCT if self.wrong == Wrong::AboveLeastProductZero => c,
            // Both lows are at least 0.
            PRODUCT => c + lows().product::<i64>(),
            SIZE => c + body.iter().map(|(_, range)| self.least_size(*range)).sum::<i64>(),
            CARRY if self.wrong != Wrong::AboveLeastCarriesNothing => c + lows().sum::<i64>(),
            _ => c,
        };
        Some(if self.wrong == Wrong::AboveLeastShort { i64::from(least as i16) } else { least })
    }

    fn least_sum(&self, body: &[(&Term, Range)]) -> i64 {
        let least_of = |(term, (low, high)): &(&Term, Range)| match self.wrong {
            Wrong::AboveLeastAllLow => term.number * low,
            _ => (term.number * low).min(term.number * high),
        };
        body.iter().map(least_of).sum()
    }

    fn least_over(&self, sum: i64, divisor: i64) -> i64 {
        match self.wrong {
            Wrong::AboveLeastRoundsDown => sum.div_euclid(divisor),
            Wrong::AboveLeastRoundsToZero => sum / divisor,
            Wrong::AboveLeastUndivided => sum,
            _ => -(-sum).div_euclid(divisor.max(1)),
        }
    }

    /// The least distance from 0: 0 itself where the range has it.
    fn least_size(&self, (low, high): Range) -> i64 {
        let mixed = low < 0 && 0 < high;
        match self.wrong {
            Wrong::AboveSizeAtLow if mixed => -low,
            Wrong::AboveSizeAtHigh if mixed => high,
            Wrong::AboveSizeAtNearer if mixed => high.min(-low),
            Wrong::AboveSizeAtZero => 0,
            _ if low > 0 => low,
            _ if high < 0 => -high,
            _ => 0,
        }
    }

    /// The declared range, whatever the variable is.
    fn least_range(&self, rule: &Rule, term: &Term) -> Range {
        let Variable { kind, low, high } = self.variables[term.variable];
        match self.wrong {
            Wrong::AboveLeastHeadAtHigh if term.variable == rule.head => (high, high),
            Wrong::AboveLeastStandardZero if !kind.founded() => (0, 0),
            Wrong::AboveLiteralsAtLow if term.op != PLAIN => (low, low),
            _ => (low, high),
        }
    }
}
