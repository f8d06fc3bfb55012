//! Rules that can do nothing (document 02, wishes 2 and 3). The most that a
//! rule can give is worked out form by form from the ends of the ranges; for
//! heads of kind 2 `idle_above` has the least.

use crate::meaning::Direction;
use crate::program::*;
use crate::wrong::Wrong;

/// The values that a position goes through.
pub(crate) type Range = (i64, i64);

impl Program {
    /// For every rule, whether it is idle.
    pub fn idle_rules(&self) -> Vec<bool> {
        let idle: Vec<bool> = self.rules.iter().map(|rule| self.idle(rule)).collect();
        if self.wrong != Wrong::IdleWholeHead {
            return idle;
        }
        let shares =
            |r: usize| (0..idle.len()).any(|s| idle[s] && self.rules[s].head == self.rules[r].head);
        (0..idle.len()).map(shares).collect()
    }

    /// Can the rule do nothing? Its head, moved as far as the rule can ask,
    /// is still where it starts, or the rule can never give anything.
    pub fn idle(&self, rule: &Rule) -> bool {
        match self.wrong {
            Wrong::IdleNever => false,
            _ if self.variables[rule.head].above() => self.idle_above(rule),
            _ => self.idle_below(rule),
        }
    }

    /// The furthest from its head's starting end that a rule can give: the
    /// most, or for kind 2 the least.
    pub fn furthest(&self, rule: &Rule) -> Option<i64> {
        if self.variables[rule.head].above() {
            self.least(rule)
        } else {
            self.most(rule)
        }
    }

    /// Is the most that the rule can give at most its head's low, or can it
    /// never give anything?
    fn idle_below(&self, rule: &Rule) -> bool {
        let most = self.most(rule);
        match self.wrong {
            Wrong::IdleLiteralsOnly if rule.form != IF && rule.form != CARRY => false,
            Wrong::IdleSizesOnly if rule.form != SIZE => false,
            Wrong::IdleNoQuotients if rule.form == QUOTIENT => false,
            Wrong::IdleFailingOnly => most.is_none(),
            Wrong::IdleIfFailingOnly if rule.form == IF => most.is_none(),
            Wrong::IdleNoStandard
                if rule.terms.iter().any(|t| !self.variables[t.variable].founded()) =>
            {
                false
            }
            _ => most.is_none_or(|most| most <= self.idle_up_to(rule.head)),
        }
    }

    /// The most that a rule may give to be idle.
    fn idle_up_to(&self, head: usize) -> i64 {
        let Variable { low, high, .. } = self.variables[head];
        match self.wrong {
            Wrong::IdleOneMore => low + 1,
            Wrong::IdleBelowOnly => low - 1,
            Wrong::IdleByHigh => high,
            Wrong::IdleByZero => 0,
            _ => low,
        }
    }

    /// The most that a rule can give while each variable of its body goes
    /// through its own range; nothing when some literal never holds. No
    /// variable stands twice in a body, so each position is taken by itself.
    pub fn most(&self, rule: &Rule) -> Option<i64> {
        let body: Vec<(&Term, Range)> = (0..rule.terms.len())
            .filter_map(|i| Some((&rule.terms[i], self.idle_range(rule, i)?)))
            .collect();
        if !self.literals_can_hold(&body) {
            return None;
        }
        let highs = || body.iter().filter(|(t, _)| t.op == PLAIN).map(|(_, (_, high))| *high);
        let c = if self.wrong == Wrong::IdleNoConstant { 0 } else { rule.c };
        let most = match rule.form {
            SUM | QUOTIENT => {
                let most_of = |(t, (low, high)): &(&Term, Range)| (t.number * low).max(t.number * high);
                self.idle_over(c, body.iter().map(most_of).sum(), rule.divisor)
            }
            MAX if self.wrong == Wrong::IdleMaxAsMin => c + highs().min().unwrap_or(0),
            MAX => c + highs().max().unwrap_or(0),
            MIN if self.wrong == Wrong::IdleMinAsMax => c + highs().max().unwrap_or(0),
            MIN => c + highs().min().unwrap_or(0),
            // Both lows are at least 0.
            PRODUCT => c + highs().product::<i64>(),
            // The end further from 0.
            SIZE => c + body.iter().map(|(_, (low, high))| *high.max(&-low)).max().unwrap_or(0),
            CARRY if self.wrong != Wrong::IdleCarriesNothing => c + highs().max().unwrap_or(0),
            _ => c,
        };
        Some(if self.wrong == Wrong::IdleShort { i64::from(most as i16) } else { most })
    }

    /// Each literal has a value in its variable's range with which it holds.
    pub(crate) fn literals_can_hold(&self, body: &[(&Term, Range)]) -> bool {
        let mut literals = body.iter().filter(|(t, _)| t.op != PLAIN).peekable();
        let can_hold = |(term, (low, high)): &(&Term, Range)| match (term.op, self.wrong) {
            (AT_LEAST, Wrong::IdleAtLeastEarly) => *high > term.number,
            (AT_LEAST, Wrong::IdleAtLeastLate) => *high >= term.number - 1,
            (AT_LEAST, _) => *high >= term.number,
            (_, Wrong::IdleBelowEarly) => *low < term.number - 1,
            (_, Wrong::IdleBelowLate) => *low <= term.number,
            _ => *low < term.number,
        };
        match self.wrong {
            Wrong::IdleFailingGives => true,
            Wrong::IdleAllFail => literals.peek().is_none() || literals.any(can_hold),
            _ => literals.all(can_hold),
        }
    }

    fn idle_over(&self, c: i64, sum: i64, divisor: i64) -> i64 {
        let up = |n: i64| -(-n).div_euclid(divisor.max(1));
        match self.wrong {
            Wrong::IdleRoundsDown => (c + sum).div_euclid(divisor),
            Wrong::IdleRoundsToZero => (c + sum) / divisor,
            Wrong::IdleRoundsAway if c + sum < 0 => (c + sum).div_euclid(divisor),
            Wrong::IdleUndivided => c + sum,
            Wrong::IdleConstantLate => c + up(sum),
            _ => up(c + sum),
        }
    }

    /// The declared range, whatever the variable is; nothing for a position
    /// that a wrong variant passes over.
    fn idle_range(&self, rule: &Rule, position: usize) -> Option<Range> {
        let v = rule.terms[position].variable;
        let Variable { kind, low, high } = self.variables[v];
        let founded = kind.founded();
        let heads_none = || !self.rules.iter().any(|r| r.head == v);
        let mixed = rule.form == SIZE && low < 0 && 0 < high;
        match self.wrong {
            Wrong::IdleHeadAtLow if v == rule.head => Some((low, low)),
            Wrong::IdleStandardZero if !founded => Some((0, 0)),
            Wrong::IdleStandardSkipped if !founded => None,
            Wrong::IdleUnlifted if founded && heads_none() => Some((low, low)),
            Wrong::IdleAllHigh => Some((high, high)),
            Wrong::IdleFirstTerm if position > 0 => None,
            Wrong::IdleSizeAtLow if mixed => Some((low, low)),
            Wrong::IdleSizeAtHigh if mixed => Some((high, high)),
            Wrong::IdleByLeast => Some(match self.direction(rule, position) {
                Direction::Rising => (low, low),
                Direction::Falling => (high, high),
                Direction::Mixed => (0, 0),
            }),
            _ => Some((low, high)),
        }
    }
}
