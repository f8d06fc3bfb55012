//! A file with lent ranges as a system of its own, a second time. All values are
//! mirrored (src/brute/defs.rs), so that every founded variable starts at its low; which
//! position is kept is tried, not looked up. What a rule demands is found from the ends
//! of all positions, whichever way they push.

use crate::bounds::Span;
use crate::brute::defs::Small;
use crate::program::*;

pub struct System {
    pub small: Small,
    lent: Vec<Span>,
    /// For every rule and position, whether it is kept.
    kept: Vec<Vec<bool>>,
    /// For every rule, its mixed variable.
    mixed: Vec<Option<usize>>,
}

/// The least number that is not below so many shares of the sum.
fn share(sum: i64, divisor: i64) -> i64 {
    let part = sum / divisor;
    part + i64::from(part * divisor < sum)
}

/// The least and the most of these.
fn ends(values: impl IntoIterator<Item = i64>) -> Span {
    values.into_iter().fold((i64::MAX, i64::MIN), |(least, most), x| (least.min(x), most.max(x)))
}

/// The least and the most that a rule gives where its positions go from one end to the
/// other; nothing where a literal holds at neither end.
fn given(rule: &Rule, spans: &[Span]) -> Option<Span> {
    let each = || rule.terms.iter().zip(spans);
    let fails = |(term, &(low, high)): (&Term, &Span)| match term.op {
        AT_LEAST => low < term.number && high < term.number,
        BELOW => low >= term.number && high >= term.number,
        _ => false,
    };
    if each().any(fails) {
        return None;
    }
    let (mut least, mut most) = match rule.form {
        SUM | QUOTIENT => each().fold((0, 0), |(least, most), (term, &(low, high))| {
            let (one, other) = ends([term.number * low, term.number * high]);
            (least + one, most + other)
        }),
        MAX => (ends(spans.iter().map(|s| s.0)).1, ends(spans.iter().map(|s| s.1)).1),
        MIN => (ends(spans.iter().map(|s| s.0)).0, ends(spans.iter().map(|s| s.1)).0),
        PRODUCT => {
            let ((a, b), (c, d)) = (spans[0], spans[1]);
            ends([a * c, a * d, b * c, b * d])
        }
        SIZE => ends([spans[0].0.abs(), spans[0].1.abs()]),
        CARRY => spans[0],
        _ => (0, 0),
    };
    (least, most) = (least + rule.c, most + rule.c);
    Some((share(least, rule.divisor), share(most, rule.divisor)))
}

impl System {
    pub fn of(program: Program, lent: &[Span]) -> System {
        let small = Small::of(program);
        let kept = |(r, rule): (usize, &Rule)| (0..rule.terms.len()).map(|i| small.kept(r, i)).collect();
        let kept = small.rules().map(kept).collect();
        let mixed = (0..small.program.rules.len()).map(|r| small.mixed(r).next()).collect();
        System { small, lent: lent.to_vec(), kept, mixed }
    }

    /// The mirrored starting end, which is the declared one.
    pub fn start(&self, v: usize) -> i64 {
        self.small.range(v).0
    }

    /// The mirrored ends of the lent range.
    pub fn lent(&self, v: usize) -> Span {
        let (low, high) = self.lent[v];
        ends([self.small.sign(v) * low, self.small.sign(v) * high])
    }

    /// The rule's mixed variable, if it has one, and whether that is single.
    pub fn mixed(&self, r: usize) -> Option<(usize, bool)> {
        self.mixed[r].map(|v| (v, self.lent[v].0 == self.lent[v].1))
    }

    pub fn is_kept(&self, r: usize, i: usize) -> bool {
        self.kept[r][i]
    }

    /// What a rule demands of its head, the bounds so far given: mirrored, and not cut
    /// off.
    pub fn demand(&self, r: usize, bounds: &[i64]) -> Option<i64> {
        let rule = &self.small.program.rules[r];
        if let Some((_, false)) = self.mixed(r) {
            return Some(self.lent(rule.head).1);
        }
        let span = |(term, kept): (&Term, &bool)| match kept {
            true => {
                let value = self.small.sign(term.variable) * bounds[term.variable];
                (value, value)
            }
            false => self.lent[term.variable],
        };
        let spans: Vec<Span> = rule.terms.iter().zip(&self.kept[r]).map(span).collect();
        let (least, most) = given(rule, &spans)?;
        Some(if self.small.sign(rule.head) < 0 { -least } else { most })
    }

    /// What a rule demands, cut off.
    pub fn cut(&self, r: usize, bounds: &[i64]) -> Option<i64> {
        let far = self.lent(self.small.program.rules[r].head).1;
        self.demand(r, bounds).map(|demand| demand.min(far))
    }

    /// Does the head of every rule have what it demands? The error is a rule.
    pub fn is_model(&self, bounds: &[i64]) -> Result<(), usize> {
        let unmet =
            |(r, rule): &(usize, &Rule)| self.cut(*r, bounds).is_some_and(|d| d > bounds[rule.head]);
        match self.small.rules().find(unmet) {
            Some((r, _)) => Err(r),
            None => Ok(()),
        }
    }

    /// Is every founded variable at its start, or where some rule lifts it? The error
    /// is a variable.
    pub fn is_justified(&self, bounds: &[i64]) -> Result<(), usize> {
        let lifts = |v: usize| {
            let mut rules = self.small.rules().filter(|(_, rule)| rule.head == v);
            rules.any(|(r, _)| self.cut(r, bounds) == Some(bounds[v]))
        };
        let variables = self.small.program.variables.iter().enumerate();
        let mut founded = variables.filter(|(_, variable)| variable.founded());
        match founded.find(|&(v, _)| bounds[v] != self.start(v) && !lifts(v)) {
            Some((v, _)) => Err(v),
            None => Ok(()),
        }
    }

    /// The least model, mirrored, and the rounds it took: in every round all heads are
    /// lifted together, by what the round before has left. Only rules with a variable
    /// that has moved are looked at again.
    pub fn least(&self) -> (Vec<i64>, usize) {
        let count = self.lent.len();
        let start = |v: usize| match self.small.program.variables[v].founded() {
            true => self.start(v),
            false => self.lent[v].0,
        };
        let mut now: Vec<i64> = (0..count).map(start).collect();
        let mut moved = vec![true; count];
        let mut rounds = 0;
        while moved.contains(&true) {
            let mut next = now.clone();
            for (r, rule) in self.small.rules() {
                let mut terms = rule.terms.iter().zip(&self.kept[r]);
                if rounds > 0 && !terms.any(|(term, kept)| *kept && moved[term.variable]) {
                    continue;
                }
                let demand = self.cut(r, &now).unwrap_or(i64::MIN);
                next[rule.head] = next[rule.head].max(demand);
            }
            moved = (0..count).map(|v| next[v] != now[v]).collect();
            now = next;
            rounds += 1;
        }
        (now, rounds)
    }
}
