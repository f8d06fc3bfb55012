//! The definitions a second time, by enumeration, after document 000's mirror:
//! "for each ub-founded variable x in the program, create an lb-founded variable
//! x' and replace every occurrence of x in P with -x'". Mirrored values are those
//! of x'; by them every founded variable is founded from its low. Which way a
//! position pushes is not looked up but tried.

use crate::program::*;

/// Outside a set.
pub const OUT: i64 = i64::MAX;

pub struct Small {
    pub program: Program,
    /// For every rule and position: 1 when a larger value makes the rule demand
    /// more, -1 when a smaller one does, 0 for both.
    ways: Vec<Vec<i64>>,
}

/// What a rule gives for values by position.
fn given(rule: &Rule, values: &[i64]) -> Option<i64> {
    let mut plain = Vec::new();
    for (term, &value) in rule.terms.iter().zip(values) {
        match term.op {
            AT_LEAST if value < term.number => return None,
            BELOW if value >= term.number => return None,
            AT_LEAST | BELOW => {}
            _ => plain.push(value),
        }
    }
    let mut result = rule.c;
    match rule.form {
        SUM | QUOTIENT => {
            rule.terms.iter().zip(&plain).for_each(|(t, v)| result += t.number * v);
            result = not_below(result, rule.divisor);
        }
        MAX => result += plain.iter().fold(i64::MIN / 2, |a, &b| a.max(b)),
        MIN => result += plain.iter().fold(i64::MAX / 2, |a, &b| a.min(b)),
        PRODUCT => result += plain.iter().product::<i64>(),
        SIZE => result += if plain[0] < 0 { -plain[0] } else { plain[0] },
        CARRY => result += plain[0],
        _ => {}
    }
    Some(result)
}

/// The smallest whole number that, taken `divisor` times, is not below `sum`.
/// Any number may be the first one tried.
fn not_below(sum: i64, divisor: i64) -> i64 {
    let enough = |n: i64| n * divisor >= sum;
    let mut number = sum / divisor;
    while !enough(number) {
        number += 1;
    }
    while enough(number - 1) {
        number -= 1;
    }
    number
}

pub fn constraint_met(constraint: &Constraint, values: &[i64]) -> bool {
    let mut sum = constraint.c;
    let mut one = false;
    for term in &constraint.terms {
        let value = values[term.variable];
        sum += term.number * value;
        one |=
            (term.op == AT_LEAST && value >= term.number) || (term.op == BELOW && value < term.number);
    }
    if constraint.form == AT_MOST_ZERO {
        sum <= 0
    } else {
        one
    }
}

/// Every choice of one number from each list.
pub fn choices(lists: &[Vec<i64>]) -> Vec<Vec<i64>> {
    let mut all = vec![Vec::new()];
    for list in lists {
        all = all
            .iter()
            .flat_map(|head: &Vec<i64>| {
                list.iter().map(move |n| {
                    let mut v = head.clone();
                    v.push(*n);
                    v
                })
            })
            .collect();
    }
    all
}

/// Values of a body's positions with which position `i` decides what the rule
/// gives, with a smaller and with a larger value there.
fn telling(rule: &Rule, i: usize, low: i64) -> [Vec<i64>; 2] {
    let calm = |t: &Term| match (rule.form, t.op) {
        (_, AT_LEAST) => t.number,
        (_, BELOW) => t.number - 1,
        (MAX, _) => -1_000_000,
        (MIN, _) => 1_000_000,
        (PRODUCT, _) => 1,
        _ => 0,
    };
    let first = match rule.terms[i].op {
        PLAIN if rule.form == SIZE => low,
        PLAIN => 0,
        _ => rule.terms[i].number - 1,
    };
    [first, first + rule.divisor].map(|value| {
        let mut values: Vec<i64> = rule.terms.iter().map(calm).collect();
        values[i] = value;
        values
    })
}

impl Small {
    pub fn of(program: Program) -> Small {
        let mut small = Small { program, ways: Vec::new() };
        let rules = small.program.rules.iter();
        let ways = rules.map(|rule| (0..rule.terms.len()).map(|i| small.way(rule, i)).collect());
        small.ways = ways.collect();
        small
    }

    pub fn sign(&self, v: usize) -> i64 {
        match self.program.variables[v].kind {
            Kind::Above => -1,
            _ => 1,
        }
    }

    /// Values mirrored, or mirrored ones as they were.
    pub fn mirrored(&self, values: &[i64]) -> Vec<i64> {
        (0..values.len()).map(|v| self.sign(v) * values[v]).collect()
    }

    /// Mirrored low and high.
    pub fn range(&self, v: usize) -> (i64, i64) {
        let Variable { low, high, .. } = self.program.variables[v];
        let (one, other) = (self.sign(v) * low, self.sign(v) * high);
        (one.min(other), one.max(other))
    }

    /// What the rule demands of its head, mirrored, for values by position as
    /// they are; the least of all numbers when it gives nothing.
    fn demand(&self, rule: &Rule, values: &[i64]) -> i64 {
        given(rule, values).map_or(i64::MIN, |given| self.sign(rule.head) * given)
    }

    /// What the rule demands where `read` gives the mirrored values.
    pub fn demand_by(&self, rule: &Rule, read: impl Fn(usize) -> i64) -> i64 {
        let value = |i: usize| self.sign(rule.terms[i].variable) * read(i);
        let values: Vec<i64> = (0..rule.terms.len()).map(value).collect();
        self.demand(rule, &values)
    }

    /// By a try with a smaller and a larger value.
    fn way(&self, rule: &Rule, i: usize) -> i64 {
        let Variable { low, high, .. } = self.program.variables[rule.terms[i].variable];
        if rule.form == SIZE && low < 0 && 0 < high {
            return 0;
        }
        let [smaller, larger] = telling(rule, i, low);
        self.demand(rule, &larger).cmp(&self.demand(rule, &smaller)) as i64
    }

    /// Does moving the variable away from its starting end, which is up when
    /// mirrored, make the rule demand more?
    pub fn kept(&self, r: usize, i: usize) -> bool {
        let v = self.program.rules[r].terms[i].variable;
        self.program.variables[v].founded() && self.sign(v) * self.ways[r][i] == 1
    }

    pub fn rules(&self) -> impl Iterator<Item = (usize, &Rule)> {
        self.program.rules.iter().enumerate()
    }

    pub fn first_unmet_rule(&self, mirrored: &[i64]) -> Option<usize> {
        self.program.rules.iter().position(|rule| {
            self.demand_by(rule, |i| mirrored[rule.terms[i].variable]) > mirrored[rule.head]
        })
    }

    /// For every rule with a divisor above 1, whether its head is of kind 2,
    /// its sum by `a`, and whether the divisor leaves a remainder of it.
    pub fn quotients(&self, a: &[i64]) -> Vec<(bool, i64, bool)> {
        let quotient = |rule: &Rule| {
            let terms = rule.terms.iter().map(|t| t.number * a[t.variable]);
            let sum = terms.fold(rule.c, |sum, term| sum + term);
            (self.sign(rule.head) < 0, sum, not_below(sum, rule.divisor) * rule.divisor != sum)
        };
        self.program.rules.iter().filter(|r| r.divisor > 1).map(quotient).collect()
    }

    /// All valuations in the ranges that meet the reduct, all mirrored.
    pub fn models(&self, a: &[i64]) -> Vec<Vec<i64>> {
        let values = |v: usize| match self.program.variables[v].founded() {
            true => (self.range(v).0..=self.range(v).1).collect(),
            false => vec![a[v]],
        };
        let mut all = choices(&(0..a.len()).map(values).collect::<Vec<_>>());
        all.retain(|m| {
            self.rules().all(|(r, rule)| {
                let read = |i: usize| if self.kept(r, i) { m } else { a };
                self.demand_by(rule, |i| read(i)[rule.terms[i].variable]) <= m[rule.head]
            })
        });
        all
    }

    /// All unfounded sets of `a`, mirrored: a bound per variable, or `OUT`.
    pub fn unfounded_sets(&self, a: &[i64]) -> Vec<Vec<i64>> {
        let bounds = |v: usize| {
            let mut list = vec![OUT];
            if self.program.variables[v].founded() {
                list.extend(self.range(v).0..a[v]);
            }
            list
        };
        let mut all = choices(&(0..a.len()).map(bounds).collect::<Vec<_>>());
        all.retain(|set| set.iter().any(|&b| b != OUT) && self.is_unfounded(a, set));
        all
    }

    pub fn is_unfounded(&self, a: &[i64], set: &[i64]) -> bool {
        self.rules().filter(|(_, rule)| set[rule.head] != OUT).all(|(r, rule)| {
            let demanded = self.demand_by(rule, |i| {
                let v = rule.terms[i].variable;
                if set[v] != OUT && self.kept(r, i) {
                    set[v]
                } else {
                    a[v]
                }
            });
            demanded <= set[rule.head]
        })
    }

    /// The conditions due for a set: variable, mark.
    pub fn conditions(&self, set: &[i64]) -> Vec<(usize, u8)> {
        let mut due = Vec::new();
        for (v, mark) in (0..set.len()).flat_map(|v| [(v, 1), (v, 2)]) {
            let asked = self.rules().filter(|(_, rule)| set[rule.head] != OUT).any(|(r, rule)| {
                (0..rule.terms.len()).filter(|&i| rule.terms[i].variable == v).any(|i| {
                    let way = self.ways[r][i];
                    let free = set[v] == OUT || !self.kept(r, i);
                    free && (way == 0 || (way == 1) == (mark == 1))
                })
            });
            if asked {
                due.push((v, mark));
            }
        }
        due
    }

    /// Does every rule demand more or less as its directions say when one
    /// variable of its body goes up by one from `a`, as it is?
    pub fn moves_as_said(&self, a: &[i64]) -> bool {
        self.rules().all(|(r, rule)| {
            let before: Vec<i64> = rule.terms.iter().map(|t| a[t.variable]).collect();
            (0..rule.terms.len()).all(|i| {
                let mut after = before.clone();
                after[i] += 1;
                let (old, new) = (self.demand(rule, &before), self.demand(rule, &after));
                match self.ways[r][i] {
                    _ if after[i] > self.program.variables[rule.terms[i].variable].high => true,
                    1 => new >= old,
                    -1 => new <= old,
                    _ => true,
                }
            })
        })
    }

    /// For every rule, whether it is idle: no choice of values for its body,
    /// every variable in its range, demands more than where the head starts.
    pub fn idle(&self) -> Vec<bool> {
        let can_do_nothing = |rule: &Rule| {
            let range = |t: &Term| (self.range(t.variable).0..=self.range(t.variable).1).collect();
            let ranges: Vec<Vec<i64>> = rule.terms.iter().map(range).collect();
            let start = self.range(rule.head).0;
            choices(&ranges).iter().all(|values| self.demand_by(rule, |i| values[i]) <= start)
        };
        self.program.rules.iter().map(can_do_nothing).collect()
    }

    /// Where a path leads, over no edge or more, when these rules are idle.
    /// 000 draws an edge to each variable in which a rule is not increasing.
    pub fn paths(&self, idle: &[bool]) -> Vec<Vec<bool>> {
        let n = self.program.variables.len();
        let mut path = vec![vec![false; n]; n];
        for v in 0..n {
            path[v][v] = true;
        }
        for (r, rule) in self.rules().filter(|(r, _)| !idle[*r]) {
            for (i, term) in rule.terms.iter().enumerate() {
                path[rule.head][term.variable] |= self.sign(term.variable) * self.ways[r][i] >= 0;
            }
        }
        for k in 0..n {
            for i in 0..n {
                for j in 0..n {
                    path[i][j] |= path[i][k] && path[k][j];
                }
            }
        }
        path
    }

    /// The edges when these rules are idle: from a head to each kept or mixed
    /// variable.
    pub fn edges(&self, idle: &[bool]) -> Vec<Vec<bool>> {
        let n = self.program.variables.len();
        let mut edges = vec![vec![false; n]; n];
        for (r, rule) in self.rules().filter(|(r, _)| !idle[*r]) {
            for (i, term) in rule.terms.iter().enumerate() {
                edges[rule.head][term.variable] |= self.kept(r, i) || self.ways[r][i] == 0;
            }
        }
        edges
    }

    /// The mixed variables of a rule.
    pub fn mixed(&self, r: usize) -> impl Iterator<Item = usize> + '_ {
        let terms = self.program.rules[r].terms.iter().zip(&self.ways[r]);
        terms.filter(|(_, way)| **way == 0).map(|(term, _)| term.variable)
    }

    /// Of the rules that are not idle, the first one with a mixed variable in
    /// its component.
    pub fn invalid(&self, idle: &[bool]) -> Option<&Rule> {
        let path = self.paths(idle);
        let offends = |(r, rule): &(usize, &Rule)| {
            (0..rule.terms.len()).any(|i| {
                let v = rule.terms[i].variable;
                self.ways[*r][i] == 0 && path[rule.head][v] && path[v][rule.head]
            })
        };
        self.rules().filter(|(r, _)| !idle[*r]).find(offends).map(|(_, rule)| rule)
    }
}
