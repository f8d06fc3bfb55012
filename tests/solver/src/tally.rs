//! How often each form, direction, kind and sort of circle was met.

use crate::anew;
use crate::proved::Word;
use crate::reading::{direction, Direction};
use second::graph;
use second::program::*;
use std::collections::{BTreeMap, BTreeSet};

#[derive(Default)]
pub struct Tally {
    pub assignments: usize,
    pub stable: usize,
    /// In how many programs each name was met.
    pub programs: BTreeMap<String, usize>,
}

fn named(kind: Kind) -> String {
    format!("kind {}", kind.number())
}

fn occurrence(head: Kind, form: u8, op: u8, way: Direction, kind: Kind) -> String {
    let what = if op == PLAIN { "plain" } else { "literal" };
    let text = format!("for {}: form {form} {what} {way:?}, {}", named(head), named(kind));
    text.to_lowercase()
}

/// What the rules that are idle, or only just not, make of a program.
fn idle(program: &Program, words: &[(Vec<i64>, Word)]) -> BTreeSet<String> {
    let mut names = BTreeSet::new();
    let idle = program.idle_rules();
    // Would the file be turned down if each rule counted, or each for kind 2?
    let turned_down = |idle: &[bool]| !graph::offending_rules(program, idle).is_empty();
    let needed = turned_down(&vec![false; idle.len()]);
    let head = |r: usize| &program.variables[program.rules[r].head];
    let of_below: Vec<bool> = (0..idle.len()).map(|r| idle[r] && !head(r).above()).collect();
    let mixed =
        |rule: &Rule| (0..rule.terms.len()).any(|i| direction(program, rule, i) == Direction::Mixed);
    let shown = |x: usize| {
        words.iter().any(|(_, word)| matches!(word, Word::Unfounded(set) if set.contains(&x)))
    };
    for (r, rule) in program.rules.iter().enumerate() {
        let kind = named(head(r).kind);
        let steps = |given: i64| (given - head(r).start()).abs();
        if idle[r] {
            names.insert(format!("{kind}, form {}", rule.form));
        } else if program.furthest(rule).is_some_and(|given| steps(given) == 1) {
            names.insert(format!("{kind}, just not, form {}", rule.form));
        }
        if idle[r] && rule.terms.iter().any(|t| t.variable == rule.head) {
            names.insert(format!("{kind}, head in its own body"));
        }
        if idle[r] && needed && mixed(rule) && shown(rule.head) {
            names.insert(format!("{kind}, mixed in a rule into an unfounded set"));
        }
    }
    let ways = [("valid by it", needed), ("valid by it for kind 2", turned_down(&of_below))];
    for (name, _) in ways.iter().filter(|(_, needed)| *needed) {
        names.insert(name.to_string());
        if words.iter().any(|(_, word)| *word == Word::Stable) {
            names.insert(format!("{name}, some assignment stable"));
        }
        if words.iter().any(|(_, word)| matches!(word, Word::Unfounded(_))) {
            names.insert(format!("{name}, some assignment unfounded"));
        }
    }
    names
}

/// A program with the circles of its graph.
struct Circles<'a> {
    program: &'a Program,
    /// Over one edge or more.
    reach: Vec<Vec<bool>>,
}

impl Circles<'_> {
    fn of(program: &Program) -> Circles<'_> {
        let edges = graph::edges(program);
        let reach = (0..program.variables.len()).map(|x| graph::reached(&edges, x)).collect();
        Circles { program, reach }
    }

    fn kind(&self, x: usize) -> Kind {
        self.program.variables[x].kind
    }

    /// On a circle with a founded variable of the other kind?
    fn of_both(&self, x: usize) -> bool {
        let meets = |y: usize| self.reach[x][y] && self.reach[y][x];
        (0..self.reach.len()).any(|y| meets(y) && self.kind(x) != self.kind(y))
    }

    /// A head on a circle that goes through a rule of form 8.
    fn through_eight(&self, x: usize) -> bool {
        let back = |r: &Rule, i: usize| self.program.pulls(r, i) && self.reach[r.terms[i].variable][x];
        let mut rules = self.program.rules.iter().filter(|r| r.form == QUOTIENT && r.head == x);
        rules.any(|r| (0..r.terms.len()).any(|i| back(r, i)))
    }

    /// What these variables are, moved and stable or in an unfounded set.
    fn names(&self, set: &[usize], what: &str) -> Vec<String> {
        let any = |holds: &dyn Fn(usize) -> bool| set.iter().any(|&x| holds(x));
        let below = any(&|x| self.kind(x) == Kind::Below);
        let above = any(&|x| self.kind(x) == Kind::Above);
        [
            ("kind 1", below),
            ("kind 2", above),
            ("kinds 1 and 2", below && above),
            ("circle", any(&|x| self.reach[x][x])),
            ("circle of kind 2", any(&|x| self.reach[x][x] && self.kind(x) == Kind::Above)),
            ("circle of both kinds", any(&|x| self.of_both(x))),
            ("form 8: circle", any(&|x| self.through_eight(x))),
        ]
        .iter()
        .filter(|(_, met)| *met)
        .map(|(name, _)| format!("{name}, {what}"))
        .collect()
    }
}

impl Tally {
    pub fn add(&mut self, program: &Program, words: &[(Vec<i64>, Word)]) {
        let mut names = BTreeSet::new();
        for v in &program.variables {
            let sign = if v.low < 0 { "below 0" } else { "0 or above" };
            names.insert(format!("variable of {}, low {sign}", named(v.kind)));
        }
        let has = |kind: Kind| program.variables.iter().any(|v| v.kind == kind);
        if !has(Kind::Above) {
            names.insert("no variable of kind 2".to_string());
        } else if has(Kind::Below) {
            names.insert("variables of kinds 1 and 2".to_string());
        }
        for rule in &program.rules {
            let head = program.variables[rule.head].kind;
            names.insert(format!("rule form {}", rule.form));
            names.insert(format!("rule form {} for {}", rule.form, named(head)));
            for (i, term) in rule.terms.iter().enumerate() {
                let kind = program.variables[term.variable].kind;
                let way = direction(program, rule, i);
                names.insert(occurrence(head, rule.form, term.op, way, kind));
                if term.variable == rule.head {
                    let name = format!("head of {} in its own body, {way:?}", named(head));
                    names.insert(name.to_lowercase());
                }
            }
        }
        names.extend(idle(program, words).into_iter().map(|name| format!("idle: {name}")));
        names.extend(program.constraints.iter().map(|c| format!("constraint form {}", c.form)));
        names.extend(self.verdicts(program, words));
        names.extend(quotients(program, words));
        self.met(names);
    }

    /// What was met in one program.
    pub fn met(&mut self, names: BTreeSet<String>) {
        for name in names {
            *self.programs.entry(name).or_insert(0) += 1;
        }
    }

    fn verdicts(&mut self, program: &Program, words: &[(Vec<i64>, Word)]) -> BTreeSet<String> {
        let mut names = BTreeSet::new();
        let circles = Circles::of(program);
        let mut stable = 0;
        for (values, word) in words {
            let moved = |x: &usize| {
                let variable = &program.variables[*x];
                variable.founded() && variable.further(values[*x], variable.start())
            };
            match word {
                Word::Stable => {
                    stable += 1;
                    let set: Vec<usize> = (0..values.len()).filter(moved).collect();
                    names.extend(circles.names(&set, "moved and stable"));
                }
                Word::Unfounded(set) => {
                    names.insert("some assignment unfounded".to_string());
                    names.extend(circles.names(set, "in an unfounded set"));
                }
                Word::Constraint => {
                    names.insert("some assignment against a constraint".to_string());
                }
                _ => {
                    names.insert("some assignment against a rule".to_string());
                }
            }
        }
        self.assignments += words.len();
        self.stable += stable;
        let count = ["no stable assignment", "one stable assignment", "several stable assignments"];
        names.insert(count[stable.min(2)].to_string());
        if program.variables.iter().any(Variable::above) {
            names.insert(format!("kind 2: {}", count[stable.min(2)]));
        }
        names
    }

    /// Names met in fewer programs than they should be.
    pub fn missing(&self, programs: usize) -> Vec<String> {
        self.missing_of(required(), programs)
    }

    /// Those of these names.
    pub fn missing_of(&self, names: Vec<(String, usize)>, programs: usize) -> Vec<String> {
        let mut missing = Vec::new();
        for (name, per_hundred) in names {
            let wanted = (programs * per_hundred / 100).max(1);
            let count = self.programs.get(&name).copied().unwrap_or(0);
            if count < wanted {
                missing.push(format!("{name}: in {count} programs, wanted {wanted}"));
            }
        }
        missing
    }
}

/// Signs and remainders of the sums that are divided.
fn quotients(program: &Program, words: &[(Vec<i64>, Word)]) -> BTreeSet<String> {
    let mut names = BTreeSet::new();
    for (values, word) in words {
        for rule in program.rules.iter().filter(|rule| rule.divisor > 1) {
            let terms = rule.terms.iter().map(|t| t.number * values[t.variable]);
            let sum = rule.c + terms.sum::<i64>();
            let sign = if sum < 0 { "negative sum" } else { "sum of 0 or more" };
            let rest = if sum % rule.divisor == 0 { "no remainder" } else { "a remainder" };
            let kind = named(program.variables[rule.head].kind);
            names.insert(format!("form 8 for {kind}: {sign}, {rest}"));
            if *word == Word::Stable {
                names.insert(format!("form 8 for {kind}: stable, {sign}, {rest}"));
            }
        }
    }
    names
}

/// Every name that must be met, and in how many of a hundred programs; in one
/// at least.
fn required() -> Vec<(String, usize)> {
    let mut names: Vec<(String, usize)> = Vec::new();
    names
        .extend((1..=8).map(|form| (format!("rule form {form}"), if form == PRODUCT { 6 } else { 10 })));
    names.extend((1..=2).map(|form| (format!("constraint form {form}"), 10)));
    for kind in Kind::ALL {
        for sign in ["below 0", "0 or above"] {
            names.push((format!("variable of {}, low {sign}", named(kind)), 15));
        }
    }
    for head in [Kind::Below, Kind::Above] {
        names.extend(required_for(head));
        names.extend(Kind::ALL.iter().flat_map(|&kind| occurrences(head, kind)));
    }
    let others = [
        ("no variable of kind 2", 25),
        ("variables of kinds 1 and 2", 12),
        ("kinds 1 and 2, moved and stable", 3),
        ("kinds 1 and 2, in an unfounded set", 8),
        ("circle, moved and stable", 10),
        ("circle, in an unfounded set", 10),
        ("circle of kind 2, moved and stable", 3),
        ("circle of kind 2, in an unfounded set", 5),
        ("circle of both kinds, moved and stable", 2),
        ("circle of both kinds, in an unfounded set", 3),
        ("form 8: circle, moved and stable", 2),
        ("form 8: circle, in an unfounded set", 2),
        ("idle: valid by it", 8),
        ("idle: valid by it, some assignment stable", 6),
        ("idle: valid by it, some assignment unfounded", 6),
        ("idle: valid by it for kind 2", 3),
        ("idle: valid by it for kind 2, some assignment stable", 2),
        ("idle: valid by it for kind 2, some assignment unfounded", 2),
        ("some assignment unfounded", 30),
        ("some assignment against a constraint", 10),
        ("some assignment against a rule", 30),
        ("no stable assignment", 5),
        ("one stable assignment", 10),
        ("several stable assignments", 10),
        ("kind 2: no stable assignment", 3),
        ("kind 2: one stable assignment", 5),
        ("kind 2: several stable assignments", 5),
    ];
    names.extend(others.map(|(name, n)| (name.to_string(), n)));
    names.extend(anew::required());
    names
}

/// What must be met of rules for heads of this kind.
fn required_for(head: Kind) -> Vec<(String, usize)> {
    let kind = named(head);
    let mut names: Vec<(String, usize)> = Vec::new();
    for form in 1..=8 {
        names.push((format!("rule form {form} for {kind}"), 2));
        names.push((format!("idle: {kind}, form {form}"), 1));
        names.push((format!("idle: {kind}, just not, form {form}"), 0));
    }
    for (sign, rest) in ["negative sum", "sum of 0 or more"]
        .iter()
        .flat_map(|sign| ["no remainder", "a remainder"].map(|rest| (sign, rest)))
    {
        names.push((format!("form 8 for {kind}: {sign}, {rest}"), 1));
    }
    for sign in ["negative sum", "sum of 0 or more"] {
        names.push((format!("form 8 for {kind}: stable, {sign}, a remainder"), 1));
    }
    for way in ["rising", "falling"] {
        names.push((format!("head of {kind} in its own body, {way}"), 2));
    }
    names.push((format!("{kind}, moved and stable"), 10));
    names.push((format!("{kind}, in an unfounded set"), 15));
    names.push((format!("idle: {kind}, head in its own body"), 1));
    names.push((format!("idle: {kind}, mixed in a rule into an unfounded set"), 1));
    names
}

/// Every way in which a variable of this kind can stand in a rule for this head.
fn occurrences(head: Kind, kind: Kind) -> Vec<(String, usize)> {
    let (plain, other) = match head {
        Kind::Above => (Direction::Falling, Direction::Rising),
        _ => (Direction::Rising, Direction::Falling),
    };
    let mut ways = vec![(SIZE, PLAIN, Direction::Mixed)];
    ways.extend([SUM, MAX, MIN, PRODUCT, SIZE, CARRY, QUOTIENT].map(|form| (form, PLAIN, plain)));
    ways.extend([SUM, SIZE, QUOTIENT].map(|form| (form, PLAIN, other)));
    ways.extend([IF, CARRY].map(|form| (form, AT_LEAST, Direction::Rising)));
    ways.extend([IF, CARRY].map(|form| (form, BELOW, Direction::Falling)));
    ways.iter().map(|&(form, op, way)| (occurrence(head, form, op, way, kind), 0)).collect()
}
