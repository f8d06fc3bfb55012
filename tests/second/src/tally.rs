//! What an input makes the calls say, and what of the format it touches.

use std::collections::{BTreeMap, BTreeSet};

use crate::above;
use crate::calls::{check_with, least_with, read_with, Reading, Solved, Verdict};
use crate::gen::Input;
use crate::graph;
use crate::idling;
use crate::meaning::Direction;
use crate::program::*;
use crate::reader::parse;
use crate::refused;
use crate::wrong::Wrong;

/// The answers of all calls, with all bytes of the lent buffers.
#[derive(Clone, Debug, PartialEq, Eq)]
pub struct Seen {
    pub reading: Reading,
    pub solved: Solved,
    pub model: Vec<u8>,
    pub verdict: Verdict,
    pub report: Vec<u8>,
}

/// Makes all calls on an input; both buffers start full of `fill`.
pub fn see(input: &Input, fill: u8, wrong: Wrong) -> Seen {
    let mut model = vec![fill; input.buffer];
    let mut report = vec![fill; input.buffer];
    let reading = read_with(&input.file, wrong);
    let solved = least_with(&input.file, &input.assignment, &mut model, wrong);
    let verdict = check_with(&input.file, &input.assignment, &mut report, wrong);
    Seen { reading, solved, model, verdict, report }
}

/// Counts by name, and the different places of each refusal.
#[derive(Default)]
pub struct Tally {
    pub counts: BTreeMap<String, usize>,
    pub places: BTreeMap<usize, BTreeSet<usize>>,
}

impl Tally {
    pub fn hit(&mut self, name: impl Into<String>) {
        *self.counts.entry(name.into()).or_insert(0) += 1;
    }

    pub fn add(&mut self, input: &Input, seen: &Seen) {
        self.hit(format!("made: {}", input.label));
        self.hit(match seen.solved {
            Solved::Refused { .. } => "least: refused",
            Solved::Range(_) => "least: range",
            Solved::None => "least: none",
            Solved::Found => "least: found",
        });
        self.hit(match seen.verdict {
            Verdict::Refused { .. } => "verdict: refused",
            Verdict::Range(_) => "verdict: range",
            Verdict::Rule(_) => "verdict: rule",
            Verdict::Constraint(_) => "verdict: constraint",
            Verdict::Unfounded(..) => "verdict: unfounded",
            Verdict::Stable => "verdict: stable",
        });
        if let Verdict::Refused { number, place } = seen.verdict {
            self.hit(format!("refusal {number:02}"));
            self.places.entry(number).or_default().insert(place);
            for name in refused::names(number, &input.file[place..]) {
                self.hit(name);
            }
        }
        if let Solved::Refused { number: 15, .. } = seen.solved {
            self.hit("refusal 15 of least");
        }
        for name in idling::names(input, seen).into_iter().chain(above::names(input, seen)) {
            self.hit(name);
        }
        let Ok(program) = parse(&input.file, Wrong::Nothing) else { return };
        self.add_program(input, &program);
        if input.assignment.len() == 2 * program.variables.len() {
            self.add_quotients(input, &program);
        }
        if input.buffer == 12 * program.variables.len() && input.buffer > 0 {
            self.hit("buffer: at its least size for check");
        }
        if input.buffer == 2 * program.variables.len() && seen.solved == Solved::Found {
            self.hit("buffer: at its least size for least, found");
        }
        self.add_verdict(input, &program, seen);
    }

    fn add_program(&mut self, input: &Input, program: &Program) {
        let mut names = BTreeSet::new();
        for rule in &program.rules {
            names.insert(format!("rule form {}", rule.form));
            for i in 0..rule.terms.len() {
                names.insert(direction_name(program, rule, i));
                if rule.terms[i].variable == rule.head {
                    names.insert(format!("head in its own body, form {}", rule.form));
                }
            }
            if rule.terms.len() == TERMS {
                names.insert("limit: 16 terms".to_string());
            }
            let divided = [
                ("divisor 1", rule.divisor == 1),
                ("divisor 1,000", rule.divisor == DIVISOR),
                ("divisor alone", rule.terms.is_empty()),
                ("16 terms", rule.terms.len() == TERMS),
                ("a term of variable 0", rule.terms.iter().any(|t| t.variable == 0)),
            ];
            for (name, _) in divided.iter().filter(|d| rule.form == QUOTIENT && d.1) {
                names.insert(format!("form 8: {name}"));
            }
        }
        for constraint in &program.constraints {
            names.insert(format!("constraint form {}", constraint.form));
        }
        let limits = [
            ("limit: 60,000 bytes", input.file.len() == FILE_BYTES),
            ("limit: 256 variables", program.variables.len() == VARIABLES),
            ("limit: 2,048 rules", program.rules.len() == RULES),
            ("limit: 512 constraints", program.constraints.len() == CONSTRAINTS),
            ("limit: empty file", input.file.is_empty()),
        ];
        for (name, met) in limits {
            if met {
                names.insert(name.to_string());
            }
        }
        for name in names {
            self.hit(name);
        }
    }

    /// What the divisors above 1 make of the assigned values.
    fn add_quotients(&mut self, input: &Input, program: &Program) {
        let mut names = BTreeSet::new();
        for rule in program.rules.iter().filter(|rule| rule.divisor > 1) {
            let term = |t: &Term| t.number * signed(&input.assignment, 2 * t.variable);
            let sum = rule.c + rule.terms.iter().map(term).sum::<i64>();
            let sign = if sum < 0 { "negative sum" } else { "sum of 0 or more" };
            let rest = if sum % rule.divisor == 0 { "no remainder" } else { "a remainder" };
            names.insert(format!("form 8: {sign}, {rest}"));
        }
        for name in names {
            self.hit(name);
        }
    }

    fn add_verdict(&mut self, input: &Input, program: &Program, seen: &Seen) {
        let edges = graph::edges(program);
        let on_circle = |v: usize| graph::reached(&edges, v)[v];
        // A head on a circle that goes through a rule of form 8.
        let through_eight = |v: usize| {
            let back = |x: usize| x == v || graph::reached(&edges, x)[v];
            let mut rules = program.rules.iter().filter(|r| r.form == QUOTIENT && r.head == v);
            rules.any(|r| (0..r.terms.len()).any(|i| program.pulls(r, i) && back(r.terms[i].variable)))
        };
        let value = |v: usize| signed(&input.assignment, 2 * v);
        let Verdict::Unfounded(bounds, conditions) = seen.verdict else {
            let lifted = |v: usize| {
                let variable = &program.variables[v];
                variable.founded() && variable.further(value(v), variable.start())
            };
            let count = program.variables.len();
            if seen.verdict == Verdict::Stable && (0..count).any(|v| lifted(v) && on_circle(v)) {
                self.hit("circle: sound, stable");
            }
            if seen.verdict == Verdict::Stable && (0..count).any(|v| lifted(v) && through_eight(v)) {
                self.hit("form 8: circle, sound, stable");
            }
            if seen.verdict == Verdict::Stable && (0..count).any(lifted) {
                self.hit("stable with something lifted");
            }
            return;
        };
        let mut names = BTreeSet::new();
        let entries: Vec<&[u8]> = seen.report.chunks(4).take(bounds + conditions).collect();
        let set: Vec<usize> = entries[..bounds].iter().map(|e| usize::from(e[0])).collect();
        for (i, entry) in entries.iter().enumerate() {
            let v = usize::from(entry[0]);
            names.insert(format!("mark {}", entry[1]));
            let standing = match (set.contains(&v), program.variables[v].founded()) {
                (true, _) => "in the set",
                (false, true) => "founded, not in the set",
                (false, false) => "standard",
            };
            names.insert(format!("mark {}: {standing}", entry[1]));
            if i > bounds && entries[i - 1][0] == entry[0] {
                names.insert("marks 1 and 2 on one variable".to_string());
            }
        }
        for rule in program.rules.iter().filter(|rule| set.contains(&rule.head)) {
            for i in 0..rule.terms.len() {
                names.insert(format!("into the set, {}", direction_name(program, rule, i)));
            }
        }
        if set.iter().any(|&v| on_circle(v)) {
            names.insert("circle: unsound, unfounded".to_string());
        }
        if set.iter().any(|&v| through_eight(v)) {
            names.insert("form 8: circle, unsound, unfounded".to_string());
        }
        if entries[..bounds].iter().any(|e| signed(e, 2) != program.variables[usize::from(e[0])].start())
        {
            names.insert("bound beyond the starting end".to_string());
        }
        if bounds + conditions + 1 == 3 * program.variables.len() && bounds > 1 {
            names.insert("report: one entry short of full".to_string());
        }
        if conditions == 0 {
            names.insert("no condition".to_string());
        }
        for name in names {
            self.hit(name);
        }
    }

    pub fn print(&self) {
        self.counts.iter().for_each(|(name, count)| println!("{count:>8}  {name}"));
    }

    /// Names hit less often than they should be.
    pub fn missing(&self, least: usize) -> Vec<String> {
        self.missing_of(required(), least)
    }

    /// Those of these names, each with what the wanted number is divided by.
    pub fn missing_of(&self, names: Vec<(String, usize)>, least: usize) -> Vec<String> {
        let mut missing = Vec::new();
        for (name, part) in names {
            let wanted = (least / part).max(3);
            let count = self.counts.get(&name).copied().unwrap_or(0);
            if count < wanted {
                missing.push(format!("{name}: {count}, wanted {wanted}"));
            }
        }
        missing
    }
}

fn direction_name(program: &Program, rule: &Rule, i: usize) -> String {
    let way = match program.direction(rule, i) {
        Direction::Rising => "rising",
        Direction::Falling => "falling",
        Direction::Mixed => "mixed",
    };
    let what = if rule.terms[i].op == PLAIN { "plain" } else { "literal" };
    format!("direction: form {} {what} {way}", rule.form)
}

/// Every name that must be hit, with what the wanted number is divided by.
fn required() -> Vec<(String, usize)> {
    let mut names: Vec<(String, usize)> = Vec::new();
    for word in ["refused", "range", "rule", "constraint", "unfounded", "stable"] {
        names.push((format!("verdict: {word}"), 1));
    }
    for word in ["refused", "range", "none", "found"] {
        names.push((format!("least: {word}"), 1));
    }
    names.extend((1..=16).map(|number| (format!("refusal {number:02}"), 1)));
    names.push(("refusal 15 of least".to_string(), 1));
    names.extend((1..=8).map(|form| (format!("rule form {form}"), 1)));
    names.extend((1..=2).map(|form| (format!("constraint form {form}"), 1)));
    names.extend((1..=8).map(|form| (format!("head in its own body, form {form}"), 1)));
    let directions = [
        "1 plain rising",
        "1 plain falling",
        "2 plain rising",
        "3 plain rising",
        "4 plain rising",
        "5 plain rising",
        "5 plain falling",
        "5 plain mixed",
        "6 literal rising",
        "6 literal falling",
        "7 plain rising",
        "7 literal rising",
        "7 literal falling",
        "8 plain rising",
        "8 plain falling",
    ];
    for name in directions {
        names.push((format!("direction: form {name}"), 1));
        names.push((format!("into the set, direction: form {name}"), 1));
    }
    for mark in 0..=3 {
        names.push((format!("mark {mark}"), 1));
    }
    for mark in 1..=2 {
        for standing in ["in the set", "founded, not in the set", "standard"] {
            names.push((format!("mark {mark}: {standing}"), 5));
        }
    }
    names.push(("report: one entry short of full".to_string(), 5));
    names.extend(idling::required());
    names.extend(above::required());
    names.extend(refused::CASES.iter().map(|case| (refused::name(case), 6)));
    names.push(("form 8: 16 terms".to_string(), 5));
    for name in [
        "divisor 1",
        "divisor 1,000",
        "divisor alone",
        "a term of variable 0",
        "sum of 0 or more, no remainder",
        "sum of 0 or more, a remainder",
        "negative sum, no remainder",
        "negative sum, a remainder",
        "circle, sound, stable",
        "circle, unsound, unfounded",
    ] {
        names.push((format!("form 8: {name}"), 1));
    }
    for name in ["60,000 bytes", "2,048 rules", "512 constraints"] {
        names.push((format!("limit: {name}"), 10));
    }
    for name in [
        "limit: 256 variables",
        "limit: 16 terms",
        "limit: empty file",
        "marks 1 and 2 on one variable",
        "circle: sound, stable",
        "circle: unsound, unfounded",
        "bound beyond the starting end",
        "no condition",
        "buffer: at its least size for check",
        "buffer: at its least size for least, found",
        "stable with something lifted",
    ] {
        names.push((name.to_string(), 1));
    }
    names
}
