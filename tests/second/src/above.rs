//! What variables founded from above make of an input.

use std::collections::BTreeSet;

use crate::calls::{Solved, Verdict};
use crate::gen::Input;
use crate::graph;
use crate::meaning::Direction;
use crate::program::*;
use crate::reader::{parse, parse_fields};
use crate::tally::Seen;
use crate::wrong::Wrong;

/// Every name that must be hit, with what the wanted number is divided by.
pub fn required() -> Vec<(String, usize)> {
    let mut names: Vec<(String, usize)> = Vec::new();
    for name in occurrences() {
        names.push((format!("kinds, {name}"), 3));
        names.push((format!("kinds, into the set, {name}"), 11));
    }
    for name in [
        "no kind 2, accepted",
        "1 and 2, accepted",
        "2 and not 1, accepted",
        "both in one component, accepted",
        "refusal 13 by a rule for kind 2",
        "refusal 13, both kinds in the component",
        "rule unmet for kind 2",
        "least none by a rule for kind 2",
        "least found, kind 2 moved",
        "stable, kind 2 moved",
        "stable, both kinds moved",
        "stable, kind 2 moved, several rules for it",
        "mark 3",
        "mark 3, bound below the high",
        "marks 0 and 3",
        "mark 3 before mark 0",
        "mark 1, kind 2 of the set",
        "mark 1, kind 2, not of the set",
        "mark 2, kind 2, not of the set",
        "mark 1, standard, in a rule for kind 2",
        "mark 2, standard, in a rule for kind 2",
        "marks 1 and 2, mixed in a rule for kind 2",
        "circle of both kinds: unsound, unfounded",
        "circle of kind 2: sound, stable",
        "circle of kind 2: unsound, unfounded",
        "form 8 for kind 2, negative sum, a remainder",
    ] {
        names.push((format!("kinds: {name}"), 1));
    }
    for name in [
        "circle of both kinds: sound, stable",
        "refusal 07 by kind 3",
        "refusal 07 by kind 4 or more",
        "refusal 12 of a variable of kind 2",
        "form 8 for kind 2, negative sum, a remainder, decides",
        "head of kind 2 in its own body, kept",
        "head of kind 2 in its own body, not kept",
        "kept plain, kind 1 for kind 1",
        "kept plain, kind 1 for kind 2",
        "kept plain, kind 2 for kind 1",
        "kept plain, kind 2 for kind 2",
        "kept literal, kind 1 for kind 1",
        "kept literal, kind 1 for kind 2",
        "kept literal, kind 2 for kind 1",
        "kept literal, kind 2 for kind 2",
    ] {
        names.push((format!("kinds: {name}"), 3));
    }
    names
}

/// Every way in which a variable can stand in a rule.
fn occurrences() -> Vec<String> {
    let mut names = Vec::new();
    for (head, kind) in [Kind::Below, Kind::Above].iter().flat_map(|h| Kind::ALL.map(|k| (h, k))) {
        let plain = if *head == Kind::Above { "falling" } else { "rising" };
        let other = if *head == Kind::Above { "rising" } else { "falling" };
        let mut ways: Vec<String> = Vec::new();
        ways.extend([1, 2, 3, 4, 5, 7, 8].map(|form| format!("form {form} plain {plain}")));
        ways.extend([1, 5, 8].map(|form| format!("form {form} plain {other}")));
        ways.push("form 5 plain mixed".to_string());
        for form in [6, 7] {
            ways.extend(["rising", "falling"].map(|way| format!("form {form} literal {way}")));
        }
        names.extend(ways.iter().map(|way| occurrence(*head, way, kind)));
    }
    names
}

fn occurrence(head: Kind, way: &str, kind: Kind) -> String {
    format!("head {}, {way}, variable {}", head.number(), kind.number())
}

fn occurrence_of(program: &Program, rule: &Rule, i: usize) -> String {
    let way = match program.direction(rule, i) {
        Direction::Rising => "rising",
        Direction::Falling => "falling",
        Direction::Mixed => "mixed",
    };
    let what = if rule.terms[i].op == PLAIN { "plain" } else { "literal" };
    let kind = |v: usize| program.variables[v].kind;
    let way = format!("form {} {what} {way}", rule.form);
    occurrence(kind(rule.head), &way, kind(rule.terms[i].variable))
}

/// The names that this input hits.
pub fn names(input: &Input, seen: &Seen) -> BTreeSet<String> {
    let mut names: BTreeSet<String> = BTreeSet::new();
    if let Verdict::Refused { number, place } = seen.verdict {
        names.extend(refused(input, number, place));
    }
    let Ok(program) = parse(&input.file, Wrong::Nothing) else { return names };
    names.extend(those(&kinds(&program)));
    if !program.variables.iter().any(Variable::above) {
        return names;
    }
    for rule in &program.rules {
        names.extend(
            (0..rule.terms.len()).map(|i| format!("kinds, {}", occurrence_of(&program, rule, i))),
        );
    }
    let in_length = input.assignment.len() == 2 * program.variables.len();
    if in_length && !matches!(seen.solved, Solved::Refused { .. } | Solved::Range(_)) {
        let values = (0..program.variables.len()).map(|v| signed(&input.assignment, 2 * v)).collect();
        let case = Case { program: &program, values, seen };
        names.extend(those(&case.answers()));
        if let Verdict::Unfounded(bounds, conditions) = seen.verdict {
            names.extend(case.report(bounds, conditions));
        }
    }
    names
}

type Named = (&'static str, bool);

fn those(names: &[Named]) -> Vec<String> {
    names.iter().filter(|n| n.1).map(|(name, _)| format!("kinds: {name}")).collect()
}

/// Refusals that have to do with kinds.
fn refused(input: &Input, number: usize, place: usize) -> Vec<String> {
    let field = &input.file[place..];
    if number == 7 && field[0] == 1 {
        let three = field[3] == 3;
        return those(&[("refusal 07 by kind 3", three), ("refusal 07 by kind 4 or more", !three)]);
    }
    if number == 12 {
        // The variables stand before the rules and were taken already.
        let before = parse_fields(&input.file[..place], Wrong::Nothing);
        let variables = before.map_or(Vec::new(), |program| program.variables);
        let below = |v: u8| variables.get(usize::from(v)).is_some_and(|v| v.above() && v.low < 0);
        return those(&[("refusal 12 of a variable of kind 2", below(field[7]) || below(field[11]))]);
    }
    let program = match parse_fields(&input.file, Wrong::Nothing) {
        Ok(program) if number == 13 => program,
        _ => return Vec::new(),
    };
    let head = program.rules.iter().find(|r| r.place == place).map_or(0, |rule| rule.head);
    let both = Components::of(&program).of_both(head);
    those(&[
        ("refusal 13 by a rule for kind 2", program.variables[head].above()),
        ("refusal 13, both kinds in the component", both),
    ])
}

/// Which variables reach which, over one edge or more.
struct Components<'a> {
    program: &'a Program,
    reach: Vec<Vec<bool>>,
}

impl Components<'_> {
    fn of(program: &Program) -> Components<'_> {
        let edges = graph::edges(program);
        let reach = (0..edges.len()).map(|v| graph::reached(&edges, v)).collect();
        Components { program, reach }
    }

    /// Is a variable of the other founded kind in the component?
    fn of_both(&self, v: usize) -> bool {
        let variables = &self.program.variables;
        let meets = |w: usize| self.reach[v][w] && self.reach[w][v];
        let other = |w: usize| variables[w].founded() && variables[w].kind != variables[v].kind;
        variables[v].founded() && (0..variables.len()).any(|w| other(w) && meets(w))
    }

    /// Is the variable of kind 2 and on a circle of its own kind?
    fn of_above(&self, v: usize) -> bool {
        self.program.variables[v].above() && self.reach[v][v] && !self.of_both(v)
    }
}

/// Which kinds an accepted file has.
fn kinds(program: &Program) -> [Named; 4] {
    let has = |kind: Kind| program.variables.iter().any(|v| v.kind == kind);
    let components = Components::of(program);
    [
        ("no kind 2, accepted", !has(Kind::Above)),
        ("1 and 2, accepted", has(Kind::Below) && has(Kind::Above)),
        ("2 and not 1, accepted", !has(Kind::Below) && has(Kind::Above)),
        (
            "both in one component, accepted",
            has(Kind::Above) && (0..program.variables.len()).any(|v| components.of_both(v)),
        ),
    ]
}

/// An accepted file with a variable of kind 2, values in their ranges, and
/// what was answered.
struct Case<'a> {
    program: &'a Program,
    values: Vec<i64>,
    seen: &'a Seen,
}

impl Case<'_> {
    fn above(&self, v: usize) -> bool {
        self.program.variables[v].above()
    }

    fn moved(&self, v: usize) -> bool {
        let variable = &self.program.variables[v];
        variable.founded() && variable.further(self.values[v], variable.start())
    }

    fn answers(&self) -> Vec<Named> {
        let count = self.values.len();
        let any = |holds: &dyn Fn(usize) -> bool| (0..count).any(holds);
        let stable = self.seen.verdict == Verdict::Stable;
        let of_above = |r: usize| self.above(self.program.rules[r].head);
        let past = self.program.least_or_past(&self.values).err();
        let found = self.seen.solved == Solved::Found;
        let lowered =
            |v: usize| self.above(v) && signed(&self.seen.model, 2 * v) < self.program.variables[v].high;
        let rules_for = |v: usize| self.program.rules.iter().filter(|r| r.head == v).count();
        let moved_above = |v: usize| self.above(v) && self.moved(v);
        let components = Components::of(self.program);
        let unmet = match self.seen.verdict {
            Verdict::Rule(r) => of_above(r),
            _ => false,
        };
        vec![
            ("rule unmet for kind 2", unmet),
            ("least none by a rule for kind 2", past.is_some_and(of_above)),
            ("least found, kind 2 moved", found && any(&lowered)),
            ("stable, kind 2 moved", stable && any(&moved_above)),
            (
                "stable, both kinds moved",
                stable && any(&moved_above) && any(&|v| self.moved(v) && !self.above(v)),
            ),
            (
                "stable, kind 2 moved, several rules for it",
                stable && any(&|v| moved_above(v) && rules_for(v) > 1),
            ),
            (
                "circle of both kinds: sound, stable",
                stable && any(&|v| self.moved(v) && components.of_both(v)),
            ),
            (
                "circle of kind 2: sound, stable",
                stable && any(&|v| self.moved(v) && components.of_above(v)),
            ),
            ("form 8 for kind 2, negative sum, a remainder", self.quotient(false)),
            ("form 8 for kind 2, negative sum, a remainder, decides", stable && self.quotient(true)),
        ]
    }

    /// A rule of form 8 for kind 2 with a remainder of a negative sum, which
    /// perhaps gives what its head has, below the high.
    fn quotient(&self, decides: bool) -> bool {
        let uneven = |rule: &&Rule| {
            let terms = rule.terms.iter().map(|t| t.number * self.values[t.variable]);
            let sum = rule.c + terms.sum::<i64>();
            self.above(rule.head) && sum < 0 && sum % rule.divisor != 0
        };
        let gives = |rule: &Rule| self.program.gives(rule, |i| self.values[rule.terms[i].variable]);
        self.program
            .rules
            .iter()
            .filter(uneven)
            .any(|rule| !decides || self.moved(rule.head) && gives(rule) == Some(self.values[rule.head]))
    }

    fn report(&self, bounds: usize, conditions: usize) -> BTreeSet<String> {
        let entries: Vec<&[u8]> = self.seen.report.chunks(4).take(bounds + conditions).collect();
        let (shown, asked) = entries.split_at(bounds);
        let set: Vec<usize> = shown.iter().map(|e| usize::from(e[0])).collect();
        let high = |e: &[u8]| self.program.variables[usize::from(e[0])].high;
        let first_three = shown.iter().position(|e| e[1] == 3);
        let last_zero = shown.iter().rposition(|e| e[1] == 0);
        let components = Components::of(self.program);
        let of_set = |mark: u8, inside: bool| {
            let listed = |v: usize| set.contains(&v) == inside && self.above(v);
            asked.iter().any(|e| e[1] == mark && listed(usize::from(e[0])))
        };
        let mut names = BTreeSet::from_iter(those(&[
            ("mark 3", first_three.is_some()),
            ("mark 3, bound below the high", shown.iter().any(|e| e[1] == 3 && signed(e, 2) < high(e))),
            ("marks 0 and 3", first_three.is_some() && last_zero.is_some()),
            ("mark 3 before mark 0", first_three.is_some() && first_three < last_zero),
            ("mark 1, kind 2 of the set", of_set(1, true)),
            ("mark 1, kind 2, not of the set", of_set(1, false)),
            ("mark 2, kind 2, not of the set", of_set(2, false)),
            ("circle of both kinds: unsound, unfounded", set.iter().any(|&v| components.of_both(v))),
            ("circle of kind 2: unsound, unfounded", set.iter().any(|&v| components.of_above(v))),
        ]));
        for rule in self.program.rules.iter().filter(|rule| set.contains(&rule.head)) {
            for i in 0..rule.terms.len() {
                names.extend(self.into_set(rule, i, &set));
            }
        }
        names
    }

    /// What a position of a rule that heads into the set is there.
    fn into_set(&self, rule: &Rule, i: usize, set: &[usize]) -> Vec<String> {
        let v = rule.terms[i].variable;
        let kept = self.program.kept(rule, i);
        let way = self.program.direction(rule, i);
        let standard = !self.program.variables[v].founded() && self.above(rule.head);
        let own = v == rule.head && self.above(v);
        let mut names = those(&[
            ("mark 1, standard, in a rule for kind 2", standard && way == Direction::Rising),
            ("mark 2, standard, in a rule for kind 2", standard && way == Direction::Falling),
            (
                "marks 1 and 2, mixed in a rule for kind 2",
                way == Direction::Mixed && self.above(rule.head),
            ),
            ("head of kind 2 in its own body, kept", own && kept),
            ("head of kind 2 in its own body, not kept", own && !kept),
        ]);
        names.push(format!("kinds, into the set, {}", occurrence_of(self.program, rule, i)));
        if kept && set.contains(&v) {
            let what = if rule.terms[i].op == PLAIN { "plain" } else { "literal" };
            let number = |v: usize| self.program.variables[v].kind.number();
            names.push(format!("kinds: kept {what}, kind {} for kind {}", number(v), number(rule.head)));
        }
        names
    }
}
