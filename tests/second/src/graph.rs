//! The dependency graph and the search for a rule that makes a file invalid.

use crate::meaning::Direction;
use crate::program::{Kind, Program, Rule, QUOTIENT, TERMS};
use crate::wrong::Wrong;

/// For each variable, the variables an edge runs to.
pub fn edges(program: &Program) -> Vec<Vec<usize>> {
    edges_of(program, &program.idle_rules())
}

/// The edges where these rules are idle.
fn edges_of(program: &Program, idle: &[bool]) -> Vec<Vec<usize>> {
    let mut edges = vec![Vec::new(); program.variables.len()];
    for (rule, &idle) in program.rules.iter().zip(idle) {
        if idle && program.wrong == Wrong::IdleEndsEdges {
            break;
        }
        if idle && program.wrong != Wrong::IdleDraws {
            continue;
        }
        let from = &mut edges[rule.head];
        match program.wrong {
            Wrong::DivisorDrawsEdge if rule.form == QUOTIENT => from.push(0),
            Wrong::LastRuleDraws => from.clear(),
            _ => {}
        }
        let most = if program.wrong == Wrong::FirstEdgeOnly { 1 } else { TERMS };
        let drawn = (0..rule.terms.len()).filter(|&i| draws(program, rule, i)).take(most);
        for to in drawn.map(|i| rule.terms[i].variable) {
            if !from.contains(&to) {
                from.push(to);
            }
        }
    }
    edges
}

/// Edges run to kept and mixed variables.
fn draws(program: &Program, rule: &Rule, position: usize) -> bool {
    let kind = program.variables[rule.terms[position].variable].kind;
    let head = program.variables[rule.head].kind;
    let direction = program.direction(rule, position);
    let (pulls, mixed) = (program.pulls(rule, position), direction == Direction::Mixed);
    match program.wrong {
        Wrong::DrawsFalling if direction == Direction::Falling => true,
        Wrong::NoEdgeToAbove if kind == Kind::Above => mixed,
        Wrong::EdgeToRisingAbove if kind == Kind::Above => true,
        Wrong::EdgeToFallingBelow if kind == Kind::Below && head == Kind::Above => true,
        Wrong::EdgesToKeptOnly => pulls,
        Wrong::KeptLeftOut => mixed,
        Wrong::StandardDrawn if kind == Kind::Standard => direction != Direction::Falling,
        Wrong::StandardNeverDrawn if kind == Kind::Standard => false,
        Wrong::EveryVariableDrawn => true,
        Wrong::AboveDrawsNone if head == Kind::Above => false,
        _ => pulls || mixed,
    }
}

/// All variables that a path of at least one edge leads to.
pub fn reached(edges: &[Vec<usize>], from: usize) -> Vec<bool> {
    reached_by(edges, from, |_| true)
}

/// All variables that a path of at least one edge leads to on which every stop
/// between is allowed. The ends are no stops between.
pub fn reached_by(edges: &[Vec<usize>], from: usize, allowed: impl Fn(usize) -> bool) -> Vec<bool> {
    let mut seen = vec![false; edges.len()];
    let mut open = vec![from];
    while let Some(variable) = open.pop() {
        for &next in &edges[variable] {
            if !seen[next] && allowed(next) {
                open.push(next);
            }
            seen[next] = true;
        }
    }
    seen
}

/// The first rule that is not idle and has a mixed variable in its head's
/// component.
pub fn first_offending_rule(program: &Program) -> Option<usize> {
    let idle = program.idle_rules();
    let offending = offending_rules(program, &idle);
    match program.wrong {
        Wrong::LastOffender => offending.last().copied(),
        Wrong::IdleNamesPlace if !offending.is_empty() => {
            mixed_rules(program, &edges_of(program, &idle)).first().copied()
        }
        _ => offending.first().copied(),
    }
}

/// All offending rules where these rules are idle.
pub fn offending_rules(program: &Program, idle: &[bool]) -> Vec<usize> {
    let mut rules = mixed_rules(program, &edges_of(program, idle));
    rules.retain(|&r| match program.wrong {
        Wrong::IdleOffends => true,
        Wrong::IdleEndsSearch => !idle[..=r].contains(&true),
        Wrong::AboveNeverOffends if program.variables[program.rules[r].head].above() => false,
        _ => !idle[r],
    });
    rules
}

/// All rules with a mixed variable in their head's component.
fn mixed_rules(program: &Program, edges: &[Vec<usize>]) -> Vec<usize> {
    let reach_from = |v: usize| match program.wrong {
        Wrong::ShortCircles => (0..edges.len()).map(|to| edges[v].contains(&to)).collect(),
        Wrong::LastRoundOut => reached_by(edges, v, |stop| stop + 1 < edges.len()),
        Wrong::FirstRoundOut => reached_by(edges, v, |stop| stop > 0),
        _ => reached(edges, v),
    };
    let reach: Vec<Vec<bool>> = (0..edges.len()).map(reach_from).collect();
    let kind = |v: usize| program.variables[v].kind;
    let together = |a: usize, b: usize| match program.wrong {
        Wrong::LoopPasses if a == b => false,
        Wrong::ComponentOfOneKind if kind(a) != kind(b) => false,
        Wrong::MixedOffends => true,
        _ => a == b || reach[a][b] && reach[b][a],
    };
    let mixed = |rule: &usize| {
        let rule = &program.rules[*rule];
        (0..rule.terms.len()).any(|position| {
            program.direction(rule, position) == Direction::Mixed
                && together(rule.head, rule.terms[position].variable)
        })
    };
    (0..program.rules.len()).filter(mixed).collect()
}
