//! What holds of bounds besides their being the least model of their system.

use super::{ask, Bounds, Due};
use crate::bounds::{Bounded, Span};
use crate::brute::Calls;
use crate::gen::fields;
use crate::gen::prng::Random;
use crate::gen::ranged::{bytes, Case};
use crate::gen::Input;
use crate::mirror::{self, Turned};
use crate::normal::Normal;
use crate::program::*;
use crate::tally::Tally;
use crate::{Solved, Verdict};

/// A file with ranges that pass, and the calls that are tried on it.
struct Trial<'a> {
    calls: &'a Calls,
    bounds: Bounds<'a>,
    case: &'a Case,
    due: &'a Due,
}

/// Files with more rules, or with more rounds, are not gone over again and again.
const RULES_AGAIN: usize = 500;
const ROUNDS_AGAIN: usize = 700;

pub fn try_all(
    calls: &Calls,
    bounds: Bounds,
    case: &Case,
    due: &Due,
    tally: &mut Tally,
) -> Result<(), String> {
    let trial = Trial { calls, bounds, case, due };
    trial.try_model()?;
    if due.system.small.program.rules.len() > RULES_AGAIN || due.rounds > ROUNDS_AGAIN {
        tally.hit("not gone over again");
        return Ok(());
    }
    for assigned in &case.assignments {
        trial.try_stable(assigned, tally)?;
        trial.try_single(assigned, tally)?;
    }
    trial.try_narrower(tally)?;
    trial.try_drawn_in(tally)?;
    trial.try_starting_ends(tally)?;
    trial.try_other_files(tally)?;
    trial.try_mirror(Turned::Above, tally)?;
    trial.try_mirror(Turned::All, tally)
}

impl Trial<'_> {
    fn variables(&self) -> &[Variable] {
        &self.due.system.small.program.variables
    }

    fn founded(&self) -> impl Iterator<Item = (usize, &Variable)> {
        self.variables().iter().enumerate().filter(|(_, variable)| variable.founded())
    }

    /// The bounds of a file with these ranges, which pass.
    fn bounds_of(&self, file: &[u8], spans: &[Span]) -> Result<Vec<i64>, String> {
        let before = vec![0x3C; 2 * spans.len()];
        let (answer, written) = ask(self.bounds, file, &bytes(spans), &before)?;
        match answer {
            Bounded::Bounded => Ok(written.chunks(2).map(|two| signed(two, 0)).collect()),
            _ => Err(format!("ranges {spans:?}: {answer:?}")),
        }
    }

    fn with(&self, spans: &[Span]) -> Result<Vec<i64>, String> {
        self.bounds_of(&self.case.file, spans)
    }

    /// The first founded variable that one has further than the other.
    fn further(&self, one: &[i64], other: &[i64]) -> Option<usize> {
        let further = |&(v, variable): &(usize, &Variable)| variable.further(one[v], other[v]);
        self.founded().find(further).map(|(v, _)| v)
    }

    /// No rule demands more, and what has moved some rule demands; a bound lies from
    /// the declared starting end to the lent far end.
    fn try_model(&self) -> Result<(), String> {
        let system = &self.due.system;
        let mirrored = system.small.mirrored(&self.due.values);
        system.is_model(&mirrored).map_err(|r| format!("rule {r} lifts further"))?;
        system.is_justified(&mirrored).map_err(|v| format!("no rule lifts variable {v} so far"))?;
        for (v, variable) in self.variables().iter().enumerate() {
            let (start, far) = (system.start(v), system.lent(v).1);
            let fits = match variable.founded() {
                true => (start..=far).contains(&mirrored[v]),
                false => self.due.values[v] == self.due.spans[v].0,
            };
            if !fits {
                return Err(format!("variable {v}: {}", self.due.values[v]));
            }
        }
        Ok(())
    }

    fn inside(&self, assigned: &[i64]) -> bool {
        assigned.iter().zip(&self.due.spans).all(|(value, (low, high))| (low..=high).contains(&value))
    }

    fn verdict(&self, assigned: &[i64]) -> Verdict {
        let mut report = vec![0; 12 * assigned.len()];
        (self.calls.check)(&self.case.file, &fields::assignment(assigned), &mut report)
    }

    /// Every stable assignment inside the ranges keeps its founded variables within the
    /// bounds.
    fn try_stable(&self, assigned: &[i64], tally: &mut Tally) -> Result<(), String> {
        if self.verdict(assigned) != Verdict::Stable {
            return Ok(());
        }
        let inside = self.inside(assigned);
        tally.hit(format!("stable assignment {} the ranges", if inside { "inside" } else { "outside" }));
        let passed = self.further(assigned, &self.due.values);
        if !inside {
            if passed.is_some() {
                tally.hit("stable assignment outside the ranges, past a bound");
            }
            return Ok(());
        }
        if let Some(v) = passed {
            return Err(format!(
                "{assigned:?} is stable inside the ranges, and passes the bound of {v}"
            ));
        }
        let moved = |&(v, variable): &(usize, &Variable)| assigned[v] != variable.start();
        if self.founded().any(|f| moved(&f)) {
            tally.hit("stable assignment inside the ranges, something lifted");
        }
        if self.founded().any(|f| moved(&f) && assigned[f.0] == self.due.values[f.0]) {
            tally.hit("stable assignment inside the ranges, a bound reached");
        }
        if self.due.spans.iter().any(|(low, high)| low < high) {
            tally.hit("stable assignment inside the ranges, not all single");
        }
        Ok(())
    }

    /// With single ranges and every rule met, the bounds are the least model's founded
    /// values; then the assignment is their equal exactly where no set is unfounded.
    fn try_single(&self, assigned: &[i64], tally: &mut Tally) -> Result<(), String> {
        let spans: Vec<Span> = assigned.iter().map(|&value| (value, value)).collect();
        let found = self.with(&spans)?;
        if let Some(v) = self.further(&found, assigned) {
            return Err(format!("single at {assigned:?}: the bound of {v} is further"));
        }
        let verdict = self.verdict(assigned);
        if matches!(verdict, Verdict::Rule(_)) {
            tally.hit("single ranges, a rule unmet");
            return Ok(());
        }
        let mut model = vec![0; 2 * assigned.len()];
        let solved = (self.calls.least)(&self.case.file, &fields::assignment(assigned), &mut model);
        let least: Vec<i64> = model.chunks(2).map(|two| signed(two, 0)).collect();
        if solved != Solved::Found || found != least {
            return Err(format!("single at {assigned:?}: {found:?}, least {solved:?} {least:?}"));
        }
        let fits = match verdict {
            Verdict::Stable => found == assigned,
            Verdict::Unfounded(..) => found != assigned,
            _ => true,
        };
        if !fits {
            return Err(format!("single at {assigned:?}: {found:?}, check {verdict:?}"));
        }
        let word = match verdict {
            Verdict::Stable => "stable",
            Verdict::Unfounded(..) => "unfounded",
            _ => "a constraint unmet",
        };
        tally.hit(format!("single ranges, every rule met, {word}"));
        for kind in [Kind::Below, Kind::Above] {
            let moved = |(v, variable): (usize, &Variable)| {
                variable.kind == kind && found[v] != variable.start()
            };
            if self.founded().any(moved) {
                tally.hit(format!("single ranges, every rule met, kind {} lifted", kind.number()));
            }
        }
        Ok(())
    }

    /// Narrower ranges never give a founded variable a further bound. The widest ones
    /// are the declared ones.
    fn try_narrower(&self, tally: &mut Tally) -> Result<(), String> {
        let whole: Vec<Span> = self.variables().iter().map(|v| (v.low, v.high)).collect();
        let widest = self.with(&whole)?;
        if let Some(v) = self.further(&self.due.values, &widest) {
            return Err(format!("declared ranges give {v} a nearer bound, {}", widest[v]));
        }
        let seed = self.case.file.iter().chain(&self.case.ranges).map(|&byte| u64::from(byte));
        let random = &mut Random::new(seed.fold(7, |sum, byte| sum * 31 % 1_000_003 + byte));
        for share in [15, 60] {
            let narrow = |&(low, high): &Span| match random.percent(share) {
                true if random.percent(40) => {
                    let value = random.pick(&[low, high]);
                    (value, value)
                }
                true => {
                    let (one, other) = (random.between(low, high), random.between(low, high));
                    (one.min(other), one.max(other))
                }
                false => (low, high),
            };
            let spans: Vec<Span> = self.due.spans.iter().map(narrow).collect();
            let nearer = self.with(&spans)?;
            if let Some(v) = self.further(&nearer, &self.due.values) {
                return Err(format!("{spans:?} are narrower and give {v} a further bound"));
            }
            let moved = self.further(&self.due.values, &nearer);
            let mut rules = 0..self.due.system.small.program.rules.len();
            let becomes = rules.any(|r| {
                let mixed = self.due.system.mixed(r);
                mixed.is_some_and(|(v, single)| !single && spans[v].0 == spans[v].1)
            });
            let why = if becomes { ", a mixed variable now single" } else { "" };
            match moved {
                Some(v) => {
                    tally.hit(format!("narrower ranges, a bound nearer{why}"));
                    tally.hit(format!(
                        "narrower ranges, kind {} nearer",
                        self.variables()[v].kind.number()
                    ));
                }
                None => tally.hit("narrower ranges, the same bounds"),
            }
        }
        Ok(())
    }

    /// Far ends drawn in to the bounds give the same bounds again, unless a mixed
    /// variable has become single by that; then they may be nearer, and never further.
    fn try_drawn_in(&self, tally: &mut Tally) -> Result<(), String> {
        let mut spans = self.due.spans.clone();
        for (v, variable) in self.founded() {
            match variable.above() {
                true => spans[v].0 = self.due.values[v],
                false => spans[v].1 = self.due.values[v],
            }
        }
        if spans.iter().any(|(low, high)| low > high) {
            tally.hit("drawn in: empty");
            let stable = |a: &&Vec<i64>| self.inside(a) && self.verdict(a) == Verdict::Stable;
            return match self.case.assignments.iter().find(stable) {
                Some(a) => Err(format!("{a:?} is stable, though a bound lies before its range")),
                None => Ok(()),
            };
        }
        let again = self.with(&spans)?;
        let system = &self.due.system;
        let mut rules = 0..system.small.program.rules.len();
        let becomes = rules
            .any(|r| system.mixed(r).is_some_and(|(v, single)| !single && spans[v].0 == spans[v].1));
        let further = self.further(&again, &self.due.values);
        let nearer = self.further(&self.due.values, &again);
        match (further, nearer) {
            (Some(v), _) => Err(format!("drawn in, {v} has a further bound")),
            (None, Some(v)) if !becomes => Err(format!("drawn in, {v} has a nearer bound")),
            (None, Some(_)) => {
                tally.hit("drawn in: nearer, a mixed variable now single");
                Ok(())
            }
            (None, None) => {
                tally.hit(match becomes {
                    true => "drawn in: the same, a mixed variable now single",
                    false if spans == self.due.spans => "drawn in: nothing",
                    false => "drawn in: the same",
                });
                Ok(())
            }
        }
    }

    /// The starting end of a lent range says nothing where the variable is kept
    /// wherever it stands: then it may as well be the declared one.
    fn try_starting_ends(&self, tally: &mut Tally) -> Result<(), String> {
        let system = &self.due.system;
        let kept = |v: usize| {
            system.small.rules().all(|(r, rule)| {
                let places = (0..rule.terms.len()).filter(|&i| rule.terms[i].variable == v);
                places.into_iter().all(|i| system.is_kept(r, i))
            })
        };
        let mut spans = self.due.spans.clone();
        for (v, variable) in self.founded().filter(|(v, _)| kept(*v)) {
            match variable.above() {
                true => spans[v].1 = variable.high,
                false => spans[v].0 = variable.low,
            }
        }
        if spans == self.due.spans {
            return Ok(());
        }
        tally.hit("starting end of a lent range moved");
        match self.with(&spans)? == self.due.values {
            true => Ok(()),
            false => Err("the starting end of a range of a kept variable decides".to_string()),
        }
    }

    /// Constraints play no part, nor does the order of rules and terms.
    fn try_other_files(&self, tally: &mut Tally) -> Result<(), String> {
        let file = &self.case.file;
        let taken = fields::taken(file);
        let first = taken.iter().position(|field| field.tag == 3);
        if let Some(first) = first {
            tally.hit("without its constraints");
            let without = &file[..fields::place(&taken, first)];
            if self.bounds_of(without, &self.due.spans)? != self.due.values {
                return Err("without constraints the bounds are others".to_string());
            }
        }
        let mut turned = taken;
        turned.sort_by_key(|field| field.tag);
        let rules = turned.iter().filter(|field| field.tag == 2).count();
        let from = turned.iter().position(|field| field.tag == 2).unwrap_or(0);
        turned[from..from + rules].reverse();
        let mut anew = vec![0; file.len()];
        let Normal::Written(length) = crate::normalize(file, &mut anew) else {
            return Err("not written anew".to_string());
        };
        for (what, other) in
            [("rules turned", fields::bytes(&turned)), ("anew", anew[..length].to_vec())]
        {
            if other == *file {
                continue;
            }
            tally.hit(format!("another order: {what}"));
            if self.bounds_of(&other, &self.due.spans)? != self.due.values {
                return Err(format!("{what}: the bounds are others"));
            }
        }
        Ok(())
    }

    /// By 000's mirror the bounds are those of the mirrored file, mirrored.
    fn try_mirror(&self, which: Turned, tally: &mut Tally) -> Result<(), String> {
        let turns = |v: usize| which == Turned::All || self.variables()[v].above();
        let values: Vec<i64> = self.variables().iter().map(|v| v.low).collect();
        let assignment = fields::assignment(&values);
        let file = self.case.file.clone();
        let input = Input { file, assignment, buffer: 0, label: "", due: None };
        let Some(other) = mirror::mirror(&input, which) else { return Ok(()) };
        tally.hit(format!("mirrored, {which:?}"));
        let turned =
            |(v, &(low, high)): (usize, &Span)| if turns(v) { (-high, -low) } else { (low, high) };
        let spans: Vec<Span> = self.due.spans.iter().enumerate().map(turned).collect();
        let found = self.bounds_of(&other.file, &spans)?;
        let fits = |v: usize| match self.variables()[v].founded() {
            true if turns(v) => found[v] == -self.due.values[v],
            true => found[v] == self.due.values[v],
            false => found[v] == spans[v].0,
        };
        match (0..found.len()).all(fits) {
            true => Ok(()),
            false => Err(format!("the mirrored file, {which:?}, has other bounds")),
        }
    }
}
