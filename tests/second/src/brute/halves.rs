//! The bounds by enumeration on small files: a file with lent ranges as a system of its
//! own, all its models, and the least of them; and all stable assignments, inside the
//! ranges and inside those drawn in to the bounds.

use super::defs::{choices, Small};
use super::tried::Halves;
use super::{is_stable, FILL};
use crate::bounded::{ask, Bounds};
use crate::bounds::{Bounded, Span};
use crate::gen::ranged::bytes;
use crate::program::*;
use crate::reader::parse_fields;
use crate::wrong::Wrong;

/// A small file with lent ranges. All values are mirrored.
struct Half<'a> {
    small: &'a Small,
    lent: &'a [Span],
    mixed: Vec<Option<usize>>,
}

impl Half<'_> {
    /// All values of a variable inside its lent range.
    fn values(&self, v: usize) -> Vec<i64> {
        (self.lent[v].0..=self.lent[v].1).map(|value| self.small.sign(v) * value).collect()
    }

    fn far(&self, v: usize) -> i64 {
        self.values(v).into_iter().max().unwrap_or(0)
    }

    /// The most that a rule demands of its head over all values of the positions that
    /// are not kept, cut off at the far end.
    fn demand(&self, r: usize, rule: &Rule, m: &[i64]) -> i64 {
        let far = self.far(rule.head);
        if self.mixed[r].is_some_and(|v| self.values(v).len() > 1) {
            return far;
        }
        let read = |i: usize| {
            let v = rule.terms[i].variable;
            if self.small.kept(r, i) {
                vec![m[v]]
            } else {
                self.values(v)
            }
        };
        let bodies = choices(&(0..rule.terms.len()).map(read).collect::<Vec<_>>());
        let demands = bodies.iter().map(|values| self.small.demand_by(rule, |i| values[i]));
        demands.max().unwrap_or(i64::MIN).min(far)
    }

    /// All models: founded variables from their declared starting ends to the far ends
    /// of their lent ranges, each head no less than what its rules demand.
    fn models(&self) -> Vec<Vec<i64>> {
        let values = |v: usize| match self.small.program.variables[v].founded() {
            true => (self.small.range(v).0..=self.far(v)).collect(),
            false => vec![self.lent[v].0],
        };
        let mut all = choices(&(0..self.lent.len()).map(values).collect::<Vec<_>>());
        all.retain(|m| self.small.rules().all(|(r, rule)| self.demand(r, rule, m) <= m[rule.head]));
        all
    }
}

/// Tries these ranges on a small file. The error says what failed.
pub fn try_bounds(
    bounds: Bounds,
    file: &[u8],
    lists: &[Vec<Span>],
    tried: &mut Halves,
) -> Result<(), String> {
    let Ok(program) = parse_fields(file, Wrong::Nothing) else { return Ok(()) };
    let small = Small::of(program);
    tried.programs += 1;
    if let Some(rule) = small.invalid(&small.idle()) {
        let due = Bounded::Refused { number: 13, place: rule.place };
        let (answer, _) = ask(bounds, file, &bytes(&lists[0]), &[])?;
        tried.invalid += 1;
        return if answer == due { Ok(()) } else { Err(format!("{answer:?}, {due:?} was due")) };
    }
    let ranges: Vec<Vec<i64>> =
        small.program.variables.iter().map(|v| (v.low..=v.high).collect()).collect();
    let stable: Vec<Vec<i64>> = choices(&ranges).into_iter().filter(|a| is_stable(&small, a)).collect();
    for lent in lists {
        try_ranges(bounds, file, &small, lent, &stable, tried)
            .map_err(|what| format!("ranges {lent:?}: {what}"))?;
    }
    Ok(())
}

fn try_ranges(
    bounds: Bounds,
    file: &[u8],
    small: &Small,
    lent: &[Span],
    stable: &[Vec<i64>],
    tried: &mut Halves,
) -> Result<(), String> {
    let mixed = (0..small.program.rules.len()).map(|r| small.mixed(r).next()).collect();
    let half = Half { small, lent, mixed };
    let models = half.models();
    tried.ranges += 1;
    tried.models += models.len();
    let count = lent.len();
    let least: Vec<i64> =
        (0..count).map(|v| models.iter().map(|m| m[v]).min().unwrap_or(i64::MIN)).collect();
    if !models.contains(&least) {
        return Err("the models have no least one".to_string());
    }
    let before = vec![FILL; 2 * count + 1];
    let (answer, written) = ask(bounds, file, &bytes(lent), &before)?;
    let values = small.mirrored(&least);
    // A standard variable has its range's low, as it is.
    let due = [super::bytes(&values), vec![FILL]].concat();
    if answer != Bounded::Bounded || written != due {
        return Err(format!("{answer:?} {written:02X?}, {due:02X?} was due"));
    }
    let inside = |a: &[i64], lent: &[Span]| a.iter().zip(lent).all(|(x, r)| r.0 <= *x && *x <= r.1);
    let kept: Vec<&Vec<i64>> = stable.iter().filter(|a| inside(a, lent)).collect();
    let founded = |v: usize| small.program.variables[v].founded();
    for a in &kept {
        let mirrored = small.mirrored(a);
        if let Some(v) = (0..count).find(|&v| founded(v) && mirrored[v] > least[v]) {
            return Err(format!("{a:?} is stable and passes the bound of {v}"));
        }
    }
    let mut drawn = lent.to_vec();
    for (v, variable) in small.program.variables.iter().enumerate().filter(|(_, v)| v.founded()) {
        match variable.above() {
            true => drawn[v].0 = values[v],
            false => drawn[v].1 = values[v],
        }
    }
    let still: Vec<&Vec<i64>> = stable.iter().filter(|a| inside(a, &drawn)).collect();
    if still != kept {
        return Err(format!("{kept:?} are stable inside, drawn in {still:?}"));
    }
    count_ranges(&half, &least, &drawn, kept.len(), stable.len(), tried);
    Ok(())
}

fn count_ranges(
    half: &Half,
    least: &[i64],
    drawn: &[Span],
    inside: usize,
    stable: usize,
    tried: &mut Halves,
) {
    let small = half.small;
    let count = least.len();
    let empty = drawn.iter().any(|(low, high)| low > high);
    let moved = |kind: Kind| {
        (0..count).any(|v| small.program.variables[v].kind == kind && least[v] > small.range(v).0)
    };
    let standard_only = |v: usize| !small.program.variables[v].founded();
    tried.inside += inside;
    tried.some_inside += usize::from(inside > 0);
    tried.some_inside_not_all += usize::from(inside > 0 && inside < stable);
    tried.none_inside += usize::from(inside == 0 && stable > 0);
    tried.empty += usize::from(empty);
    tried.empty_of_stable += usize::from(empty && stable > 0);
    tried.drawn_in += usize::from(!empty && drawn != half.lent);
    tried.drawn_in_around += usize::from(!empty && drawn != half.lent && inside > 0);
    tried.below_lifted += usize::from(moved(Kind::Below));
    tried.above_lifted += usize::from(moved(Kind::Above));
    tried.both_lifted += usize::from(moved(Kind::Below) && moved(Kind::Above));
    tried.all_single += usize::from((0..count).all(|v| half.values(v).len() == 1) && count > 0);
    tried.standard_not_single +=
        usize::from((0..count).any(|v| standard_only(v) && half.values(v).len() > 1));
    let at_far = |v: usize| least[v] == half.far(v) && half.far(v) < small.range(v).1;
    tried.at_lent_far += usize::from((0..count).any(|v| !standard_only(v) && at_far(v)));
    let idle = small.idle();
    for (r, rule) in small.rules() {
        let Some(v) = half.mixed[r] else { continue };
        let single = half.values(v).len() == 1;
        let lifts = half.far(rule.head) > small.range(rule.head).0;
        tried.mixed_single += usize::from(single);
        tried.mixed_far += usize::from(!single && lifts);
        tried.mixed_idle += usize::from(!single && lifts && idle[r]);
        tried.mixed_stable += usize::from(!single && lifts) * inside;
    }
}
