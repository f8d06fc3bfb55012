//! The mission's demands tried by enumeration on small programs. Everything
//! but the taking apart of fields is written a second time in `defs`, where all
//! founded variables are mirrored to start at their low.

pub(crate) mod defs;
mod halves;
mod nests;
mod tried;
mod walks;

use crate::anew::{written, Normalize};
use crate::program::{signed, Kind};
use crate::reader::{parse_fields, Refusal};
use crate::wrong::Wrong;
use crate::{Reading, Solved, Verdict};
use defs::{choices, constraint_met, Small, OUT};
pub use halves::try_bounds;
pub use nests::try_nested;
pub use tried::{Anew, Halves, Nests, Stepped, Tried};
pub use walks::{try_walk, try_walks, walks};

/// The calls that are tried.
pub struct Calls {
    pub read: fn(&[u8]) -> Reading,
    pub least: fn(&[u8], &[u8], &mut [u8]) -> Solved,
    pub check: fn(&[u8], &[u8], &mut [u8]) -> Verdict,
}

/// This checker's own.
pub const OWN: Calls = Calls { read: crate::read, least: crate::least, check: crate::check };

/// The byte that buffers are full of before.
const FILL: u8 = 0xA5;

fn bytes(values: &[i64]) -> Vec<u8> {
    values.iter().flat_map(|v| (*v as i16).to_be_bytes()).collect()
}

/// Tries every assignment of a small file. The error says what failed.
pub fn try_file(calls: &Calls, file: &[u8], tried: &mut Tried) -> Result<(), String> {
    let program = match parse_fields(file, Wrong::Nothing) {
        Ok(program) => program,
        Err(Refusal { .. }) => return Ok(()),
    };
    let small = Small::of(program);
    tried.programs += 1;
    let Some(by_idle) = try_reading(calls, &small, file, tried)? else { return Ok(()) };
    try_ranges(calls, &small, file, tried)?;
    let ranges: Vec<Vec<i64>> =
        small.program.variables.iter().map(|v| (v.low..=v.high).collect()).collect();
    let all = choices(&ranges);
    let stable: Vec<Vec<i64>> = all.iter().filter(|a| is_stable(&small, a)).cloned().collect();
    for a in &all {
        tried.assignments += 1;
        if !small.moves_as_said(a) {
            return Err(format!("{a:?}: a rule does not move as its directions say"));
        }
        let before = (tried.stable, tried.unfounded);
        try_least(calls, &small, file, a, tried).map_err(|e| format!("{a:?}: {e}"))?;
        try_check(calls, &small, file, a, &stable, tried).map_err(|e| format!("{a:?}: {e}"))?;
        let (stable, unfounded) = (tried.stable - before.0, tried.unfounded - before.1);
        count_quotients(&small, a, stable, unfounded, tried);
        tried.idle_stable += usize::from(by_idle) * stable;
        tried.idle_unfounded += usize::from(by_idle) * unfounded;
    }
    Ok(())
}

/// The stable assignments of a small file, by the definitions; nothing where the
/// file is refused.
fn stable_of(file: &[u8]) -> Option<Vec<Vec<i64>>> {
    let small = Small::of(parse_fields(file, Wrong::Nothing).ok()?);
    if small.invalid(&small.idle()).is_some() {
        return None;
    }
    let ranges: Vec<Vec<i64>> =
        small.program.variables.iter().map(|v| (v.low..=v.high).collect()).collect();
    Some(choices(&ranges).into_iter().filter(|a| is_stable(&small, a)).collect())
}

/// The stable assignments of a small file and of its normal form are the same.
pub fn try_normal(normalize: Normalize, file: &[u8], tried: &mut Anew) -> Result<(), String> {
    let Some(before) = stable_of(file) else { return Ok(()) };
    let out = written(normalize, file)?;
    let after = stable_of(&out);
    let other = usize::from(out != file);
    tried.programs += 1;
    tried.rewritten += other;
    tried.shorter += usize::from(out.len() < file.len());
    tried.stable += other * before.len();
    tried.several += other * usize::from(before.len() > 1);
    tried.without += other * usize::from(before.is_empty());
    match after.as_ref() == Some(&before) {
        true => Ok(()),
        false => Err(format!("{before:?} are stable, of the output {after:?}")),
    }
}

/// Idle rules, validity and the counts. Nothing where the file is refused;
/// otherwise whether it is valid only because some rule is idle.
fn try_reading(
    calls: &Calls,
    small: &Small,
    file: &[u8],
    tried: &mut Tried,
) -> Result<Option<bool>, String> {
    let idle = small.idle();
    if idle != small.program.idle_rules() {
        return Err(format!("{idle:?} are idle, not {:?}", small.program.idle_rules()));
    }
    let above = |head: usize| small.program.variables[head].above();
    let place = |idle: &[bool]| small.invalid(idle).map(|rule| rule.place);
    let without = place(&vec![false; idle.len()]);
    let due = match small.invalid(&idle) {
        Some(rule) => {
            tried.invalid += 1;
            tried.idle_moved += usize::from(without != Some(rule.place));
            tried.above_invalid += usize::from(above(rule.head));
            Reading::Refused { number: 13, place: rule.place }
        }
        None => {
            // Would the file be valid if no rule for kind 2 were idle?
            let of_below = |r: usize| idle[r] && !above(small.program.rules[r].head);
            let below: Vec<bool> = (0..idle.len()).map(of_below).collect();
            tried.idle_valid += usize::from(without.is_some());
            tried.above_idle_valid += usize::from(place(&below).is_some());
            count_kinds(small, &idle, tried);
            let (variables, rules, constraints) =
                (small.program.variables.len(), idle.len(), small.program.constraints.len());
            Reading::Accepted { variables, rules, constraints }
        }
    };
    let accepted = matches!(due, Reading::Accepted { .. });
    match (calls.read)(file) == due {
        true => Ok(accepted.then_some(without.is_some())),
        false => Err(format!("{due:?} was due")),
    }
}

fn count_kinds(small: &Small, idle: &[bool], tried: &mut Tried) {
    let variables = &small.program.variables;
    let of = |kind: Kind| (0..variables.len()).filter(move |&v| variables[v].kind == kind);
    let path = small.paths(idle);
    let meet = |v: usize| of(Kind::Above).any(|w| path[v][w] && path[w][v]);
    tried.below_only += usize::from(of(Kind::Above).count() == 0);
    tried.both_kinds += usize::from(of(Kind::Above).count() > 0 && of(Kind::Below).count() > 0);
    tried.both_in_component += usize::from(of(Kind::Below).any(meet));
}

fn count_quotients(small: &Small, a: &[i64], stable: usize, unfounded: usize, tried: &mut Tried) {
    let quotients = small.quotients(a);
    let uneven = usize::from(quotients.iter().any(|q| q.2));
    tried.even += usize::from(quotients.iter().any(|q| !q.2));
    tried.uneven += uneven;
    tried.uneven_below += usize::from(quotients.iter().any(|q| q.2 && q.1 < 0));
    tried.above_uneven_below += usize::from(quotients.iter().any(|q| q.0 && q.2 && q.1 < 0));
    tried.uneven_stable += uneven * stable;
    tried.uneven_unfounded += uneven * unfounded;
}

/// Assignments that leave the range at one variable, or at two.
fn try_ranges(calls: &Calls, small: &Small, file: &[u8], tried: &mut Tried) -> Result<(), String> {
    let variables = &small.program.variables;
    let n = variables.len();
    for (v, w) in (0..n).flat_map(|v| (v..n).map(move |w| (v, w))) {
        for below in [true, false] {
            let outside = |u: usize| if below { variables[u].low - 1 } else { variables[u].high + 1 };
            let values: Vec<i64> =
                (0..n).map(|u| if u == v || u == w { outside(u) } else { variables[u].high }).collect();
            let mut buffer = vec![FILL; 12 * n];
            let verdict = (calls.check)(file, &bytes(&values), &mut buffer);
            let solved = (calls.least)(file, &bytes(&values), &mut buffer);
            tried.outside += 1;
            let untouched = buffer.iter().all(|&b| b == FILL);
            if verdict != Verdict::Range(v) || solved != Solved::Range(v) || !untouched {
                return Err(format!("{values:?}: {verdict:?}, {solved:?}"));
            }
        }
    }
    Ok(())
}

fn is_stable(small: &Small, a: &[i64]) -> bool {
    let mirrored = small.mirrored(a);
    small.first_unmet_rule(&mirrored).is_none()
        && small.program.constraints.iter().all(|c| constraint_met(c, a))
        && small.models(&mirrored).iter().all(|m| m.iter().zip(&mirrored).all(|(x, y)| x >= y))
}

fn try_least(
    calls: &Calls,
    small: &Small,
    file: &[u8],
    a: &[i64],
    tried: &mut Tried,
) -> Result<(), String> {
    let models = small.models(&small.mirrored(a));
    let mut buffer = vec![FILL; 2 * a.len() + 3];
    let mut due = buffer.clone();
    let answer = (calls.least)(file, &bytes(a), &mut buffer);
    let least_one: Vec<i64> =
        (0..a.len()).map(|v| models.iter().map(|m| m[v]).min().unwrap_or(0)).collect();
    let wanted = if models.is_empty() { Solved::None } else { Solved::Found };
    if wanted == Solved::Found {
        if !models.contains(&least_one) {
            return Err("models have no least one".to_string());
        }
        due[..2 * a.len()].copy_from_slice(&bytes(&small.mirrored(&least_one)));
    } else {
        tried.no_model += 1;
        let lifted = small.program.variables.iter().any(|v| v.kind == Kind::Below);
        tried.above_no_model += usize::from(!lifted);
    }
    if answer != wanted || buffer != due {
        return Err(format!("least: {answer:?}, {wanted:?} was due, {buffer:?}, {due:?}"));
    }
    Ok(())
}

fn try_check(
    calls: &Calls,
    small: &Small,
    file: &[u8],
    a: &[i64],
    stable: &[Vec<i64>],
    tried: &mut Tried,
) -> Result<(), String> {
    let n = a.len();
    let mut report = vec![FILL; 12 * n + 5];
    let verdict = (calls.check)(file, &bytes(a), &mut report);
    let sets = small.unfounded_sets(&small.mirrored(a));
    try_verdict(small, a, verdict, sets.is_empty(), tried)?;
    let Verdict::Unfounded(bounds, conditions) = verdict else {
        return if report.iter().all(|&b| b == FILL) { Ok(()) } else { Err("wrote".to_string()) };
    };
    tried.sets += sets.len();
    if bounds + conditions == 3 * n {
        tried.full += 1;
        try_full(calls, file, a, verdict, &report[..12 * n])?;
    }
    if report[4 * (bounds + conditions)..].iter().any(|&b| b != FILL) {
        return Err("wrote beyond the last entry".to_string());
    }
    let entry = |e: &[u8]| (usize::from(e[0]), e[1], signed(e, 2));
    let entries: Vec<Entry> = report.chunks(4).take(bounds + conditions).map(entry).collect();
    let (first, second) = entries.split_at(bounds);
    let shown = try_set(small, first, &sets, tried)?;
    try_conditions(small, a, second, &shown)?;
    let mirrored: Vec<Vec<i64>> =
        stable.iter().filter(|s| true_of(second, s)).map(|s| small.mirrored(s)).collect();
    tried.kept_below += mirrored.len();
    tried.kept_above += if first.iter().any(|e| e.1 == 3) { mirrored.len() } else { 0 };
    match mirrored.iter().find(|other| (0..n).any(|v| shown[v] != OUT && other[v] > shown[v])) {
        Some(other) => Err(format!("stable {other:?} meets the conditions and passes a bound")),
        None => Ok(()),
    }
}

type Entry = (usize, u8, i64);

/// Is this the verdict that is due, so far as its word goes?
fn try_verdict(
    small: &Small,
    a: &[i64],
    verdict: Verdict,
    no_set: bool,
    tried: &mut Tried,
) -> Result<(), String> {
    let unmet = small.first_unmet_rule(&small.mirrored(a));
    let unmet_constraint = small.program.constraints.iter().position(|c| !constraint_met(c, a));
    let fits = match (unmet, unmet_constraint) {
        (Some(rule), _) => verdict == Verdict::Rule(rule),
        (None, Some(constraint)) => verdict == Verdict::Constraint(constraint),
        _ => matches!(verdict, Verdict::Unfounded(..)) != no_set,
    };
    if !fits || (verdict == Verdict::Stable) != is_stable(small, a) {
        return Err(format!("{verdict:?}, no unfounded set: {no_set}"));
    }
    let variables = &small.program.variables;
    let above = |r: usize| variables[small.program.rules[r].head].above();
    let pushed = (0..a.len()).any(|v| variables[v].above() && a[v] < variables[v].high);
    tried.above_rule += usize::from(unmet.is_some_and(above));
    tried.unfounded += usize::from(matches!(verdict, Verdict::Unfounded(..)));
    tried.stable += usize::from(verdict == Verdict::Stable);
    tried.above_stable += usize::from(verdict == Verdict::Stable && pushed);
    Ok(())
}

fn ascending(entries: &[Entry]) -> bool {
    entries.windows(2).all(|w| (w[0].0, w[0].1) < (w[1].0, w[1].1))
}

/// The set shown, mirrored: it is an unfounded set itself, and contains every
/// other, none with a bound above that set's.
fn try_set(
    small: &Small,
    entries: &[Entry],
    sets: &[Vec<i64>],
    tried: &mut Tried,
) -> Result<Vec<i64>, String> {
    let variables = &small.program.variables;
    let marked = |e: &Entry| match variables[e.0].kind {
        Kind::Standard => false,
        Kind::Below => e.1 == 0,
        Kind::Above => e.1 == 3,
    };
    let by_variable = entries.windows(2).all(|w| w[0].0 < w[1].0);
    if !by_variable || !entries.iter().all(marked) {
        return Err(format!("order or marks: {entries:?}"));
    }
    let mut plain = vec![0; variables.len()];
    entries.iter().for_each(|e| plain[e.0] = e.2);
    let mirrored = small.mirrored(&plain);
    let mut shown = vec![OUT; variables.len()];
    entries.iter().for_each(|e| shown[e.0] = mirrored[e.0]);
    if !sets.contains(&shown) {
        return Err(format!("shown set is not unfounded: {shown:?}"));
    }
    let passes = |set: &&Vec<i64>| (0..shown.len()).any(|v| set[v] != OUT && shown[v] > set[v]);
    if let Some(set) = sets.iter().find(passes) {
        return Err(format!("{shown:?} does not contain {set:?}"));
    }
    let first_of = |mark: u8| entries.iter().position(|e| e.1 == mark);
    let last_zero = entries.iter().rposition(|e| e.1 == 0);
    tried.above_unfounded += usize::from(first_of(3).is_some());
    tried.both_unfounded += usize::from(first_of(3).is_some() && last_zero.is_some());
    tried.interleaved += usize::from(first_of(3).is_some() && first_of(3) < last_zero);
    Ok(shown)
}

/// The conditions are those due, with the assigned values.
fn try_conditions(small: &Small, a: &[i64], entries: &[Entry], shown: &[i64]) -> Result<(), String> {
    let pairs: Vec<(usize, u8)> = entries.iter().map(|e| (e.0, e.1)).collect();
    let assigned = entries.iter().all(|&(v, _, number)| number == a[v]);
    if !ascending(entries) || pairs != small.conditions(shown) || !assigned || !true_of(entries, a) {
        return Err(format!("conditions: {entries:?}"));
    }
    Ok(())
}

fn true_of(conditions: &[Entry], values: &[i64]) -> bool {
    conditions.iter().all(|&(v, mark, number)| match mark {
        1 => values[v] <= number,
        _ => values[v] >= number,
    })
}

/// A full report again, with a buffer that is just long enough, and with one
/// that is a byte too short.
fn try_full(
    calls: &Calls,
    file: &[u8],
    a: &[i64],
    verdict: Verdict,
    report: &[u8],
) -> Result<(), String> {
    let mut filled = vec![FILL; report.len()];
    let again = (calls.check)(file, &bytes(a), &mut filled);
    if again != verdict || filled != report {
        return Err(format!("{again:?} with a buffer just long enough, {filled:?}"));
    }
    let mut short = vec![FILL; report.len() - 1];
    let refused = (calls.check)(file, &bytes(a), &mut short);
    if refused != (Verdict::Refused { number: 15, place: 0 }) || short.iter().any(|&b| b != FILL) {
        return Err(format!("{refused:?} with a buffer one byte short, {short:?}"));
    }
    Ok(())
}
