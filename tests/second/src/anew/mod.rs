//! The sentences about the normal form, tried on what the given calls answer.
//! What has to be written follows from the plan of a file (src/plan.rs).

mod names;

use crate::brute::Calls;
use crate::gen::anew::Case;
use crate::lent;
use crate::normal::Normal;
use crate::plan::Plan;
use crate::tally::Tally;
use crate::{Reading, Solved, Verdict};
pub use names::required;

pub type Normalize<'a> = &'a dyn Fn(&[u8], &mut [u8]) -> Normal;

/// What buffers hold before, and what stands on each side.
const FILL: u8 = 0xA5;

/// Makes a call with a buffer of this length, full of one byte.
pub fn lend<A>(length: usize, call: impl FnOnce(&mut [u8]) -> A) -> (A, Option<Vec<u8>>) {
    lend_from(&vec![FILL; length], call)
}

/// Makes a call with a buffer that holds these bytes and stands in the middle of
/// a larger one. Answers its bytes too, or nothing where one around it has
/// changed.
pub fn lend_from<A>(before: &[u8], call: impl FnOnce(&mut [u8]) -> A) -> (A, Option<Vec<u8>>) {
    lent::lend_from(FILL, before, call)
}

/// The answer and the buffer's bytes that are due for a buffer of this length.
fn due(reading: Reading, plan: Option<&Plan>, file: &[u8], length: usize) -> (Normal, Vec<u8>) {
    let mut bytes = vec![FILL; length];
    let answer = match (reading, plan) {
        (Reading::Refused { number, place }, _) => Normal::Refused { number, place },
        (_, Some(plan)) if length >= file.len() => {
            let out = plan.bytes();
            bytes[..out.len()].copy_from_slice(&out);
            Normal::Written(out.len())
        }
        _ => Normal::Refused { number: 17, place: 0 },
    };
    (answer, bytes)
}

/// Tries everything on a case. The error says what failed.
pub fn try_case(
    calls: &Calls,
    normalize: Normalize,
    case: &Case,
    tally: &mut Tally,
) -> Result<(), String> {
    tally.hit(format!("made: {}", case.label));
    let plan = Plan::of(&case.file);
    let reading = (calls.read)(&case.file);
    let mut lengths = vec![case.buffer];
    if plan.is_some() && !case.file.is_empty() {
        lengths.push(case.file.len() - 1);
    }
    for length in lengths {
        let (answer, bytes) = lend(length, |buffer| normalize(&case.file, buffer));
        let (wanted, room) = due(reading, plan.as_ref(), &case.file, length);
        if answer != wanted || bytes.as_ref() != Some(&room) {
            return Err(format!("buffer of {length}: {answer:?}, {wanted:?} was due; or its bytes"));
        }
        names::of_answer(case, length, answer, plan.as_ref()).for_each(|name| tally.hit(name));
    }
    let Some(plan) = plan else { return Ok(()) };
    let out = written(normalize, &case.file)?;
    try_output(calls, normalize, &plan, &out)?;
    try_others(normalize, case, &plan, &out, tally)?;
    for (assignment, report) in &case.assignments {
        try_assignment(calls, [&case.file, &out], assignment, *report, tally)?;
    }
    names::of_file(case, &plan, &out).into_iter().for_each(|name| tally.hit(name));
    Ok(())
}

/// The normal form of an accepted file, with a buffer just long enough.
pub fn written(normalize: Normalize, file: &[u8]) -> Result<Vec<u8>, String> {
    match lend(file.len(), |buffer| normalize(file, buffer)) {
        (Normal::Written(length), Some(bytes)) if length <= file.len() => Ok(bytes[..length].to_vec()),
        (answer, _) => Err(format!("{answer:?} for an accepted file of {} bytes", file.len())),
    }
}

/// An output has what the plan has, is accepted, and is its own normal form.
fn try_output(calls: &Calls, normalize: Normalize, plan: &Plan, out: &[u8]) -> Result<(), String> {
    plan.is_written(out)?;
    let (variables, rules, constraints) =
        (plan.variables.len(), plan.rules.len(), plan.constraints.len());
    let reading = (calls.read)(out);
    if reading != (Reading::Accepted { variables, rules, constraints }) {
        return Err(format!("the output is read so: {reading:?}"));
    }
    match written(normalize, out)? == out {
        true => Ok(()),
        false => Err("the output is written otherwise".to_string()),
    }
}

/// Outputs are equal exactly when the plans are.
fn try_others(
    normalize: Normalize,
    case: &Case,
    plan: &Plan,
    out: &[u8],
    tally: &mut Tally,
) -> Result<(), String> {
    if let Some(copy) = &case.copy {
        if Plan::of(copy).as_ref() != Some(plan) {
            return Err("the copy is another plan".to_string());
        }
        if written(normalize, copy)? != out {
            return Err("a copy has another output".to_string());
        }
        tally.hit(if *copy == case.file { "copy: the same bytes" } else { "copy: other bytes" });
    }
    if let Some((name, other)) = &case.other {
        if Plan::of(other).as_ref() == Some(plan) {
            return Err(format!("{name}: the other file is the same plan"));
        }
        if written(normalize, other)? == out {
            return Err(format!("{name}: another plan has the same output"));
        }
        tally.hit(format!("another plan: {name}"));
    }
    Ok(())
}

/// Least and check answer and write the same on a file and on its normal form,
/// but for the number of a rule or constraint.
fn try_assignment(
    calls: &Calls,
    files: [&[u8]; 2],
    assignment: &[u8],
    room: usize,
    tally: &mut Tally,
) -> Result<(), String> {
    let [one, other] = files.map(|file| lend(room, |buffer| (calls.least)(file, assignment, buffer)));
    if one != other || one.1.is_none() {
        return Err(format!("least: {:?}, on the output {:?}", one.0, other.0));
    }
    tally.hit(match one.0 {
        Solved::Refused { number, .. } => format!("least alike: refusal {number}"),
        Solved::Range(_) => "least alike: range".to_string(),
        Solved::None => "least alike: none".to_string(),
        Solved::Found => "least alike: found".to_string(),
    });
    let [one, other] = files.map(|file| lend(room, |report| (calls.check)(file, assignment, report)));
    let name = match (one.0, other.0) {
        (Verdict::Rule(i), Verdict::Rule(j)) if i != j => "rule, another number".to_string(),
        (Verdict::Rule(_), Verdict::Rule(_)) => "rule, the same number".to_string(),
        (Verdict::Constraint(i), Verdict::Constraint(j)) if i != j => {
            "constraint, another number".to_string()
        }
        (a, b) if a != b => return Err(format!("check: {a:?}, on the output {b:?}")),
        (Verdict::Constraint(_), _) => "constraint, the same number".to_string(),
        (Verdict::Refused { number, .. }, _) => format!("refusal {number}"),
        (Verdict::Range(_), _) => "range".to_string(),
        (Verdict::Unfounded(..), _) => "unfounded".to_string(),
        _ => "stable".to_string(),
    };
    tally.hit(format!("check alike: {name}"));
    match one.1 == other.1 && one.1.is_some() {
        true => Ok(()),
        false => Err(format!("check, {:?}: it does not write the same on the output", one.0)),
    }
}
