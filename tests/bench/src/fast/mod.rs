//! The calls written for speed alone: one pass that tries each field, rules and constraints as structs over slices of the file, graphs and
//! lists of readers only where they are needed and as large as the file, and an end as soon as the answer is known.
mod bounds;
mod flat;
mod graph;
mod jump;
mod normal;
mod read;
mod run;
mod search;
mod set;

use crate::port::pack;
pub use bounds::bounds_call;
pub use flat::flatten_call;
pub use jump::tallied;
pub use normal::normalize_call;
use read::{Program, Refusal, Skip};
use run::Values;
pub use search::{begin_call, components_call, step_call};
use set::Set;

fn refused(r: Refusal) -> u64 {
    pack(6, r.number, r.place, 0)
}

pub fn read_call(file: &[u8]) -> u64 {
    match read::read(file, &mut Skip) {
        Ok(n) => pack(7, n.variables.len(), n.rules, n.constraints),
        Err(r) => refused(r),
    }
}

/// The program with the assigned values, or the answer where it is a refusal or `range`.
fn open<'a>(file: &'a [u8], assignment: &[u8], room: usize, bytes: usize) -> Result<(Program<'a>, Values), u64> {
    let program = Program::read(file).map_err(refused)?;
    let n = program.variables.len();
    if assignment.len() != 2 * n {
        return Err(pack(6, 14, 0, 0));
    }
    if room < bytes * n {
        return Err(pack(6, 15, 0, 0));
    }
    let mut assigned = [0; 256];
    for (v, (variable, value)) in program.variables.iter().zip(assignment.as_chunks::<2>().0).enumerate() {
        let z = i16::from_be_bytes(*value);
        if z < read::low(variable) || z > read::high(variable) {
            return Err(pack(5, v, 0, 0));
        }
        assigned[v] = z;
    }
    Ok((program, assigned))
}

pub fn least_call(file: &[u8], assignment: &[u8], buffer: &mut [u8]) -> u64 {
    let (program, assigned) = match open(file, assignment, buffer.len(), 2) {
        Ok(opened) => opened,
        Err(answer) => return answer,
    };
    let Some(model) = run::least(&program, &assigned) else { return pack(9, 0, 0, 0) };
    for (out, z) in buffer.as_chunks_mut::<2>().0.iter_mut().zip(&model[..program.variables.len()]) {
        *out = z.to_be_bytes();
    }
    pack(8, 0, 0, 0)
}

pub fn check_call(file: &[u8], assignment: &[u8], report: &mut [u8]) -> u64 {
    let (program, assigned) = match open(file, assignment, report.len(), 12) {
        Ok(opened) => opened,
        Err(answer) => return answer,
    };
    let unmet = |r: &read::Rule| run::more(program.variables, r, &assigned, &assigned, assigned[r.head as usize]).is_some();
    if let Some(i) = program.rules.iter().position(unmet) {
        return pack(4, i, 0, 0);
    }
    if let Some(i) = program.constraints.iter().position(|c| !run::satisfied(c, &assigned)) {
        return pack(3, i, 0, 0);
    }
    match run::short(&program, &assigned) {
        None => pack(1, 0, 0, 0),
        Some((model, set)) => shown(&program, &assigned, &model, &set, report),
    }
}

/// Writes the report of a set that nothing holds up.
fn shown(program: &Program, assigned: &Values, model: &Values, set: &Set, report: &mut [u8]) -> u64 {
    let (mut most, mut least) = (Set::EMPTY, Set::EMPTY);
    for rule in program.rules.iter().filter(|r| set.has(r.head)) {
        for (i, t) in rule.terms.iter().enumerate() {
            let x = t[0];
            let (rising, falling) = read::directions(program.variables, rule, i);
            let v = &program.variables[x as usize];
            // a mixed place is not kept, nor is one of a variable that moves the other way
            let kept = read::founded(v) && (rising != falling) && falling == read::from_above(v);
            if kept && set.has(x) {
                continue;
            }
            if rising {
                most.put(x);
            }
            if falling {
                least.put(x);
            }
        }
    }
    let mut entries = report.as_chunks_mut::<4>().0.iter_mut();
    let mut put = |v: u8, mark: u8, z: i16| {
        let [hi, lo] = z.to_be_bytes();
        if let Some(entry) = entries.next() {
            *entry = [v, mark, hi, lo];
        }
    };
    let (mut bounds, mut conditions) = (0, 0);
    for v in set.members() {
        let mark = if read::from_above(&program.variables[v as usize]) { 3 } else { 0 };
        put(v, mark, model[v as usize]);
        bounds += 1;
    }
    for v in most.or(&least).members() {
        for (mark, which) in [(1, &most), (2, &least)] {
            if which.has(v) {
                put(v, mark, assigned[v as usize]);
                conditions += 1;
            }
        }
    }
    pack(2, bounds, conditions, 0)
}
