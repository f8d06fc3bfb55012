//! A second checker for founded cover files, written from documents 01 and 02,
//! the papers and the settled points alone. Clarity comes before speed: plain
//! structures, plain searches, naive iteration.
//!
//! The calls are `read`, `least`, `check` and `normalize`, `begin`, `step` and
//! `components`, `flatten`, `bounds`, and `print`, `print_normal`, `print_flat` and
//! `print_bounds` for the programs. Each has a twin ending in `_with` that takes a
//! [`Wrong`]: a deliberate mistake, used to see whether the generator would notice it.
//! `Wrong::Nothing` is the checker.

pub mod above;
pub mod anew;
pub mod bounded;
pub mod bounds;
pub mod brute;
pub mod calls;
pub mod flat;
pub mod flattened;
pub mod gen;
pub mod graph;
pub mod idle;
mod idle_above;
pub mod idling;
pub mod lent;
pub mod meaning;
pub mod mirror;
pub mod nested;
pub mod normal;
pub mod plan;
pub mod printing;
pub mod program;
pub mod reader;
pub mod refused;
pub mod stepped;
pub mod tally;
pub mod tree;
pub mod walk;
pub mod wrong;

pub use bounds::Bounded;
pub use calls::{Reading, Solved, Verdict};
pub use normal::Normal;
pub use walk::Begun;
pub use wrong::Wrong;

/// Reads a file: its three counts, or the first refusal.
pub fn read(file: &[u8]) -> Reading {
    calls::read_with(file, Wrong::Nothing)
}

/// The least model of the reduct; writes only when it answers `Found`.
pub fn least(file: &[u8], assignment: &[u8], buffer: &mut [u8]) -> Solved {
    calls::least_with(file, assignment, buffer, Wrong::Nothing)
}

/// The verdict on an assignment; writes only when it answers `Unfounded`.
pub fn check(file: &[u8], assignment: &[u8], report: &mut [u8]) -> Verdict {
    calls::check_with(file, assignment, report, Wrong::Nothing)
}

/// What the printing program prints for this standard input.
pub fn print(input: &[u8]) -> Vec<u8> {
    printing::print_with(input, Wrong::Nothing)
}

/// Writes an accepted file anew and answers the length; a refusal writes nothing.
pub fn normalize(file: &[u8], buffer: &mut [u8]) -> Normal {
    normal::normalize_with(file, buffer, Wrong::Nothing)
}

/// What the program of the normal form prints for this standard input.
pub fn print_normal(input: &[u8]) -> Vec<u8> {
    normal::print_normal_with(input, Wrong::Nothing)
}

/// The sets of reached variables before the first round: the edges of a file
/// whose fields pass. A refusal writes nothing.
pub fn begin(file: &[u8], sets: &mut [u64]) -> Begun {
    walk::begin_with(file, sets, Wrong::Nothing)
}

/// The round of variable k among so many; `false` writes nothing.
pub fn step(sets: &mut [u64], variables: usize, k: usize) -> bool {
    walk::step_with(sets, variables, k, Wrong::Nothing)
}

/// The component of each variable, read off sets; `false` writes nothing.
pub fn components(sets: &[u64], variables: usize, buffer: &mut [u8]) -> bool {
    walk::components_with(sets, variables, buffer, Wrong::Nothing)
}

/// Converts a nested file to a plain one and answers the length; a refusal writes
/// nothing.
pub fn flatten(nested: &[u8], buffer: &mut [u8]) -> Normal {
    flat::flatten_with(nested, buffer, Wrong::Nothing)
}

/// What the program that flattens prints for this standard input.
pub fn print_flat(input: &[u8]) -> Vec<u8> {
    flat::print_flat_with(input, Wrong::Nothing)
}

/// How far each founded variable can be lifted inside lent ranges; a refusal writes
/// nothing.
pub fn bounds(file: &[u8], ranges: &[u8], buffer: &mut [u8]) -> Bounded {
    bounds::bounds_with(file, ranges, buffer, Wrong::Nothing)
}

/// What the program of the bounds prints for this standard input.
pub fn print_bounds(input: &[u8]) -> Vec<u8> {
    bounds::print_bounds_with(input, Wrong::Nothing)
}
