//! The walk over edges of small files: which edges there are is tried, as in
//! `defs`, and each walk is looked for stop by stop.

use std::ops::Range;

use super::defs::Small;
use super::tried::Stepped;
use crate::gen;
use crate::program::VARIABLES;
use crate::reader::parse_fields;
use crate::stepped::{begin, rounds, try_graphs, Rounds, Walk};
use crate::walk::{has, Begun, WORDS};
use crate::wrong::Wrong;
use crate::Reading;

/// Is there a walk from x to y over one edge or more, each stop between one of
/// these? One that comes by a stop twice has a shorter one.
pub fn walks(edges: &[Vec<bool>], x: usize, y: usize, stops: &[usize]) -> bool {
    let without = |z: usize| stops.iter().copied().filter(|&stop| stop != z).collect::<Vec<_>>();
    edges[x][y] || stops.iter().any(|&z| edges[x][z] && walks(edges, z, y, &without(z)))
}

/// Tries the small files of these seeds, and every graph of up to four variables.
/// Answers what was tried, how many graphs, and what failed.
pub fn try_walks(walk: &Walk, seeds: Range<u64>) -> (Stepped, u64, Vec<String>) {
    let mut tried = Stepped::default();
    let files = seeds.flat_map(|seed| [gen::small(seed), gen::walks::small(seed)].map(|f| (seed, f)));
    let fails = |(seed, file): (u64, Vec<u8>)| {
        let what = try_walk(walk, &file, &mut tried).err()?;
        Some(format!("walk of small program {seed}: {what}"))
    };
    let mut failures: Vec<String> = files.filter_map(fails).collect();
    let graphs: Vec<Result<u64, String>> = (1..=4).map(|n| try_graphs(walk, n)).collect();
    failures.extend(graphs.iter().filter_map(|graphs| graphs.clone().err()));
    (tried, graphs.into_iter().flatten().sum(), failures)
}

/// Tries begin, every round, the components and refusal 13 on a small file. The
/// error says what failed.
pub fn try_walk(walk: &Walk, file: &[u8], tried: &mut Stepped) -> Result<(), String> {
    let Ok(program) = parse_fields(file, Wrong::Nothing) else { return Ok(()) };
    let small = Small::of(program);
    let idle = small.idle();
    let edges = small.edges(&idle);
    let n = edges.len();
    let began = begin(walk, file, vec![!0; WORDS * n + 1]);
    let sets = match (began.answer, began.after) {
        (Begun::Begun(count), Some(sets)) if count == n => sets,
        other => return Err(format!("begin: {:?}, {n} variables", other.0)),
    };
    try_sets(&edges, &sets, &[]).map_err(|what| format!("begin: {what}"))?;
    let seen = rounds(walk, sets, n, &[n]);
    for round in &seen.rounds {
        let stops: Vec<usize> = (0..=round.k).collect();
        let after = round.after.as_ref().filter(|_| round.answer).ok_or("no round")?;
        try_sets(&edges, after, &stops).map_err(|what| format!("round {}: {what}", round.k))?;
        tried.moved += usize::from(*after != round.before);
        tried.unmoved += usize::from(*after == round.before);
    }
    let firsts = try_firsts(&edges, &seen)?;
    try_thirteen(walk, &small, file, &idle, &firsts, tried)?;
    count(&small, &edges, &firsts, tried);
    Ok(())
}

/// Each set has exactly those that a walk leads to, and one word is left as it
/// was.
fn try_sets(edges: &[Vec<bool>], sets: &[u64], stops: &[usize]) -> Result<(), String> {
    let n = edges.len();
    let due = |x: usize, y: usize| y < n && walks(edges, x, y, stops);
    let pairs = (0..n).flat_map(|x| (0..VARIABLES).map(move |y| (x, y)));
    if let Some((x, y)) = pairs.into_iter().find(|&(x, y)| has(sets, x, y) != due(x, y)) {
        return Err(format!("from {x} to {y}, {} was due", due(x, y)));
    }
    match sets[WORDS * n..] == [!0] {
        true => Ok(()),
        false => Err("the word after the sets".to_string()),
    }
}

/// The component of each variable: the first one that is itself, or that it
/// reaches and that reaches it.
fn try_firsts(edges: &[Vec<bool>], seen: &Rounds) -> Result<Vec<usize>, String> {
    let n = edges.len();
    let all: Vec<usize> = (0..n).collect();
    let back = |x: usize, y: usize| walks(edges, x, y, &all) && walks(edges, y, x, &all);
    let first = |x: usize| (0..n).find(|&y| y == x || back(x, y)).unwrap_or(x);
    let firsts: Vec<usize> = (0..n).map(first).collect();
    let bytes: Option<Vec<u8>> = seen.components[0].after.clone();
    let read_off = bytes.map(|list| list.into_iter().map(usize::from).collect::<Vec<_>>());
    match seen.components[0].answer && read_off.as_ref() == Some(&firsts) {
        true => Ok(firsts),
        false => Err(format!("components {read_off:?}, {firsts:?} were due")),
    }
}

/// Refusal 13 names the first rule that is not idle and has a mixed variable of
/// its head's component.
fn try_thirteen(
    walk: &Walk,
    small: &Small,
    file: &[u8],
    idle: &[bool],
    firsts: &[usize],
    tried: &mut Stepped,
) -> Result<(), String> {
    let inside = |r: usize| {
        let rule = &small.program.rules[r];
        small.mixed(r).any(|v| firsts[v] == firsts[rule.head])
    };
    let offending = (0..idle.len()).find(|&r| !idle[r] && inside(r));
    let due = offending.map(|r| (13, small.program.rules[r].place));
    let said = match (walk.read)(file) {
        Reading::Refused { number, place } => Some((number, place)),
        Reading::Accepted { .. } => None,
    };
    let mixed = (0..idle.len()).any(|r| !idle[r] && small.mixed(r).next().is_some());
    tried.invalid += usize::from(due.is_some());
    tried.mixed_outside += usize::from(due.is_none() && mixed);
    tried.mixed_idle += usize::from(due.is_none() && (0..idle.len()).any(|r| idle[r] && inside(r)));
    match said == due {
        true => Ok(()),
        false => Err(format!("read: {said:?}, {due:?} was due")),
    }
}

fn count(small: &Small, edges: &[Vec<bool>], firsts: &[usize], tried: &mut Stepped) {
    let n = edges.len();
    let without = small.edges(&vec![false; small.program.rules.len()]);
    let pairs = || (0..n).flat_map(|x| (0..n).map(move |y| (x, y)));
    let founded = |v: usize| small.program.variables[v].founded();
    let shared = |x: usize| (0..n).any(|y| y != x && firsts[x] == firsts[y]);
    let one_way = |x: usize, y: usize| edges[x][y] && firsts[x] != firsts[y];
    tried.programs += 1;
    tried.edges += pairs().filter(|&(x, y)| edges[x][y]).count();
    tried.left_out += pairs().filter(|&(x, y)| without[x][y] && !edges[x][y]).count();
    tried.to_standard += pairs().filter(|&(x, y)| edges[x][y] && !founded(y)).count();
    tried.shared += usize::from((0..n).any(shared));
    tried.one_way += usize::from(pairs().any(|(x, y)| one_way(x, y) && shared(x) && shared(y)));
}
