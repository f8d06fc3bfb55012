//! The sentences about the walk over edges, tried on what the given calls answer.
//! What has to be reached follows from a search over paths with allowed stops
//! (src/graph.rs), and not from rounds.

mod names;

use crate::calls::read_with;
use crate::gen::walks::{Case, Shot};
use crate::graph;
use crate::lent::lend_from;
use crate::meaning::Direction;
use crate::program::{Program, Rule, VARIABLES};
use crate::reader::{parse_fields, Refusal};
use crate::tally::Tally;
use crate::walk::{begin_with, components_with, has, step_with, Begun, WORDS};
use crate::wrong::Wrong;
use crate::Reading;
pub use names::required;

/// Sets are lent to be written, so that it shows when they are.
pub type ReadOff<'a> = &'a dyn Fn(&mut [u64], usize, &mut [u8]) -> bool;

/// The calls that are tried.
pub struct Walk<'a> {
    pub read: &'a dyn Fn(&[u8]) -> Reading,
    pub begin: &'a dyn Fn(&[u8], &mut [u64]) -> Begun,
    pub step: &'a dyn Fn(&mut [u64], usize, usize) -> bool,
    pub components: ReadOff<'a>,
}

/// This checker's own.
pub const OWN: Walk = Walk {
    read: &crate::read,
    begin: &crate::begin,
    step: &crate::step,
    components: &|sets, variables, buffer| crate::components(sets, variables, buffer),
};

/// This checker's own with a mistake.
pub fn with<A>(wrong: Wrong, tried: impl FnOnce(&Walk) -> A) -> A {
    tried(&Walk {
        read: &|file| read_with(file, wrong),
        begin: &|file, sets| begin_with(file, sets, wrong),
        step: &|sets, variables, k| step_with(sets, variables, k, wrong),
        components: &|sets, variables, buffer| components_with(sets, variables, buffer, wrong),
    })
}

/// What stands around lent words and bytes.
const AROUND: u64 = 0x5AA5_C33C_0FF0_9669;
const FILL: u8 = 0xA5;

/// An answer, with what the words held before and after; nothing where one
/// around them has changed.
#[derive(Clone, Debug, PartialEq, Eq)]
pub struct Began {
    pub before: Vec<u64>,
    pub answer: Begun,
    pub after: Option<Vec<u64>>,
}

#[derive(Clone, Debug, PartialEq, Eq)]
pub struct Round {
    pub variables: usize,
    pub k: usize,
    pub before: Vec<u64>,
    pub answer: bool,
    pub after: Option<Vec<u64>>,
}

#[derive(Clone, Debug, PartialEq, Eq)]
pub struct Components {
    pub variables: usize,
    pub sets: Vec<u64>,
    pub sets_after: Option<Vec<u64>>,
    /// How many bytes are lent, all `FILL` before.
    pub lent: usize,
    pub answer: bool,
    pub after: Option<Vec<u8>>,
}

/// Rounds from the first to the last variable, and what was read off at the end.
#[derive(Clone, Debug, PartialEq, Eq)]
pub struct Rounds {
    pub variables: usize,
    pub rounds: Vec<Round>,
    pub components: Vec<Components>,
}

/// All answers on a case, with all words and bytes.
#[derive(Clone, Debug, PartialEq, Eq)]
pub struct Seen {
    pub reading: Reading,
    pub begins: Vec<Began>,
    /// Of the file's own sets, where there are any.
    pub rounds: Option<Rounds>,
    /// Single steps and components of the shots, and rounds of some.
    pub steps: Vec<Round>,
    pub components: Vec<Components>,
    pub runs: Vec<Rounds>,
}

pub fn begin(walk: &Walk, file: &[u8], before: Vec<u64>) -> Began {
    let (answer, after) = lend_from(AROUND, &before, |sets| (walk.begin)(file, sets));
    Began { before, answer, after }
}

pub fn step(walk: &Walk, before: Vec<u64>, variables: usize, k: usize) -> Round {
    let (answer, after) = lend_from(AROUND, &before, |sets| (walk.step)(sets, variables, k));
    Round { variables, k, before, answer, after }
}

pub fn components(walk: &Walk, sets: Vec<u64>, variables: usize, lent: usize) -> Components {
    let call = |sets: &mut [u64]| {
        lend_from(FILL, &vec![FILL; lent], |buffer| (walk.components)(sets, variables, buffer))
    };
    let ((answer, after), sets_after) = lend_from(AROUND, &sets, call);
    Components { variables, sets, sets_after, lent, answer, after }
}

/// Every round in ascending order. Where one gives no words the next has those
/// of before.
pub fn rounds(walk: &Walk, mut sets: Vec<u64>, variables: usize, lent: &[usize]) -> Rounds {
    let mut list = Vec::new();
    for k in 0..variables {
        let round = step(walk, sets, variables, k);
        sets = round.after.clone().unwrap_or_else(|| round.before.clone());
        list.push(round);
    }
    let read_off = |&lent: &usize| components(walk, sets.clone(), variables, lent);
    Rounds { variables, rounds: list, components: lent.iter().map(read_off).collect() }
}

/// How many variables a file has, where its fields pass.
fn counted(file: &[u8]) -> Option<usize> {
    Some(parse_fields(file, Wrong::Nothing).ok()?.variables.len())
}

/// The sets before the first round, for words of several lengths: the case's own,
/// and where the fields pass more than enough, just enough, and one too few.
pub fn begins(walk: &Walk, case: &Case) -> Vec<Began> {
    let around = |n: usize| [WORDS * n + 3, WORDS * n, (WORDS * n).saturating_sub(1)];
    let lengths = counted(&case.file).map(around).into_iter().flatten();
    let word = |i: usize| case.sets.get(i % case.sets.len().max(1)).copied().unwrap_or(!AROUND);
    let words = |length: usize| (0..length).map(word).collect();
    let tried = |length: usize| begin(walk, &case.file, words(length));
    [case.sets.len()].into_iter().chain(lengths).map(tried).collect()
}

/// Makes all calls on a case.
pub fn see(walk: &Walk, case: &Case) -> Seen {
    let reading = (walk.read)(&case.file);
    let begins = begins(walk, case);
    let longer = begins.get(1).and_then(|began| began.after.clone());
    let own = counted(&case.file).zip(longer);
    let lent = |n: usize| [n, n + 2, n.saturating_sub(1), case.buffer];
    let single = |shot: &Shot| step(walk, shot.sets.clone(), shot.variables, shot.k);
    let read_off = |s: &Shot| components(walk, s.sets.clone(), s.variables, s.buffer);
    let all = |s: &Shot| rounds(walk, s.sets.clone(), s.variables, &[s.variables]);
    Seen {
        reading,
        begins,
        rounds: own.map(|(n, sets)| rounds(walk, sets, n, &lent(n))),
        steps: case.shots.iter().map(single).collect(),
        components: case.shots.iter().map(read_off).collect(),
        runs: case.shots.iter().filter(|shot| shot.all).map(all).collect(),
    }
}

/// What two libraries answer where they differ first.
pub fn difference(one: &Seen, other: &Seen) -> Option<String> {
    if one.reading != other.reading {
        return Some(format!("read: {:?}, {:?}", one.reading, other.reading));
    }
    let list = |seen: &Seen| seen.rounds.iter().chain(&seen.runs).cloned().collect::<Vec<_>>();
    let (rounds, others) = (list(one), list(other));
    let of_rounds = |(one, other): (&Rounds, &Rounds)| {
        first_other(&one.rounds, &other.rounds)
            .or_else(|| first_other(&one.components, &other.components))
    };
    first_other(&one.begins, &other.begins)
        .or_else(|| rounds.iter().zip(&others).find_map(of_rounds))
        .or_else(|| first_other(&one.steps, &other.steps))
        .or_else(|| first_other(&one.components, &other.components))
        .or_else(|| (one != other).then(|| "one has more rounds".to_string()))
}

fn first_other<T: PartialEq + Said>(one: &[T], other: &[T]) -> Option<String> {
    let i = (0..one.len().max(other.len())).find(|&i| one.get(i) != other.get(i))?;
    let [one, other] = [one, other].map(|list| list.get(i).map_or(String::new(), Said::said));
    Some(format!("{one}, or {other}"))
}

/// A call and its answer.
trait Said {
    fn said(&self) -> String;
}

impl Said for Began {
    fn said(&self) -> String {
        format!("begin with {} words: {:?}", self.before.len(), self.answer)
    }
}

impl Said for Round {
    fn said(&self) -> String {
        let Round { variables, k, before, answer, .. } = self;
        format!("step {k} of {variables} with {} words: {answer}", before.len())
    }
}

impl Said for Components {
    fn said(&self) -> String {
        let Components { variables, sets, lent, answer, after, .. } = self;
        let words = sets.len();
        format!("components of {variables}, {words} words, {lent} bytes: {answer} {after:?}")
    }
}

/// Tries every sentence on what was seen. The error says what failed.
pub fn try_seen(case: &Case, seen: &Seen, tally: &mut Tally) -> Result<(), String> {
    try_begins(case, seen.reading, &seen.begins)?;
    if let Ok(program) = &parse_fields(&case.file, Wrong::Nothing) {
        let own = seen.rounds.as_ref().ok_or("no words after begin")?;
        let edges = graph::edges(program);
        let closed = try_rounds(&numbered(&edges), own)?;
        try_reading(program, seen.reading, &closed)?;
        names::of_file(case, program, &edges, own).into_iter().for_each(|name| tally.hit(name));
    }
    seen.steps.iter().try_for_each(try_step)?;
    seen.components.iter().try_for_each(try_components)?;
    for run in &seen.runs {
        let sets = run.rounds.first().map_or(&[][..], |round| &round.before);
        try_rounds(&edges_of(sets, run.variables), run)?;
    }
    names::of_calls(case, seen).into_iter().for_each(|name| tally.hit(name));
    Ok(())
}

/// The edges among all 256 numbers, of which the later ones have none.
fn numbered(edges: &[Vec<usize>]) -> Vec<Vec<usize>> {
    let mut all = edges.to_vec();
    all.resize(VARIABLES, Vec::new());
    all
}

/// Any sets as edges.
fn edges_of(sets: &[u64], variables: usize) -> Vec<Vec<usize>> {
    let of = |x: usize| (0..VARIABLES).filter(|&y| has(sets, x, y)).collect();
    numbered(&(0..variables).map(of).collect::<Vec<_>>())
}

/// Tries what is due before the first round.
pub fn try_begins(case: &Case, reading: Reading, begins: &[Began]) -> Result<(), String> {
    let program = parse_fields(&case.file, Wrong::Nothing);
    begins.iter().try_for_each(|began| try_begin(&program, reading, began))
}

/// Refusals 1 to 12 are those of reading, 13 is none, then 15; else the first
/// sets are exactly the edges, and the words after them as before.
fn try_begin(program: &Result<Program, Refusal>, reading: Reading, began: &Began) -> Result<(), String> {
    let mut words = began.before.clone();
    let due = match program {
        Err(Refusal { number, place }) => Begun::Refused { number: *number, place: *place },
        Ok(program) if words.len() < WORDS * program.variables.len() => {
            Begun::Refused { number: 15, place: 0 }
        }
        Ok(program) => {
            let edges = graph::edges(program);
            words[..WORDS * edges.len()].fill(0);
            for (x, y) in edges.iter().enumerate().flat_map(|(x, to)| to.iter().map(move |y| (x, y))) {
                words[WORDS * x + y / 64] += 1 << (y % 64);
            }
            Begun::Begun(edges.len())
        }
    };
    let as_read = match (reading, due) {
        (Reading::Refused { number: 13, .. } | Reading::Accepted { .. }, _) => program.is_ok(),
        (Reading::Refused { number, place }, due) => due == Begun::Refused { number, place },
    };
    if began.answer != due || !as_read {
        return Err(format!("begin: {:?}, {due:?} was due, read {reading:?}", began.answer));
    }
    match began.after.as_ref() == Some(&words) {
        true => Ok(()),
        false => Err(format!("begin, {due:?}: the words")),
    }
}

/// Every round and what is read off at the end. Answers which pairs are in one
/// component.
fn try_rounds(edges: &[Vec<usize>], seen: &Rounds) -> Result<Vec<Vec<bool>>, String> {
    let n = seen.variables;
    if seen.rounds.len() != n {
        return Err(format!("{} rounds of {n}", seen.rounds.len()));
    }
    seen.rounds.iter().try_for_each(|round| try_round(edges, n, round))?;
    let reach: Vec<Vec<bool>> = (0..n).map(|x| graph::reached(edges, x)).collect();
    let shared = shared(&reach);
    seen.components.iter().try_for_each(|read_off| try_shared(&shared, read_off))?;
    Ok(shared)
}

/// For every two variables whether they are the same or each reaches the other.
fn shared(reach: &[Vec<bool>]) -> Vec<Vec<bool>> {
    let shares = |x: usize, y: usize| x == y || reach[x][y] && reach[y][x];
    (0..reach.len()).map(|x| (0..reach.len()).map(|y| shares(x, y)).collect()).collect()
}

/// After variable k's round each set holds exactly those reached over one edge or
/// more with every stop between at most k; the words after the sets are as they
/// were.
fn try_round(edges: &[Vec<usize>], n: usize, round: &Round) -> Result<(), String> {
    let k = round.k;
    let after = round.after.as_ref().filter(|_| round.answer).ok_or(format!("round {k}: none"))?;
    for x in 0..n {
        let due = graph::reached_by(edges, x, |stop| stop <= k);
        if let Some(y) = (0..VARIABLES).find(|&y| has(after, x, y) != due[y]) {
            return Err(format!("round {k}: from {x} to {y}, {} was due", due[y]));
        }
    }
    match after.len() == round.before.len() && after[WORDS * n..] == round.before[WORDS * n..] {
        true => Ok(()),
        false => Err(format!("round {k}: the words after the sets")),
    }
}

/// Bytes agree exactly where two variables share a component, and each is the
/// first variable of its own.
fn try_shared(shared: &[Vec<bool>], seen: &Components) -> Result<(), String> {
    let n = shared.len();
    try_components(seen)?;
    if !seen.answer {
        return if seen.lent < n { Ok(()) } else { Err("no components".to_string()) };
    }
    let bytes = seen.after.as_ref().ok_or("a byte around the buffer")?;
    for (x, of_x) in shared.iter().enumerate() {
        let first = of_x.iter().position(|&shares| shares);
        let agrees = (0..n).all(|y| (bytes[x] == bytes[y]) == of_x[y]);
        if !agrees || first != Some(usize::from(bytes[x])) {
            return Err(format!("component of {x}: {}, {first:?} was due", bytes[x]));
        }
    }
    Ok(())
}

/// Is a position of this rule mixed, its variable in the head's component?
fn offends(program: &Program, rule: &Rule, shared: &[Vec<bool>]) -> bool {
    (0..rule.terms.len()).any(|position| {
        program.direction(rule, position) == Direction::Mixed
            && shared[rule.head][rule.terms[position].variable]
    })
}

/// Reading refuses with 13 exactly where a rule that is not idle has a mixed
/// variable in its head's component, and names the first such rule.
fn try_reading(program: &Program, reading: Reading, shared: &[Vec<bool>]) -> Result<(), String> {
    let mut rules = program.rules.iter().filter(|rule| !program.idle(rule));
    let due = match rules.find(|rule| offends(program, rule, shared)) {
        Some(rule) => Reading::Refused { number: 13, place: rule.place },
        None => Reading::Accepted {
            variables: program.variables.len(),
            rules: program.rules.len(),
            constraints: program.constraints.len(),
        },
    };
    match reading == due {
        true => Ok(()),
        false => Err(format!("read: {reading:?}, {due:?} was due")),
    }
}

/// A step on any sets: each set that has k takes in all of the set of k.
fn try_step(round: &Round) -> Result<(), String> {
    let Round { variables: n, k, ref before, .. } = *round;
    let steps = n <= VARIABLES && before.len() >= WORDS * n && k < n;
    let after = round.after.as_ref().ok_or(format!("step {k} of {n}: a word around the sets"))?;
    let due = |i: usize| match steps && i < WORDS * n && has(before, i / WORDS, k) {
        true => before[i] | before[WORDS * k + i % WORDS],
        false => before[i],
    };
    let same = after.len() == before.len() && (0..after.len()).all(|i| after[i] == due(i));
    match same && round.answer == steps {
        true => Ok(()),
        false => Err(format!("step {k} of {n}, {} words: {}", before.len(), round.answer)),
    }
}

/// Components of any sets.
fn try_components(seen: &Components) -> Result<(), String> {
    let Components { variables: n, ref sets, lent, .. } = *seen;
    let writes = n <= VARIABLES && sets.len() >= WORDS * n && lent >= n;
    let shares = |x: usize, y: usize| y == x || has(sets, x, y) && has(sets, y, x);
    let due = |x: usize| match writes && x < n {
        true => (0..=x).find(|&y| shares(x, y)).map_or(FILL, |y| y as u8),
        false => FILL,
    };
    let due: Vec<u8> = (0..lent).map(due).collect();
    let kept = seen.sets_after.as_ref() == Some(sets);
    match kept && seen.answer == writes && seen.after.as_ref() == Some(&due) {
        true => Ok(()),
        false => Err(format!("components of {n}, {} words, {lent} bytes", sets.len())),
    }
}

/// Mistakes of reading that the sets before the first round show, too.
pub const DRAWN: &[Wrong] = &[
    // Refusals 2 to 12.
    Wrong::EightBeforeSeven,
    Wrong::TenBeforeNine,
    Wrong::ThreeBeforeTwo,
    Wrong::FiveLate,
    Wrong::HeadCountsTwice,
    Wrong::CoefficientShort,
    Wrong::SeventeenIsTen,
    Wrong::BigZeroIsEight,
    Wrong::DivisorRepeats,
    Wrong::EightLikeOthers,
    Wrong::AloneIsTen,
    Wrong::KindTwoRefused,
    Wrong::KindTwoHeadRefused,
    Wrong::KindThreePasses,
    // Edges.
    Wrong::DrawsFalling,
    Wrong::MixedAtZero,
    Wrong::QuotientRises,
    Wrong::DivisorDrawsEdge,
    Wrong::IdleNever,
    Wrong::IdleOneMore,
    Wrong::IdleBelowOnly,
    Wrong::IdleByHigh,
    Wrong::IdleByZero,
    Wrong::IdleByLeast,
    Wrong::IdleDraws,
    Wrong::IdleEndsEdges,
    Wrong::IdleWholeHead,
    Wrong::IdleLiteralsOnly,
    Wrong::IdleSizesOnly,
    Wrong::IdleNoQuotients,
    Wrong::IdleFailingOnly,
    Wrong::IdleIfFailingOnly,
    Wrong::IdleFailingGives,
    Wrong::IdleAllFail,
    Wrong::IdleAtLeastEarly,
    Wrong::IdleAtLeastLate,
    Wrong::IdleBelowEarly,
    Wrong::IdleBelowLate,
    Wrong::IdleSizeAtLow,
    Wrong::IdleSizeAtHigh,
    Wrong::IdleRoundsDown,
    Wrong::IdleRoundsToZero,
    Wrong::IdleRoundsAway,
    Wrong::IdleUndivided,
    Wrong::IdleConstantLate,
    Wrong::IdleNoConstant,
    Wrong::IdleShort,
    Wrong::IdleMaxAsMin,
    Wrong::IdleMinAsMax,
    Wrong::IdleCarriesNothing,
    Wrong::IdleAllHigh,
    Wrong::IdleFirstTerm,
    Wrong::IdleHeadAtLow,
    Wrong::IdleStandardZero,
    Wrong::IdleStandardSkipped,
    Wrong::IdleNoStandard,
    Wrong::IdleUnlifted,
    Wrong::KindTwoIsOne,
    Wrong::LiteralsSwap,
    Wrong::PlainUnswapped,
    Wrong::OwnHeadUnswapped,
    Wrong::CarriedUnswapped,
    Wrong::SizeUnswapped,
    Wrong::ProductUnswapped,
    Wrong::LargestUnswapped,
    Wrong::QuotientUnswapped,
    Wrong::SwapsByVariable,
    Wrong::NoEdgeToAbove,
    Wrong::EdgeToRisingAbove,
    Wrong::EdgeToFallingBelow,
    Wrong::EdgesToKeptOnly,
    Wrong::AboveDrawsNone,
    Wrong::AboveIdleNever,
    Wrong::AboveIdleOneLess,
    Wrong::AboveIdleOverOnly,
    Wrong::AboveIdleByLow,
    Wrong::AboveIdleByMost,
    Wrong::AboveIdleAsBelow,
    Wrong::AboveFailingGives,
    Wrong::AboveLiteralsAtLow,
    Wrong::AboveSizeAtLow,
    Wrong::AboveSizeAtHigh,
    Wrong::AboveSizeAtNearer,
    Wrong::AboveSizeAtZero,
    Wrong::AboveLeastRoundsDown,
    Wrong::AboveLeastRoundsToZero,
    Wrong::AboveLeastUndivided,
    Wrong::AboveLeastNoConstant,
    Wrong::AboveLeastShort,
    Wrong::AboveLeastAllLow,
    Wrong::AboveLeastMaxAsMin,
    Wrong::AboveLeastMinAsMax,
    Wrong::AboveLeastCarriesNothing,
    Wrong::AboveLeastProductZero,
    Wrong::AboveLeastFirstTerm,
    Wrong::AboveLeastHeadAtHigh,
    Wrong::AboveLeastStandardZero,
];

/// Every graph of so many variables, given as sets: all rounds and the components.
/// Answers how many there are.
pub fn try_graphs(walk: &Walk, n: usize) -> Result<u64, String> {
    let graphs = 1u64 << (n * n);
    for graph in 0..graphs {
        let set = |x: usize| [graph >> (n * x) & ((1 << n) - 1), 0, 0, 0];
        let sets = (0..n).flat_map(set).collect::<Vec<u64>>();
        let edges = edges_of(&sets, n);
        let seen = rounds(walk, sets, n, &[n]);
        try_rounds(&edges, &seen).map_err(|what| format!("graph {graph:#x} of {n}: {what}"))?;
    }
    Ok(graphs)
}
