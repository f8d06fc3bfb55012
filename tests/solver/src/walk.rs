//! The walk over edges (02, wish 5): what the library's sets hold after each round
//! against an answer set program that says what a walk is, for all programs at
//! once. Which rules are idle the grounder decides, and edges are drawn by this
//! side's own reading.

use crate::proved::{self, Walked};
use crate::reading::{moved, Moved, Reading};
use crate::tally::Tally;
use crate::{answers, inputs, show, translate, PRINTED};
use second::gen::fields::{self, Field};
use second::gen::walks;
use second::program::{Program, Rule};
use second::reader::parse_fields;
use second::walk::has;
use second::Wrong;
use std::collections::BTreeSet;
use std::fmt::Write;

/// On how many programs mistakes are made.
const MISTAKEN: usize = 200;

macro_rules! mistakes {
    ($($(#[$says:meta])* $name:ident,)*) => {
        #[derive(Clone, Copy, Debug, PartialEq, Eq)]
        enum Mistake {
            None,
            $($(#[$says])* $name,)*
        }

        impl Mistake {
            const ALL: &'static [Mistake] = &[$(Mistake::$name,)*];
        }
    };
}

mistakes! {
    /// Stops are below k, not at most k.
    StopsBelow,
    /// Any variable may be a stop between.
    StopsAnywhere,
    /// The last variable is the first to be a stop between.
    StopsFromAbove,
    /// Where a walk starts counts as a stop.
    StartIsStop,
    /// Where a walk ends counts as a stop.
    EndIsStop,
    /// A walk has one stop between at most.
    OneStop,
    /// A walk of no edge counts.
    NoEdge,
    /// Edges run from the body to the head.
    Backwards,
    /// Edges run both ways.
    BothWays,
    /// An idle rule draws edges.
    IdleDraws,
    /// Edges run to kept variables alone.
    KeptOnly,
    /// Edges run to mixed variables alone.
    MixedOnly,
    /// Edges run to standard variables that are not mixed, too.
    StandardDrawn,
    /// Edges run to every body variable.
    AllDrawn,
    /// A variable shares a component with each that it reaches.
    OneWay,
    /// The byte is the last variable of a component.
    LastOfAll,
    /// The last offending rule is named.
    LastNamed,
    /// An idle rule may offend.
    IdleOffends,
    /// A mixed variable offends in any component.
    MixedAnywhere,
}

/// A program whose fields pass, with what the library answers.
struct Stepped {
    name: String,
    program: Program,
    walked: Option<Walked>,
}

/// What is reached by how many rounds, the first variable of each component, and
/// the rule that is named.
#[derive(Default, PartialEq, Eq)]
struct Found {
    reach: BTreeSet<Vec<usize>>,
    firsts: BTreeSet<Vec<usize>>,
    named: Option<usize>,
}

impl Stepped {
    fn new((name, file): (String, Vec<u8>)) -> Option<Stepped> {
        let program = parse_fields(&file, Wrong::Nothing).ok()?;
        let walked = proved::walked(&file, program.variables.len());
        Some(Stepped { name, program, walked })
    }

    /// What the library says, where it answers at all.
    fn found(&self) -> Option<Found> {
        let walked = self.walked.as_ref()?;
        let mut found = Found::default();
        for (rounds, sets) in walked.sets.iter().enumerate() {
            let pairs = (0..sets.len() / 4).flat_map(|x| (0..256).map(move |y| (x, y)));
            let held = pairs.filter(|&(x, y)| has(sets, x, y));
            found.reach.extend(held.map(|(x, y)| vec![x, y, rounds]));
        }
        let firsts = walked.firsts.iter().enumerate();
        found.firsts = firsts.map(|(x, &first)| vec![x, usize::from(first)]).collect();
        let place = |rule: &Rule| Some(rule.place) == walked.refused;
        found.named = self.program.rules.iter().position(place);
        (found.named.is_some() == walked.refused.is_some()).then_some(found)
    }
}

/// Does an edge run to this position, where the rule can do something?
fn draws(program: &Program, rule: &Rule, i: usize, mistake: Mistake) -> bool {
    let founded = program.variables[rule.terms[i].variable].founded();
    let way = moved(program, rule, i, Reading::Right);
    match (mistake, way) {
        (Mistake::AllDrawn, _) => true,
        (Mistake::MixedOnly, way) => way == Moved::Both,
        (Mistake::KeptOnly, Moved::Both) => false,
        (_, Moved::Both) => true,
        (_, Moved::More) => founded || mistake == Mistake::StandardDrawn,
        _ => false,
    }
}

/// Variables, edges and mixed positions of program number p, whose rules are
/// numbered from `from` on.
fn facts(p: usize, program: &Program, from: usize, mistake: Mistake) -> String {
    let n = program.variables.len();
    let mut out = format!("count({p},{n}).\n");
    if n > 0 {
        let _ = writeln!(out, "variable({p},0..{}).", n - 1);
    }
    out += &translate::not_idle(program, from);
    let positions = program
        .rules
        .iter()
        .enumerate()
        .flat_map(|(r, rule)| (0..rule.terms.len()).map(move |i| (r, rule, i)));
    for (r, rule, i) in positions {
        let (x, y) = (rule.head, rule.terms[i].variable);
        let can = |passes: bool| if passes { String::new() } else { format!(" :- can({})", from + r) };
        if draws(program, rule, i, mistake) {
            let can = can(mistake == Mistake::IdleDraws);
            let backwards = mistake == Mistake::Backwards;
            let (x, y) = if backwards { (y, x) } else { (x, y) };
            let _ = writeln!(out, "edge({p},{x},{y}){can}.");
            if mistake == Mistake::BothWays {
                let _ = writeln!(out, "edge({p},{y},{x}){can}.");
            }
        }
        if moved(program, rule, i, Reading::Right) == Moved::Both {
            let can = can(mistake == Mistake::IdleOffends);
            let _ = writeln!(out, "mixed({p},{r},{x},{y}){can}.");
        }
    }
    out
}

/// 02: "over one edge or more with every stop between at most k", which are the
/// variables below S after S rounds; 01: "Two variables share a component when they
/// are the same or each reaches the other."
fn meaning(mistake: Mistake) -> String {
    let stop = match mistake {
        Mistake::StopsBelow => "Z + 1 < S",
        Mistake::StopsAnywhere => "stops(P,S)",
        Mistake::StopsFromAbove => "count(P,N), Z >= N - S",
        Mistake::StartIsStop => "Z < S, X < S",
        Mistake::EndIsStop => "Z < S, Y < S",
        _ => "Z < S",
    };
    let rest = if mistake == Mistake::OneStop { "edge(P,Z,Y), stops(P,S)" } else { "reach(P,Z,Y,S)" };
    let back = if mistake == Mistake::OneWay { "" } else { ", reach(P,Y,X,N)" };
    let least = if mistake == Mistake::LastOfAll { "#max" } else { "#min" };
    let inside = if mistake == Mistake::MixedAnywhere { "" } else { ", first(P,X,F), first(P,Y,F)" };
    let lowest = if mistake == Mistake::LastNamed { "#max" } else { "#min" };
    let own = match mistake {
        Mistake::NoEdge => "reach(P,X,X,S) :- variable(P,X), stops(P,S).\n",
        _ => "",
    };
    format!(
        "stops(P,0..N) :- count(P,N).\n\
         reach(P,X,Y,S) :- edge(P,X,Y), stops(P,S).\n\
         reach(P,X,Y,S) :- edge(P,X,Z), {rest}, {stop}.\n{own}\
         same(P,X,X) :- variable(P,X).\n\
         same(P,X,Y) :- count(P,N), reach(P,X,Y,N){back}.\n\
         first(P,X,F) :- variable(P,X), F = {least} {{ Y : same(P,X,Y) }}.\n\
         offends(P,R) :- mixed(P,R,X,Y){inside}.\n\
         named(P,R) :- offends(P,R), R = {lowest} {{ Q : offends(P,Q) }}.\n\
         #show reach/4.\n#show first/3.\n#show named/2.\n"
    )
}

/// What the solver says of each program.
fn solved(cases: &[Stepped], mistake: Mistake) -> Result<Vec<Found>, String> {
    let mut text = meaning(mistake);
    let mut from = 0;
    for (p, case) in cases.iter().enumerate() {
        text += &facts(p, &case.program, from, mistake);
        from += case.program.rules.len();
    }
    let mut found: Vec<Found> = cases.iter().map(|_| Found::default()).collect();
    for (name, numbers) in answers::only::<usize>(&text)? {
        let one = found.get_mut(numbers[0]).ok_or("another program")?;
        let rest = numbers[1..].to_vec();
        match name.as_str() {
            "reach" => one.reach.insert(rest),
            "first" => one.firsts.insert(rest),
            _ => one.named.replace(rest[0]).is_none(),
        };
    }
    Ok(found)
}

/// The samples, then the programs of so many seeds and as many that are made for
/// the walk, those refused with 13 among them.
fn cases(first: u64, programs: u64) -> Vec<Stepped> {
    let made = |seed: u64| (format!("walk {seed}"), walks::small(seed));
    let seeded = (first..first + programs).flat_map(|seed| [inputs::seeded(seed), made(seed)]);
    let all = inputs::samples().into_iter().chain(samples()).chain(seeded);
    all.filter_map(Stepped::new).collect()
}

/// Programs that are refused with 13, and a circle against the numbers.
fn samples() -> Vec<(String, Vec<u8>)> {
    let founded = |low, high| fields::variable(1, low, high);
    let size = |head, c, x| fields::rule(5, head, c, &[(x, 0, 0)]);
    let sum = |head, c, x| fields::rule(1, head, c, &[(x, 0, 1)]);
    let list: Vec<(&str, Vec<Field>)> = vec![
        ("row 13", vec![founded(0, 10), founded(-10, 10), size(0, 0, 1), sum(1, -6, 0)]),
        ("a >= |a|, a >= |a| + 1", vec![founded(-1, 1), size(0, 0, 0), size(0, 1, 0)]),
        (
            "a >= |b|, idle; a >= |b|; b >= |a|; b >= a",
            vec![
                founded(-1, 1),
                founded(-1, 1),
                size(0, -2, 1),
                size(0, 0, 1),
                size(1, 0, 0),
                sum(1, 0, 0),
            ],
        ),
        (
            "a >= d + 1, d >= b + 1, b >= c + 1, c >= a + 1",
            [vec![founded(0, 5); 4], vec![sum(0, 1, 3), sum(3, 1, 1), sum(1, 1, 2), sum(2, 1, 0)]]
                .concat(),
        ),
    ];
    list.into_iter().map(|(name, list)| (name.to_string(), fields::bytes(&list))).collect()
}

/// Compares, then tries the mistakes; what failed.
pub fn compare(first: u64, programs: u64) -> Vec<String> {
    let cases = cases(first, programs);
    let mut failures = Vec::new();
    let library: Vec<Option<Found>> = cases.iter().map(Stepped::found).collect();
    match solved(&cases, Mistake::None) {
        Ok(solver) => failures.extend(differences(&cases, &library, &solver)),
        Err(what) => failures.push(what),
    }
    let some = cases.len().min(MISTAKEN);
    for &mistake in Mistake::ALL {
        failures.extend(unnoticed(&cases[..some], &library, mistake));
    }
    failures.extend(count(&cases, &library));
    failures
}

fn differences(cases: &[Stepped], library: &[Option<Found>], solver: &[Found]) -> Vec<String> {
    let differs = |p: &usize| library[*p].as_ref() != Some(&solver[*p]);
    let differing: Vec<usize> = (0..cases.len()).filter(differs).collect();
    println!("{} walks, {} differ", cases.len(), differing.len());
    let says = |found: &Found| (found.reach.clone(), found.firsts.clone(), found.named);
    let one = |&p: &usize| {
        let (title, library) = (show::program(&cases[p].program), library[p].as_ref().map(says));
        let solver = says(&solver[p]);
        format!("{}\n{title}  library {library:?}\n  solver {solver:?}\n", cases[p].name)
    };
    differing.iter().take(PRINTED).map(one).collect()
}

/// A mistake must have another answer set somewhere.
fn unnoticed(cases: &[Stepped], library: &[Option<Found>], mistake: Mistake) -> Option<String> {
    let solver = match solved(cases, mistake) {
        Ok(solver) => solver,
        Err(what) => return Some(format!("walk, mistake {mistake:?}: {what}")),
    };
    let noticed = (0..cases.len()).filter(|&p| library[p].as_ref() != Some(&solver[p]));
    let names: Vec<&str> = noticed.map(|p| cases[p].name.as_str()).collect();
    if names.is_empty() {
        return Some(format!("walk, mistake {mistake:?}: not noticed"));
    }
    let first = names[..names.len().min(PRINTED)].join("; ");
    println!("walk, mistake {mistake:?}: noticed in {}, {first}", names.len());
    None
}

/// What was met, and what too seldom.
fn count(cases: &[Stepped], library: &[Option<Found>]) -> Vec<String> {
    let mut tally = Tally::default();
    for (case, found) in cases.iter().zip(library) {
        tally.met(found.as_ref().map(|found| names(&case.program, found)).unwrap_or_default());
    }
    for (name, count) in &tally.programs {
        println!("{count:>6}  {name}");
    }
    let required = REQUIRED.map(|(name, n)| (format!("walk: {name}"), n));
    tally.missing_of(required.to_vec(), cases.len())
}

const REQUIRED: [(&str, usize); 12] = [
    ("something moves", 30),
    ("something moves in the first round", 10),
    ("something moves in the last round", 10),
    ("something moves in a round between", 15),
    ("nothing moves", 20),
    ("a component of several", 15),
    ("two components of several, one reached", 0),
    ("refused with 13", 4),
    ("accepted, a mixed position", 15),
    ("an edge to kind 0", 1),
    ("an edge to kind 1", 30),
    ("an edge to kind 2", 20),
];

fn names(program: &Program, found: &Found) -> BTreeSet<String> {
    let n = program.variables.len();
    let after = |s: usize| {
        let held = found.reach.iter().filter(move |atom| atom[2] == s);
        held.map(|atom| (atom[0], atom[1])).collect::<BTreeSet<_>>()
    };
    let moving: Vec<usize> = (0..n).filter(|&k| after(k) != after(k + 1)).collect();
    let first = |x: usize| found.firsts.iter().find(|pair| pair[0] == x).map_or(x, |pair| pair[1]);
    let several = |x: usize| (0..n).any(|y| y != x && first(x) == first(y));
    let one_way = |&(x, y): &(usize, usize)| first(x) != first(y) && several(x) && several(y);
    let mixed = |rule: &Rule| {
        (0..rule.terms.len()).any(|i| moved(program, rule, i, Reading::Right) == Moved::Both)
    };
    let edge = |kind: u8| after(0).iter().any(|&(_, y)| program.variables[y].kind.number() == kind);
    let met = [
        !moving.is_empty(),
        moving.contains(&0),
        n > 1 && moving.contains(&(n - 1)),
        moving.iter().any(|&k| k > 0 && k + 1 < n),
        moving.is_empty(),
        (0..n).any(several),
        after(n).iter().any(one_way),
        found.named.is_some(),
        found.named.is_none() && program.rules.iter().any(mixed),
        edge(0),
        edge(1),
        edge(2),
    ];
    let names = REQUIRED.iter().zip(met).filter(|(_, met)| *met);
    names.map(|((name, _), _)| format!("walk: {name}")).collect()
}
