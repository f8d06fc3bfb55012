//! The bounds of half-filled plans (02, wish 7): what the library writes against an
//! answer set program that says what the bounds are, for all plans at once; and the
//! sentences about the stable assignments inside lent ranges, those found by the
//! translation of the file.

use crate::half::{self, Lifting};
use crate::reading::{moved, Moved, Reading};
use crate::tally::Tally;
use crate::{answers, inputs, proved, show, translate, PRINTED};
use second::bounds::Span;
use second::gen::fields::{self, Field, Piece};
use second::gen::prng::Random;
use second::gen::ranged;
use second::program::*;
use second::reader::parse;
use second::Wrong;
use std::collections::BTreeSet;
use std::fmt::Write;

/// On how many files wrong readings are tried.
const MISREAD: usize = 60;

/// A file with the ranges that are lent in turn.
struct Lent {
    name: String,
    file: Vec<u8>,
    program: Program,
    lists: Vec<Vec<Span>>,
    /// What the library writes for each.
    library: Vec<Option<Vec<i64>>>,
    /// What is due for the first ones, where that is known.
    due: Vec<Vec<i64>>,
}

/// What the solver says of a plan: the bounds, and the heads at which a lift is cut off.
#[derive(Clone, Default, PartialEq, Eq)]
struct Found {
    bounds: BTreeSet<(usize, i64)>,
    cut: BTreeSet<usize>,
}

/// The stable assignments inside the ranges of each list, and inside those drawn in.
struct Stable {
    inside: Vec<BTreeSet<Vec<i64>>>,
    drawn: Vec<BTreeSet<Vec<i64>>>,
}

fn pairs(values: &[i64]) -> BTreeSet<(usize, i64)> {
    values.iter().copied().enumerate().collect()
}

impl Lent {
    /// Nothing for a file that the second reader turns down.
    /// The declared ranges are lent too.
    fn new(name: String, file: Vec<u8>, mut lists: Vec<Vec<Span>>, due: Vec<Vec<i64>>) -> Option<Lent> {
        let program = parse(&file, Wrong::Nothing).ok()?;
        let declared: Vec<Span> = program.variables.iter().map(|v| (v.low, v.high)).collect();
        if !lists.contains(&declared) {
            lists.push(declared);
        }
        let library = lists.iter().map(|lent| proved::bounds(&file, lent)).collect();
        Some(Lent { name, file, program, lists, library, due })
    }

    fn differs(&self, k: usize, found: &Found) -> bool {
        let other = |values: &Vec<i64>| pairs(values) != found.bounds;
        self.library[k].as_ref().is_none_or(other) || self.due.get(k).is_some_and(other)
    }

    fn title(&self, k: usize) -> String {
        format!("{}\n{}  lent {:?}\n", self.name, show::program(&self.program), self.lists[k])
    }

    /// The ranges with each founded far end drawn in to its bound.
    fn drawn(&self, k: usize) -> Vec<Span> {
        let mut drawn = self.lists[k].clone();
        let Some(bounds) = &self.library[k] else { return drawn };
        for (x, variable) in self.program.variables.iter().enumerate() {
            match variable.kind {
                Kind::Standard => {}
                Kind::Below => drawn[x].1 = bounds[x],
                Kind::Above => drawn[x].0 = bounds[x],
            }
        }
        drawn
    }

    /// The translation of the file, its answer sets restricted to one of these lists,
    /// each in turn.
    fn restricted(&self, lists: &[Vec<Span>]) -> String {
        let mut out = translate::translate(&self.program, Reading::Right);
        let _ = writeln!(out, "1 {{ list(0..{}) }} 1.\n#show list/1.", lists.len() - 1);
        for (k, list) in lists.iter().enumerate() {
            for (x, (low, high)) in list.iter().enumerate() {
                let _ = writeln!(out, "lent({k},{x},{low},{high}).");
            }
        }
        for (x, variable) in self.program.variables.iter().enumerate() {
            let outside = match variable.kind {
                Kind::Standard => [format!("is({x},V), V < L"), format!("is({x},V), V > H")],
                Kind::Below => [format!("not ge({x},L)"), format!("ge({x},H+1)")],
                Kind::Above => [format!("not le({x},H)"), format!("le({x},L-1)")],
            };
            for outside in outside {
                let _ = writeln!(out, ":- list(K), lent(K,{x},L,H), {outside}.");
            }
        }
        out
    }

    fn stable(&self) -> Result<Stable, String> {
        let count = self.lists.len();
        let drawn = (0..count).map(|k| self.drawn(k));
        let all: Vec<Vec<Span>> = self.lists.iter().cloned().chain(drawn).collect();
        let found = answers::chosen(&self.restricted(&all), self.program.variables.len(), all.len())?;
        let mut inside: Vec<BTreeSet<Vec<i64>>> =
            found.into_iter().map(|list| list.into_iter().collect()).collect();
        let drawn = inside.split_off(count);
        Ok(Stable { inside, drawn })
    }

    /// A sentence that fails here.
    fn fails(&self, stable: &Stable) -> Option<String> {
        let founded = |x: &usize| self.program.variables[*x].founded();
        for k in 0..self.lists.len() {
            let Some(bounds) = &self.library[k] else { continue };
            let (inside, drawn) = (&stable.inside[k], &stable.drawn[k]);
            let passes = |a: &[i64]| {
                let variables = &self.program.variables;
                let mut all = (0..a.len()).filter(founded);
                all.find(|&x| variables[x].further(a[x], bounds[x]))
            };
            // 02: "Every stable assignment inside the ranges keeps its founded variables
            // within these bounds."
            if let Some((a, x)) = inside.iter().find_map(|a| Some((a, passes(a)?))) {
                return Some(format!(
                    "{}  {a:?} passes the bound {} of x{x}\n",
                    self.title(k),
                    bounds[x]
                ));
            }
            if inside != drawn {
                let title = self.title(k);
                return Some(format!("{title}  stable {inside:?}\n  inside {bounds:?}: {drawn:?}\n"));
            }
        }
        // 02: "With single ranges and every rule met, they are the least model's founded
        // values." Those of a stable assignment are its own.
        for a in stable.inside.iter().flatten().collect::<BTreeSet<_>>() {
            let single: Vec<Span> = a.iter().map(|&value| (value, value)).collect();
            if proved::bounds(&self.file, &single).as_ref() != Some(a) {
                return Some(format!("{}  {a:?} is stable, its bounds are others\n", self.title(0)));
            }
        }
        None
    }
}

/// What the solver says of every plan of these files.
fn solved(cases: &[Lent], lifting: Lifting) -> Result<Vec<Vec<Found>>, String> {
    let mut text = half::SHOWN.to_string();
    let mut from = half::From::default();
    let mut plans = Vec::new();
    for (file, case) in cases.iter().enumerate() {
        text += &half::file(&case.program, &case.lists, half::From { file, ..from }, lifting);
        plans.extend((0..case.lists.len()).map(|k| (file, k)));
        from.plan += case.lists.len();
        from.rule += case.program.rules.len();
    }
    let mut found: Vec<Vec<Found>> =
        cases.iter().map(|case| vec![Found::default(); case.lists.len()]).collect();
    for (name, numbers) in answers::only::<i64>(&text)? {
        let (file, k) = *plans.get(numbers[0] as usize).ok_or("another plan")?;
        let (one, x) = (&mut found[file][k], numbers[1] as usize);
        match name.as_str() {
            "bound" => one.bounds.insert((x, numbers[2])),
            _ => one.cut.insert(x),
        };
    }
    Ok(found)
}

/// The plans by hand, the samples with several ranges, then those of three quarters as
/// many seeds.
fn cases(first: u64, programs: u64) -> Vec<Lent> {
    let random = &mut Random::new(first ^ 0x0A5B_B000_0000_0000);
    let mut all: Vec<Lent> = samples();
    for (name, file) in inputs::samples() {
        let Ok(program) = parse(&file, Wrong::Nothing) else { continue };
        let lows: Vec<i64> = program.variables.iter().map(|v| v.low).collect();
        let lists = (0..3).map(|_| ranged::lend(random, &program.variables, &lows)).collect();
        all.extend(Lent::new(name, file, lists, Vec::new()));
    }
    all.extend((first..first + programs * 3 / 4).filter_map(|seed| {
        let (file, lists) = ranged::small(seed);
        Lent::new(format!("lent {seed}"), file, lists, Vec::new())
    }));
    all
}

/// Plans with the bounds that are due.
fn samples() -> Vec<Lent> {
    let founded = |low, high| fields::variable(1, low, high);
    let above = |low, high| fields::variable(2, low, high);
    let standard = |low, high| fields::variable(0, low, high);
    let sum = |head, c, terms: &[Piece]| fields::rule(1, head, c, terms);
    let when = |head, c, terms: &[Piece]| fields::rule(6, head, c, terms);
    let size = |head, c, x| fields::rule(5, head, c, &[(x, 0, 0)]);
    type Due = (Vec<Span>, Vec<i64>);
    let list: Vec<(&str, Vec<Field>, Vec<Due>)> = vec![
        ("the empty file", vec![], vec![(vec![], vec![])]),
        (
            "a >= |b|, lent 1..5, 3..3, -2..-2",
            vec![founded(0, 9), standard(-5, 5), size(0, 0, 1)],
            vec![
                (vec![(0, 7), (1, 5)], vec![7, 1]),
                (vec![(0, 7), (3, 3)], vec![3, 3]),
                (vec![(0, 7), (-2, -2)], vec![2, -2]),
                (vec![(0, 1), (-2, -2)], vec![1, -2]),
                (vec![(4, 9), (3, 3)], vec![3, 3]),
            ],
        ),
        (
            "a >= |b| - 10, which is idle",
            vec![founded(0, 3), founded(-5, 5), size(0, -10, 1)],
            vec![(vec![(0, 2), (0, 1)], vec![2, -5]), (vec![(0, 2), (1, 1)], vec![0, -5])],
        ),
        (
            "a <= |b|, lent -1..1, 2..2",
            vec![above(-3, 9), founded(-5, 5), size(0, 0, 1)],
            vec![(vec![(-1, 9), (-1, 1)], vec![-1, -5]), (vec![(-1, 9), (2, 2)], vec![2, -5])],
        ),
        (
            "a >= b, a >= 3 - d, b <= 2 if s >= 1, b <= 3 if d < 1",
            vec![
                founded(0, 5),
                above(0, 5),
                standard(0, 1),
                founded(0, 3),
                sum(0, 0, &[(1, 0, 1)]),
                sum(0, 3, &[(3, 0, -1)]),
                when(1, 2, &[(2, 1, 1)]),
                when(1, 3, &[(3, 2, 1)]),
            ],
            vec![
                (vec![(0, 5), (1, 4), (0, 1), (0, 3)], vec![4, 2, 0, 0]),
                (vec![(0, 5), (1, 2), (0, 0), (0, 3)], vec![3, 3, 0, 0]),
                (vec![(0, 5), (1, 1), (0, 0), (1, 3)], vec![2, 5, 0, 0]),
            ],
        ),
        (
            "a >= b + 1, b >= a, a long way",
            vec![founded(0, 100), founded(0, 100), sum(0, 1, &[(1, 0, 1)]), sum(1, 0, &[(0, 0, 1)])],
            vec![
                (vec![(0, 90), (0, 95)], vec![90, 90]),
                (vec![(0, 90), (5, 60)], vec![61, 60]),
                (vec![(0, 0), (7, 9)], vec![0, 0]),
            ],
        ),
        (
            "two gates and a guard, half-filled",
            vec![
                standard(0, 1),
                founded(0, 1),
                founded(0, 1),
                when(1, 1, &[(0, 1, 1)]),
                when(1, 1, &[(2, 1, 1)]),
                when(2, 1, &[(1, 1, 1)]),
            ],
            vec![
                (vec![(0, 0), (0, 1), (0, 1)], vec![0, 0, 0]),
                (vec![(0, 1), (0, 1), (0, 1)], vec![0, 1, 1]),
                (vec![(1, 1), (0, 0), (0, 1)], vec![1, 0, 0]),
                (vec![(0, 0), (1, 1), (1, 1)], vec![0, 0, 0]),
            ],
        ),
        (
            "000 example 2, half-filled",
            vec![
                founded(-10, 10),
                founded(-10, 10),
                founded(-10, 10),
                sum(0, 7, &[(1, 0, 1), (2, 0, -1)]),
                sum(2, 5, &[]),
            ],
            vec![
                (vec![(-10, 10), (-10, 10), (-10, 10)], vec![7, -10, 5]),
                (vec![(-10, 10), (0, 10), (5, 10)], vec![-8, -10, 5]),
                (vec![(-10, 3), (-10, 10), (-10, 4)], vec![3, -10, 4]),
            ],
        ),
        (
            "a departure and three stations, half-filled",
            vec![
                standard(-1, 2),
                above(0, 8),
                above(0, 8),
                above(0, 8),
                sum(1, 0, &[(0, 0, 1)]),
                sum(2, 2, &[(1, 0, 1)]),
                sum(3, 1, &[(2, 0, 1)]),
                sum(2, 0, &[(3, 0, 1)]),
            ],
            vec![
                (vec![(-1, 2), (0, 8), (0, 8), (0, 8)], vec![-1, 0, 2, 3]),
                (vec![(1, 2), (0, 8), (0, 8), (0, 8)], vec![1, 1, 3, 4]),
                (vec![(1, 2), (0, 8), (4, 8), (0, 3)], vec![1, 1, 4, 5]),
            ],
        ),
    ];
    let made = |(name, list, plans): (&str, Vec<Field>, Vec<Due>)| {
        let (lists, due) = plans.into_iter().unzip();
        let half = Lent::new(name.to_string(), fields::bytes(&list), lists, due);
        half.expect("samples are accepted")
    };
    list.into_iter().map(made).collect()
}

/// Compares, tries the sentences, then the wrong readings; what failed.
pub fn compare(first: u64, programs: u64) -> Vec<String> {
    let cases = cases(first, programs);
    let mut failures = Vec::new();
    let mut right = Vec::new();
    for &lifting in [Lifting::Right].iter().chain(Lifting::OTHERS) {
        match solved(&cases, lifting) {
            Ok(found) => {
                failures.extend(differences(&cases, &found, lifting));
                right = found;
            }
            Err(what) => failures.push(what),
        }
    }
    if right.is_empty() {
        return failures;
    }
    let some = cases.len().min(MISREAD);
    failures.extend(Lifting::WRONG.iter().filter_map(|&wrong| unnoticed(&cases[..some], wrong)));
    failures.extend(sentences(&cases, &right));
    failures
}

fn differences(cases: &[Lent], found: &[Vec<Found>], lifting: Lifting) -> Vec<String> {
    let plans = cases
        .iter()
        .zip(found)
        .flat_map(|(case, list)| list.iter().enumerate().map(move |(k, found)| (case, k, found)));
    let count = plans.clone().count();
    let differing: Vec<_> = plans.filter(|(case, k, found)| case.differs(*k, found)).collect();
    println!(
        "{count} half-filled plans of {} files, {} differ, {lifting:?}",
        cases.len(),
        differing.len()
    );
    let one = |(case, k, found): &(&Lent, usize, &Found)| {
        let (library, solver) = (&case.library[*k], &found.bounds);
        format!("{}  library {library:?}, solver {solver:?}\n", case.title(*k))
    };
    differing.iter().take(PRINTED).map(one).collect()
}

/// A wrong reading must have other bounds somewhere.
fn unnoticed(cases: &[Lent], wrong: Lifting) -> Option<String> {
    let found = match solved(cases, wrong) {
        Ok(found) => found,
        Err(what) => return Some(format!("bounds, wrong reading {wrong:?}: {what}")),
    };
    let differs = |(case, list): &(&Lent, &Vec<Found>)| {
        list.iter().enumerate().any(|(k, found)| case.differs(k, found))
    };
    let noticed = cases.iter().zip(&found).filter(differs);
    let names: Vec<&str> = noticed.map(|(case, _)| case.name.as_str()).collect();
    if names.is_empty() {
        return Some(format!("bounds, wrong reading {wrong:?}: not noticed"));
    }
    let last = names[names.len().saturating_sub(PRINTED)..].join("; ");
    println!("bounds, wrong reading {wrong:?}: differs in {} files, {last}", names.len());
    None
}

/// The sentences about stable assignments, and what was met.
fn sentences(cases: &[Lent], right: &[Vec<Found>]) -> Vec<String> {
    let mut tally = Tally::default();
    let (mut failures, mut failing, mut inside) = (Vec::new(), 0, 0);
    let mut plans = 0;
    for (case, found) in cases.iter().zip(right) {
        let stable = match case.stable() {
            Ok(stable) => stable,
            Err(what) => {
                failures.push(format!("{}\n{what}", case.name));
                continue;
            }
        };
        if let Some(what) = case.fails(&stable) {
            failing += 1;
            if failing <= PRINTED {
                failures.push(what);
            }
        }
        for (k, found) in found.iter().enumerate() {
            plans += 1;
            inside += stable.inside[k].len();
            tally.met(names(case, k, found, &stable));
        }
    }
    println!("{inside} stable assignments inside lent ranges, a sentence fails in {failing} files");
    for (name, count) in &tally.programs {
        println!("{count:>6}  {name}");
    }
    let required = REQUIRED.map(|(name, n)| (format!("lent: {name}"), n));
    failures.extend(tally.missing_of(required.to_vec(), plans));
    failures
}

/// Every name that must be met, and in how many of a hundred plans; in one at least.
const REQUIRED: [(&str, usize); 26] = [
    ("kind 1 lifted", 20),
    ("kind 2 lifted", 15),
    ("both kinds lifted", 3),
    ("lifted by a kept variable", 5),
    ("a position of kind 0, not single", 10),
    ("a position of kind 1, not kept, not single", 5),
    ("a position of kind 2, not kept, not single", 5),
    ("a mixed variable, single", 8),
    ("a mixed variable, not single, the head lifted", 10),
    ("a mixed variable, not single, the head of kind 2 lifted", 5),
    ("a mixed variable, not single, of one sign", 3),
    ("a mixed variable, not single, in an idle rule, the head lifted", 1),
    ("kind 1 cut off", 5),
    ("kind 2 cut off", 5),
    ("cut off before the declared far end", 5),
    ("lifted, no further than before the lent far end", 5),
    ("a bound before the lent range", 15),
    ("all ranges single", 4),
    ("no variable", 0),
    ("some stable assignment inside", 15),
    ("some stable assignment inside, not all", 3),
    ("none inside, some outside", 5),
    ("no stable assignment", 3),
    ("drawn in to fewer values", 5),
    ("drawn in to fewer values, some stable assignment inside", 3),
    ("a stable assignment at a bound before the lent far end", 3),
];

fn names(case: &Lent, k: usize, found: &Found, stable: &Stable) -> BTreeSet<String> {
    let (variables, rules) = (&case.program.variables, &case.program.rules);
    let lent = &case.lists[k];
    let Some(bounds) = &case.library[k] else { return BTreeSet::new() };
    let any = |holds: &dyn Fn(usize) -> bool| (0..variables.len()).any(holds);
    let lifted = |x: usize| variables[x].founded() && bounds[x] != variables[x].start();
    let of_kind = |x: usize, kind: Kind| variables[x].kind == kind;
    let far = |x: usize| if variables[x].above() { lent[x].0 } else { lent[x].1 };
    let near = |x: usize| if variables[x].above() { lent[x].1 } else { lent[x].0 };
    let single = |x: usize| lent[x].0 == lent[x].1;
    let before = |x: usize| variables[x].founded() && variables[x].further(near(x), bounds[x]);
    let short = |x: usize| lifted(x) && variables[x].further(far(x), bounds[x]);
    let idle = case.program.idle_rules();
    let position = |holds: &dyn Fn(usize, usize, Moved) -> bool| {
        let one = |(r, rule): (usize, &Rule)| {
            let way = |i: usize| moved(&case.program, rule, i, Reading::Right);
            (0..rule.terms.len()).any(|i| holds(r, rule.terms[i].variable, way(i)))
        };
        rules.iter().enumerate().any(one)
    };
    let open = |x: usize, way: Moved| way == Moved::Both && !single(x);
    let rest = |kind: Kind| {
        position(&|_, x, way| {
            let kept = kind.founded() && way == Moved::More;
            of_kind(x, kind) && way != Moved::Both && !kept && !single(x)
        })
    };
    let inside = &stable.inside[k];
    let elsewhere = stable.inside.iter().any(|other| !other.is_subset(inside));
    let empty = any(&before);
    let fewer = !empty && case.drawn(k) != *lent;
    let met = [
        any(&|x| lifted(x) && of_kind(x, Kind::Below)),
        any(&|x| lifted(x) && of_kind(x, Kind::Above)),
        any(&|x| lifted(x) && of_kind(x, Kind::Below)) && any(&|x| lifted(x) && of_kind(x, Kind::Above)),
        position(&|r, x, way| way == Moved::More && lifted(x) && lifted(rules[r].head)),
        rest(Kind::Standard),
        rest(Kind::Below),
        rest(Kind::Above),
        position(&|_, x, way| way == Moved::Both && single(x)),
        position(&|r, x, way| open(x, way) && lifted(rules[r].head)),
        position(&|r, x, way| open(x, way) && lifted(rules[r].head) && variables[rules[r].head].above()),
        position(&|_, x, way| open(x, way) && (lent[x].0 >= 0 || lent[x].1 <= 0)),
        position(&|r, x, way| open(x, way) && idle[r] && lifted(rules[r].head)),
        found.cut.iter().any(|&x| of_kind(x, Kind::Below)),
        found.cut.iter().any(|&x| of_kind(x, Kind::Above)),
        found.cut.iter().any(|&x| far(x) != variables[x].far()),
        any(&short),
        empty,
        !lent.is_empty() && !any(&|x| !single(x)),
        lent.is_empty(),
        !inside.is_empty(),
        !inside.is_empty() && elsewhere,
        inside.is_empty() && elsewhere,
        inside.is_empty() && !elsewhere,
        fewer,
        fewer && !inside.is_empty(),
        inside.iter().any(|a| any(&|x| short(x) && a[x] == bounds[x])),
    ];
    let names = REQUIRED.iter().zip(met).filter(|(_, met)| *met);
    names.map(|((name, _), _)| format!("lent: {name}")).collect()
}
