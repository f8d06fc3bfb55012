//! Files written anew (02, wish 4): copies that say the same in another order,
//! what they bring with them, and the comparison with the answer sets.

use crate::mistakes::Mistake;
use crate::proved::{self, Word};
use crate::reading::Reading;
use crate::{Case, PRINTED};
use second::gen::fields::{self, Field};
use second::gen::prng::Random;
use second::program::{CARRY, QUOTIENT};
use std::collections::BTreeSet;

pub const VARIABLE: u8 = 1;
pub const RULE: u8 = 2;

/// Of a hundred rules or constraints of a copy, so many stand there once more.
const REPEATED: usize = 40;

/// Where the terms start that may stand in any order: after what is fixed, and
/// after a carried variable or a divisor.
pub fn free_from(field: &Field) -> usize {
    match (field.tag, field.value[0]) {
        (VARIABLE, _) => field.value.len(),
        (RULE, CARRY | QUOTIENT) => 8,
        (RULE, _) => 4,
        _ => 3,
    }
}

/// A field with its free terms in another order.
pub fn reordered(field: &Field, order: impl FnOnce(Vec<&[u8]>) -> Vec<&[u8]>) -> Field {
    let (fixed, free) = field.value.split_at(free_from(field));
    let free = order(free.chunks(4).collect()).concat();
    Field { tag: field.tag, value: [fixed, &free].concat() }
}

fn permuted<T: Clone>(random: &mut Random, list: &[T]) -> Vec<T> {
    let places = random.distinct(list.len(), list.len());
    places.into_iter().map(|i| list[i].clone()).collect()
}

/// The same plan: rules and constraints in another order, some of them twice, and
/// their terms in another order.
pub fn copy(file: &[u8]) -> Vec<u8> {
    let seed = file.iter().fold(4, |n: u64, &byte| n.wrapping_mul(257).wrapping_add(byte.into()));
    let random = &mut Random::new(seed);
    let all = fields::taken(file);
    let (variables, others): (Vec<Field>, Vec<Field>) = all.into_iter().partition(|f| f.tag == VARIABLE);
    let mut list = Vec::new();
    for field in &others {
        for _ in 0..1 + usize::from(random.percent(REPEATED)) {
            list.push(reordered(field, |terms| permuted(random, &terms)));
        }
    }
    let mut list = permuted(random, &list);
    list.sort_by_key(|field| field.tag);
    fields::bytes(&[variables, list].concat())
}

/// Rules or constraints of a file as they stand.
fn listed(file: &[u8], tag: u8) -> Vec<Vec<u8>> {
    fields::taken(file).into_iter().filter(|f| f.tag == tag).map(|f| f.value).collect()
}

/// What the file and its copy ask of writing them anew.
pub fn names(file: &[u8], copy: &[u8], output: &[u8]) -> BTreeSet<String> {
    let mut names = BTreeSet::new();
    for (tag, what) in [(RULE, "rule"), (RULE + 1, "constraint")] {
        let [one, other, out] = [file, copy, output].map(|file| listed(file, tag));
        let kept: Vec<&Vec<u8>> = other.iter().filter(|value| out.contains(value)).collect();
        let key = |value: &Vec<u8>| (value.len(), value.clone());
        let once: BTreeSet<&Vec<u8>> = other.iter().collect();
        let cases = [
            ("not in normal form", one != out),
            ("out of order in the copy", kept.windows(2).any(|two| key(two[0]) > key(two[1]))),
            ("repeated as it stands", once.len() < other.len()),
            ("repeated in another order", once.len() > out.len()),
        ];
        let met = cases.iter().filter(|(_, met)| *met);
        names.extend(met.map(|(name, _)| format!("anew: {what}, {name}")));
        for value in other.iter().filter(|value| !out.contains(value)) {
            names.insert(format!("anew: {what} form {}, terms out of order", value[0]));
        }
    }
    for value in listed(output, RULE) {
        let terms: Vec<u8> = value[4..].chunks(4).map(|term| term[0]).collect();
        if value[0] == CARRY && terms[0] > terms[1] {
            names.insert("anew: carried variable above a literal's".to_string());
        }
        if value[0] == QUOTIENT && terms[1..].contains(&0) {
            names.insert("anew: variable 0 behind a divisor".to_string());
        }
    }
    names
}

/// What must be met, and in how many of a hundred programs.
pub fn required() -> Vec<(String, usize)> {
    let mut names: Vec<(String, usize)> = Vec::new();
    names.extend(
        [1, 2, 3, 4, 6, 7, 8].map(|form| (format!("anew: rule form {form}, terms out of order"), 1)),
    );
    names.extend([1, 2].map(|form| (format!("anew: constraint form {form}, terms out of order"), 1)));
    let others = [
        ("rule, not in normal form", 50),
        ("rule, out of order in the copy", 50),
        ("rule, repeated as it stands", 40),
        ("rule, repeated in another order", 10),
        ("constraint, not in normal form", 5),
        ("constraint, out of order in the copy", 1),
        ("constraint, repeated as it stands", 5),
        ("constraint, repeated in another order", 2),
        ("carried variable above a literal's", 5),
        ("variable 0 behind a divisor", 5),
    ];
    names.extend(others.map(|(name, n)| (format!("anew: {name}"), n)));
    names
}

impl Case {
    /// What differs when the file is written anew, in readable form: 02, "the same
    /// rules to be the same bytes", "Writing an output again changes nothing, and
    /// the stable assignments are those of the input", which are its answer sets.
    fn difference_anew(&self) -> Option<String> {
        for file in [&self.file, &self.copy, &self.output] {
            let output = proved::normalize(file);
            if output.as_ref() != Some(&self.output) {
                let (title, due) = (self.title(), &self.output);
                return Some(format!("{title}\n  {file:?}\n  anew {output:?}\n  due {due:?}\n"));
            }
        }
        let answers = match self.solved(Reading::Right) {
            Ok(list) => BTreeSet::from_iter(list),
            Err(what) => return Some(what),
        };
        let words = proved::words(&self.output, &self.program);
        let stable: BTreeSet<Vec<i64>> =
            words.iter().filter(|(_, word)| *word == Word::Stable).map(|(a, _)| a.clone()).collect();
        let other = words.iter().find(|(_, word)| matches!(word, Word::Other(_)));
        let differs = stable != answers || other.is_some();
        differs.then(|| {
            let title = self.title();
            format!("{title}\n  anew:   {stable:?}\n  solver: {answers:?}\n  other:  {other:?}\n")
        })
    }

    /// What the mistake writes, where that is accepted and another plan.
    fn spoilt(&self, mistake: Mistake) -> Option<Vec<u8>> {
        let wrong = mistake.written(&self.copy, &self.output);
        (proved::normalize(&wrong)? != self.output).then_some(wrong)
    }

    /// Are other assignments stable there than the answer sets of the file?
    fn notices_anew(&self, wrong: &[u8]) -> bool {
        let answers = self.solved(Reading::Right).map(BTreeSet::from_iter);
        let stable = |values: &Vec<i64>| proved::check(wrong, values) == Word::Stable;
        let differs = |set: BTreeSet<Vec<i64>>| {
            self.words.iter().any(|(values, _)| stable(values) != set.contains(values))
        };
        answers.is_ok_and(differs)
    }
}

/// How many programs differ when they are written anew; the first few are
/// printed.
pub fn compare(cases: &[Case]) -> usize {
    let differing: Vec<String> = cases.iter().filter_map(Case::difference_anew).collect();
    for what in differing.iter().take(PRINTED) {
        println!("differs anew: {what}");
    }
    println!("{} programs written anew, {} differ", cases.len(), differing.len());
    differing.len()
}

/// Each mistake of writing anew must be noticed somewhere.
pub fn sharp(cases: &[Case]) -> Vec<String> {
    let mut unseen = Vec::new();
    for &mistake in Mistake::ALL {
        let spoilt: Vec<(&Case, Vec<u8>)> =
            cases.iter().filter_map(|case| Some((case, case.spoilt(mistake)?))).collect();
        let noticed = spoilt.iter().filter(|(case, wrong)| case.notices_anew(wrong));
        let names: Vec<&str> = noticed.map(|(case, _)| case.name.as_str()).collect();
        if names.is_empty() {
            unseen.push(format!("mistake {mistake:?} in {} programs: not noticed", spoilt.len()));
            continue;
        }
        let first = names[..names.len().min(PRINTED)].join("; ");
        let counts = format!("in {} programs, noticed in {}", spoilt.len(), names.len());
        println!("mistake {mistake:?}: {counts}, {first}");
    }
    unseen
}
