//! What a case of flattening touches.

use std::collections::BTreeSet;

use super::{Passed, Scan};
use crate::flat::Flat;
use crate::gen::fields;
use crate::gen::nested::Case;
use crate::graph;
use crate::nested;
use crate::normal::Normal;
use crate::program::*;
use crate::reader::Refusal;
use crate::wrong::Wrong;

type Named<'a> = (&'a str, bool);

fn those(names: &[Named]) -> Vec<String> {
    names.iter().filter(|(_, met)| *met).map(|(name, _)| name.to_string()).collect()
}

/// What the answer has to do with the file and the buffer.
pub fn of_answer(
    case: &Case,
    length: usize,
    answer: Normal,
    passed: &Result<Passed, (Refusal, &'static str)>,
) -> impl Iterator<Item = String> {
    let mut names = Vec::new();
    match (answer, passed) {
        (Normal::Refused { number, .. }, Err((_, why))) => {
            names.push(format!("refusal {number:02}"));
            let trees = fields::taken(&case.file).iter().any(|field| field.tag == 5);
            match *why {
                "before the trees" if trees => {
                    names.push(format!("refusal {number:02}, trees after it"))
                }
                "before the trees" | "" => {}
                why => names.push(format!("refusal {number:02}: {why}")),
            }
            names.extend(those(&[(
                "refused, the buffer shorter than the file",
                length < case.file.len(),
            )]));
        }
        (Normal::Refused { number, .. }, Ok(passed)) => {
            names.push(format!("refusal {number:02}"));
            let prefix = if number == 13 { "refusal 13" } else { "refusal 17" };
            let list =
                if number == 13 { thirteen(case, length, passed) } else { short(case, length, passed) };
            names.extend(list.iter().map(|name| format!("{prefix}: {name}")));
        }
        (Normal::Written(n), _) => {
            names.push("written".to_string());
            names.extend(those(&[
                ("written: as long as the buffer", length == n),
                ("written: bytes after it", length > n),
                ("written: a buffer over 60,000", length > FILE_BYTES),
                ("written: nothing into nothing", length == 0),
                ("written: nothing", n == 0 && length > 0),
            ]));
        }
    }
    names.into_iter()
}

/// What decides on refusal 13.
fn thirteen(case: &Case, length: usize, passed: &Passed) -> Vec<String> {
    let old = fields::bytes(&fields::taken(&case.file)[..before(&case.file)]);
    let without = matches!(crate::read(&old), crate::Reading::Accepted { .. });
    let Ok(nested) = nested::read(&case.file, Wrong::Nothing) else { return Vec::new() };
    let program = Flat::of(&nested).program(&nested);
    let first = graph::first_offending_rule(&program);
    let above = first.is_some_and(|rule| program.variables[program.rules[rule].head].above());
    let size = |rule: &Rule| rule.form == SIZE;
    let another = first.is_some_and(|rule| program.rules[..rule].iter().any(size));
    those(&[
        ("trees close it", without),
        ("without the trees too", !without && !passed.trees.is_empty()),
        ("no tree", passed.trees.is_empty()),
        ("variables are added", passed.added() > 0),
        ("output over 60,000", passed.room() > FILE_BYTES),
        ("the buffer is short", length < passed.room()),
        ("head of kind 2", above),
        ("another size before it", another),
    ])
}

/// How many fields stand before the trees.
fn before(file: &[u8]) -> usize {
    let taken = fields::taken(file);
    taken.iter().position(|field| field.tag == 5).unwrap_or(taken.len())
}

/// What refusal 17 is about.
fn short(case: &Case, length: usize, passed: &Passed) -> Vec<String> {
    let room = passed.room();
    those(&[
        ("one byte short", room <= FILE_BYTES && length + 1 == room),
        ("the input would fit", length >= case.file.len() && room <= FILE_BYTES),
        ("no byte", length == 0),
        ("over 60,000 bytes, the buffer longer", room > FILE_BYTES && length >= room),
        ("60,001 bytes", room == FILE_BYTES + 1 && length >= room),
        ("no tree", passed.trees.is_empty()),
    ])
}

/// What an accepted nested file and its output have.
pub fn of_file(file: &[u8], passed: &Passed, out: &[u8]) -> BTreeSet<String> {
    let Ok(nested) = nested::read(file, Wrong::Nothing) else { return BTreeSet::new() };
    let mut names = BTreeSet::new();
    for (head, scan) in &passed.trees {
        let kind = passed.variables[*head].0;
        let leaf_kinds = |v: &usize| format!("leaf of kind {} for kind {kind}", passed.variables[*v].0);
        names.extend(scan.leaves.iter().map(leaf_kinds));
        names.extend(those(&of_tree(*head, scan)));
    }
    let program = Flat::of(&nested).program(&nested);
    names.extend(those(&of_rules(&nested, &program)));
    let trees = passed.trees.len();
    let shared = |i: usize| {
        let taken = |leaf: &usize| passed.trees[..i].iter().any(|(_, scan)| scan.leaves.contains(leaf));
        trees < 50 && passed.trees[i].1.leaves.iter().any(taken)
    };
    let forms = |form: u8| program.rules[passed.rules..].iter().any(|rule| rule.form == form);
    names.extend(those(&[
        ("no tree", trees == 0),
        ("several trees", trees > 1),
        ("over 512 trees", trees > CONSTRAINTS),
        ("a leaf in two trees", (0..trees).any(shared)),
        ("constraints", passed.constraints > 0 && trees > 0),
        ("rules of its own", passed.rules > 0 && trees > 0),
        ("sum", forms(SUM)),
        ("max", forms(MAX)),
        ("min", forms(MIN)),
        ("limit: 60,000 bytes", out.len() == FILE_BYTES && trees > 0),
        ("limit: 256 variables", passed.variables.len() + passed.added() == VARIABLES && trees > 0),
        (
            "limit: 256 variables, most of them added",
            program.variables.len() == VARIABLES && passed.added() > 128,
        ),
        ("limit: 2,048 rules", program.rules.len() == RULES && trees > 0),
        ("limit: empty file", file.is_empty()),
    ]));
    names
}

fn of_tree(head: usize, scan: &Scan) -> [Named<'static>; 13] {
    let has = |end: i64| scan.ranges.iter().any(|r| r.0 == end || r.1 == end);
    [
        ("leaf root", scan.inner == 0),
        ("root alone", scan.inner == 1),
        ("one added", scan.added() == 1),
        ("several added", scan.added() > 1),
        ("ten added and more", scan.added() > 9),
        ("8 levels", scan.levels == 8),
        ("16 children", scan.wide == 16),
        ("head at its own leaf", scan.leaves.contains(&head)),
        ("a range with one value", scan.ranges.iter().any(|r| r.0 == r.1)),
        ("a range that ends at 30,000", has(VALUE)),
        ("a range that ends at -30,000", has(-VALUE)),
        ("a root over 30,000", scan.root.1 > VALUE),
        ("a root under -30,000", scan.root.0 < -VALUE),
    ]
}

/// Idle rules, kinds and validity.
fn of_rules(nested: &nested::Nested, program: &Program) -> [Named<'static>; 8] {
    let old = nested.program.rules.len();
    let declared = nested.program.variables.len();
    let new = &program.rules[old..];
    let added = &program.variables[declared..];
    let idle = |rule: &&Rule| program.idle(rule);
    let mut never = program.clone();
    for rule in &mut never.rules[old..] {
        let above = program.variables[rule.head].above();
        rule.c = if above { -1_000_000_000 } else { 1_000_000_000 };
    }
    let mixed = program.rules[..old].iter().any(|rule| rule.form == SIZE);
    let decides = mixed && graph::first_offending_rule(&never).is_some();
    let leaves =
        |e: &nested::Expression| e.tree.added().into_iter().map(|n| n.leaves()).collect::<Vec<_>>();
    let kind = |v: usize| program.variables[v].kind;
    let all = |holds: &dyn Fn(Kind, Kind) -> bool| {
        nested
            .trees
            .iter()
            .any(|e| leaves(e).iter().any(|list| list.iter().all(|&v| holds(kind(e.head), kind(v)))))
    };
    [
        ("a new rule that is idle", new.iter().filter(|r| r.head >= declared).any(|r| idle(&r))),
        ("a root that is idle", new.iter().filter(|r| r.head < declared).any(|r| idle(&r))),
        ("valid because a new rule is idle", decides),
        ("a size, valid", mixed && !new.is_empty()),
        ("added variables of kind 1", added.iter().any(|v| v.kind == Kind::Below)),
        ("added variables of kind 2", added.iter().any(|v| v.above())),
        ("added, all leaves standard", all(&|_, leaf| leaf == Kind::Standard)),
        (
            "added, all leaves founded from the other end",
            all(&|head, leaf| leaf.founded() && leaf != head),
        ),
    ]
}

/// Every name that must be hit, with what the wanted number is divided by.
pub fn required() -> Vec<(String, usize)> {
    let mut names: Vec<(String, usize)> = Vec::new();
    let mut add = |part: usize, first: &str, list: &[&str]| {
        names.extend(list.iter().map(|name| (format!("{first}{name}"), part)));
    };
    let made =
        ["small", "middle", "deep", "wide", "leaf roots", "shared leaves", "node byte", "cut short"];
    add(1, "made: ", &made);
    add(1, "made: ", &["too deep", "undeclared", "repeated", "range", "two faults", "tags", "any"]);
    add(1, "made: ", &["knot", "open knot"]);
    let less = ["bytes left over", "no tree", "256 variables", "257 variables", "treeless", "spoilt"];
    add(2, "made: ", &less);
    add(2, "made: ", &["child count 0", "child count 17", "damaged", "noise", "few"]);
    add(16, "made: ", &["2,048 rules", "2,049 rules", "many trees", "brim", "brim, not valid", "long"]);
    for number in [1, 2, 3, 4, 5, 6, 7, 8, 9, 10, 11, 12, 13, 17, 18, 19] {
        let seldom = [1, 8, 10, 12].contains(&number);
        add(if seldom { 8 } else { 2 }, "", &[&format!("refusal {number:02}")]);
    }
    for number in 3..=12 {
        add(16, "", &[&format!("refusal {number:02}, trees after it")]);
    }
    add(2, "refusal 02: ", &["after a tree"]);
    add(4, "refusal 03: ", &["tag 0 or 4", "tag above 5"]);
    add(4, "refusal 04: ", &["tag 1 to 3"]);
    let broken = ["node byte", "child count 0", "child count over 16", "cut short", "bytes left over"];
    add(1, "refusal 18: ", &broken);
    add(2, "refusal 18: ", &["too deep", "no head", "no tree"]);
    add(2, "refusal 05: ", &["variables"]);
    add(4, "refusal 05: ", &["rules"]);
    add(4, "refusal 09: ", &["head", "standard head", "leaf"]);
    add(8, "refusal 09: ", &["head, number of an added variable"]);
    add(4, "refusal 09: leaf, number of ", &["an added variable", "its own tree"]);
    add(1, "refusal 11: ", &["in one node", "in two nodes"]);
    add(4, "refusal 19: ", &["low", "high", "30,001", "-30,001", "brought back by the root"]);
    add(1, "refusal 13: ", &["trees close it", "variables are added", "the buffer is short"]);
    add(1, "refusal 13: ", &["head of kind 2", "another size before it"]);
    add(8, "refusal 13: ", &["without the trees too", "no tree"]);
    add(16, "refusal 13: ", &["output over 60,000"]);
    add(1, "refusal 17: ", &["one byte short", "the input would fit", "no byte"]);
    add(16, "refusal 17: ", &["over 60,000 bytes, the buffer longer", "60,001 bytes"]);
    add(8, "refusal 17: ", &["no tree"]);
    add(1, "", &["written", "refused, the buffer shorter than the file"]);
    add(1, "written: ", &["as long as the buffer", "bytes after it", "a buffer over 60,000"]);
    add(16, "written: ", &["nothing into nothing", "nothing"]);
    add_files(&mut add);
    names
}

fn add_files(add: &mut impl FnMut(usize, &str, &[&str])) {
    for (head, leaf) in [1, 2].iter().flat_map(|head| [0, 1, 2].map(|leaf| (head, leaf))) {
        add(1, "", &[&format!("leaf of kind {leaf} for kind {head}")]);
    }
    add(1, "", &["several trees", "a leaf in two trees", "constraints", "rules of its own"]);
    add(1, "", &["sum", "max", "min", "leaf root", "root alone", "one added", "several added"]);
    add(1, "", &["ten added and more", "8 levels", "16 children", "head at its own leaf"]);
    add(1, "", &["a range with one value", "added variables of kind 1", "added variables of kind 2"]);
    let ends = ["a range that ends at 30,000", "a range that ends at -30,000"];
    add(4, "", &ends);
    add(8, "", &["a root over 30,000", "a root under -30,000", "a root that is idle"]);
    add(1, "", &["a new rule that is idle", "a size, valid", "added, all leaves standard"]);
    add(1, "", &["added, all leaves founded from the other end"]);
    add(2, "", &["valid because a new rule is idle", "no tree", "limit: 256 variables"]);
    add(4, "limit: ", &["256 variables, most of them added"]);
    add(16, "", &["over 512 trees", "limit: 60,000 bytes", "limit: 2,048 rules", "limit: empty file"]);
}
