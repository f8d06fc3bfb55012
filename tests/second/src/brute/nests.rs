//! What a small nested file means, straight from the definition: a tree is one rule
//! that gives its root's value, its leaves plain terms. All assignments and all models
//! are gone through. Its stable assignments are held against those of the plain file.

use super::defs::{constraint_met, Small};
use super::tried::Nests;
use super::{bytes, Calls};
use crate::anew::{lend, Normalize};
use crate::flat::Flat;
use crate::nested;
use crate::normal::Normal;
use crate::program::*;
use crate::reader::parse_fields;
use crate::tree::Tree;
use crate::wrong::Wrong;
use crate::{Solved, Verdict};

/// A tree and the variable that it is for.
struct Expression {
    head: usize,
    tree: Tree,
    /// For every variable, whether it is at a leaf and kept there.
    kept: Vec<bool>,
}

/// A nested file; a plain one has no trees.
struct Nest {
    small: Small,
    trees: Vec<Expression>,
}

/// What a tree gives, leaf by leaf.
fn gives(tree: &Tree, read: &dyn Fn(usize) -> i64) -> i64 {
    match tree {
        Tree::Leaf(v) => read(*v),
        Tree::Node(form, children) => {
            let mut given = gives(&children[0], read);
            for child in &children[1..] {
                let next = gives(child, read);
                given = match *form {
                    SUM => given + next,
                    MAX if next > given => next,
                    MIN if next < given => next,
                    _ => given,
                };
            }
            given
        }
    }
}

/// What a tree gives when `leaf` has this value and all others are so that it decides.
fn telling(tree: &Tree, leaf: usize, value: i64) -> i64 {
    let Tree::Node(form, children) = tree else { return value };
    let calm = match *form {
        SUM => 0,
        MAX => -1_000_000,
        _ => 1_000_000,
    };
    let of = |child: &Tree| match child.leaves().contains(&leaf) {
        true => telling(child, leaf, value),
        false => gives(child, &|_| calm),
    };
    let values: Vec<i64> = children.iter().map(of).collect();
    gives(&Tree::Node(*form, (0..values.len()).map(Tree::Leaf).collect()), &|i| values[i])
}

/// Goes through all choices of one number from each range until one is seen that ends
/// it.
fn any(ranges: &[(i64, i64)], mut sees: impl FnMut(&[i64]) -> bool) -> bool {
    let mut values: Vec<i64> = ranges.iter().map(|range| range.0).collect();
    loop {
        if sees(&values) {
            return true;
        }
        let Some(i) = (0..values.len()).find(|&i| values[i] < ranges[i].1) else { return false };
        values[i] += 1;
        (0..i).for_each(|j| values[j] = ranges[j].0);
    }
}

impl Nest {
    fn of(program: Program, trees: Vec<nested::Expression>) -> Nest {
        let mut nest = Nest { small: Small::of(program), trees: Vec::new() };
        let count = nest.small.program.variables.len();
        for nested::Expression { head, tree, .. } in trees {
            let kept = (0..count).map(|v| nest.kept(head, &tree, v)).collect();
            nest.trees.push(Expression { head, tree, kept });
        }
        nest
    }

    /// A leaf is kept when it is founded and moving it away from its starting end,
    /// which is up when mirrored, makes the tree demand more.
    fn kept(&self, head: usize, tree: &Tree, v: usize) -> bool {
        let demand = |value: i64| self.small.sign(head) * telling(tree, v, self.small.sign(v) * value);
        let leaf = tree.leaves().contains(&v);
        leaf && self.small.program.variables[v].founded() && demand(1) > demand(0)
    }

    /// What a tree demands of its head, mirrored.
    fn demand(&self, tree: &Expression, read: &dyn Fn(usize) -> i64) -> i64 {
        self.small.sign(tree.head) * gives(&tree.tree, &|v| self.small.sign(v) * read(v))
    }

    fn first_unmet_tree(&self, a: &[i64]) -> Option<usize> {
        self.trees.iter().position(|tree| self.demand(tree, &|v| a[v]) > a[tree.head])
    }

    /// Does this valuation meet the reduct by `a`?
    fn is_model(&self, a: &[i64], m: &[i64]) -> bool {
        let rules = self.small.rules().all(|(r, rule)| {
            let read = |i: usize| if self.small.kept(r, i) { m } else { a };
            self.small.demand_by(rule, |i| read(i)[rule.terms[i].variable]) <= m[rule.head]
        });
        let read = |tree: &Expression, v: usize| if tree.kept[v] { m[v] } else { a[v] };
        rules && self.trees.iter().all(|tree| self.demand(tree, &|v| read(tree, v)) <= m[tree.head])
    }

    /// Is `a` the least of all models of its reduct? It is one of them.
    fn is_least(&self, a: &[i64], models: &mut usize) -> bool {
        let range = |v: usize| match self.small.program.variables[v].founded() {
            true => self.small.range(v),
            false => (a[v], a[v]),
        };
        let ranges: Vec<(i64, i64)> = (0..a.len()).map(range).collect();
        !any(&ranges, |m| {
            *models += 1;
            (0..a.len()).any(|v| m[v] < a[v]) && self.is_model(a, m)
        })
    }

    /// The verdict on an assignment in its ranges. Trees are numbered after the rules.
    fn verdict(&self, a: &[i64], models: &mut usize) -> Verdict {
        let mirrored = self.small.mirrored(a);
        let unmet = self.small.program.constraints.iter().position(|c| !constraint_met(c, a));
        let rules = self.small.program.rules.len();
        match (self.small.first_unmet_rule(&mirrored), self.first_unmet_tree(&mirrored), unmet) {
            (Some(rule), _, _) => Verdict::Rule(rule),
            (None, Some(tree), _) => Verdict::Rule(rules + tree),
            (None, None, Some(constraint)) => Verdict::Constraint(constraint),
            _ if self.is_least(&mirrored, models) => Verdict::Stable,
            _ => Verdict::Unfounded(0, 0),
        }
    }

    /// All assignments in the ranges, each with its verdict.
    fn verdicts(&self, tried: &mut Nests) -> Vec<(Vec<i64>, Verdict)> {
        let ranges: Vec<(i64, i64)> =
            self.small.program.variables.iter().map(|v| (v.low, v.high)).collect();
        let mut all = Vec::new();
        any(&ranges, |a| {
            tried.assignments += 1;
            all.push((a.to_vec(), self.verdict(a, &mut tried.models)));
            false
        });
        all
    }

    /// Is there a path from a head of a tree over a kept leaf back to the head?
    fn has_circle(&self) -> bool {
        let n = self.small.program.variables.len();
        let mut path = self.small.edges(&vec![false; self.small.program.rules.len()]);
        for tree in &self.trees {
            (0..n).for_each(|v| path[tree.head][v] |= tree.kept[v]);
        }
        for k in 0..n {
            for i in 0..n {
                for j in 0..n {
                    path[i][j] |= path[i][k] && path[k][j];
                }
            }
        }
        let closes =
            |tree: &Expression| (0..n).any(|v| tree.kept[v] && (v == tree.head || path[v][tree.head]));
        self.trees.iter().any(closes)
    }
}

/// A nested file, its plain one, and where the trees' values stand there.
struct Both {
    nest: Nest,
    plain: Nest,
    /// The nodes of the added variables.
    nodes: Vec<Tree>,
    /// For each tree, the number of its root's rule.
    roots: Vec<usize>,
    out: Vec<u8>,
}

/// Tries every assignment of a small nested file, and of its plain one. The error says
/// what failed.
pub fn try_nested(
    calls: &Calls,
    flatten: Normalize,
    file: &[u8],
    tried: &mut Nests,
) -> Result<(), String> {
    let Ok(read) = nested::read(file, Wrong::Nothing) else { return Ok(()) };
    tried.programs += 1;
    let (answer, bytes) = lend(10 * file.len() + 99, |buffer| flatten(file, buffer));
    let due = try_validity(&read, tried);
    let (Normal::Written(length), None) = (answer, due) else {
        let refused = due.map(|place| Normal::Refused { number: 13, place });
        return match refused == Some(answer) {
            true => Ok(()),
            false => Err(format!("{answer:?}, {due:?} was due as a place of 13")),
        };
    };
    let out = bytes.ok_or("bytes around the buffer")?[..length].to_vec();
    let both = Both::of(read, out)?;
    both.try_ranges(tried)?;
    both.count(tried);
    let verdicts = both.nest.verdicts(tried);
    both.try_stable(&verdicts, tried)?;
    for (i, (a, verdict)) in verdicts.iter().enumerate() {
        both.try_exact(calls, a, *verdict)?;
        both.try_by_least(calls, a, *verdict, i, tried)?;
    }
    count_verdicts(&both.nest, &verdicts, tried);
    Ok(())
}

/// The place of the rule by which the plain file is not valid, by enumeration.
fn try_validity(read: &nested::Nested, tried: &mut Nests) -> Option<usize> {
    let flat = Flat::of(read);
    let plain = Small::of(flat.program(read));
    let old = Small::of(read.program.clone());
    let idle = plain.idle();
    let offends = |idle: &[bool]| plain.invalid(idle).map(|rule| rule.place);
    let place = offends(&idle);
    let mut never = idle.clone();
    never[read.program.rules.len()..].iter_mut().for_each(|idle| *idle = false);
    tried.invalid += usize::from(place.is_some());
    tried.invalid_by_trees += usize::from(place.is_some() && old.invalid(&old.idle()).is_none());
    tried.valid_by_idle += usize::from(place.is_none() && offends(&never).is_some());
    place
}

fn count_verdicts(nest: &Nest, verdicts: &[(Vec<i64>, Verdict)], tried: &mut Nests) {
    let count = |holds: &dyn Fn(Verdict) -> bool| verdicts.iter().filter(|v| holds(v.1)).count();
    let stable = count(&|v| v == Verdict::Stable);
    let unfounded = count(&|v| matches!(v, Verdict::Unfounded(..)));
    let rules = nest.small.program.rules.len();
    let circle = usize::from(nest.has_circle());
    tried.stable += stable;
    tried.unfounded += unfounded;
    tried.against_tree += count(&|v| matches!(v, Verdict::Rule(r) if r >= rules));
    tried.against_constraint += count(&|v| matches!(v, Verdict::Constraint(_)));
    tried.several += usize::from(stable > 1);
    tried.without += usize::from(stable == 0);
    tried.circles += circle;
    tried.circle_stable += circle * stable;
    tried.circle_unfounded += circle * unfounded;
    for (a, _) in verdicts.iter().filter(|v| v.1 == Verdict::Stable) {
        let m = nest.small.mirrored(a);
        let lifted = |tree: &&Expression| m[tree.head] > nest.small.range(tree.head).0;
        let by_rule = |head: usize| {
            nest.small.rules().any(|(_, rule)| {
                rule.head == head && nest.small.demand_by(rule, |i| m[rule.terms[i].variable]) == m[head]
            })
        };
        tried.moved += usize::from(nest.trees.iter().any(|tree| lifted(&tree)));
        let alone = |tree: &&Expression| lifted(tree) && !by_rule(tree.head);
        tried.moved_by_tree += usize::from(nest.trees.iter().any(|tree| alone(&tree)));
    }
}

impl Both {
    fn of(read: nested::Nested, out: Vec<u8>) -> Result<Both, String> {
        let program =
            parse_fields(&out, Wrong::Nothing).map_err(|refusal| format!("output: {refusal:?}"))?;
        let added =
            |e: &nested::Expression| -> Vec<Tree> { e.tree.added().into_iter().cloned().collect() };
        let (mut nodes, mut roots) = (Vec::new(), Vec::new());
        for expression in &read.trees {
            roots.push(read.program.rules.len() + roots.len() + nodes.len());
            nodes.extend(added(expression));
        }
        let variables = read.program.variables.len() + nodes.len();
        let rules = read.program.rules.len() + roots.len() + nodes.len();
        if (program.variables.len(), program.rules.len()) != (variables, rules) {
            return Err("other counts of variables or rules".to_string());
        }
        let plain = Nest::of(program, Vec::new());
        Ok(Both { nest: Nest::of(read.program, read.trees), plain, nodes, roots, out })
    }

    fn own(&self) -> usize {
        self.nest.small.program.variables.len()
    }

    /// The range of each added variable is exactly what its node gives, over all
    /// values of its leaves.
    fn try_ranges(&self, tried: &mut Nests) -> Result<(), String> {
        let variables = &self.plain.small.program.variables;
        for (i, node) in self.nodes.iter().enumerate() {
            let leaves = node.leaves();
            let ranges: Vec<(i64, i64)> =
                leaves.iter().map(|&v| (variables[v].low, variables[v].high)).collect();
            let (mut low, mut high) = (i64::MAX, i64::MIN);
            any(&ranges, |values| {
                let read = |v: usize| values[leaves.iter().position(|&leaf| leaf == v).unwrap_or(0)];
                let given = gives(node, &read);
                (low, high) = (low.min(given), high.max(given));
                false
            });
            let added = &variables[self.own() + i];
            if (added.low, added.high) != (low, high) {
                return Err(format!("added variable {i}: {low}..{high} was due, {added:?}"));
            }
            tried.ranges += 1;
            tried.single += usize::from(low == high);
        }
        Ok(())
    }

    /// An assignment with the values of all nodes.
    fn extended(&self, a: &[i64]) -> Vec<i64> {
        let values = self.nodes.iter().map(|node| gives(node, &|v| a[v]));
        a.iter().copied().chain(values).collect()
    }

    /// Each stable assignment extends in exactly one way to a stable one of the plain
    /// file, and every stable one there is such an extension.
    fn try_stable(&self, verdicts: &[(Vec<i64>, Verdict)], tried: &mut Nests) -> Result<(), String> {
        let stable: Vec<&Vec<i64>> =
            verdicts.iter().filter(|v| v.1 == Verdict::Stable).map(|v| &v.0).collect();
        let plain: Vec<Vec<i64>> = self
            .plain
            .verdicts(tried)
            .into_iter()
            .filter(|v| v.1 == Verdict::Stable)
            .map(|v| v.0)
            .collect();
        if let Some(other) = plain.iter().find(|p| !stable.iter().any(|s| **s == p[..self.own()])) {
            return Err(format!("{other:?} is stable in the plain file, and extends no stable one"));
        }
        for s in stable {
            let extensions: Vec<&Vec<i64>> = plain.iter().filter(|p| p[..self.own()] == **s).collect();
            if extensions != [&self.extended(s)] {
                return Err(format!("stable {s:?} extends to {extensions:?}"));
            }
        }
        Ok(())
    }

    /// With the values of all nodes, check says what is due of the nested file.
    fn try_exact(&self, calls: &Calls, a: &[i64], due: Verdict) -> Result<(), String> {
        let rules = self.nest.small.program.rules.len();
        let due = match due {
            Verdict::Rule(r) if r >= rules => Verdict::Rule(self.roots[r - rules]),
            other => other,
        };
        let verdict = self.check(calls, &self.extended(a));
        match verdict == due {
            true => Ok(()),
            false => Err(format!("{a:?}, nodes' values: {verdict:?}, {due:?} was due")),
        }
    }

    /// The word alone of `unfounded`.
    fn check(&self, calls: &Calls, values: &[i64]) -> Verdict {
        let mut report = vec![0; 12 * values.len()];
        match (calls.check)(&self.out, &bytes(values), &mut report) {
            Verdict::Unfounded(..) => Verdict::Unfounded(0, 0),
            verdict => verdict,
        }
    }

    /// Added variables get any values in their ranges, then those of the least model;
    /// then check says `stable` exactly where that is due. Where it is not, an added
    /// variable's rule may be unmet, for its leaves are as assigned.
    fn try_by_least(
        &self,
        calls: &Calls,
        a: &[i64],
        due: Verdict,
        seed: usize,
        tried: &mut Nests,
    ) -> Result<(), String> {
        if matches!(due, Verdict::Rule(_)) {
            return Ok(());
        }
        let added = &self.plain.small.program.variables[self.own()..];
        let any_value = |(i, v): (usize, &Variable)| {
            v.low + ((seed + 1) * (i + 3) * 7 % (v.high - v.low + 1) as usize) as i64
        };
        let mut values: Vec<i64> = a.to_vec();
        values.extend(added.iter().enumerate().map(any_value));
        let mut model = vec![0; 2 * values.len()];
        let solved = (calls.least)(&self.out, &bytes(&values), &mut model);
        if solved != Solved::Found {
            return Err(format!("{a:?}: least says {solved:?}"));
        }
        let found = (self.own()..values.len()).map(|i| signed(&model, 2 * i)).collect::<Vec<_>>();
        values.splice(self.own().., found);
        let verdict = self.check(calls, &values);
        let of_node = |r: usize| r >= self.nest.small.program.rules.len() && !self.roots.contains(&r);
        let fits = match (due, verdict) {
            (Verdict::Stable, verdict) => verdict == Verdict::Stable,
            (_, Verdict::Rule(r)) => of_node(r),
            (due, verdict) => verdict == due,
        };
        match verdict {
            Verdict::Stable => tried.least_stable += 1,
            Verdict::Unfounded(..) => tried.least_unfounded += 1,
            Verdict::Rule(_) => tried.least_rule += 1,
            _ => tried.least_constraint += 1,
        }
        match fits {
            true => Ok(()),
            false => Err(format!("{a:?}, least model's values: {verdict:?}, {due:?} was due")),
        }
    }

    fn count(&self, tried: &mut Nests) {
        let kind = |v: usize| self.nest.small.program.variables[v].kind;
        for tree in &self.nest.trees {
            let leaves = tree.tree.leaves();
            let added = tree.tree.added().len();
            let above = kind(tree.head) == Kind::Above;
            tried.added_above += if above { added } else { 0 };
            tried.added_below += if above { 0 } else { added };
            tried.kept += leaves.iter().filter(|&&v| tree.kept[v]).count();
            tried.standard += leaves.iter().filter(|&&v| !kind(v).founded()).count();
            tried.other_kind += leaves.iter().filter(|&&v| kind(v).founded() && !tree.kept[v]).count();
            tried.own_leaf += usize::from(leaves.contains(&tree.head));
        }
        tried.several_trees += usize::from(self.nest.trees.len() > 1);
    }
}
