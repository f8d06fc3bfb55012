//! Nested files with faults that are known, and files that come close to one.

use super::fields::{self, Field};
use super::nested::{add, calm, some, usual, Draft, Made};
use super::prng::Random;
use super::programs;
use super::spoil;
use super::trees::{self, leaf, leaves, max, min, sum, Style, USUAL};
use super::whole;
use crate::program::*;
use crate::tree::Tree;

/// A draft in which one tree's value is put in by hand.
fn with_value(draft: &Draft, tree: usize, value: Vec<u8>) -> Vec<u8> {
    let mut all = draft.fields();
    all[draft.list.len() + tree].value = value;
    fields::bytes(&all)
}

/// Some trees, and one of them.
fn one_of(random: &mut Random) -> (Draft, usize) {
    let shape = random.pick(&[programs::SMALL, programs::MIDDLE]);
    let draft = usual(random, shape, 3);
    let at = random.below(draft.trees.len());
    (draft, at)
}

/// Where nodes begin in the bytes of a tree, and whether they are leaves.
fn starts(tree: &Tree) -> Vec<(usize, bool)> {
    tree.nodes().iter().enumerate().map(|(i, node)| (2 * i, node.is_leaf())).collect()
}

/// 18: node byte, child count, cut short, bytes left over.
pub fn malformed(random: &mut Random) -> Made {
    let (draft, at) = one_of(random);
    let (mut head, tree) = (draft.trees[at].0 as u8, &draft.trees[at].1);
    let mut bytes = trees::bytes(tree);
    let nodes = starts(tree);
    let inner: Vec<usize> = nodes.iter().filter(|node| !node.1).map(|node| node.0).collect();
    let label = match random.below(8) {
        0 | 1 => {
            let start = random.pick(&nodes).0;
            bytes[start] = random.pick(&[4, 4, 5, 6, 16, 128, 255]);
            "node byte"
        }
        2 if !inner.is_empty() => {
            let start = random.pick(&inner);
            bytes[start + 1] = 0;
            // What stood below stands after the tree, if it is not taken away.
            if random.percent(50) {
                bytes.truncate(start + 2);
            }
            "child count 0"
        }
        3 => {
            // 17 children that are all there, or any larger count
            let variable = random.below(draft.variables().len()) as u8;
            let count = random.pick(&[17, 17, 17, 18, 32, 255]);
            bytes = vec![1 + random.below(3) as u8, count];
            (0..count).for_each(|_| bytes.extend([0, variable]));
            "child count 17"
        }
        4 | 5 => {
            let kept = random.below(bytes.len());
            bytes.truncate(kept);
            "cut short"
        }
        6 => {
            let more = random.pick(&[1, 1, 2, 3, 9]);
            (0..more).for_each(|_| bytes.push(random.below(4) as u8));
            "bytes left over"
        }
        _ => {
            let value = if random.percent(50) { vec![] } else { vec![head] };
            let file = with_value(&draft, at, value);
            return Made::refused("no tree", file, 18, draft.place(at));
        }
    };
    if random.percent(25) {
        head = random.pick(&[255, 254, draft.variables().len() as u8]);
    }
    let file = with_value(&draft, at, [&[head], &bytes[..]].concat());
    Made::refused(label, file, 18, draft.place(at))
}

/// 18: nine levels or more, along any child.
pub fn depth(random: &mut Random) -> Made {
    let (mut draft, at) = one_of(random);
    let count = draft.variables().len();
    let variables = some(random, count, 5);
    let nodes = random.pick(&[8, 8, 8, 9, 12, 20]);
    let mut tree = trees::chain(random, variables[0], nodes - usize::from(variables.len() > 1));
    if variables.len() > 1 {
        let mut children = leaves(&variables[1..]);
        children.insert(random.below(variables.len()), tree);
        tree = Tree::Node(trees::form(random), children);
    }
    draft.trees[at].1 = tree;
    Made::refused("too deep", fields::bytes(&draft.fields()), 18, draft.place(at))
}

/// 9: a leaf or head that no field declares, or a standard head.
pub fn undeclared(random: &mut Random) -> Made {
    let (mut draft, at) = one_of(random);
    let variables = draft.variables();
    let count = variables.len();
    let before: usize = draft.trees[..at].iter().map(|(_, tree)| tree.added().len()).sum();
    let own = draft.trees[at].1.added().len();
    // Mostly numbers that added variables have.
    let number = match random.below(6) {
        0 => 255,
        1..=3 if before > 0 => count + random.below(before),
        4 if own > 0 => count + before + random.below(own),
        _ => count,
    };
    let standard: Vec<usize> = (0..count).filter(|&v| variables[v].0 == 0).collect();
    match random.below(5) {
        0 | 1 => draft.trees[at].0 = number,
        2 if !standard.is_empty() => draft.trees[at].0 = random.pick(&standard),
        _ => {
            let old = random.pick(&draft.trees[at].1.leaves());
            let name = |v: usize| if v == old { number } else { v };
            draft.trees[at].1 = trees::renamed(&draft.trees[at].1, &name);
        }
    }
    Made::refused("undeclared", fields::bytes(&draft.fields()), 9, draft.place(at))
}

/// 11: a variable at two leaves of one tree, in any two places.
pub fn repeated(random: &mut Random) -> Made {
    let mut draft = Draft { list: calm(random, programs::MIDDLE), trees: Vec::new() };
    for _ in 0..random.below(3) {
        let variables = some(random, draft.variables().len(), 5);
        add(random, &mut draft, |random| trees::over(random, &variables, USUAL));
    }
    let count = draft.variables().len();
    let mut variables = some(random, count, 7);
    let again = variables[random.below(variables.len())];
    variables.insert(random.below(variables.len() + 1), again);
    let head = random.pick(&draft.heads());
    let tree = loop {
        let tree = trees::over(random, &variables, USUAL);
        if tree.leaves().iter().filter(|&&v| v == again).count() == 2 {
            break tree;
        }
    };
    draft.trees.push((head, tree));
    let at = draft.trees.len() - 1;
    if random.percent(30) {
        draft.trees.push((head, leaf(again)));
    }
    Made::refused("repeated", fields::bytes(&draft.fields()), 11, draft.place(at))
}

/// Sound: the same variables in several trees, and heads at their own leaves.
pub fn shared(random: &mut Random) -> Made {
    let mut draft = Draft { list: calm(random, programs::SMALL), trees: Vec::new() };
    let count = draft.variables().len();
    for _ in 0..2 + random.below(3) {
        let head = random.pick(&draft.heads());
        let mut variables = random.distinct(count, count);
        if random.percent(50) {
            variables.retain(|&v| v != head);
            variables.insert(random.below(variables.len() + 1), head);
        }
        let tree = trees::over(random, &variables, Style { levels: 5, ..USUAL });
        draft.trees.push((head, tree));
    }
    Made::sound("shared leaves", &draft)
}

/// 19, or just not: ranges that end at 30,000 or one beyond.
pub fn ranges(random: &mut Random) -> Made {
    let tops = tops(random);
    let below = random.percent(50);
    let mut list = vec![fields::variable(1 + random.below(2) as u8, -30_000, 30_000)];
    for top in tops {
        let low = random.pick(&[0, top, top / 2]);
        let (low, high) = if below { (-top, -low) } else { (low, top) };
        list.push(fields::variable(random.below(3) as u8, low, high));
    }
    let small = list.len();
    list.push(fields::variable(random.below(3) as u8, 0, 1));
    list.push(fields::variable(random.below(3) as u8, 20_000, 30_000));
    let node = sum(leaves(&(1..small).collect::<Vec<_>>()));
    let tree = over_sum(random, node, small, small + 1);
    let ends: Vec<(i64, i64)> = fields::variables(&list).iter().map(|v| (v.1, v.2)).collect();
    let outside =
        |node: &&Tree| node.value(&|v| ends[v].0) < -30_000 || node.value(&|v| ends[v].1) > 30_000;
    let refused = tree.added().iter().any(outside);
    let mut draft = Draft { list, trees: Vec::new() };
    let before = random.below(2);
    (0..before).for_each(|_| draft.trees.push((0, leaf(small))));
    draft.trees.push((0, tree));
    match refused {
        true => Made::refused("range", fields::bytes(&draft.fields()), 19, draft.place(before)),
        false => Made::sound("range", &draft),
    }
}

/// The ends of the leaves of a sum, further from 0: 30,000 in all, one more, less, or as
/// much as two bytes take for something small.
fn tops(random: &mut Random) -> Vec<i64> {
    match random.below(8) {
        0 => vec![30_000],
        1 => vec![20_000, 10_000],
        2 | 3 => vec![20_000, 10_001],
        4 => vec![15_000, 15_000, 1],
        5 => vec![30_000, 30_000, 5_536],
        6 => vec![30_000, 30_000, 30_000, 30_000, 11_072],
        _ => vec![random.between(0, 15_000), random.between(0, 15_000)],
    }
}

/// A tree with this node, and leaves in 0..1 and 20,000..30,000.
fn over_sum(random: &mut Random, node: Tree, small: usize, big: usize) -> Tree {
    match random.below(7) {
        // The root's own value may be any.
        0 => node,
        1 => sum(vec![node, leaf(big)]),
        2 => sum(vec![leaf(small), node]),
        // A min or max above brings the value back.
        3 => min(vec![node, leaf(small)]),
        4 => max(vec![leaf(small), min(vec![leaf(big), node])]),
        5 => Tree::Node(trees::form(random), vec![Tree::Node(trees::form(random), vec![node])]),
        // Beside a node whose children are all leaves.
        _ => max(vec![leaf(big), sum(vec![max(vec![leaf(small)]), node])]),
    }
}

/// Two faults or more in one field: the first of 18, 5, 9, 11 and 19 is named.
pub fn two_faults(random: &mut Random) -> Made {
    let order = [18, 5, 9, 11, 19];
    let first = random.below(4);
    let mut faults = vec![order[first]];
    let other = first + 1 + random.below(4 - first);
    faults.push(order[other]);
    faults.extend(order[other + 1..].iter().filter(|_| random.percent(20)));
    let has = |number: usize| faults.contains(&number);
    let by_rules = has(5) && random.percent(30);
    let count = if has(5) && !by_rules { 255 } else { 6 };
    let mut draft = Draft::default();
    draft.list.push(fields::variable(1 + random.below(2) as u8, 0, 9));
    draft.list.push(fields::variable(0, 0, 9));
    draft.list.extend((2..count).map(|_| fields::variable(1, 0, 20_000)));
    if by_rules {
        draft.list.extend((0..RULES).map(|_| fields::rule(SUM, 0, 1, &[])));
    }
    let mut children = vec![leaf(0), max(vec![leaf(2), max(vec![leaf(4)])])];
    if has(19) {
        children.push(sum(leaves(&[3, 5])));
    }
    if has(11) {
        let again = random.pick(&[leaf(0), leaf(2), max(vec![leaf(4)])]);
        children.insert(random.below(children.len() + 1), again);
    }
    let mut head = 0;
    if has(9) {
        match random.below(3) {
            0 => head = random.pick(&[1, 255]),
            _ => children.push(leaf(255)),
        }
    }
    let tree = Tree::Node(trees::form(random), children);
    let mut field = trees::field(head, &tree);
    if has(18) {
        match random.below(3) {
            0 => drop(field.value.pop()),
            1 => field.value.push(0),
            _ => field.value[1] = 4,
        }
    }
    let mut all = draft.list;
    all.push(field);
    let place = fields::place(&all, all.len() - 1);
    Made::refused("two faults", fields::bytes(&all), order[first], place)
}

/// A fault before sound trees.
pub fn spoilt(random: &mut Random) -> Made {
    let mut draft = usual(random, programs::MIDDLE, 2);
    let refused = match random.below(8) {
        0 => {
            let count = draft.variables().len();
            let more = vec![fields::variable(0, 0, 1); VARIABLES + 1 - count];
            draft.list.splice(count..count, more);
            Some((5, 8 * VARIABLES))
        }
        1 => spoil::spoil_product(random, &mut draft.list),
        2 => {
            let last = draft.list.len() - 1;
            let number = random.pick(&[10, 10, 11]);
            let spoilt = spoil::spoil(random, &mut draft.list, last, number);
            spoilt.then(|| (number, fields::place(&draft.list, last)))
        }
        3 => whole::disorder(random, &mut draft.list),
        _ => spoil::spoil_some(random, &mut draft.list),
    };
    let mut made = Made::unknown("spoilt", fields::bytes(&draft.fields()));
    // A tag 5 put in by a fault begins the trees.
    let known = !draft.list.iter().any(|field| field.tag == 5);
    made.refused = refused.filter(|due| known && due.1 != usize::MAX);
    made
}

/// 2, 3 and 4 at and after a tag 5.
pub fn tags(random: &mut Random) -> Made {
    let (draft, at) = one_of(random);
    let mut all = draft.fields();
    let last = draft.list.len() + at;
    let value: Vec<u8> = (0..random.below(12)).map(|_| random.below(6) as u8).collect();
    let (tag, number) = match random.below(4) {
        0 => (random.pick(&[0, 4, 4]), 3),
        1 => (random.pick(&[6, 7, 255]), 3),
        2 => (1 + random.below(3) as u8, 4),
        _ => {
            // cut within a field of tag 5, which may hold anything
            all[last].value = value;
            let place = fields::place(&all, last);
            let mut file = fields::bytes(&all[..=last]);
            let kept = file.len() - place;
            match random.below(3) {
                0 => file.truncate(place + 1 + random.below(2)),
                1 if kept > 3 => drop(file.pop()),
                _ => file[place + 1] = 1 + random.below(200) as u8,
            }
            return Made::refused("tags", file, 2, place);
        }
    };
    all.insert(last + 1, Field { tag, value });
    if tag < 4 && tag > 0 && random.percent(50) {
        // a field that would be sound before the trees
        all[last + 1] = draft.list[0].clone();
    }
    let place = fields::place(&all, last + 1);
    Made::refused("tags", fields::bytes(&all), number, place)
}

/// A size in a circle that trees close, or leave open.
pub fn knot(random: &mut Random) -> Made {
    let kind = 1 + random.below(2) as u8;
    let other = 3 - kind;
    // Variable 0 rests on the size of variable 1, whose tree has 0 at a leaf.
    let mut list = vec![fields::variable(kind, -4, 4), fields::variable(kind, -4, 4)];
    (0..4).for_each(|_| list.push(fields::variable(random.below(3) as u8, -4, 4)));
    let (top, bottom) = (list.len(), list.len() + 1);
    list.push(fields::variable(random.below(3) as u8, 4, 4));
    list.push(fields::variable(random.below(3) as u8, -4, -4));
    // A size elsewhere, in no circle: nothing rests on the head.
    let loose = list.len() as u8;
    list.push(fields::variable(kind, -4, 4));
    let mut rules = vec![fields::rule(SIZE, loose, 0, &[(1, 0, 0)])];
    rules.insert(random.below(2), fields::rule(SIZE, 0, 0, &[(1, 0, 0)]));
    let around = 1 + random.below(4);
    let variables: Vec<usize> = random.distinct(around, around).iter().map(|v| v + 2).collect();
    let (tree, open) = knot_tree(random, kind, top, bottom, &variables);
    let mut open = open;
    if open.is_none() && random.percent(20) {
        // The leaf is founded from the other end, and not kept.
        list[0] = fields::variable(other, -4, 4);
        open = Some("other kind");
    }
    let mut trees = vec![(1, tree)];
    if random.percent(50) {
        let before = trees::over(random, &[2, 3], USUAL);
        trees.insert(0, (usize::from(loose), before));
    }
    let at = rules.iter().position(|rule| rule.value[1] == 0).unwrap_or(0);
    let offender = list.len() + at;
    list.extend(rules);
    if random.percent(30) {
        list.push(fields::constraint(1, -9, &[(0, 0, 1)]));
    }
    let draft = Draft { list, trees };
    let mut made = Made::sound("open knot", &draft);
    if open.is_none() {
        made.refused = Some((13, fields::place(&draft.list, offender)));
        made.label = "knot";
    }
    made
}

/// A tree with variable 0 at a leaf, for a head with range -4..4, and why it leaves
/// a circle open, if it does. The other variables have that range, too.
fn knot_tree(
    random: &mut Random,
    kind: u8,
    top: usize,
    bottom: usize,
    variables: &[usize],
) -> (Tree, Option<&'static str>) {
    let mut all = variables.to_vec();
    all.insert(random.below(all.len() + 1), 0);
    let mut children = leaves(&all);
    match random.below(6) {
        // A node that is always 4, or always -4, under any root.
        0 | 1 => {
            let (form, end) = random.pick(&[(MAX, top), (MIN, bottom)]);
            children.insert(random.below(children.len() + 1), leaf(end));
            let mut tree = Tree::Node(form, children);
            for _ in 0..1 + random.below(4) {
                tree = Tree::Node(trees::form(random), vec![tree]);
            }
            (tree, Some("idle node"))
        }
        // The same at the root: then it depends on where the head starts.
        2 => {
            let (form, end) = random.pick(&[(MAX, top), (MIN, bottom)]);
            children.insert(random.below(children.len() + 1), leaf(end));
            let idle = (form == MAX) == (kind == 2);
            (Tree::Node(form, children), idle.then_some("idle root"))
        }
        _ => loop {
            let tree = trees::over(random, &all, Style { levels: 6, wide: 3, thin: 30 });
            if tree.leaves().contains(&0) {
                return (tree, None);
            }
        },
    }
}

/// Trees that bring the variables to 256, or to one more.
pub fn variable_limit(random: &mut Random) -> Made {
    let more = random.below(2);
    let count = random.pick(&[1, 2, 16, 100, 200, 250, 255, 256]);
    let list = (0..count).map(|_| fields::variable(1 + random.below(2) as u8, 0, 1)).collect();
    let mut draft = Draft { list, trees: Vec::new() };
    let mut left = VARIABLES - count;
    while left > 0 {
        let variables = some(random, count, 16);
        let nodes = random.between(1, (6 * variables.len()).min(left) as i64) as usize;
        add(random, &mut draft, |random| trees::bulk(random, &variables, nodes));
        left -= nodes;
    }
    if more == 0 {
        if random.percent(50) {
            add(random, &mut draft, |_| max(vec![leaf(0)]));
        }
        return Made::sound("256 variables", &draft);
    }
    let at = draft.trees.len();
    add(random, &mut draft, |_| max(vec![min(vec![leaf(0)])]));
    if at > 0 && random.percent(50) {
        // The last tree has one node more instead.
        let (_, tree) = draft.trees.remove(at - 1);
        draft.trees[at - 1].1 = one_more(random, tree);
    }
    let at = draft.trees.len() - 1;
    Made::refused("257 variables", fields::bytes(&draft.fields()), 5, draft.place(at))
}

/// The tree with one node more at the first leaf that has room above it.
fn one_more(random: &mut Random, tree: Tree) -> Tree {
    let Tree::Node(form, mut children) = tree else { return tree };
    let shallow = children.iter().position(|child| child.levels() < 7);
    match shallow {
        Some(i) => {
            let child = children.remove(i);
            children.insert(i, Tree::Node(trees::form(random), vec![child]));
        }
        // All are as deep as can be: a second child for one of the lowest nodes
        // would be no inner node, so that the first child's chain is split.
        None => {
            let Tree::Node(inner, grand) = children.remove(0) else { return Tree::Node(form, children) };
            children.insert(0, Tree::Node(inner, [grand, vec![max(vec![leaf(254)])]].concat()));
        }
    }
    Tree::Node(form, children)
}

/// Trees that bring the rules to 2,048, or to one more.
pub fn rule_limit(random: &mut Random) -> Made {
    let more = random.below(2);
    let list = (0..3).map(|_| fields::variable(1 + random.below(2) as u8, 0, 1)).collect();
    let mut draft = Draft { list, trees: Vec::new() };
    let rules = random.pick(&[0, 1, 1_000, 2_000, 2_040, 2_047, 2_048]);
    draft.list.extend((0..rules).map(|i| fields::rule(SUM, (i % 3) as u8, 0, &[])));
    let mut left = RULES - rules;
    while left > 0 {
        let nodes = random.below(if draft.added() < 200 { 7.min(left) } else { 1 });
        let variable = random.below(3);
        add(random, &mut draft, |random| match nodes {
            0 => leaf(variable),
            _ => trees::chain(random, variable, nodes + 1),
        });
        left -= 1 + draft.trees[draft.trees.len() - 1].1.added().len();
        if left > 20 && rules < 2_000 {
            // mostly leaf roots
            let many = left - 20;
            (0..many).for_each(|_| draft.trees.push((random.below(3), leaf(random.below(3)))));
            left -= many;
        }
    }
    if more == 0 {
        return Made::sound("2,048 rules", &draft);
    }
    let at = draft.trees.len();
    add(random, &mut draft, |_| leaf(1));
    Made::refused("2,049 rules", fields::bytes(&draft.fields()), 5, draft.place(at))
}

/// More trees than a file may have constraints.
pub fn many_trees(random: &mut Random) -> Made {
    let mut draft = Draft { list: calm(random, programs::SMALL), trees: Vec::new() };
    let count = draft.variables().len();
    for _ in 0..random.pick(&[511, 512, 513, 514, 700]) {
        let variable = random.below(count);
        add(random, &mut draft, |random| match random.below(3) {
            0 => sum(vec![leaf(variable)]),
            _ => leaf(variable),
        });
    }
    Made::sound("many trees", &draft)
}

/// Over 60,000 bytes, which may all be sound.
pub fn long(random: &mut Random) -> Made {
    let mut draft = usual(random, programs::SMALL, 2);
    let more = random.pick(&[0, 1, 2, 3]);
    if random.percent(50) {
        draft.list.truncate(draft.variables().len());
        let room = FILE_BYTES - fields::bytes(&draft.fields()).len();
        // The last field may be a tree that is longer than all rules could be.
        let mut file = fields::bytes(&draft.fields());
        let (place, pad) = (file.len(), room + more - 3);
        file.extend([5, (pad / 256) as u8, (pad % 256) as u8]);
        file.extend((0..pad).map(|i| if i == 0 { 0 } else { 1 }));
        return match more {
            0 => Made::refused("long", file, 18, place),
            _ => Made::refused("long", file, 1, 0),
        };
    }
    let mut file = fields::bytes(&draft.fields());
    file.resize(60_001 + more, random.byte());
    Made::refused("long", file, 1, 0)
}

/// Bytes that look like trees.
pub fn noise(random: &mut Random) -> Made {
    let list = calm(random, programs::SMALL);
    let count = fields::variables(&list).len();
    let mut all = list;
    for _ in 0..1 + random.below(2) {
        let length = random.below(16);
        let mut value = vec![random.below(count + 1) as u8];
        value.extend((0..length).map(|i| match i % 2 {
            0 => random.pick(&[0, 0, 0, 1, 2, 3, 3, 4]),
            _ => random.below(3) as u8,
        }));
        all.push(Field { tag: 5, value });
    }
    Made::unknown("noise", fields::bytes(&all))
}
