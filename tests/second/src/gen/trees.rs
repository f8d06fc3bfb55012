//! Trees over given variables, and the bytes of their fields.

use super::fields::Field;
use super::prng::Random;
use crate::program::{MAX, MIN, SUM};
use crate::tree::Tree;

pub fn leaf(variable: usize) -> Tree {
    Tree::Leaf(variable)
}

pub fn sum(children: Vec<Tree>) -> Tree {
    Tree::Node(SUM, children)
}

pub fn max(children: Vec<Tree>) -> Tree {
    Tree::Node(MAX, children)
}

pub fn min(children: Vec<Tree>) -> Tree {
    Tree::Node(MIN, children)
}

/// Leaves of these variables.
pub fn leaves(variables: &[usize]) -> Vec<Tree> {
    variables.iter().map(|&v| leaf(v)).collect()
}

/// The bytes of a tree.
pub fn bytes(tree: &Tree) -> Vec<u8> {
    match tree {
        Tree::Leaf(variable) => vec![0, *variable as u8],
        Tree::Node(form, children) => {
            let mut out = vec![*form, children.len() as u8];
            children.iter().for_each(|child| out.extend(bytes(child)));
            out
        }
    }
}

/// The field of a tree for this head.
pub fn field(head: usize, tree: &Tree) -> Field {
    Field { tag: 5, value: [&[head as u8], &bytes(tree)[..]].concat() }
}

/// How many bytes the tree's variables and rules take in the plain file.
pub fn room(tree: &Tree) -> usize {
    match tree {
        Tree::Leaf(_) => 11,
        Tree::Node(_, children) => {
            7 + 4 * children.len() + children.iter().map(inner_room).sum::<usize>()
        }
    }
}

fn inner_room(child: &Tree) -> usize {
    if child.is_leaf() {
        0
    } else {
        8 + room(child)
    }
}

/// How trees are drawn.
#[derive(Clone, Copy)]
pub struct Style {
    pub levels: usize,
    /// The most children.
    pub wide: usize,
    /// Of a hundred nodes with one variable, those that are no leaf.
    pub thin: usize,
}

pub const USUAL: Style = Style { levels: 8, wide: 4, thin: 15 };
pub const DEEP: Style = Style { levels: 8, wide: 2, thin: 90 };
pub const WIDE: Style = Style { levels: 3, wide: 16, thin: 10 };

pub fn form(random: &mut Random) -> u8 {
    random.pick(&[SUM, MAX, MIN])
}

/// A tree with these variables at its leaves, each once; where there are more than
/// its last level holds, some are left out.
pub fn over(random: &mut Random, variables: &[usize], style: Style) -> Tree {
    let below = Style { levels: style.levels - 1, ..style };
    if style.levels == 1 || variables.len() == 1 && !random.percent(style.thin) {
        return leaf(variables[0]);
    }
    let least = if style.levels == 2 { variables.len().min(style.wide) } else { 1 };
    let count = random.between(least as i64, variables.len().min(style.wide) as i64) as usize;
    let parts = parts(random, variables, count);
    Tree::Node(form(random), parts.iter().map(|part| over(random, part, below)).collect())
}

/// Cuts a list into so many parts, none of them empty.
fn parts(random: &mut Random, list: &[usize], count: usize) -> Vec<Vec<usize>> {
    let mut ends: Vec<usize> =
        random.distinct(list.len() - 1, count - 1).iter().map(|i| i + 1).collect();
    ends.push(list.len());
    ends.sort_unstable();
    let mut start = 0;
    let cut = |end: usize| {
        let part = list[start..end].to_vec();
        start = end;
        part
    };
    ends.into_iter().map(cut).collect()
}

/// A leaf under so many nodes, one in the other.
pub fn chain(random: &mut Random, variable: usize, nodes: usize) -> Tree {
    (0..nodes).fold(leaf(variable), |tree, _| Tree::Node(form(random), vec![tree]))
}

/// A root under which stand so many inner nodes, six or fewer for each of the
/// variables, of which there are at most 16.
pub fn bulk(random: &mut Random, variables: &[usize], nodes: usize) -> Tree {
    let mut left = nodes;
    let mut children = Vec::new();
    for (i, &variable) in variables.iter().enumerate() {
        let others = 6 * (variables.len() - i - 1);
        let least = left.saturating_sub(others);
        let here = random.between(least as i64, left.min(6) as i64) as usize;
        left -= here;
        children.push(chain(random, variable, here));
    }
    Tree::Node(form(random), children)
}

/// The same tree with other variables.
pub fn renamed(tree: &Tree, name: &dyn Fn(usize) -> usize) -> Tree {
    match tree {
        Tree::Leaf(variable) => leaf(name(*variable)),
        Tree::Node(form, children) => {
            Tree::Node(*form, children.iter().map(|child| renamed(child, name)).collect())
        }
    }
}
