//! The tree of a field with tag 5: an expression, whose children are again
//! expressions.

use crate::program::{MAX, MIN, SUM, TERMS};
use crate::wrong::Wrong;

/// The most levels, root and leaf included.
pub const LEVELS: usize = 8;

const LEAF: u8 = 0;

#[derive(Clone, Debug, PartialEq, Eq)]
pub enum Tree {
    /// Names a variable.
    Leaf(usize),
    /// Sum, max or min, by the number of the rule form, and the children.
    Node(u8, Vec<Tree>),
}

/// Head and tree of a field's value; nothing where it is malformed, too deep or
/// leaves bytes over.
pub fn parse(value: &[u8], wrong: Wrong) -> Option<(usize, Tree)> {
    let (&head, rest) = value.split_first()?;
    let levels = match wrong {
        Wrong::TreeSevenLevels => LEVELS - 1,
        Wrong::TreeNineLevels => LEVELS + 1,
        Wrong::TreeAnyDepth => 1_000,
        _ => LEVELS,
    };
    let (tree, over) = expression(rest, levels, wrong)?;
    let ends = over.is_empty() || wrong == Wrong::TreeBytesOver;
    ends.then_some((usize::from(head), tree))
}

/// The expression at the start of these bytes, with at most so many levels, and
/// what follows it.
fn expression(bytes: &[u8], levels: usize, wrong: Wrong) -> Option<(Tree, &[u8])> {
    let (&node, rest) = bytes.split_first()?;
    let (&second, rest) = rest.split_first()?;
    let form = match (node, wrong) {
        (LEAF..=MIN, _) => node,
        (_, Wrong::TreeUnknownSum) => SUM,
        (_, Wrong::TreeUnknownLeaf) => LEAF,
        _ => return None,
    };
    if levels == 0 {
        return None;
    }
    match form {
        LEAF => Some((Tree::Leaf(usize::from(second)), rest)),
        _ => children(form, usize::from(second), rest, levels - 1, wrong),
    }
}

fn children(form: u8, count: usize, bytes: &[u8], levels: usize, wrong: Wrong) -> Option<(Tree, &[u8])> {
    let (least, most) = match wrong {
        Wrong::TreeCountZero => (0, TERMS),
        Wrong::TreeCountFifteen => (1, TERMS - 1),
        Wrong::TreeCountSeventeen => (1, TERMS + 1),
        _ => (1, TERMS),
    };
    if !(least..=most).contains(&count) {
        return None;
    }
    let mut list = Vec::new();
    let mut rest = bytes;
    for i in 0..count {
        if rest.is_empty() && wrong == Wrong::TreeCutPasses && i > 0 {
            break;
        }
        let deep = if wrong == Wrong::TreeDepthOfFirst && i > 0 { 1_000 } else { levels };
        let (child, after) = expression(rest, deep, wrong)?;
        list.push(child);
        rest = after;
    }
    Some((Tree::Node(form, list), rest))
}

impl Tree {
    pub fn is_leaf(&self) -> bool {
        matches!(self, Tree::Leaf(_))
    }

    pub fn children(&self) -> &[Tree] {
        match self {
            Tree::Leaf(_) => &[],
            Tree::Node(_, children) => children,
        }
    }

    /// Leaves and other nodes in the order of their bytes: a node before its
    /// children, a child's whole subtree before the next child.
    pub fn nodes(&self) -> Vec<&Tree> {
        let mut list = vec![self];
        for child in self.children() {
            list.extend(child.nodes());
        }
        list
    }

    /// The variables at the leaves, as these stand.
    pub fn leaves(&self) -> Vec<usize> {
        let variable = |node: &Tree| match node {
            Tree::Leaf(variable) => Some(*variable),
            Tree::Node(..) => None,
        };
        self.nodes().into_iter().filter_map(variable).collect()
    }

    /// The inner nodes besides the root, as they stand: what becomes variables.
    pub fn added(&self) -> Vec<&Tree> {
        self.nodes().into_iter().skip(1).filter(|node| !node.is_leaf()).collect()
    }

    /// How many levels it has.
    pub fn levels(&self) -> usize {
        1 + self.children().iter().map(Tree::levels).max().unwrap_or(0)
    }

    /// What it gives when its leaves have these values.
    pub fn value(&self, read: &dyn Fn(usize) -> i64) -> i64 {
        let values =
            |children: &[Tree]| -> Vec<i64> { children.iter().map(|c| c.value(read)).collect() };
        match self {
            Tree::Leaf(variable) => read(*variable),
            Tree::Node(SUM, children) => values(children).iter().sum(),
            Tree::Node(MAX, children) => values(children).iter().copied().max().unwrap_or(0),
            Tree::Node(_, children) => values(children).iter().copied().min().unwrap_or(0),
        }
    }
}
