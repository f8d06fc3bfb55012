//! Nested files: rules, constraints and then trees.
use super::{desk, names, roster, Builder, Plan, Posts, Seed, ALL, BELOW, BOTH, LONG, UNDIVIDED};

/// A leaf, or a form with its children.
pub enum Tree {
    Leaf(usize),
    Node(u8, Vec<Tree>),
}

use Tree::{Leaf, Node};

impl Tree {
    fn put(&self, out: &mut Vec<u8>) {
        match self {
            Leaf(x) => out.extend([0, *x as u8]),
            Node(form, children) => {
                out.extend([*form, children.len() as u8]);
                children.iter().for_each(|child| child.put(out));
            }
        }
    }
}

/// Sum, max or min.
fn form(s: &mut Seed) -> u8 {
    1 + s.next(3) as u8
}

/// A root with so many leaves.
fn wide(s: &mut Seed, below: usize, leaves: usize) -> Tree {
    let names = names(s, leaves, below, |_| true);
    Node(form(s), names.into_iter().map(Leaf).collect())
}

/// So many inner nodes one in the other, each with so many children: the first is the next node, the others are leaves.
fn deep(s: &mut Seed, below: usize, inner: usize, children: usize) -> Tree {
    let mut names = names(s, inner * (children - 1) + 1, below, |_| true).into_iter().map(Leaf);
    let mut tree = names.next();
    for _ in 0..inner {
        let all = tree.into_iter().chain(names.by_ref().take(children - 1)).collect();
        tree = Some(Node(form(s), all));
    }
    tree.expect("a leaf at least")
}

/// So many levels of nodes with 16 children each over leaves of one variable.
fn bushy(levels: usize) -> Tree {
    match levels {
        0 => Leaf(0),
        _ => Node(2, (0..16).map(|_| bushy(levels - 1)).collect()),
    }
}

/// A plan's file with these trees after it. Nothing is assigned.
fn with_trees(name: &str, plan: Plan, trees: impl IntoIterator<Item = (usize, Tree)>) -> Plan {
    let mut file = plan.file;
    for (head, tree) in trees {
        let mut value = vec![head as u8];
        tree.put(&mut value);
        file.push(5);
        file.extend((value.len() as u16).to_be_bytes());
        file.extend(value);
    }
    Plan { name: name.to_string(), file, assignment: Vec::new() }
}

/// So many variables, one in four standard, and nothing else.
fn bare(variables: usize) -> Plan {
    let mut b = Builder::new();
    for v in 0..variables {
        b.variable((v >= variables / 4) as u8, 0, 100, 0);
    }
    b.plan("")
}

/// So many trees of one inner node, over 256 variables.
fn many(name: &str, trees: usize, leaves: usize) -> Plan {
    let s = &mut Seed(0x1F83_D9AB_FB41_BD6B);
    with_trees(name, bare(256), (0..trees).map(|i| (64 + i % 192, wide(s, 256, leaves))))
}

/// 21 trees of 8 levels and 106 leaves, over 130 variables; they add 126.
fn of_8_levels(name: &str, plan: Plan) -> Plan {
    let s = &mut Seed(0x5BE0_CD19_137E_2179);
    with_trees(name, plan, (0..21).map(|i| (40 + i, deep(s, 130, 7, 16))))
}

/// A plan with mixed places, with trees for heads of its upper floor; they add 20 variables.
fn mixed_with_trees(name: &str, kinds: &'static [u8]) -> Plan {
    let s = &mut Seed(0xCBBB_9D5D_C105_9ED8);
    let posts = Posts { kinds, variables: 236, rules: 600, constraints: 300, terms: 16, forms: LONG, mixed: 16, idle: 180 };
    with_trees(name, posts.plan(""), (0..20).map(|i| (posts.upper() + i, deep(s, 236, 2, 16))))
}

/// The size of a variable that a tree makes depend on the head: the last of many trees closes a circle through all of them.
fn circle_of_trees(name: &str) -> Plan {
    let mut b = Builder::new();
    for _ in 0..128 {
        b.variable(1, -10, 10, 0);
    }
    b.rule(5, 0, 0, &[(127, 0, 0)]);
    let link = |v: usize| Node(2, vec![Node(3, vec![Leaf(v - 1)]), Leaf(v)]);
    with_trees(name, b.plan(""), (1..128).map(|v| (v, link(v))))
}

/// A size of a variable that nothing moves, and trees that become more than 60,000 bytes.
fn too_long(name: &str) -> Plan {
    let s = &mut Seed(0x1F83_D9AB_FB41_BD6B);
    let mut b = Builder::new();
    b.variable(1, -100, 100, 0);
    for v in 1..256 {
        b.variable((v >= 64) as u8, 0, 100, 0);
    }
    b.rule(5, 255, 0, &[(0, 0, 0)]);
    with_trees(name, b.plan(""), (0..1_500).map(|i| (64 + i % 192, wide(s, 256, 16))))
}

pub fn plans() -> Vec<Plan> {
    let s = &mut Seed(0x629A_292A_367C_D507);
    let few = |s: &mut Seed, trees: usize, from: usize, below: usize| -> Vec<(usize, Tree)> {
        (0..trees).map(|i| (from + i, deep(s, below, 3, 3))).collect()
    };
    let unfinished = {
        let mut plan = many("816 trees of 16, refused 18", 816, 16);
        let last = plan.file.len() - 2;
        plan.file[last] = 4;
        plan
    };
    vec![
        with_trees("small roster, 4 trees", roster("", 16, 40, 4, 3, UNDIVIDED), few(s, 4, 6, 16)),
        with_trees("week's desk, 20 trees", roster("", 64, 300, 20, 4, ALL), few(s, 20, 30, 64)),
        many("204 trees of 16 children", 204, 16),
        many("408 trees of 16 children", 408, 16),
        many("816 trees of 16 children", 816, 16),
        many("2,048 trees of 5 children", 2_048, 5),
        many("2,048 trees of 1 child", 2_048, 1),
        of_8_levels("21 trees of 8 levels, 256 variables", bare(130)),
        of_8_levels("the same after 735 rules", desk("", 130, 735, 80, 14)),
        with_trees("file at the limits, 5 trees", desk("", 240, 1_200, 510, 9), few(s, 5, 100, 240)),
        mixed_with_trees("mixed places, 20 trees", BELOW),
        mixed_with_trees("mixed places, both kinds, 20 trees", BOTH),
        Plan { assignment: Vec::new(), ..roster("no tree, at the limits, forms 1 to 7", 256, 1_380, 512, 9, UNDIVIDED) },
        Plan { assignment: Vec::new(), ..desk("no tree, small roster", 16, 40, 4, 3) },
        unfinished,
        with_trees("one tree of 26,215 nodes, refused 5", bare(256), [(100, Node(1, (0..6).map(|_| bushy(3)).collect()))]),
        circle_of_trees("circle of 127 trees, refused 13"),
        many("1,500 trees of 16, refused 17", 1_500, 16),
        too_long("the same with a mixed place"),
    ]
}
