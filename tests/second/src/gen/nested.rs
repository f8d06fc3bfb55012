//! Nested files, sound ones and others, with the length of the lent buffer and the
//! answer where the way the file was made says it.

use super::fields::{self, Field, Piece};
use super::prng::Random;
use super::programs::{self, Shape};
use super::trees::{self, DEEP, USUAL, WIDE};
use super::{astray, damage, little};
use crate::normal::Normal;
use crate::program::*;
use crate::tree::Tree;

#[derive(Clone, Debug)]
pub struct Case {
    pub file: Vec<u8>,
    /// Length of the lent buffer.
    pub buffer: usize,
    /// Which part of the generator made it.
    pub label: &'static str,
    /// The answer, where the making says it.
    pub due: Option<Normal>,
}

/// A nested file before it becomes bytes.
#[derive(Clone, Debug, Default)]
pub struct Draft {
    /// Fields with tags 1 to 3.
    pub list: Vec<Field>,
    pub trees: Vec<(usize, Tree)>,
}

impl Draft {
    /// All fields.
    pub fn fields(&self) -> Vec<Field> {
        let trees = self.trees.iter().map(|(head, tree)| trees::field(*head, tree));
        self.list.iter().cloned().chain(trees).collect()
    }

    /// Offset of the tag byte of this tree.
    pub fn place(&self, tree: usize) -> usize {
        fields::place(&self.fields(), self.list.len() + tree)
    }

    /// How many bytes the plain file has.
    pub fn room(&self) -> usize {
        let trees: usize = self.trees.iter().map(|(_, tree)| trees::room(tree)).sum();
        fields::bytes(&self.list).len() + trees
    }

    pub fn variables(&self) -> Vec<(u8, i64, i64)> {
        fields::variables(&self.list)
    }

    /// The numbers of founded variables.
    pub fn heads(&self) -> Vec<usize> {
        programs::heads(&self.list).into_iter().map(usize::from).collect()
    }

    /// How many variables the trees add.
    pub fn added(&self) -> usize {
        self.trees.iter().map(|(_, tree)| tree.added().len()).sum()
    }
}

/// What is made: the file, the length of what it becomes where it is read to the
/// end, and the refusal before that, if there is one.
pub struct Made {
    pub label: &'static str,
    pub file: Vec<u8>,
    /// Where this is known.
    pub room: Option<usize>,
    /// Number and place, where these are known.
    pub refused: Option<(usize, usize)>,
    /// A length for the buffer, where it is of use.
    pub buffer: Option<usize>,
}

impl Made {
    /// A file that is flattened.
    pub fn sound(label: &'static str, draft: &Draft) -> Made {
        let (file, room) = (fields::bytes(&draft.fields()), Some(draft.room()));
        Made { label, file, room, refused: None, buffer: None }
    }

    /// A file that is refused.
    pub fn refused(label: &'static str, file: Vec<u8>, number: usize, place: usize) -> Made {
        Made { label, file, room: None, refused: Some((number, place)), buffer: None }
    }

    /// A file of which nothing is known.
    pub fn unknown(label: &'static str, file: Vec<u8>) -> Made {
        Made { label, file, room: None, refused: None, buffer: None }
    }

    fn due(&self, lent: usize) -> Option<Normal> {
        match (self.refused, self.room) {
            (Some((number, place)), _) => Some(Normal::Refused { number, place }),
            (None, Some(room)) if room <= lent && room <= FILE_BYTES => Some(Normal::Written(room)),
            (None, Some(_)) => Some(Normal::Refused { number: 17, place: 0 }),
            (None, None) => None,
        }
    }
}

/// The case of this seed.
pub fn case(seed: u64) -> Case {
    let random = &mut Random::new(seed ^ 0x7EE5_0000_0000_0000);
    let made = made(random);
    let buffer = match made.buffer {
        Some(length) => length,
        None => lent(random, made.file.len(), made.room),
    };
    let due = made.due(buffer);
    Case { file: made.file, buffer, label: made.label, due }
}

/// A standard input for the program that flattens.
pub fn print_input(seed: u64) -> Vec<u8> {
    let random = &mut Random::new(seed ^ 0x7EE5_7000_0000_0000);
    let mut input = case(random.word() % 1_000_000).file;
    if random.percent(2) {
        let length = random.pick(&[60_000, 60_001, 60_002, 65_536, 70_000, 200_000]);
        input.resize(length, random.pick(&[0, 1, 5]));
    }
    input
}

/// Buffers as long as the output, longer, shorter, and as long as the input.
fn lent(random: &mut Random, input: usize, room: Option<usize>) -> usize {
    let needed = room.unwrap_or(3 * input);
    match random.below(20) {
        0..=6 if needed == 0 => 1 + random.below(9),
        0..=6 => needed,
        7..=11 => needed + 1 + random.below(80),
        12 | 13 => needed.saturating_sub(1),
        14 => input,
        15 => random.between(input.min(needed) as i64, needed as i64) as usize,
        16 => random.below(needed + 1),
        17 => 0,
        _ => random.pick(&[60_000, 60_001, 65_536, 70_000]),
    }
}

fn made(random: &mut Random) -> Made {
    match random.below(200) {
        0..=19 => Made::sound("small", &usual(random, programs::SMALL, 3)),
        20..=39 => Made::sound("middle", &usual(random, programs::MIDDLE, 6)),
        40..=46 => Made::sound("deep", &deep(random)),
        47..=53 => Made::sound("wide", &wide(random)),
        54..=59 => Made::sound("leaf roots", &leaf_roots(random)),
        60..=66 => astray::shared(random),
        67..=84 => astray::malformed(random),
        85..=90 => astray::depth(random),
        91..=99 => astray::undeclared(random),
        100..=105 => astray::repeated(random),
        106..=119 => astray::ranges(random),
        120..=133 => astray::two_faults(random),
        134..=140 => astray::tags(random),
        141..=156 => astray::knot(random),
        157..=160 => astray::variable_limit(random),
        161 | 162 if random.percent(70) => astray::rule_limit(random),
        163 if random.percent(60) => astray::many_trees(random),
        164..=167 if random.percent(60) => brim(random),
        168 if random.percent(60) => astray::long(random),
        161..=174 => any(random),
        175..=182 => astray::spoilt(random),
        183 | 184 => {
            let file = super::input(random.word() % 1_000_000).file;
            Made::unknown("treeless", file)
        }
        185 | 186 => few(random),
        187..=195 => damaged(random),
        _ => astray::noise(random),
    }
}

/// A sound file in which no variable is mixed, and which some trees may follow.
pub fn calm(random: &mut Random, shape: Shape) -> Vec<Field> {
    let above = random.pick(&[0, 50, 50, 100]);
    loop {
        let mut list = programs::program(random, Shape { above, ..shape }).0;
        list.retain(|field| field.tag != 2 || field.value[0] != SIZE);
        let heads = !programs::heads(&list).is_empty();
        if heads && matches!(crate::read(&fields::bytes(&list)), crate::Reading::Accepted { .. }) {
            return list;
        }
    }
}

/// Some of so many variables, in any order.
pub fn some(random: &mut Random, count: usize, most: usize) -> Vec<usize> {
    let many = 1 + random.below(count.min(most));
    random.distinct(count, many)
}

/// A calm file with up to so many trees.
pub fn usual(random: &mut Random, shape: Shape, trees: usize) -> Draft {
    let mut draft = Draft { list: calm(random, shape), trees: Vec::new() };
    for _ in 0..1 + random.below(trees) {
        let variables = some(random, draft.variables().len(), 8);
        let style = random.pick(&[USUAL, USUAL, WIDE, DEEP]);
        add(random, &mut draft, |random| trees::over(random, &variables, style));
        if draft.variables().len() + draft.added() > VARIABLES {
            draft.trees.pop();
        }
    }
    draft
}

/// Adds a tree for any founded variable.
pub fn add(random: &mut Random, draft: &mut Draft, tree: impl FnOnce(&mut Random) -> Tree) {
    let head = random.pick(&draft.heads());
    let tree = tree(random);
    draft.trees.push((head, tree));
}

/// Seven nodes one in the other and a leaf in the innermost: eight levels.
fn deep(random: &mut Random) -> Draft {
    let mut draft = Draft { list: calm(random, programs::MIDDLE), trees: Vec::new() };
    let count = draft.variables().len();
    for _ in 0..1 + random.below(3) {
        let variables = some(random, count, 4);
        add(random, &mut draft, |random| {
            let nodes = 7 - usize::from(variables.len() > 1);
            let mut tree = trees::chain(random, variables[0], nodes);
            if variables.len() > 1 {
                let mut children = trees::leaves(&variables[1..]);
                children.insert(random.below(variables.len()), tree);
                tree = Tree::Node(trees::form(random), children);
            }
            tree
        });
    }
    draft
}

/// Nodes with 16 children.
fn wide(random: &mut Random) -> Draft {
    let count = 16 + random.below(24);
    let mut list: Vec<Field> =
        (0..count).map(|_| fields::variable(random.below(3) as u8, -20, 20)).collect();
    list[0] = fields::variable(1, 0, 1_000);
    let mut draft = Draft { list, trees: Vec::new() };
    let variables = random.distinct(count, count);
    add(random, &mut draft, |random| {
        let mut children = trees::leaves(&variables[..16]);
        let others = &variables[16..];
        if !others.is_empty() {
            let style = trees::Style { levels: 7, ..USUAL };
            children[random.below(16)] = trees::over(random, &others[..others.len().min(8)], style);
        }
        let tree = Tree::Node(trees::form(random), children);
        match random.below(3) {
            0 if tree.levels() < 8 => Tree::Node(trees::form(random), vec![tree]),
            _ => tree,
        }
    });
    draft
}

fn leaf_roots(random: &mut Random) -> Draft {
    let mut draft = Draft { list: calm(random, programs::SMALL), trees: Vec::new() };
    let count = draft.variables().len();
    for _ in 0..1 + random.below(9) {
        let variable = random.below(count);
        add(random, &mut draft, |_| trees::leaf(variable));
    }
    draft
}

/// An output of exactly 60,000 bytes, or some more; with a rule that offends or
/// without.
fn brim(random: &mut Random) -> Made {
    let over = random.pick(&[0, 0, 0, 0, 1, 1, 1, 1, 2, 3, 100]);
    let count = 20 + random.below(60);
    let kind = |random: &mut Random| 1 + random.below(2) as u8;
    let list = (0..count).map(|_| fields::variable(kind(random), -1, 1)).collect();
    let mut draft = Draft { list, trees: Vec::new() };
    for _ in 0..4 + random.below(12) {
        let variables = random.distinct(count, 12);
        add(random, &mut draft, |random| trees::over(random, &variables, USUAL));
        if count + draft.added() > VARIABLES {
            draft.trees.pop();
        }
    }
    let knotted = random.percent(30);
    let left = FILE_BYTES + over - draft.room() - if knotted { 11 } else { 0 };
    let (mut rules, constraints) = fillers(random, count, left);
    let at = random.below(rules.len());
    if knotted {
        // v >= |v| + 1, or v <= |v| - 1
        let knot = random.below(count);
        let c = if draft.list[knot].value[0] == 1 { 1 } else { -1 };
        rules.insert(at, fields::rule(SIZE, knot as u8, c, &[(knot as u8, 0, 0)]));
    }
    draft.list.extend(rules.into_iter().chain(constraints));
    let mut made = Made::sound("brim", &draft);
    if knotted {
        made.refused = Some((13, fields::place(&draft.list, count + at)));
        made.label = "brim, not valid";
    }
    made.buffer = Some(match random.below(8) {
        0 => 59_999,
        1..=3 => 60_000,
        4 => 60_000 + over,
        _ => 60_000 + over + random.below(200),
    });
    made
}

/// Rules and constraints that take so many bytes.
fn fillers(random: &mut Random, count: usize, bytes: usize) -> (Vec<Field>, Vec<Field>) {
    let (mut rules, mut constraints, mut left) = (Vec::new(), Vec::new(), bytes);
    let fill = |random: &mut Random, terms: usize| {
        let names = random.distinct(count, terms);
        let pieces: Vec<Piece> = names.iter().map(|&v| (v as u8, 0, random.pick(&[1, -1, 7]))).collect();
        fields::rule(SUM, random.below(count) as u8, random.between(-9, 9), &pieces)
    };
    // A rule without terms has 7 bytes, a constraint 6; a term has 4.
    while left % 4 != 0 {
        match left % 4 {
            2 => constraints.push(fields::constraint(1, -1, &[])),
            _ => rules.push(fill(random, 0)),
        }
        left -= if left % 4 == 2 { 6 } else { 7 };
    }
    while left >= 8 * 71 {
        (0..4).for_each(|_| rules.push(fill(random, 16)));
        left -= 4 * 71;
    }
    let terms = (left - 8 * 7) / 4;
    (0..8).for_each(|i| rules.push(fill(random, terms / 8 + usize::from(i < terms % 8))));
    (rules, constraints)
}

/// Trees after any file at all.
fn any(random: &mut Random) -> Made {
    let mut file = super::input(random.word() % 1_000_000).file;
    let taken = fields::taken(&file);
    let declared = taken.iter().take_while(|field| field.tag == 1 && field.value.len() == 5).count();
    let heads: Vec<usize> = (0..declared).filter(|&v| taken[v].value[0] > 0).collect();
    for _ in 0..1 + random.below(3) {
        if declared == 0 || heads.is_empty() {
            break;
        }
        let variables = some(random, declared.min(VARIABLES), 6);
        let tree = trees::over(random, &variables, USUAL);
        file.extend(fields::bytes(&[trees::field(random.pick(&heads), &tree)]));
    }
    Made::unknown("any", file)
}

/// Files with next to nothing in them.
fn few(random: &mut Random) -> Made {
    match random.below(6) {
        0..=2 => Made::sound("few", &Draft::default()),
        3 => {
            let list = vec![fields::constraint(1, 0, &[]); 1 + random.below(3)];
            Made::sound("few", &Draft { list, trees: Vec::new() })
        }
        4 => {
            let list = vec![fields::variable(1, -1, 1)];
            Made::sound("few", &Draft { list, trees: vec![(0, trees::leaf(0))] })
        }
        _ => {
            let tree = trees::field(0, &trees::leaf(0));
            Made::refused("few", fields::bytes(&[tree]), 9, 0)
        }
    }
}

/// A sound file with bytes changed at random, mostly near the trees.
fn damaged(random: &mut Random) -> Made {
    let shape = random.pick(&[programs::SMALL, programs::MIDDLE]);
    let draft = usual(random, shape, 4);
    let mut file = fields::bytes(&draft.fields());
    if random.percent(30) {
        damage::damage(random, &mut file);
    } else {
        let first = draft.place(0);
        for _ in 0..1 + random.below(2) {
            let at = first + random.below(file.len() - first);
            match random.below(4) {
                0 => file[at] = random.below(6) as u8,
                1 => file[at] = random.byte(),
                2 => drop(file.remove(at)),
                _ => file.insert(at, random.below(5) as u8),
            }
            if file.len() <= first {
                break;
            }
        }
    }
    Made::unknown("damaged", file)
}

/// A small nested file for enumeration.
pub fn small(seed: u64) -> Vec<u8> {
    let random = &mut Random::new(seed ^ 0x7EE5_5000_0000_0000);
    fields::bytes(&little::draft(random).fields())
}
