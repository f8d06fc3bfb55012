//! Reading a nested file: the fields of a plain file, then trees. A tree's field is
//! tried against 2, 3, 4, 18, 5, 9, 11 and 19 in turn.

use crate::program::*;
use crate::reader::{parse_fields, Refusal};
use crate::tree::{self, Tree};
use crate::wrong::Wrong;

pub const TREE: u8 = 5;

/// A tree and the variable that it is for.
#[derive(Clone, Debug)]
pub struct Expression {
    /// Offset of the field's tag byte.
    pub place: usize,
    pub head: usize,
    pub tree: Tree,
}

#[derive(Clone, Debug)]
pub struct Nested {
    /// What the fields before the trees say.
    pub program: Program,
    /// The whole fields before the trees.
    pub fields: Vec<Vec<u8>>,
    pub trees: Vec<Expression>,
    /// How many variables all trees so far add.
    pub added: usize,
}

/// All refusals that belong to a field, and 1.
pub fn read(file: &[u8], wrong: Wrong) -> Result<Nested, Refusal> {
    if file.len() > FILE_BYTES && wrong != Wrong::NestedOneNever {
        return Err(Refusal { number: 1, place: 0 });
    }
    let first = first_tree(file);
    let program = parse_fields(&file[..first], wrong)?;
    let fields = split(&file[..first]);
    let mut nested = Nested { program, fields, trees: Vec::new(), added: 0 };
    let mut at = first;
    while at < file.len() {
        let rest = &file[at..];
        let taken = taken_apart(rest, wrong);
        for number in order(wrong) {
            if refuses(number, &nested, rest, taken.as_ref()) {
                let number = called(number, rest, wrong);
                return Err(Refusal { number, place: at });
            }
        }
        let Some((head, tree)) = taken else { break };
        nested.added += tree.added().len();
        nested.trees.push(Expression { place: at, head, tree });
        at += 3 + unsigned(rest, 1);
    }
    Ok(nested)
}

/// Offset of the first field with tag 5; the end where there is none, or where a
/// field before it is cut short.
fn first_tree(file: &[u8]) -> usize {
    let mut at = 0;
    while at + 3 <= file.len() {
        if file[at] == TREE {
            return at;
        }
        at += 3 + unsigned(file, at + 1);
    }
    file.len()
}

fn split(fields: &[u8]) -> Vec<Vec<u8>> {
    let mut list = Vec::new();
    let mut rest = fields;
    while !rest.is_empty() {
        let (field, after) = rest.split_at(3 + unsigned(rest, 1));
        list.push(field.to_vec());
        rest = after;
    }
    list
}

fn cut_short(rest: &[u8]) -> bool {
    rest.len() < 3 || rest.len() < 3 + unsigned(rest, 1)
}

/// Head and tree of the field at the start of `rest`, if it is well formed.
fn taken_apart(rest: &[u8], wrong: Wrong) -> Option<(usize, Tree)> {
    if cut_short(rest) {
        return None;
    }
    tree::parse(&rest[3..3 + unsigned(rest, 1)], wrong)
}

/// The numbers in the order in which they are tried on a field.
fn order(wrong: Wrong) -> [usize; 8] {
    match wrong {
        Wrong::TreeFourBeforeThree => [2, 4, 3, 18, 5, 9, 11, 19],
        Wrong::EighteenAfterFive => [2, 3, 4, 5, 18, 9, 11, 19],
        Wrong::NineBeforeFive => [2, 3, 4, 18, 9, 5, 11, 19],
        Wrong::FiveAfterEleven => [2, 3, 4, 18, 9, 11, 5, 19],
        Wrong::FiveLast => [2, 3, 4, 18, 9, 11, 19, 5],
        Wrong::ElevenBeforeNine => [2, 3, 4, 18, 5, 11, 9, 19],
        Wrong::NineteenBeforeEleven => [2, 3, 4, 18, 5, 9, 19, 11],
        Wrong::NineteenBeforeNine => [2, 3, 4, 18, 5, 19, 9, 11],
        Wrong::TreeHeadBefore => [2, 3, 4, 9, 18, 5, 11, 19],
        _ => [2, 3, 4, 18, 5, 9, 11, 19],
    }
}

/// The number that is answered; another one for some wrong variants.
fn called(number: usize, rest: &[u8], wrong: Wrong) -> usize {
    match (number, wrong) {
        (2, Wrong::TreeCutEighteen) if rest[0] == TREE => 18,
        (4, Wrong::TreeLowerTagsThree) => 3,
        (18, Wrong::TreeBareSix) if unsigned(rest, 1) < 2 => 6,
        _ => number,
    }
}

/// Does this refusal apply to the field at the start of `rest`? The numbers after
/// 18 are asked of a tree that is well formed.
fn refuses(number: usize, nested: &Nested, rest: &[u8], taken: Option<&(usize, Tree)>) -> bool {
    let wrong = nested.program.wrong;
    match (number, taken) {
        (2, _) => cut_short(rest),
        (3, _) if wrong == Wrong::TreeSixPasses && rest[0] > TREE => false,
        (3, _) => ![1, 2, 3, TREE].contains(&rest[0]),
        (4, _) => rest[0] < TREE,
        (18, taken) => taken.is_none(),
        (5, Some((_, tree))) => nested.full(tree),
        (5, None) => wrong == Wrong::EighteenAfterFive && nested.full(&Tree::Leaf(0)),
        (9, Some((head, tree))) => nested.bad_head(*head) || nested.bad_leaf(tree),
        (9, None) if wrong == Wrong::TreeHeadBefore && unsigned(rest, 1) > 0 => {
            nested.bad_head(usize::from(rest[3]))
        }
        (11, Some((head, tree))) => nested.repeats(*head, tree),
        (19, Some((head, tree))) => nested.passes_ranges(*head, tree),
        _ => false,
    }
}

impl Nested {
    /// Is this tree's variable or rule one too many?
    fn full(&self, tree: &Tree) -> bool {
        let wrong = self.program.wrong;
        let own = tree.added().len();
        let (before, trees) =
            if wrong == Wrong::FiveOwnTree { (0, 0) } else { (self.added, self.trees.len()) };
        let mut variables = self.program.variables.len() + before + own;
        let mut rules = self.program.rules.len() + before + trees + own + 1;
        let (mut most_variables, mut most_rules) = (VARIABLES, RULES);
        match wrong {
            Wrong::FiveNoVariables => variables = 0,
            Wrong::FiveNoRules => rules = 0,
            Wrong::FiveRootCounted if !tree.is_leaf() => variables += 1,
            Wrong::FiveOneRule => rules = self.program.rules.len() + self.trees.len() + 1,
            Wrong::FiveVariableMore => most_variables += 1,
            Wrong::FiveVariableLess => most_variables -= 1,
            Wrong::FiveRuleMore => most_rules += 1,
            Wrong::FiveRuleLess => most_rules -= 1,
            _ => {}
        }
        let trees = wrong == Wrong::FiveTrees && self.trees.len() >= CONSTRAINTS;
        variables > most_variables || rules > most_rules || trees
    }

    fn declared(&self) -> usize {
        self.program.variables.len()
    }

    /// Is the head not declared, or not founded?
    fn bad_head(&self, head: usize) -> bool {
        let variable = self.program.variables.get(head);
        match self.program.wrong {
            Wrong::TreeHeadAdded if head < self.declared() + self.added => {
                variable.is_some_and(|v| !v.founded())
            }
            Wrong::TreeStandardHead => variable.is_none(),
            Wrong::TreeHeadTwoRefused => !variable.is_some_and(|v| v.kind == Kind::Below),
            Wrong::TreeHeadUnjudged => variable.is_some_and(|v| !v.founded()),
            _ => !variable.is_some_and(Variable::founded),
        }
    }

    /// Is some leaf not declared?
    fn bad_leaf(&self, tree: &Tree) -> bool {
        let declared = match self.program.wrong {
            Wrong::TreeAddedDeclared => self.declared() + self.added,
            Wrong::TreeOwnDeclared => self.declared() + self.added + tree.added().len(),
            Wrong::TreeLeafUnjudged => VARIABLES,
            _ => self.declared(),
        };
        let standard = |v: usize| !self.program.variables.get(v).is_some_and(Variable::founded);
        let standard = |v: usize| self.program.wrong == Wrong::TreeStandardLeaf && standard(v);
        tree.leaves().iter().any(|&leaf| leaf >= declared || standard(leaf))
    }

    /// Does a variable stand at two leaves?
    fn repeats(&self, head: usize, tree: &Tree) -> bool {
        let twice = |list: &[usize]| (0..list.len()).any(|i| list[..i].contains(&list[i]));
        let mut leaves = tree.leaves();
        match self.program.wrong {
            Wrong::ElevenNever => return false,
            Wrong::ElevenNeighbours => return leaves.windows(2).any(|two| two[0] == two[1]),
            Wrong::ElevenByNode => {
                let leaf = |child: &Tree| if child.is_leaf() { child.leaves() } else { vec![] };
                let own = |node: &Tree| node.children().iter().flat_map(leaf).collect::<Vec<_>>();
                return tree.nodes().iter().any(|node| twice(&own(node)));
            }
            Wrong::ElevenAcross => leaves.extend(self.trees.iter().flat_map(|e| e.tree.leaves())),
            Wrong::ElevenHead => leaves.push(head),
            _ => {}
        }
        twice(&leaves)
    }

    /// Does the range of an added variable pass 30,000 or -30,000?
    fn passes_ranges(&self, head: usize, tree: &Tree) -> bool {
        let lowest = |node: &&Tree| node.children().iter().all(Tree::is_leaf);
        let mut nodes = tree.added();
        match self.program.wrong {
            Wrong::NineteenRoot => nodes.push(tree),
            Wrong::NineteenNever => nodes.clear(),
            Wrong::NineteenLowest => nodes.retain(lowest),
            Wrong::NineteenUnderRoot => {
                nodes = tree.children().iter().filter(|child| !child.is_leaf()).collect()
            }
            _ => {}
        }
        let (least, most) = match self.program.wrong {
            Wrong::NineteenWhole => (1 - VALUE, VALUE - 1),
            Wrong::NineteenLate => (-VALUE - 1, VALUE + 1),
            Wrong::NineteenByHead => {
                let Some(head) = self.program.variables.get(head) else { return false };
                (head.low, head.high)
            }
            _ => (-VALUE, VALUE),
        };
        nodes.iter().any(|node| {
            let (low, high) = self.range(node);
            match self.program.wrong {
                Wrong::NineteenHighOnly => high > most,
                Wrong::NineteenLowOnly => low < least,
                Wrong::NineteenShort => {
                    let short = |value: i64| i64::from(value as i16);
                    short(low) < least || short(high) > most
                }
                _ => low < least || high > most,
            }
        })
    }

    /// The exact range of what a node gives: sums, max and min rise with every
    /// leaf, so its ends are its values with all leaves at their lows and with all
    /// at their highs. A leaf that is not declared is 0, for wrong variants.
    pub fn range(&self, node: &Tree) -> (i64, i64) {
        let wrong = self.program.wrong;
        let low = |v: usize| self.program.variables.get(v).map_or(0, |v| v.low);
        let high = |v: usize| self.program.variables.get(v).map_or(0, |v| v.high);
        let kind = |v: usize| self.program.variables.get(v).map_or(Kind::Standard, |v| v.kind);
        let zero = |v: usize, end: i64| if kind(v) == Kind::Standard { 0 } else { end };
        match (wrong, node) {
            (Wrong::RangeFirstChild, Tree::Node(_, children)) => self.range(&children[0]),
            (Wrong::RangeSumAsMax, Tree::Node(SUM, children)) => {
                let ends: Vec<_> = children.iter().map(|child| self.range(child)).collect();
                let low = ends.iter().map(|end| end.0).max().unwrap_or(0);
                (low, ends.iter().map(|end| end.1).max().unwrap_or(0))
            }
            (Wrong::RangeHullMax, Tree::Node(MAX, children)) => {
                let low = children.iter().map(|child| self.range(child).0).min().unwrap_or(0);
                (low, node.value(&high))
            }
            (Wrong::RangeHullMin, Tree::Node(MIN, children)) => {
                let high = children.iter().map(|child| self.range(child).1).max().unwrap_or(0);
                (node.value(&low), high)
            }
            (Wrong::RangeStandardZero, _) => {
                (node.value(&|v| zero(v, low(v))), node.value(&|v| zero(v, high(v))))
            }
            (Wrong::RangeAboveAtHigh, _) => {
                let low = |v: usize| if kind(v) == Kind::Above { high(v) } else { low(v) };
                (node.value(&low), node.value(&high))
            }
            _ => (node.value(&low), node.value(&high)),
        }
    }
}
