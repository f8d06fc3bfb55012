//! Document 003's flattening: a nested file becomes a plain one. Each inner node of a
//! tree but its root becomes a variable with one rule, the root a rule for the
//! tree's head.

use crate::graph;
use crate::nested::{self, Expression, Nested};
use crate::normal::{normalize_with, Normal};
use crate::program::*;
use crate::reader::{parse, Refusal};
use crate::tree::Tree;
use crate::wrong::Wrong;

pub fn flatten_with(file: &[u8], buffer: &mut [u8], wrong: Wrong) -> Normal {
    match plain_file(file, buffer.len(), wrong) {
        Err(Refusal { number, place }) => {
            if let (Wrong::FlatRefusedWrites, Some(first)) = (wrong, buffer.first_mut()) {
                *first ^= 1;
            }
            Normal::Refused { number, place }
        }
        Ok(out) => {
            lay(&out, buffer, wrong);
            Normal::Written(if wrong == Wrong::FlatAnswersInput { file.len() } else { out.len() })
        }
    }
}

/// What the program prints for this standard input.
pub fn print_flat_with(input: &[u8], wrong: Wrong) -> Vec<u8> {
    let mut buffer = vec![0; FILE_BYTES];
    match flatten_with(input, &mut buffer, wrong) {
        Normal::Refused { number, place } => format!("refused {number} {place}\n").into_bytes(),
        Normal::Written(length) => buffer[..length].to_vec(),
    }
}

/// Writes the output from the buffer's first byte on, and nothing after it.
fn lay(out: &[u8], buffer: &mut [u8], wrong: Wrong) {
    // Only a wrong variant has a buffer shorter than the output.
    let length = out.len().min(buffer.len());
    let start = if wrong == Wrong::FlatAtEnd { buffer.len() - length } else { 0 };
    buffer[start..start + length].copy_from_slice(&out[..length]);
    if let (Wrong::FlatClears, Some(next)) = (wrong, buffer.get_mut(length)) {
        *next = 0;
    }
}

/// The plain file of a nested one, for a buffer of this length; or the refusal:
/// those of fields, then 13, then 17.
fn plain_file(file: &[u8], lent: usize, wrong: Wrong) -> Result<Vec<u8>, Refusal> {
    if wrong == Wrong::FlatSeventeenFirst && lent < file.len() {
        return Err(Refusal { number: 17, place: 0 });
    }
    let nested = nested::read(file, wrong)?;
    let flat = Flat::of(&nested);
    let mut out = flat.bytes(&nested);
    if let Wrong::FlatNormal = wrong {
        out = normal(out);
    }
    let invalid = flat.refuses(&nested, &out);
    let short = seventeen(file, &out, lent, wrong);
    match (invalid, short) {
        (_, Some(short)) if wrong == Wrong::ThirteenAfterSeventeen => Err(short),
        (Some(invalid), _) => Err(invalid),
        (None, Some(short)) => Err(short),
        (None, None) => Ok(out),
    }
}

/// For a wrong variant.
fn normal(out: Vec<u8>) -> Vec<u8> {
    let mut buffer = vec![0; out.len()];
    match normalize_with(&out, &mut buffer, Wrong::Nothing) {
        Normal::Written(length) => buffer[..length].to_vec(),
        Normal::Refused { .. } => out,
    }
}

/// The output is over 60,000 bytes, or longer than the lent buffer.
fn seventeen(file: &[u8], out: &[u8], lent: usize, wrong: Wrong) -> Option<Refusal> {
    let long = match wrong {
        Wrong::FlatUnlimited => false,
        Wrong::FlatSixtyRefused => out.len() >= FILE_BYTES,
        _ => out.len() > FILE_BYTES,
    };
    let short = match wrong {
        Wrong::FlatByInput => lent < file.len(),
        Wrong::FlatOneShort => lent + 1 < out.len(),
        Wrong::FlatMustBeLonger => lent <= out.len(),
        _ => lent < out.len(),
    };
    let place = if wrong == Wrong::FlatSeventeenHasPlace { out.len() } else { 0 };
    let number = if wrong == Wrong::FlatOneByOutput && long { 1 } else { 17 };
    (long || short).then_some(Refusal { number, place })
}

/// What the trees of a file become.
pub struct Flat {
    /// In the order of their numbers, after the file's own.
    pub variables: Vec<Variable>,
    /// In their order, after the file's own. They have no place.
    pub rules: Vec<Rule>,
}

/// A part of a tree that becomes a rule: the head that this rule has.
struct Part<'a> {
    node: &'a Tree,
    head: usize,
    root: bool,
}

impl Flat {
    pub fn of(nested: &Nested) -> Flat {
        let wrong = nested.program.wrong;
        let mut flat = Flat { variables: Vec::new(), rules: Vec::new() };
        let mut rules: Vec<Vec<Rule>> = Vec::new();
        let mut trees: Vec<&Expression> = nested.trees.iter().collect();
        if wrong == Wrong::NumbersTreesBackwards {
            trees.reverse();
        }
        for expression in trees {
            rules.push(flat.add(nested, expression));
        }
        if wrong == Wrong::NumbersTreesBackwards {
            rules.reverse();
        }
        flat.rules = in_order(rules, wrong);
        flat
    }

    /// Adds the variables of a tree and answers its rules.
    fn add(&mut self, nested: &Nested, expression: &Expression) -> Vec<Rule> {
        let wrong = nested.program.wrong;
        let Expression { tree, .. } = expression;
        let head = match nested.program.variables.get(expression.head) {
            None if wrong == Wrong::TreeHeadUnjudged => 0,
            _ => expression.head,
        };
        let first = nested.program.variables.len() + self.variables.len();
        let numbered = numbered(tree, wrong);
        for node in &numbered {
            self.variables.push(added(nested, head, node));
        }
        let number =
            |node: &Tree| first + numbered.iter().position(|&n| std::ptr::eq(n, node)).unwrap_or(0);
        let mut parts = vec![Part { node: tree, head, root: true }];
        if wrong == Wrong::RootAdded && !tree.is_leaf() {
            parts = vec![Part { node: tree, head: number(tree), root: false }];
        }
        let inner = ruled(tree, wrong);
        parts.extend(inner.iter().map(|&node| Part { node, head: number(node), root: false }));
        match wrong {
            Wrong::RulesRootLast => parts.rotate_left(1),
            Wrong::LeafRootLeftOut if tree.is_leaf() => parts.clear(),
            _ => {}
        }
        let mut rules: Vec<Rule> =
            parts.iter().map(|part| rule(nested, part, &|node| number(node))).collect();
        if wrong == Wrong::RootAdded && !tree.is_leaf() {
            let terms = vec![Term { variable: number(tree), op: PLAIN, number: 1 }];
            rules.insert(0, Rule { place: usize::MAX, form: SUM, head, c: 0, divisor: 1, terms });
        }
        rules
    }

    /// The plain file: variables, then rules, old ones before new ones, then
    /// constraints.
    pub fn bytes(&self, nested: &Nested) -> Vec<u8> {
        let of = |tag: u8| -> Vec<Vec<u8>> {
            nested.fields.iter().filter(|field| field[0] == tag).cloned().collect()
        };
        let variables: Vec<Vec<u8>> = self.variables.iter().map(variable_field).collect();
        let rules: Vec<Vec<u8>> = self.rules.iter().map(rule_field).collect();
        let mut parts = [of(1), variables, of(2), rules, of(3)];
        match nested.program.wrong {
            Wrong::VariablesBeforeOld => parts.swap(0, 1),
            Wrong::RulesBeforeOld => parts.swap(2, 3),
            Wrong::ConstraintsBeforeNew => parts.swap(3, 4),
            _ => {}
        }
        parts.concat().concat()
    }

    /// The plain file, taken apart. Old rules keep their places in the nested file.
    pub fn program(&self, nested: &Nested) -> Program {
        let mut program = nested.program.clone();
        program.variables.extend(self.variables.iter().cloned());
        program.rules.extend(self.rules.iter().cloned());
        program
    }

    /// Refusal 13, with the place that the rule has in the nested file.
    fn refuses(&self, nested: &Nested, out: &[u8]) -> Option<Refusal> {
        let wrong = nested.program.wrong;
        let rule = match wrong {
            Wrong::Nothing if out.len() <= FILE_BYTES => read_offender(nested, out),
            Wrong::ThirteenNever => None,
            Wrong::ThirteenFits if out.len() > FILE_BYTES => None,
            _ => graph::first_offending_rule(&self.judged(nested)?),
        }?;
        // New rules have no mixed variable, so that an old one it is.
        let place = match wrong {
            Wrong::ThirteenInPlain => nested.program.rules[rule].place + 8 * self.variables.len(),
            Wrong::ThirteenAtTree => nested.trees.first().map_or(0, |e| e.place),
            _ => nested.program.rules.get(rule).map_or(0, |rule| rule.place),
        };
        Some(Refusal { number: 13, place })
    }

    /// The program that 13 is judged on; nothing where a wrong variant has a rule for
    /// a variable that there is not.
    fn judged(&self, nested: &Nested) -> Option<Program> {
        let mut program = self.program(nested);
        let old = nested.program.rules.len();
        match program.wrong {
            Wrong::ThirteenWithoutTrees => program.rules.truncate(old),
            Wrong::ThirteenWholeTrees => {
                program.rules.truncate(old);
                program.rules.extend(nested.trees.iter().filter_map(|e| whole(nested, e)));
            }
            Wrong::ThirteenNewNeverIdle => {
                let kinds: Vec<Kind> = program.variables.iter().map(|v| v.kind).collect();
                program.rules[old..].iter_mut().for_each(|rule| rule.c = far(kinds[rule.head]));
            }
            Wrong::ThirteenAllLeaves => {
                let kinds: Vec<Kind> = program.variables.iter().map(|v| v.kind).collect();
                for rule in &mut program.rules[old..] {
                    let other =
                        |t: &Term| kinds[t.variable].founded() && kinds[t.variable] != kinds[rule.head];
                    if rule.terms.iter().any(other) {
                        rule.form = SUM;
                        rule.c = far(kinds[rule.head]);
                        let sign = |t: &Term| if other(t) { -1 } else { 1 };
                        let signs: Vec<i64> = rule.terms.iter().map(sign).collect();
                        rule.terms.iter_mut().zip(signs).for_each(|(t, sign)| t.number = sign);
                    }
                }
            }
            _ => {}
        }
        let count = program.variables.len();
        let known = |r: &Rule| r.head < count && r.terms.iter().all(|t| t.variable < count);
        let founded = |r: &Rule| program.variables[r.head].founded();
        program.rules.iter().all(|r| known(r) && founded(r)).then_some(program)
    }
}

/// The number of the rule that the plain reader names in refusal 13. It has no other
/// refusal of a plain file.
fn read_offender(nested: &Nested, out: &[u8]) -> Option<usize> {
    match parse(out, Wrong::Nothing) {
        Ok(_) => None,
        Err(Refusal { number: 13, place }) => {
            let before = nested.program.variables.len() + nested.added;
            let mut at = 0;
            let mut fields = 0;
            while at < place {
                at += 3 + unsigned(out, at + 1);
                fields += 1;
            }
            Some(fields - before)
        }
        Err(other) => panic!("the plain file is refused: {other:?}"),
    }
}

/// A constant with which a rule is never idle.
fn far(kind: Kind) -> i64 {
    if kind == Kind::Above {
        -1_000_000_000
    } else {
        1_000_000_000
    }
}

/// A rule with the edges of a whole tree; nothing where the tree can do nothing.
fn whole(nested: &Nested, expression: &Expression) -> Option<Rule> {
    let head = nested.program.variables.get(expression.head)?;
    let (low, high) = nested.range(&expression.tree);
    let idle = if head.above() { low >= head.high } else { high <= head.low };
    let term = |variable: usize| Term { variable, op: PLAIN, number: 1 };
    let terms = expression.tree.leaves().into_iter().map(term).collect();
    let rule = Rule {
        place: usize::MAX,
        form: SUM,
        head: expression.head,
        c: far(head.kind),
        divisor: 1,
        terms,
    };
    (!idle).then_some(rule)
}

/// New rules stand tree by tree.
fn in_order(mut rules: Vec<Vec<Rule>>, wrong: Wrong) -> Vec<Rule> {
    match wrong {
        Wrong::RulesTreesBackwards => rules.reverse(),
        Wrong::RulesRootsFirst => {
            let roots: Vec<Rule> = rules.iter().map(|list| list[0].clone()).collect();
            rules.iter_mut().for_each(|list| drop(list.remove(0)));
            rules.insert(0, roots);
        }
        _ => {}
    }
    rules.concat()
}

/// The nodes that become variables, in the order of their numbers.
fn numbered(tree: &Tree, wrong: Wrong) -> Vec<&Tree> {
    match wrong {
        Wrong::NumbersAfterChildren => inner_only(tree, after_children(tree)),
        Wrong::NumbersByLevel => inner_only(tree, by_level(tree)),
        Wrong::NumbersSiblingsBackwards => inner_only(tree, siblings_backwards(tree)),
        Wrong::OneChildMerged => {
            tree.added().into_iter().filter(|node| node.children().len() > 1).collect()
        }
        Wrong::RootAdded if !tree.is_leaf() => [vec![tree], tree.added()].concat(),
        _ => tree.added(),
    }
}

/// The nodes that become rules after the root's, in their order.
fn ruled(tree: &Tree, wrong: Wrong) -> Vec<&Tree> {
    match wrong {
        Wrong::RulesAfterChildren => inner_only(tree, after_children(tree)),
        Wrong::RulesByLevel => inner_only(tree, by_level(tree)),
        Wrong::RulesSiblingsBackwards => inner_only(tree, siblings_backwards(tree)),
        Wrong::OneChildMerged => numbered(tree, wrong),
        _ => tree.added(),
    }
}

fn inner_only<'a>(tree: &'a Tree, nodes: Vec<&'a Tree>) -> Vec<&'a Tree> {
    nodes.into_iter().filter(|&node| !std::ptr::eq(node, tree) && !node.is_leaf()).collect()
}

fn after_children(tree: &Tree) -> Vec<&Tree> {
    let mut list: Vec<&Tree> = tree.children().iter().flat_map(after_children).collect();
    list.push(tree);
    list
}

fn siblings_backwards(tree: &Tree) -> Vec<&Tree> {
    let mut list = vec![tree];
    list.extend(tree.children().iter().rev().flat_map(siblings_backwards));
    list
}

fn by_level(tree: &Tree) -> Vec<&Tree> {
    let mut list = vec![tree];
    let mut i = 0;
    while i < list.len() {
        list.extend(list[i].children());
        i += 1;
    }
    list
}

/// The variable of a node: of the head's kind, with the exact range.
fn added(nested: &Nested, head: usize, node: &Tree) -> Variable {
    let program = &nested.program;
    let (mut low, mut high) = nested.range(node);
    let head = program.variables.get(head).cloned().unwrap_or(Variable { kind: Kind::Below, low, high });
    let leaves = node.leaves();
    let of = |v: &usize| program.variables.get(*v).map_or(Kind::Standard, |v| v.kind);
    let kind = match program.wrong {
        Wrong::AddedKindOne => Kind::Below,
        Wrong::AddedStandard if !leaves.iter().any(|v| of(v).founded()) => Kind::Standard,
        Wrong::AddedKindOfLeaf if leaves.first().is_some_and(|v| of(v).founded()) => of(&leaves[0]),
        _ => head.kind,
    };
    match program.wrong {
        Wrong::RangeWide => (low, high) = (-VALUE, VALUE),
        Wrong::RangeOfHead => (low, high) = (head.low, head.high),
        Wrong::NineteenShort => (low, high) = (i64::from(low as i16), i64::from(high as i16)),
        _ => {}
    }
    Variable { kind, low, high }
}

/// The rule of a node.
fn rule(nested: &Nested, part: &Part, number: &dyn Fn(&Tree) -> usize) -> Rule {
    let wrong = nested.program.wrong;
    let alone = [part.node.clone()];
    let (form, children) = match part.node {
        Tree::Leaf(_) if wrong == Wrong::LeafRootMax => (MAX, &alone[..]),
        Tree::Leaf(_) => (SUM, &alone[..]),
        Tree::Node(_, children) if wrong == Wrong::RootSum && part.root => (SUM, &children[..]),
        Tree::Node(MAX, children) if wrong == Wrong::FormsExchanged => (MIN, &children[..]),
        Tree::Node(MIN, children) if wrong == Wrong::FormsExchanged => (MAX, &children[..]),
        Tree::Node(form, children) => (*form, &children[..]),
    };
    let declared = nested.program.variables.len();
    let variable = |child: &Tree| match below(child, wrong) {
        Tree::Leaf(variable) if wrong == Wrong::TreeLeafUnjudged && *variable >= declared => 0,
        Tree::Leaf(variable) => *variable,
        inner => number(inner),
    };
    let times = match (form == SUM, wrong) {
        (true, Wrong::CoefficientZero) => 0,
        (false, Wrong::LargestNumberOne) => 1,
        (sum, _) => i64::from(sum),
    };
    let term = |child: &Tree| Term { variable: variable(child), op: PLAIN, number: times };
    let mut terms: Vec<Term> = children.iter().map(term).collect();
    match wrong {
        Wrong::ChildrenBackwards => terms.reverse(),
        Wrong::ChildrenSorted => terms.sort_by_key(|term| term.variable),
        Wrong::LeavesFirst => terms.sort_by_key(|term| term.variable >= declared),
        _ => {}
    }
    let c = i64::from(wrong == Wrong::ConstantOne);
    Rule { place: usize::MAX, form, head: part.head, c, divisor: 1, terms }
}

/// The child itself; for a wrong variant, what stands below nodes with one child.
fn below(child: &Tree, wrong: Wrong) -> &Tree {
    match child {
        Tree::Node(_, children) if wrong == Wrong::OneChildMerged && children.len() == 1 => {
            below(&children[0], wrong)
        }
        _ => child,
    }
}

fn two(number: i64) -> [u8; 2] {
    (number as i16).to_be_bytes()
}

fn variable_field(variable: &Variable) -> Vec<u8> {
    let kind = [1, 0, 5, variable.kind.number()];
    [&kind[..], &two(variable.low), &two(variable.high)].concat()
}

fn rule_field(rule: &Rule) -> Vec<u8> {
    let length = two(4 + 4 * rule.terms.len() as i64);
    let mut field = vec![2, length[0], length[1], rule.form, rule.head as u8];
    field.extend(two(rule.c));
    for term in &rule.terms {
        field.extend([term.variable as u8, term.op]);
        field.extend(two(term.number));
    }
    field
}
