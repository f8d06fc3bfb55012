//! Small nested files for enumeration: few variables, short ranges, and trees that
//! add few variables with short ranges.

use super::fields::{self, Field, Piece};
use super::nested::Draft;
use super::prng::Random;
use super::trees::{self, Style};
use crate::program::*;
use crate::tree::Tree;

/// As many assignments as may be gone through.
const MOST: i64 = 4_000;

pub fn draft(random: &mut Random) -> Draft {
    loop {
        let draft = if random.percent(25) { knot(random) } else { attempt(random) };
        if draft.trees.iter().any(|(_, tree)| !tree.is_leaf()) && choices(&draft) <= MOST {
            return draft;
        }
    }
}

/// How many assignments the plain file has.
fn choices(draft: &Draft) -> i64 {
    let variables = draft.variables();
    let own: i64 = variables.iter().map(|v| v.2 - v.1 + 1).product();
    let ends = |node: &Tree| (node.value(&|v| variables[v].1), node.value(&|v| variables[v].2));
    let span = |node: &&Tree| ends(node).1 - ends(node).0 + 1;
    let added =
        draft.trees.iter().flat_map(|(_, tree)| tree.added().iter().map(span).collect::<Vec<_>>());
    added.fold(own, |product, span| product.saturating_mul(span).min(1_000_000))
}

/// A size in a circle that a tree closes, or leaves open by a node that has one value.
fn knot(random: &mut Random) -> Draft {
    let kind = 1 + random.below(2) as u8;
    let kinds = if random.percent(15) { [kind, 3 - kind] } else { [kind, kind] };
    let high = random.between(1, 2);
    let mut list: Vec<Field> = kinds.iter().map(|&kind| fields::variable(kind, -1, high)).collect();
    let (form, end) = random.pick(&[(MAX, high), (MIN, -1)]);
    list.push(fields::variable(random.below(3) as u8, end, end));
    list.push(fields::variable(random.below(3) as u8, -1, random.between(-1, 1)));
    list.push(fields::rule(SIZE, 0, random.between(-1, 0), &[(1, 0, 0)]));
    if random.percent(30) {
        list.push(fields::rule(IF, 1, random.between(-1, high), &[(3, 1, 0)]));
    }
    let variables: &[usize] = random.pick(&[&[0][..], &[0, 3], &[0, 3, 2], &[2, 0], &[3, 2, 0]]);
    let mut tree = Tree::Node(form, trees::leaves(variables));
    if random.percent(30) {
        tree = Tree::Node(trees::form(random), trees::leaves(variables));
    }
    for _ in 0..random.below(3) {
        tree = Tree::Node(trees::form(random), vec![tree]);
    }
    Draft { list, trees: vec![(1, tree)] }
}

fn attempt(random: &mut Random) -> Draft {
    let count = 2 + random.below(4);
    let above = random.pick(&[0, 50, 50, 100]);
    let mut list: Vec<Field> = Vec::new();
    for v in 0..count {
        let founded = v == 0 || random.percent(75);
        let kind = match founded {
            true if random.percent(above) => 2,
            true => 1,
            false => 0,
        };
        let span = random.pick(&[0, 1, 1, 2, 2, 3]);
        let low = random.pick(&[0, 0, -1, -1, 1, -span]);
        list.push(fields::variable(kind, low, low + span));
    }
    let mut draft = Draft { list, trees: Vec::new() };
    let heads = draft.heads();
    for _ in 0..1 + random.below(3) {
        let head = random.pick(&heads);
        let many = 1 + random.below(3.min(count));
        let mut variables = random.distinct(count, many);
        if random.percent(40) && !variables.contains(&head) {
            variables[0] = head;
        }
        let style = Style { levels: 2 + random.below(3), wide: 3, thin: 30 };
        draft.trees.push((head, trees::over(random, &variables, style)));
    }
    for _ in 0..random.below(4) {
        let rule = rule(random, &draft);
        draft.list.push(rule);
    }
    for _ in 0..random.below(2) {
        let v = random.below(count);
        let (_, low, high) = draft.variables()[v];
        let number = random.between(low, high);
        draft.list.push(match random.below(2) {
            0 => fields::constraint(1, -number, &[(v as u8, 0, 1)]),
            _ => fields::constraint(2, 0, &[(v as u8, random.pick(&[1, 2]), number)]),
        });
    }
    draft
}

/// A rule of any form for any founded variable, over one or two variables.
fn rule(random: &mut Random, draft: &Draft) -> Field {
    let variables = draft.variables();
    let head = random.pick(&draft.heads());
    let most = variables.len().min(2);
    let many = 1 + random.below(most);
    let body = random.distinct(variables.len(), many);
    let plain: Vec<Piece> = body.iter().map(|&v| (v as u8, 0, 0)).collect();
    let literals: Vec<Piece> = body
        .iter()
        .map(|&v| (v as u8, random.pick(&[1, 2]), random.between(variables[v].1, variables[v].2 + 1)))
        .collect();
    let c = random.between(-1, 1);
    let form = random.pick(&[SUM, SUM, MAX, MIN, SIZE, SIZE, IF, IF, CARRY]);
    match form {
        SUM => {
            let pieces: Vec<Piece> =
                body.iter().map(|&v| (v as u8, 0, random.pick(&[1, 1, -1, 2]))).collect();
            fields::rule(SUM, head as u8, c, &pieces)
        }
        SIZE => fields::rule(SIZE, head as u8, c, &plain[..1]),
        IF => {
            let (_, low, high) = variables[head];
            fields::rule(IF, head as u8, random.between(low, high), &literals)
        }
        CARRY if body.len() > 1 => fields::rule(CARRY, head as u8, c, &[plain[0], literals[1]]),
        CARRY => fields::rule(SUM, head as u8, c, &[]),
        _ => fields::rule(form, head as u8, c, &plain),
    }
}
