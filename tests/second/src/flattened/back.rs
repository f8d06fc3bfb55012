//! From a plain file back to the nested one: new rules are read in their order, and
//! each added variable is put back where it stands.

use crate::gen::fields::{self, Field};
use crate::program::{signed, MAX, SUM};

/// A new rule, and the terms that it has.
struct Back {
    form: u8,
    head: usize,
    terms: Vec<usize>,
}

/// The nested file that a plain one comes from, so many variables and rules being the
/// nested file's own. A root that is a leaf comes back as a sum of one. The error
/// says what no flattening writes.
pub fn nested_of(out: &[u8], variables: usize, rules: usize) -> Result<Vec<u8>, String> {
    let taken = fields::taken(out);
    let of = |tag: u8| -> Vec<Field> { taken.iter().filter(|f| f.tag == tag).cloned().collect() };
    let (declared, all) = (of(1), of(2));
    if [declared.clone(), all.clone(), of(3)].concat().len() != taken.len() {
        return Err("a field of another tag".to_string());
    }
    if declared.len() < variables || all.len() < rules {
        return Err("too few variables or rules".to_string());
    }
    let new: Vec<Back> = all[rules..].iter().map(back).collect::<Result<_, _>>()?;
    let mut trees = Vec::new();
    let mut at = Place { rule: 0, number: variables };
    while at.rule < new.len() {
        let head = new[at.rule].head;
        if head >= variables {
            return Err(format!("new rule {} is for no variable of the file", at.rule));
        }
        let (first, before) = (at.rule, at.number);
        let mut value = vec![head as u8];
        put_back(&new, variables, &mut at, &mut value)?;
        trees.push(Field { tag: 5, value });
        let kind = declared[head].value[0];
        let added = declared.get(before..at.number).ok_or("a variable that there is not")?;
        if added.iter().any(|field| field.value[0] != kind) {
            return Err(format!("kinds of the variables of new rules from {first} on"));
        }
    }
    if at.number != declared.len() {
        return Err("an added variable that stands nowhere".to_string());
    }
    try_ranges(&fields::variables(&declared), variables, &new)?;
    Ok(fields::bytes(&[&declared[..variables], &all[..rules], &of(3), &trees].concat()))
}

/// The next new rule, and the next number of an added variable.
struct Place {
    rule: usize,
    number: usize,
}

/// A new rule has c 0, plain terms, and coefficients of 1 in sums.
fn back(field: &Field) -> Result<Back, String> {
    let value = &field.value;
    let times = i64::from(value[0] == SUM);
    let plain = |term: &[u8]| term[1] == 0 && signed(term, 2) == times;
    if !(1..=3).contains(&value[0]) || value[2..4] != [0, 0] || !value[4..].chunks(4).all(plain) {
        return Err(format!("a new rule {value:?}"));
    }
    let terms = value[4..].chunks(4).map(|term| usize::from(term[0])).collect();
    Ok(Back { form: value[0], head: usize::from(value[1]), terms })
}

/// Puts back the node of the next rule: its added children have the next numbers,
/// and the next rules.
fn put_back(new: &[Back], variables: usize, at: &mut Place, value: &mut Vec<u8>) -> Result<(), String> {
    let rule = &new[at.rule];
    at.rule += 1;
    value.extend([rule.form, rule.terms.len() as u8]);
    for &term in &rule.terms {
        if term < variables {
            value.extend([0, term as u8]);
            continue;
        }
        if term != at.number || new.get(at.rule).is_none_or(|next| next.head != term) {
            return Err(format!("added variable {term} where {} was due, or its rule", at.number));
        }
        at.number += 1;
        put_back(new, variables, at, value)?;
    }
    Ok(())
}

/// The ranges of added variables follow from those of the terms of their rules, the
/// last rule first.
fn try_ranges(all: &[(u8, i64, i64)], variables: usize, new: &[Back]) -> Result<(), String> {
    for rule in new.iter().rev().filter(|rule| rule.head >= variables) {
        let lows = rule.terms.iter().map(|&v| all[v].1);
        let highs = rule.terms.iter().map(|&v| all[v].2);
        let due = match rule.form {
            SUM => (Some(lows.sum()), Some(highs.sum())),
            MAX => (lows.max(), highs.max()),
            _ => (lows.min(), highs.min()),
        };
        let (_, low, high) = all[rule.head];
        if due != (Some(low), Some(high)) {
            return Err(format!("variable {} in {low}..{high}, {due:?} was due", rule.head));
        }
    }
    Ok(())
}

/// A nested file in which roots that are leaves are written as sums of one.
pub fn canonical(file: &[u8]) -> Vec<u8> {
    let mut all = fields::taken(file);
    for field in all.iter_mut().filter(|field| field.tag == 5 && field.value.len() == 3) {
        field.value.splice(1..1, [SUM, 1]);
    }
    fields::bytes(&all)
}
