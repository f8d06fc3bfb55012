//! Mistakes of writing a file anew, made on its bytes. They count where the file
//! stays accepted and is another plan.

use crate::anew::{free_from, reordered, RULE, VARIABLE};
use second::gen::fields::{self, Field};
use second::program::{CARRY, PRODUCT, QUOTIENT, SUM};
use std::collections::BTreeSet;

macro_rules! mistakes {
    (lists: $($(#[$lsays:meta])* $list:ident,)*; bodies: $($(#[$says:meta])* $name:ident,)*) => {
        #[derive(Clone, Copy, Debug, PartialEq, Eq)]
        pub enum Mistake {
            $($(#[$lsays])* $list,)*
            $($(#[$says])* $name,)*
        }

        impl Mistake {
            pub const ALL: &'static [Mistake] = &[$(Mistake::$list,)* $(Mistake::$name,)*];
        }
    };
}

mistakes! {
    lists:
    /// The first rule is left out.
    FirstRuleLost,
    /// The last rule is left out.
    LastRuleLost,
    /// The last constraint is left out.
    LastConstraintLost,
    /// What stands there more than once is left out.
    RepeatsLost,
    /// A rule is a repeat when it has length, form and head of one before.
    RepeatsByHead,
    /// A rule is a repeat when it differs from one before in c alone.
    RepeatsButConstant,
    /// A rule is a repeat when it differs from one before in its terms alone.
    RepeatsButTerms,
    /// Variables are ordered too.
    VariablesSorted,
    /// Rules of one form and length are ordered, their terms stay.
    TermsStay,
    ;
    bodies:
    /// The carried variable changes places with a literal's below it.
    CarriedSorted,
    /// The head changes places with the first variable that is ordered.
    HeadSorted,
    /// Terms are ordered, their numbers stay.
    NumbersStay,
    /// Terms are ordered, their ops stay.
    OpsStay,
    /// The last term of two or more is left out.
    LastTermLost,
    /// The divisor becomes a term of variable 0, and form 8 form 1.
    DivisorAsTerm,
    /// The divisor is left out, and form 8 becomes form 1.
    DivisorLost,
    /// The divisor changes places with the first coefficient.
    DivisorSorted,
    /// Of c the last byte alone is read.
    ConstantShort,
    /// The bytes of c change places.
    ConstantTurned,
    /// Of a term's number the last byte alone is read.
    NumberShort,
}

impl Mistake {
    /// What is written with the mistake: it is made in the copy, which is not in
    /// order, or in the right output.
    pub fn written(self, copy: &[u8], output: &[u8]) -> Vec<u8> {
        let (copy, output) = (fields::taken(copy), fields::taken(output));
        fields::bytes(&match self {
            Mistake::FirstRuleLost => without(output, |f| f.iter().position(|f| f.tag == RULE)),
            Mistake::LastRuleLost => without(output, |f| f.iter().rposition(|f| f.tag == RULE)),
            Mistake::LastConstraintLost => without(output, |f| f.iter().rposition(|f| f.tag > RULE)),
            Mistake::RepeatsLost => singles(copy),
            Mistake::RepeatsByHead => {
                firsts(output, |f| [&[f.value.len() as u8], &f.value[..2]].concat())
            }
            Mistake::RepeatsButConstant => firsts(output, |f| [&f.value[..2], &f.value[4..]].concat()),
            Mistake::RepeatsButTerms => firsts(output, |f| f.value[..4].to_vec()),
            Mistake::VariablesSorted => variables_sorted(output),
            Mistake::TermsStay => terms_stay(copy),
            _ => copy.iter().map(|field| self.field(field)).collect(),
        })
    }

    /// A rule or constraint with the mistake in it.
    fn field(self, field: &Field) -> Field {
        let (tag, mut value) = (field.tag, field.value.clone());
        let free = free_from(field);
        let rule = if tag == RULE { value[0] } else { 0 };
        let c = if tag == RULE { 2 } else { 1 };
        match self {
            _ if tag == VARIABLE => {}
            Mistake::CarriedSorted if rule == CARRY && value[4] > value[8] => value.swap(4, 8),
            Mistake::HeadSorted if rule > 0 && free < value.len() => value.swap(1, free),
            Mistake::NumbersStay => value = stays(field, 2..4),
            Mistake::OpsStay => value = stays(field, 1..2),
            Mistake::LastTermLost if rule != PRODUCT && value.len() >= free + 8 => {
                value.truncate(value.len() - 4)
            }
            Mistake::DivisorAsTerm if rule == QUOTIENT => (value[0], value[5]) = (SUM, 0),
            Mistake::DivisorLost if rule == QUOTIENT => {
                value[0] = SUM;
                value.drain(4..8);
            }
            Mistake::DivisorSorted if rule == QUOTIENT && value.len() > 8 => {
                value.swap(6, 10);
                value.swap(7, 11);
            }
            Mistake::ConstantShort => value[c] = 0,
            Mistake::ConstantTurned => value.swap(c, c + 1),
            Mistake::NumberShort => value[free..].chunks_mut(4).for_each(|term| term[2] = 0),
            _ => {}
        }
        Field { tag, value }
    }
}

/// All fields but one.
fn without(mut list: Vec<Field>, which: impl Fn(&[Field]) -> Option<usize>) -> Vec<Field> {
    if let Some(i) = which(&list) {
        list.remove(i);
    }
    list
}

fn by_variable(mut terms: Vec<&[u8]>) -> Vec<&[u8]> {
    terms.sort_by_key(|term| term[0]);
    terms
}

/// The fields that stand there once, when their terms are ordered; variables all.
fn singles(list: Vec<Field>) -> Vec<Field> {
    let list: Vec<Field> = list.iter().map(|field| reordered(field, by_variable)).collect();
    let same = |a: &Field, b: &Field| a.tag == b.tag && a.value == b.value;
    let once = |a: &&Field| a.tag == VARIABLE || list.iter().filter(|b| same(a, b)).count() == 1;
    list.iter().filter(once).cloned().collect()
}

/// Of rules with one key the first.
fn firsts(mut list: Vec<Field>, key: impl Fn(&Field) -> Vec<u8>) -> Vec<Field> {
    let mut seen = BTreeSet::new();
    list.retain(|field| field.tag != RULE || seen.insert(key(field)));
    list
}

fn variables_sorted(mut list: Vec<Field>) -> Vec<Field> {
    let variables = fields::count(&list, VARIABLE);
    list[..variables].sort_by(|a, b| a.value.cmp(&b.value));
    list
}

/// Head and c are ordered among the rules of one form and length.
fn terms_stay(mut list: Vec<Field>) -> Vec<Field> {
    let key = |f: &Field| (f.tag, f.value[0], f.value.len());
    let keys: BTreeSet<_> = list.iter().filter(|f| f.tag == RULE).map(key).collect();
    for wanted in keys {
        let alike: Vec<&mut Field> = list.iter_mut().filter(|f| key(f) == wanted).collect();
        let mut firsts: Vec<Vec<u8>> = alike.iter().map(|f| f.value[..4].to_vec()).collect();
        firsts.sort();
        for (field, first) in alike.into_iter().zip(firsts) {
            field.value[..4].copy_from_slice(&first);
        }
    }
    list
}

/// The value with its terms by ascending variable, but these bytes of each place
/// as they were.
fn stays(field: &Field, bytes: std::ops::Range<usize>) -> Vec<u8> {
    let mut value = reordered(field, by_variable).value;
    for i in (free_from(field)..value.len()).step_by(4) {
        let stay = i + bytes.start..i + bytes.end;
        value[stay.clone()].copy_from_slice(&field.value[stay]);
    }
    value
}
