//! One file for one plan: an accepted file written anew. Variables stand as they
//! are; terms and literals by ascending variable, after a carried variable or a
//! divisor; rules and constraints by their bytes, each once.

use std::cmp::Ordering;

use crate::program::*;
use crate::reader::{parse, parse_fields, Refusal};
use crate::wrong::Wrong;

#[derive(Clone, Copy, Debug, PartialEq, Eq)]
pub enum Normal {
    Refused {
        number: usize,
        place: usize,
    },
    /// The length of what was written.
    Written(usize),
}

const RULE: u8 = 2;
const CONSTRAINT: u8 = 3;

pub fn normalize_with(file: &[u8], buffer: &mut [u8], wrong: Wrong) -> Normal {
    if let Some(Refusal { number, place }) = refusal(file, buffer.len(), wrong) {
        if number == 17 && wrong == Wrong::RefusedWrites {
            lay(file, &anew(file, wrong), buffer, wrong);
        }
        return Normal::Refused { number, place };
    }
    let out = anew(file, wrong);
    lay(file, &out, buffer, wrong);
    Normal::Written(if wrong == Wrong::AnswersInputLength { file.len() } else { out.len() })
}

/// What the program prints for this standard input.
pub fn print_normal_with(input: &[u8], wrong: Wrong) -> Vec<u8> {
    let mut buffer = vec![0; input.len()];
    match normalize_with(input, &mut buffer, wrong) {
        Normal::Refused { number, place } => format!("refused {number} {place}\n").into_bytes(),
        Normal::Written(length) => buffer[..length].to_vec(),
    }
}

/// The file's own refusals, then 17.
fn refusal(file: &[u8], lent: usize, wrong: Wrong) -> Option<Refusal> {
    let own = match wrong {
        Wrong::InvalidWritten => parse_fields(file, wrong).err(),
        _ => parse(file, wrong).err(),
    };
    let short = match wrong {
        Wrong::BufferByOutput if own.is_none() => lent < anew(file, wrong).len(),
        Wrong::OneShortWritten => lent + 1 < file.len(),
        Wrong::BufferMustBeLonger => lent <= file.len() && !file.is_empty(),
        Wrong::EmptyBufferRefused => lent < file.len().max(1),
        _ => lent < file.len(),
    };
    let place = if wrong == Wrong::SeventeenHasPlace { lent } else { 0 };
    match (own, short) {
        (_, true) if wrong == Wrong::SeventeenFirst => Some(Refusal { number: 17, place }),
        (Some(own), _) => Some(own),
        (None, short) => short.then_some(Refusal { number: 17, place }),
    }
}

/// Writes the output from the buffer's first byte on, and nothing after it.
fn lay(file: &[u8], out: &[u8], buffer: &mut [u8], wrong: Wrong) {
    // Only a wrong variant has a buffer shorter than the output.
    let length = out.len().min(buffer.len());
    let start = if wrong == Wrong::WritesAtEnd { buffer.len() - length } else { 0 };
    if wrong == Wrong::LeavesInput {
        buffer[..file.len()].copy_from_slice(file);
    }
    buffer[start..start + length].copy_from_slice(&out[..length]);
    if wrong == Wrong::ClearsBehind {
        buffer[length..].fill(0);
    }
}

/// The bytes of an accepted file's normal form.
fn anew(file: &[u8], wrong: Wrong) -> Vec<u8> {
    let fields = fields_of(file);
    let of = |tag: u8| fields.iter().filter(|f| f[0] == tag).map(|f| f.to_vec()).collect();
    let mut rules: Vec<Vec<u8>> = of(RULE);
    if let (Wrong::IdleLeftOut, Ok(program)) = (wrong, parse_fields(file, wrong)) {
        let mut idle = program.idle_rules().into_iter();
        rules.retain(|_| idle.next() == Some(false));
    }
    let mut parts = [variables(of(1), wrong), listed(rules, wrong), listed(of(CONSTRAINT), wrong)];
    if wrong == Wrong::ConstraintsBeforeRules {
        parts.swap(1, 2);
    }
    parts.concat().concat()
}

/// The whole fields of an accepted file, tag and length with each.
fn fields_of(file: &[u8]) -> Vec<&[u8]> {
    let mut fields = Vec::new();
    let mut rest = file;
    while !rest.is_empty() {
        let (field, after) = rest.split_at(3 + unsigned(rest, 1));
        fields.push(field);
        rest = after;
    }
    fields
}

/// Variables are as they are.
fn variables(mut fields: Vec<Vec<u8>>, wrong: Wrong) -> Vec<Vec<u8>> {
    match wrong {
        Wrong::VariablesMerged => fields.dedup(),
        Wrong::VariablesSorted => fields.sort(),
        _ => {}
    }
    fields
}

/// Rules or constraints: their terms ordered, then they themselves, each once.
fn listed(mut fields: Vec<Vec<u8>>, wrong: Wrong) -> Vec<Vec<u8>> {
    if wrong == Wrong::RepeatsBeforeTerms {
        fields.sort();
        fields.dedup();
    }
    let mut fields: Vec<Vec<u8>> = fields.iter().map(|field| ordered(field, wrong)).collect();
    if wrong == Wrong::NeighboursDropped {
        fields.dedup();
    }
    sort(&mut fields, wrong);
    drop_repeats(&mut fields, wrong);
    fields
}

fn sort(fields: &mut [Vec<u8>], wrong: Wrong) {
    let tag = fields.first().map_or(0, |field| field[0]);
    match (wrong, tag) {
        (Wrong::RulesUnsorted, RULE) | (Wrong::ConstraintsUnsorted, CONSTRAINT) => {}
        (Wrong::SortsBlocks, _) => fields.chunks_mut(256).for_each(<[_]>::sort),
        (Wrong::SortsOnePass, _) => pass(fields, Vec::cmp),
        _ => fields.sort_by(|one, other| compare(one, other, wrong)),
    }
}

/// One pass over neighbours, for wrong variants.
fn pass<T>(list: &mut [T], compare: impl Fn(&T, &T) -> Ordering) {
    for i in 1..list.len() {
        if compare(&list[i - 1], &list[i]).is_gt() {
            list.swap(i - 1, i);
        }
    }
}

/// Which of two whole fields stands first: byte by byte, each unsigned.
fn compare(one: &[u8], other: &[u8], wrong: Wrong) -> Ordering {
    let signed_bytes = |field: &[u8]| field.iter().map(|&b| b as i8).collect::<Vec<i8>>();
    let turned = |field: &[u8]| field.iter().rev().copied().collect::<Vec<u8>>();
    let until = |k: usize| one[..k.min(one.len())].cmp(&other[..k.min(other.len())]);
    let c = |field: &[u8]| signed(field, if field[0] == RULE { 5 } else { 4 });
    let before_c = if one[0] == RULE { 5 } else { 4 };
    match wrong {
        Wrong::SignedBytes => signed_bytes(one).cmp(&signed_bytes(other)),
        Wrong::ConstantAsNumber => {
            until(before_c).then(c(one).cmp(&c(other))).then_with(|| one.cmp(other))
        }
        Wrong::ValuesOnly => one[3..].cmp(&other[3..]),
        Wrong::LongerFirst => other.len().cmp(&one.len()).then_with(|| one.cmp(other)),
        Wrong::FieldsDescending => other.cmp(one),
        Wrong::HeadsFirst if one[0] == RULE => one[4].cmp(&other[4]).then_with(|| one.cmp(other)),
        Wrong::FormLast => until(3).then(one[4..].cmp(&other[4..])).then(one[3].cmp(&other[3])),
        Wrong::LastByteFirst => turned(one).cmp(&turned(other)),
        Wrong::StopsAfter7 => until(7),
        Wrong::StopsAfter8 => until(8),
        Wrong::StopsAfter16 => until(16),
        Wrong::StopsAfter32 => until(32),
        Wrong::StopsAfter64 => until(64),
        Wrong::StopsBeforeLast => until(one.len() - 1),
        _ => one.cmp(other),
    }
}

/// Equal fields are neighbours by now.
fn drop_repeats(fields: &mut Vec<Vec<u8>>, wrong: Wrong) {
    let tag = fields.first().map_or(0, |field| field[0]);
    let until_last = |field: &[u8]| field[..field.len() - 1].to_vec();
    let without_c = |field: &[u8]| [&field[..field.len().min(5)], &field[7.min(field.len())..]].concat();
    match (wrong, tag) {
        (Wrong::RepeatsKept | Wrong::RepeatsBeforeTerms | Wrong::NeighboursDropped, _) => {}
        (Wrong::RuleRepeatsKept, RULE) | (Wrong::ConstraintRepeatsKept, CONSTRAINT) => {}
        (Wrong::RulesUnsorted, RULE) | (Wrong::ConstraintsUnsorted, CONSTRAINT) => first_ones(fields),
        (Wrong::OneRepeatDropped, _) => {
            let all = fields.clone();
            let mut i = 0;
            fields.retain(|field| {
                i += 1;
                let repeated = all.get(i) == Some(field);
                !repeated || i > 1 && all[i - 2] == *field
            });
        }
        (Wrong::RepeatsAllDropped, _) => {
            let all = fields.clone();
            fields.retain(|field| all.iter().filter(|other| *other == field).count() == 1);
        }
        (Wrong::RepeatsButLast, _) => fields.dedup_by(|a, b| until_last(a) == until_last(b)),
        (Wrong::RepeatsByTerms, RULE) => fields.dedup_by(|a, b| without_c(a) == without_c(b)),
        _ => fields.dedup(),
    }
}

/// Drops every field that has stood before, whatever the order.
fn first_ones(fields: &mut Vec<Vec<u8>>) {
    let all = fields.clone();
    let mut i = 0;
    fields.retain(|field| {
        i += 1;
        !all[..i - 1].contains(field)
    });
}

/// A rule or constraint with its terms ordered.
fn ordered(field: &[u8], wrong: Wrong) -> Vec<u8> {
    let mut field = field.to_vec();
    let one = field[0] == RULE && field[3] == QUOTIENT && signed(&field, 9) == 1;
    if one && wrong == Wrong::OneIsSum && field.len() > 11 {
        field[3] = SUM;
        field.drain(7..11);
        field[2] -= 4;
    }
    let (first, rest) = field.split_at(first_bytes(&field, wrong));
    let mut groups: Vec<&[u8]> = rest.chunks(4).collect();
    if !left_alone(field[0], field[3], wrong) {
        order(&mut groups, wrong);
    }
    [first, &groups.concat()].concat()
}

/// How many bytes stand before the terms that are ordered: tag, length, what is
/// fixed, and a carried variable or a divisor.
fn first_bytes(field: &[u8], wrong: Wrong) -> usize {
    let fixed = if field[0] == RULE { 7 } else { 6 };
    let stays = match (field[0], field[3]) {
        (RULE, CARRY) => wrong != Wrong::CarriedSorted,
        (RULE, QUOTIENT) => {
            let sorted = [Wrong::DivisorBehindZero, Wrong::DivisorLast, Wrong::DivisorByNumber];
            !sorted.contains(&wrong)
        }
        _ => wrong == Wrong::FirstTermStays && field.len() > fixed,
    };
    fixed + if stays { 4 } else { 0 }
}

/// Does a wrong variant not order the terms of this form?
fn left_alone(tag: u8, form: u8, wrong: Wrong) -> bool {
    let forms: &[(u8, u8)] = match wrong {
        Wrong::SumUnordered => &[(RULE, SUM)],
        Wrong::MaxUnordered => &[(RULE, MAX)],
        Wrong::MinUnordered => &[(RULE, MIN)],
        Wrong::ProductUnordered => &[(RULE, PRODUCT)],
        Wrong::IfUnordered => &[(RULE, IF)],
        Wrong::CarryUnordered => &[(RULE, CARRY)],
        Wrong::QuotientUnordered => &[(RULE, QUOTIENT)],
        Wrong::ConstraintSumUnordered => &[(CONSTRAINT, AT_MOST_ZERO)],
        Wrong::ConstraintLiteralsUnordered => &[(CONSTRAINT, ONE_HOLDS)],
        Wrong::LiteralsUnordered => &[(RULE, IF), (RULE, CARRY), (CONSTRAINT, ONE_HOLDS)],
        _ => &[],
    };
    forms.contains(&(tag, form))
}

/// By ascending variable; all bodies have each variable once.
fn order(groups: &mut [&[u8]], wrong: Wrong) {
    let divisor = |group: &&[u8]| group[1] == OVER;
    let literal = |group: &&[u8]| group[1] == AT_LEAST || group[1] == BELOW;
    let count = groups.len();
    match wrong {
        Wrong::TermsDescending => groups.sort_by_key(|group| 255 - group[0]),
        Wrong::TermsSigned => groups.sort_by_key(|group| group[0] as i8),
        Wrong::TermsByNumber => groups.sort_by_key(|group| (signed(group, 2), group[0])),
        Wrong::LiteralsByOp => {
            groups.sort_by_key(|group| (if literal(group) { group[1] } else { 0 }, group[0]))
        }
        Wrong::DivisorBehindZero => groups.sort(),
        Wrong::DivisorLast => groups.sort_by_key(|group| (divisor(group), group[0])),
        Wrong::DivisorByNumber if groups.iter().any(divisor) => {
            groups.sort_by_key(|group| signed(group, 2))
        }
        Wrong::TermsOnePass => pass(groups, |one, other| one[0].cmp(&other[0])),
        Wrong::EightTermsOrdered => groups[..count.min(8)].sort_by_key(|group| group[0]),
        Wrong::SixteenthStays => groups[..count.min(15)].sort_by_key(|group| group[0]),
        _ => groups.sort_by_key(|group| group[0]),
    }
}
