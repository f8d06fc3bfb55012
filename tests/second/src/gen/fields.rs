//! Files as lists of fields, before they become bytes.

#[derive(Clone, Debug)]
pub struct Field {
    pub tag: u8,
    pub value: Vec<u8>,
}

/// Variable, op, number.
pub type Piece = (u8, u8, i64);

pub fn number(value: i64) -> [u8; 2] {
    (value as i16).to_be_bytes()
}

pub fn variable(kind: u8, low: i64, high: i64) -> Field {
    let mut value = vec![kind];
    value.extend(number(low));
    value.extend(number(high));
    Field { tag: 1, value }
}

pub fn rule(form: u8, head: u8, c: i64, terms: &[Piece]) -> Field {
    let mut value = vec![form, head];
    value.extend(number(c));
    value.extend(pieces(terms));
    Field { tag: 2, value }
}

/// A rule of form 8: the divisor's group, then the terms.
pub fn quotient(head: u8, c: i64, divisor: i64, terms: &[Piece]) -> Field {
    rule(8, head, c, &[&[(0, 3, divisor)], terms].concat())
}

pub fn constraint(form: u8, c: i64, terms: &[Piece]) -> Field {
    let mut value = vec![form];
    value.extend(number(c));
    value.extend(pieces(terms));
    Field { tag: 3, value }
}

pub fn pieces(terms: &[Piece]) -> Vec<u8> {
    let bytes = |&(variable, op, n): &Piece| {
        let n = number(n);
        [variable, op, n[0], n[1]]
    };
    terms.iter().flat_map(bytes).collect()
}

pub fn bytes(fields: &[Field]) -> Vec<u8> {
    let mut out = Vec::new();
    for field in fields {
        out.push(field.tag);
        out.extend((field.value.len() as u16).to_be_bytes());
        out.extend(&field.value);
    }
    out
}

/// The fields of a file that has whole ones only; else those before the first
/// that is cut.
pub fn taken(file: &[u8]) -> Vec<Field> {
    let mut out = Vec::new();
    let mut rest = file;
    while rest.len() >= 3 {
        let end = 3 + usize::from(u16::from_be_bytes([rest[1], rest[2]]));
        if rest.len() < end {
            break;
        }
        out.push(Field { tag: rest[0], value: rest[3..end].to_vec() });
        rest = &rest[end..];
    }
    out
}

/// Offset of the tag byte of field number `index`.
pub fn place(fields: &[Field], index: usize) -> usize {
    fields[..index].iter().map(|f| 3 + f.value.len()).sum()
}

pub fn count(fields: &[Field], tag: u8) -> usize {
    fields.iter().filter(|f| f.tag == tag).count()
}

/// Kind, low and high of every variable field.
pub fn variables(fields: &[Field]) -> Vec<(u8, i64, i64)> {
    let two = |a: u8, b: u8| i64::from(i16::from_be_bytes([a, b]));
    let take = |f: &Field| (f.value[0], two(f.value[1], f.value[2]), two(f.value[3], f.value[4]));
    fields.iter().filter(|f| f.tag == 1).map(take).collect()
}

pub fn assignment(values: &[i64]) -> Vec<u8> {
    values.iter().flat_map(|v| number(*v)).collect()
}
