//! What the samples are written with.

use second::gen::fields::{assignment, bytes, Field};
use second::{print, read, Reading};

/// Number and place of the refusal; zeros for an accepted file.
pub fn refused(file: &[u8]) -> (usize, usize) {
    match read(file) {
        Reading::Refused { number, place } => (number, place),
        Reading::Accepted { .. } => (0, 0),
    }
}

/// What the printing program says, file and values given.
pub fn says(fields: &[Field], values: &[i64]) -> String {
    let file = bytes(fields);
    let mut input = (file.len() as u16).to_be_bytes().to_vec();
    input.extend(file);
    input.extend(assignment(values));
    String::from_utf8(print(&input)).unwrap()
}

pub fn hexadecimal(text: &str) -> Vec<u8> {
    text.split_whitespace().map(|b| u8::from_str_radix(b, 16).unwrap()).collect()
}
