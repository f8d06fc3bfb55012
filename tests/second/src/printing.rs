//! The printing program.

use crate::calls::{check_with, Verdict};
use crate::program::{signed, unsigned, VARIABLES};
use crate::wrong::Wrong;

const INPUT_BYTES: usize = 61_000;

/// File and assignment of a well framed input.
fn frame(input: &[u8]) -> Option<(&[u8], &[u8])> {
    if input.len() < 2 || input.len() > INPUT_BYTES {
        return None;
    }
    let (length, rest) = (unsigned(input, 0), &input[2..]);
    if rest.len() < length {
        return None;
    }
    Some(rest.split_at(length))
}

pub fn print_with(input: &[u8], wrong: Wrong) -> Vec<u8> {
    let Some((file, assignment)) = frame(input) else {
        return b"refused 16 0\n".to_vec();
    };
    let mut report = [0; 12 * VARIABLES];
    let text = match check_with(file, assignment, &mut report, wrong) {
        Verdict::Refused { number, place } => format!("refused {number} {place}\n"),
        Verdict::Range(variable) => format!("range {variable}\n"),
        Verdict::Rule(rule) => format!("rule {rule}\n"),
        Verdict::Constraint(constraint) => format!("constraint {constraint}\n"),
        Verdict::Stable => "stable\n".to_string(),
        Verdict::Unfounded(bounds, conditions) => {
            let mut text = format!("unfounded {bounds} {conditions}\n");
            for entry in report.chunks(4).take(bounds + conditions) {
                let (variable, number) = (entry[0], signed(entry, 2));
                text += &match entry[1] {
                    0 => format!("most {variable} {number}\n"),
                    1 => format!("when {variable} <= {number}\n"),
                    2 => format!("when {variable} >= {number}\n"),
                    _ if wrong == Wrong::PrintsMost => format!("most {variable} {number}\n"),
                    _ => format!("least {variable} {number}\n"),
                };
            }
            text
        }
    };
    text.into_bytes()
}
