//! Reads a rule file from standard input and prints its normal form, or why it
//! has none.

use std::io::{Read, Write};

fn main() {
    let mut input = Vec::new();
    std::io::stdin().lock().read_to_end(&mut input).expect("standard input");
    std::io::stdout().lock().write_all(&second::print_normal(&input)).expect("standard output");
}
