//! Reads a nested rule file from standard input and prints the plain file, or why
//! there is none.

use std::io::{Read, Write};

fn main() {
    let mut input = Vec::new();
    std::io::stdin().lock().read_to_end(&mut input).expect("standard input");
    std::io::stdout().lock().write_all(&second::print_flat(&input)).expect("standard output");
}
