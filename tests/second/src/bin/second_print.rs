//! Reads standard input and prints what the printing program would.

use std::io::{Read, Write};

fn main() {
    let mut input = Vec::new();
    std::io::stdin().lock().read_to_end(&mut input).expect("standard input");
    std::io::stdout().lock().write_all(&second::print(&input)).expect("standard output");
}
