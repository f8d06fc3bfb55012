//! Reads a rule file and lent ranges from standard input and prints the bounds, or why
//! there are none.

use std::io::{Read, Write};

fn main() {
    let mut input = Vec::new();
    std::io::stdin().lock().read_to_end(&mut input).expect("standard input");
    std::io::stdout().lock().write_all(&second::print_bounds(&input)).expect("standard output");
}
