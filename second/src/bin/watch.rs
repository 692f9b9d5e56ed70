//! Prints the run of a table from standard input, as the watch program does.

use std::io::{stdin, stdout, Read, Write};

fn main() -> std::io::Result<()> {
    let mut input = Vec::new();
    stdin().read_to_end(&mut input)?;
    stdout().write_all(&second::watch(&input))
}
