//! The answers to the words and figures on standard input, by the model, for tests/programs.

use std::io::{self, Read, Write};

fn main() -> io::Result<()> {
    let mut input = Vec::new();
    io::stdin().read_to_end(&mut input)?;
    io::stdout().write_all(&model::explain::explain_text(&input))
}
