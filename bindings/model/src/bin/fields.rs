//! The fields of the sheet on standard input, by the model, for tests/programs.

use std::io::{self, Read, Write};

fn main() -> io::Result<()> {
    let mut sheet = Vec::new();
    io::stdin().read_to_end(&mut sheet)?;
    io::stdout().write_all(model::fields::list_fields(&sheet).as_bytes())
}
