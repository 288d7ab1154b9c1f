//! Reads a book on standard input and prints the planner's answer.

use std::io::{self, Read, Write};

fn main() -> io::Result<()> {
    let mut characters = Vec::new();
    io::stdin().lock().read_to_end(&mut characters)?;
    io::stdout().lock().write_all(reference::plan::printed(&characters).as_bytes())
}
