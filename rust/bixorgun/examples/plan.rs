//! Reads a book on standard input and prints the planner's answer as the product's program does.

use std::io::{self, Read};

use bixorgun::{Answer, Book, BOOK_MAX};

fn main() -> io::Result<()> {
    // One character more than the longest book, so that a longer one is refused and not cut.
    let mut characters = Vec::new();
    io::stdin().take(BOOK_MAX as u64 + 1).read_to_end(&mut characters)?;
    match Book::new(&characters).plan() {
        Ok(Answer::NoWay) => println!("80"),
        Ok(Answer::Plan(plan)) => {
            println!("81{:04X}", plan.len());
            plan.iter().for_each(|request| println!("{request}"));
        }
        Err(refusal) => println!("8F{:02X}{:04X}", refusal.number(), refusal.line().unwrap_or(0)),
    }
    Ok(())
}
