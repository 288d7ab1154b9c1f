//! Reads a book on standard input and lists what each person can come to hold by the roles of its query.

use std::io::{self, Read};

use bixorgun::{Attr, Book, Person, Value, BOOK_MAX};

fn main() -> io::Result<()> {
    // One character more than the longest book, so that a longer one is refused and not cut.
    let mut characters = Vec::new();
    io::stdin().take(BOOK_MAX as u64 + 1).read_to_end(&mut characters)?;
    match Book::new(&characters).page() {
        Ok(page) => {
            for (Person(person), Attr(attr), Value(value)) in &page {
                println!("person {person}, attribute {attr}: value {value}");
            }
        }
        Err(refusal) => println!("{refusal}"),
    }
    Ok(())
}
