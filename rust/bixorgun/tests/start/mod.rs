//! What a book's starting facts give, as a page has it.

use bixorgun::bytes::{self, Shown};
use bixorgun::{Book, Person, PAGE_SIZE, VIEW_SIZE};

/// A page's bytes.
pub type Table = [u8; PAGE_SIZE];

/// What each person of an accepted book effectively holds at the start: by show of the opened ledger.
pub fn at_the_start(text: &[u8], persons: u8) -> Table {
    let ledger = Book::new(text).open().expect("an accepted book").into_bytes();
    let mut table = [0; PAGE_SIZE];
    for (person, row) in (0..persons).zip(table.chunks_exact_mut(16)) {
        let mut view = [0; VIEW_SIZE];
        assert_eq!(bytes::show_into(text, &ledger, Person(person), &mut view), Ok(Shown::Done));
        row.copy_from_slice(&view[..16]);
    }
    table
}
