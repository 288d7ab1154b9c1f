//! Books for the tests: those that are stored, and drawn ones.

#![allow(dead_code)] // No test uses all of it.

use std::fs;
use std::path::PathBuf;

use reference::gen::{self, Draft, Rng};

/// The repository's stored books, each with its file's name.
pub fn stored() -> Vec<(String, Vec<u8>)> {
    let dir: PathBuf = [env!("CARGO_MANIFEST_DIR"), "..", "..", "crates", "books", "data"].iter().collect();
    let entries = fs::read_dir(&dir).expect("the stored books");
    let mut files: Vec<PathBuf> = entries.map(|entry| entry.expect("an entry").path()).collect();
    files.sort();
    files.iter().map(|file| (file.display().to_string(), fs::read(file).expect("a book"))).collect()
}

/// The book of a file's name.
pub fn book(name: &str) -> Vec<u8> {
    let path: PathBuf = [env!("CARGO_MANIFEST_DIR"), "..", "..", "crates", "books", "data", name].iter().collect();
    fs::read(path).expect("a stored book")
}

/// A good book, without a "not" or with one.
pub fn drawn(rng: &mut Rng) -> Draft {
    match rng.below(40) {
        0..=13 => gen::small_book(rng),
        14..=20 => gen::middle_book(rng),
        21..=24 => gen::graded_book(rng, (6, 4, 16)),
        25 => gen::crowded_book(rng),
        26 => gen::large_book(rng),
        27..=34 => gen::small_not_book(rng),
        _ => gen::middle_not_book(rng),
    }
}
