//! Stored pages: what each person of a book may come to hold by the roles of its query. The bits were worked out from
//! the specification, and every byte of each table is compared. `pages/PAGES.md` has the format and the reasons.

use std::collections::BTreeSet;
use std::fs;
use std::path::{Path, PathBuf};

use bixorgun::{bytes, Refusal, PAGE_SIZE};

mod lent;
use lent::{kept, pattern};

fn stored(name: &str) -> PathBuf {
    [env!("CARGO_MANIFEST_DIR"), "tests", "pages", name].iter().collect()
}

fn read(path: &Path) -> Vec<u8> {
    fs::read(path).unwrap_or_else(|error| panic!("{}: {error}", path.display()))
}

fn text(name: &str) -> String {
    String::from_utf8(read(&stored(name))).expect("a text")
}

/// A book of `data`, or behind `books/` one of the program `books`.
fn book(name: &str) -> Vec<u8> {
    match name.strip_prefix("books/") {
        Some(name) => read(&[env!("CARGO_MANIFEST_DIR"), "../../crates/books/data", name].iter().collect::<PathBuf>()),
        None => read(&stored("data").join(name)),
    }
}

/// The answers, in their order: the name behind `page`, and the lines below it.
fn sections(answers: &str) -> Vec<(&str, &str)> {
    let mut parts = answers.split("page ");
    assert_eq!(parts.next(), Some(""), "the answers begin with a page");
    parts.map(|part| part.split_once('\n').expect("a name on a line")).collect()
}

fn refused(refusal: Refusal) -> String {
    let at = refusal.line().map_or(String::new(), |line| format!(" at line {line}"));
    format!("refused {}{at}\n", refusal.number())
}

/// Every bit of a table that is set: a line for each set that is not empty, or `empty`.
fn listed(table: &[u8]) -> String {
    assert_eq!(table.len(), 64 * 8 * 2);
    let mut lines = String::new();
    for (place, set) in table.chunks_exact(2).enumerate() {
        let set = u16::from_be_bytes([set[0], set[1]]);
        if set != 0 {
            let values = (0..16).filter(|value| set & (1 << value) != 0);
            let values: String = values.map(|value| format!(" {value}")).collect();
            lines += &format!("person {} attribute {}:{values}\n", place / 8, place % 8);
        }
    }
    if lines.is_empty() {
        "empty\n".to_owned()
    } else {
        lines
    }
}

/// What page answers, as `answers` has it, over a table with these bytes. A byte before it and one behind are not lent.
fn answered(book: &[u8], before: &[u8]) -> String {
    let mut room = before.to_vec();
    let answer = bytes::page(book, &mut room[1..=PAGE_SIZE]);
    assert_eq!((room[0], room[PAGE_SIZE + 1]), (before[0], before[PAGE_SIZE + 1]), "bytes that are not lent");
    match answer {
        Ok(()) => listed(&room[1..=PAGE_SIZE]),
        Err(refusal) => {
            assert!(room == before, "a refusal writes nothing: {refusal}");
            refused(refusal)
        }
    }
}

#[test]
fn every_page_is_the_one_that_the_specification_gives() {
    assert_eq!(PAGE_SIZE, 1_024);
    let answers = text("answers");
    let mut bits = 0;
    for (name, expected) in sections(&answers) {
        let book = book(name);
        for before in [vec![0; PAGE_SIZE + 2], vec![0xFF; PAGE_SIZE + 2], pattern(PAGE_SIZE + 2)] {
            let answer = answered(&book, &before);
            assert!(answer == expected, "page {name}, over {:02X} ..\n{answer}expected\n{expected}", before[1]);
        }
        let sets = expected.lines().filter_map(|line| line.split_once(": "));
        bits += sets.map(|(_, values)| values.split(' ').count()).sum::<usize>();
    }
    println!("{} pages, {bits} bits", sections(&answers).len());
}

#[test]
fn a_table_of_another_length_is_refused_behind_the_book() {
    let answers = text("answers");
    for (name, expected) in sections(&answers) {
        let book = book(name);
        let expected = if expected.starts_with("refused ") { expected } else { "refused 10\n" };
        for length in [0, 3, 1_023, 1_025] {
            for before in [vec![0; length], vec![0xFF; length], pattern(length)] {
                let refusal = kept(&before, |table| bytes::page(&book, table).err());
                assert_eq!(refused(refusal), expected, "page {name}, {length} bytes");
            }
        }
    }
}

/// No stored book is left out, and no answer.
#[test]
fn names_books_and_answers_are_in_step() {
    let (names, answers) = (text("names"), text("answers"));
    let names: Vec<&str> = names.lines().collect();
    let answered: Vec<&str> = sections(&answers).into_iter().map(|(name, _)| name).collect();
    assert_eq!(names, answered);
    assert_eq!(names.iter().collect::<BTreeSet<_>>().len(), names.len(), "a name stands twice");
    let own: BTreeSet<String> =
        names.iter().filter(|name| !name.starts_with("books/")).map(|&name| name.to_owned()).collect();
    let entries = fs::read_dir(stored("data")).expect("the books");
    let files: BTreeSet<String> =
        entries.map(|entry| entry.expect("an entry").file_name().into_string().expect("a name")).collect();
    assert_eq!(own, files);
    assert_eq!((names.len(), own.len()), (80, 47));
    let pages = text("PAGES.md");
    for name in names {
        assert!(pages.contains(&format!("\n| {name} |")), "{name} has its row in PAGES.md");
    }
}
