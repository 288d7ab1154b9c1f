//! A book told in words and compiled again is the same book, to the last character.

use bixorgun::{bytes, LEDGER_SIZE};
use depot::compile::compile;
use depot::model::Depot;
use depot::{hex, notation, words};
use reference::gen::Rng;

mod books;

/// Whether the library accepts a book; then its words are read back.
fn goes_round(name: &str, book: &[u8]) -> bool {
    if bytes::open(book, &mut [0; LEDGER_SIZE]).is_err() {
        return false;
    }
    let mut depot = hex::read(book).unwrap_or_else(|refused| panic!("{name}: {:?}", refused.fault));
    compare(name, book, &depot);
    let strange = strange_names(&depot);
    words::rename(&mut depot, &strange).expect("the same sizes");
    compare(name, book, &depot);
    true
}

fn compare(name: &str, book: &[u8], depot: &Depot) {
    let told = words::words(depot);
    let read = notation::read(&told, true).unwrap_or_else(|faults| panic!("{name}: {:?}\n{told}", faults[0]));
    let again = compile(&read, read.question.as_ref().expect("a question"));
    assert!(again.characters == book, "{name}: another book\n{told}");
    assert_eq!(words::words(&read), told, "{name}: other words");
    let lines: Vec<&str> = told.lines().collect();
    for (said, line) in read.statements.iter().zip(&again.lines[1..]) {
        assert_eq!(said.line, *line);
        assert_eq!(lines[said.line - 1], read.statement(&said.what), "{name}: line {line}");
    }
}

/// The sizes of a depot with names of other letters, and words of the notation where these can be names.
fn strange_names(depot: &Depot) -> Depot {
    let mut names = depot.clone();
    let rename = |names: &mut Vec<String>, letters: &str| {
        for (at, name) in names.iter_mut().enumerate() {
            *name = format!("{letters}{at}");
        }
    };
    rename(&mut names.persons, "Žoë-");
    rename(&mut names.crews, "夜班");
    rename(&mut names.leads, "مناوبة-");
    for (attribute, name) in names.attributes.iter_mut().zip(["at", "least", "no", "way", "lead", "crew", "yes:", "81"])
    {
        attribute.name = name.into();
        let words =
            ["no", "crew", "persons", "may:", "0", "01", "ever", "have", "be", "least", "higher", "of", "add", "lead"];
        for (value, word) in attribute.values.iter_mut().zip(words) {
            *value = word.into();
        }
    }
    names
}

#[test]
fn stored_books() {
    let accepted = books::stored().iter().filter(|(name, book)| goes_round(name, book)).count();
    println!("{accepted} stored books");
    assert!(accepted >= 245);
}

#[test]
fn drawn_books() {
    let mut rng = Rng::new(21);
    let (mut accepted, mut with_not) = (0, 0);
    while accepted < 10_000 {
        let draft = books::drawn(&mut rng);
        if goes_round("a drawn book", &draft.text()) {
            accepted += 1;
            with_not += usize::from(draft.has_not());
        }
    }
    println!("{accepted} drawn books, {with_not} with a \"not\"");
    assert!(with_not > 1_000);
}
