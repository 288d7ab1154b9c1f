//! The stored books of the repository and their stored answers.

use std::fs;
use std::path::PathBuf;

use reference::book;
use reference::plan::{closure, demand, printed};

fn stored(name: &str) -> PathBuf {
    [env!("CARGO_MANIFEST_DIR"), "..", "..", "crates", "books", name].iter().collect()
}

fn characters(name: &str) -> Vec<u8> {
    fs::read(stored("data").join(name)).unwrap_or_else(|error| panic!("{name}: {error}"))
}

/// The stored lines of the books that are planned, whose names end in `.book`, or of those that are only judged. There is
/// one for each stored book of the kind.
fn lines(planned: bool) -> Vec<String> {
    let text = fs::read_to_string(stored("stdout")).expect("the stored lines");
    let is_kind = |name: &str| name.ends_with(".book") == planned;
    let lines: Vec<_> = text.lines().filter(|line| is_kind(line)).map(str::to_owned).collect();
    let entries = fs::read_dir(stored("data")).expect("a directory of books");
    let books = entries.filter(|entry| is_kind(&entry.as_ref().expect("a name").file_name().to_string_lossy())).count();
    assert_eq!(lines.len(), books);
    lines
}

/// Each line: the answer's first line, what replay says, the book's name. The plan is left open, the answer is not.
#[test]
fn planned_books() {
    let (stored, mut other_counts) = (lines(true), Vec::new());
    for line in &stored {
        let [answer, verdict, name] = line.split(' ').collect::<Vec<_>>()[..] else {
            panic!("{line}");
        };
        let text = characters(name);
        let given = printed(&text);
        let given = given.lines().next().expect("a line");
        assert_eq!(given[..2], answer[..2], "{name}");
        if given.starts_with("81") {
            let book = book::read(&text).expect("accepted");
            let plan = closure::plan(&book).expect("a plan");
            assert_eq!(demand::check(&book, &plan), Ok(()), "{name}");
            assert_eq!(verdict, "reaches", "{name}");
            if given != answer {
                other_counts.push(format!("{name}: {answer} stored, {given} here"));
            }
        } else {
            assert_eq!((given, verdict), (answer, "-"), "{name}");
        }
    }
    println!("{} books; plans of another count: {other_counts:?}", stored.len());
}

/// Each line: `8F`, number and line; or the first frame with eight counts, 0 for an absent attribute, distinct edges,
/// rules, distinct starting facts, q; the name.
#[test]
fn judged_books() {
    let stored = lines(false);
    for line in &stored {
        let (answer, name) = line.rsplit_once(' ').expect("a name");
        let given = match book::read(&characters(name)) {
            Err(refusal) => format!("8F{:02X}{:04X}", refusal.number(), refusal.line),
            Ok(book) => {
                let s = book.sizes;
                let counts: String = s.counts.iter().map(|count| format!("{count:02X}")).collect();
                format!(
                    "01{:02X}{:02X}{:02X}{counts} {:04X} {:04X} {:04X} {:02X}",
                    s.persons,
                    s.crews,
                    s.attrs(),
                    book.edges.len(),
                    book.rules.len(),
                    book.facts.len(),
                    book.query.named.len()
                )
            }
        };
        assert_eq!(given, answer, "{name}");
    }
    println!("{} books", stored.len());
}
