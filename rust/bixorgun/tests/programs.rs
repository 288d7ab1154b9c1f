//! The programs `plan`, `depot_page` and `judge` as `rt run` in their folders builds them, run on the stored books and on books around
//! the lengths of their buffers. What they print is proved but for the few lines that read and write; these lines are what is tried here.

use std::fs;
use std::io::Write as _;
use std::path::PathBuf;
use std::process::{Command, Stdio};
use std::thread;
use std::time::Duration;

use bixorgun::Book;

mod printed;
use printed::printed;

fn repository() -> PathBuf {
    [env!("CARGO_MANIFEST_DIR"), "..", ".."].iter().collect()
}

/// Runs a program, its input handed over in the parts given with a pause between them; what it prints.
fn output(program: &str, parts: &[&[u8]]) -> String {
    let path = repository().join("crates").join(program).join("out").join(program);
    let mut child = Command::new(&path)
        .stdin(Stdio::piped())
        .stdout(Stdio::piped())
        .spawn()
        .unwrap_or_else(|error| panic!("{}: {error}; `rt run` in crates/{program} builds it", path.display()));
    let mut input = child.stdin.take().expect("a pipe");
    for (k, part) in parts.iter().enumerate() {
        if k > 0 {
            thread::sleep(Duration::from_millis(5));
        }
        // A program that needs no more than it has read may close its end first.
        let _ = input.write_all(part);
    }
    drop(input);
    let ran = child.wait_with_output().expect("the program ends");
    assert!(ran.status.success(), "{program}: {}", ran.status);
    String::from_utf8(ran.stdout).expect("digits and line ends")
}

/// The stored books, with their names. Those that end in `.book` are planned by the test program `books`, the others judged.
fn stored() -> Vec<(String, Vec<u8>)> {
    let data = repository().join("crates/books/data");
    let mut books: Vec<_> = fs::read_dir(&data)
        .unwrap_or_else(|error| panic!("{}: {error}", data.display()))
        .map(|entry| {
            let path = entry.expect("a name").path();
            let name = path.file_name().expect("a name").to_string_lossy().into_owned();
            (name, fs::read(&path).expect("a stored book"))
        })
        .collect();
    books.sort();
    books
}

/// A book of the characters asked for, or up to ten fewer: one value wanted, one rule that gives it, and the fact that
/// person 0 holds another, repeated. The sizes are the bytes of its first line behind the first.
fn filled(sizes: &str, characters: usize) -> Vec<u8> {
    let (head, fact, query) = (format!("01{sizes}\n030100000000\n"), "0401000001\n", "050100000101000001\n");
    let count = characters.saturating_sub(head.len() + query.len()) / fact.len();
    [head.as_bytes(), &fact.as_bytes().repeat(count), query.as_bytes()].concat()
}

/// Sizes, each with its F. By the sizes `plan` chooses its buffers: of up to 204 facts, of up to 849 (no sizes have
/// 848), and of any.
const SIZES: [(&str, usize); 10] = [
    ("01000102", 2),
    ("010B020A06", 203),
    ("010404100C0903", 204),
    ("010108100F0E0D0C0B0A0B", 205),
    ("011203100D03", 626),
    ("010C06100F0C0A0704", 844),
    ("010F05100D0B0903", 847),
    ("01090810100E0C0A080503", 849),
    ("01160402100D05", 850),
    ("4020081010101010101010", 4_256),
];

/// F by the paper: (1 + G) × the sum of the counts, plus G.
fn facts_of(sizes: &str) -> usize {
    let byte = |at: usize| usize::from_str_radix(&sizes[at..at + 2], 16).expect("digits");
    let (crews, attrs) = (byte(2), byte(4));
    assert_eq!(sizes.len(), 2 * (3 + attrs));
    let values: usize = (0..attrs).map(|a| byte(6 + 2 * a)).sum();
    (1 + crews) * values + crews
}

/// Lengths around the ends of the programs' buffers and of the longest book.
const LENGTHS: [usize; 9] = [64, 128, 18_688, 18_699, 65_525, 65_536, 65_547, 93_639, 131_072];

/// The lines of a book's page, sixteen bytes each, or its refusal, by this crate's own answer.
fn lines_of_page(book: &[u8]) -> String {
    let page = match Book::new(book).page() {
        Ok(page) => page,
        Err(refusal) => {
            return format!("8F{:02X}{:04X}\n", refusal.number(), refusal.line().expect("1 to 9, 16 or 17"))
        }
    };
    let digits = |bytes: &[u8]| bytes.iter().map(|byte| format!("{byte:02X}")).collect::<String>();
    page.as_bytes().chunks(16).map(|person| digits(person) + "\n").collect()
}

fn compare(name: &str, book: &[u8]) {
    assert_eq!(output("plan", &[book]), printed(book), "{name}");
}

#[test]
fn plan_prints_what_the_library_answers_to_each_stored_book() {
    let books = stored();
    assert!(books.len() >= 660, "{} books", books.len());
    for (name, book) in &books {
        compare(name, book);
    }
}

#[test]
fn plan_reads_books_of_every_length() {
    for (sizes, facts) in SIZES {
        assert_eq!(facts_of(sizes), facts);
        for length in LENGTHS {
            for more in 0..12 {
                let book = filled(sizes, length + more);
                compare(&format!("{sizes}, {} characters", book.len()), &book);
            }
            // Cut anywhere, and longer than any book may be.
            let book = filled(sizes, 140_000);
            for cut in [length - 1, length, length + 1] {
                compare(&format!("{sizes}, cut at {cut}"), &book[..cut]);
            }
        }
    }
}

/// A book of few lines, whole and ended at every place; and the shortest book, which has as many characters as the
/// longest first line has digits.
#[test]
fn plan_reads_short_books() {
    for (sizes, _) in SIZES {
        let book = filled(sizes, 0);
        for end in 0..=book.len() {
            compare(&format!("{sizes}, {end} characters"), &book[..end]);
        }
    }
    let shortest = "0101000101\n050100000000\n";
    assert_eq!((shortest.len(), output("plan", &[shortest.as_bytes()])), (24, "810000\n".to_owned()));
}

#[test]
fn plan_reads_what_comes_in_parts() {
    for length in [40, 64, 100, 18_688, 20_000, 65_536] {
        for (sizes, facts) in [SIZES[0], SIZES[8]] {
            let book = filled(sizes, length);
            for cut in [1, 10, 23, 24, 25, 63, 64, 65, book.len() / 2] {
                let (first, rest) = book.split_at(cut.min(book.len()));
                assert_eq!(output("plan", &[first, rest]), printed(&book), "F = {facts}, {length}, cut at {cut}");
            }
        }
    }
}

#[test]
fn depot_page_prints_what_the_library_answers_to_each_stored_book() {
    let books = stored();
    assert!(books.len() >= 660, "{} books", books.len());
    for (name, book) in &books {
        assert_eq!(output("depot_page", &[book]), lines_of_page(book), "{name}");
    }
}

/// Up to the longest book and beyond it, and where the input comes in two parts.
#[test]
fn depot_page_reads_books_of_every_length() {
    for (sizes, _) in SIZES {
        for length in [0, 64, 65_525, 65_536, 65_547, 131_072] {
            for more in 0..12 {
                let book = filled(sizes, length + more);
                let (first, rest) = book.split_at(book.len() / 2);
                let name = format!("{sizes}, {} characters", book.len());
                assert_eq!(output("depot_page", &[&book]), lines_of_page(&book), "{name}");
                if more == 0 {
                    assert_eq!(output("depot_page", &[first, rest]), lines_of_page(&book), "{name}, in two parts");
                }
            }
        }
    }
}

#[test]
fn judge_prints_the_stored_line_of_each_book() {
    let lines = fs::read_to_string(repository().join("crates/books/stdout")).expect("the stored lines");
    let books: Vec<_> = stored().into_iter().filter(|(name, _)| !name.ends_with(".book")).collect();
    let lines = lines.lines().map(|line| line.rsplit_once(' ').expect("an answer and a name"));
    let judged: Vec<_> = lines.filter(|(_, name)| !name.ends_with(".book")).collect();
    assert_eq!(judged.len(), books.len());
    for (answer, name) in judged {
        let (_, book) = books.iter().find(|(stored, _)| stored == name).expect("a stored book");
        assert_eq!(output("judge", &[book]), format!("{answer}\n"), "{name}");
    }
}
