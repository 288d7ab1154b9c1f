//! docs/BOOK.md, the page for who writes a book: each book, each changed line and each call that stands there is run,
//! and the answer beside it is the one that is given; each digit of its table has the value beside it; the script that
//! it names for old books does what it says.

use std::collections::BTreeSet;
use std::fs;
use std::io::Write as _;
use std::path::PathBuf;
use std::process::{Command, Stdio};

use bixorgun::bytes::{self, Planned, Shown};
use bixorgun::{Judgement, Person, Refusal, LEDGER_SIZE, REQUEST_SIZE, VIEW_SIZE};

mod printed;
use printed::printed;

const DIGITS: &str = "| Value | Encoding | Value | Encoding | Value | Encoding | Value | Encoding |";
const VARIANTS: &str = "| Line | becomes | Answer | Says |";
const REFUSALS: &str = "| No. | Line | becomes | Answer | What is wrong, and what to do |";
const EXPLAINED: &str = "| Line | Its bytes | They say |";
const ANSWERED: &str = "| Line | It says |";
const CALLS: &str = "| No. | Call | Answer | Says |";
const PLACES: &str = "| The set of | stands at byte | In the first example, behind the calls below |";
const PILOT_CALLS: &str = "| No. | Last line | Call | Answer | Says |";
const GROWING_CALLS: &str = "| No. | Line | becomes | Call | Answer | Says |";

fn repository() -> PathBuf {
    [env!("CARGO_MANIFEST_DIR"), "..", ".."].iter().collect()
}

fn page() -> String {
    fs::read_to_string(repository().join("docs/BOOK.md")).expect("the page")
}

/// The fenced blocks of a kind, each with the number of its first line on the page.
fn blocks(page: &str, kind: &str) -> Vec<(usize, String)> {
    let fence = format!("```{kind}");
    let lines: Vec<&str> = page.lines().collect();
    let starts = (0..lines.len()).filter(|&at| lines[at] == fence);
    let block = |at: usize| lines[at + 1..].iter().take_while(|&&line| line != "```").map(|line| format!("{line}\n"));
    starts.map(|at| (at + 2, block(at).collect())).collect()
}

/// The page's books, each with the answer that is the next block behind it.
fn examples(page: &str) -> Vec<(String, String)> {
    let (books, answers) = (blocks(page, "book"), blocks(page, "answer"));
    let places = books.iter().zip(&answers).flat_map(|((book, _), (answer, _))| [book, answer]);
    assert!(books.len() == answers.len() && places.is_sorted(), "each book has its answer behind it");
    books.into_iter().zip(answers).map(|((_, book), (_, answer))| (book, answer)).collect()
}

/// The first book of the page, which the tables change.
fn example(page: &str) -> String {
    examples(page).swap_remove(0).0
}

/// The cells of each row of the table with this heading.
fn rows<'p>(page: &'p str, heading: &str) -> Vec<Vec<&'p str>> {
    let mut lines = page.lines().skip_while(|&line| line != heading);
    assert!(lines.next().is_some(), "no table {heading}");
    let rows = lines.skip(1).take_while(|line| line.starts_with('|'));
    rows.map(|row| row.trim_matches('|').split('|').map(str::trim).collect()).collect()
}

/// What stands between backticks in a cell.
fn codes(cell: &str) -> Vec<&str> {
    cell.split('`').skip(1).step_by(2).collect()
}

fn number(text: &str) -> usize {
    let digits: String = text.chars().filter(|&c| c != ',').collect();
    digits.parse().unwrap_or_else(|_| panic!("{text:?} is no number"))
}

fn hex_bytes(digits: &str) -> Vec<u8> {
    let pair = |at: usize| u8::from_str_radix(&digits[at..digits.len().min(at + 2)], 16).expect("digits");
    (0..digits.len()).step_by(2).map(pair).collect()
}

fn hex(bytes: &[u8]) -> String {
    bytes.iter().map(|byte| format!("{byte:02X}")).collect()
}

/// The bytes that a cell writes: `\n`, `\r` and `\xNN` are one byte each.
fn unescaped(text: &str) -> Vec<u8> {
    let mut parts = text.split('\\');
    let mut bytes = parts.next().unwrap_or_default().as_bytes().to_vec();
    for part in parts {
        let (byte, width) = match part.as_bytes() {
            [b'n', ..] => (b'\n', 1),
            [b'r', ..] => (b'\r', 1),
            [b'x', ..] => (hex_bytes(&part[1..3])[0], 3),
            _ => panic!("\\{part} is no sign of the page"),
        };
        bytes.push(byte);
        bytes.extend(&part.as_bytes()[width..]);
    }
    bytes
}

/// The bytes of a cell "becomes": a text, or a text so many times.
fn replacement(cell: &str) -> Vec<u8> {
    let text = unescaped(codes(cell)[0]);
    match cell.split_once("`, ").and_then(|(_, rest)| rest.strip_suffix(" times")) {
        Some(times) => text.repeat(number(times)),
        None => text,
    }
}

/// A book with one line, its line end included, replaced.
fn changed(book: &str, line: usize, by: &[u8]) -> Vec<u8> {
    let lines = book.split_inclusive('\n').enumerate();
    lines.flat_map(|(at, old)| if at + 1 == line { by.to_vec() } else { old.into() }).collect()
}

/// Sees that each row of a table of changed lines has its answer; the cells after `Line`, and the answer.
fn compare_changed<'p>(page: &'p str, heading: &str, first: usize) -> Vec<(Vec<&'p str>, String)> {
    let book = example(page);
    let compared = rows(page, heading).into_iter().map(|row| {
        let wrong = changed(&book, number(row[first]), &replacement(row[first + 1]));
        let answer: String = codes(row[first + 2]).iter().map(|line| format!("{line}\n")).collect();
        assert_eq!(printed(&wrong), answer, "{row:?}");
        (row, answer)
    });
    compared.collect()
}

/// The rows of the refusals that give a line, 1 to 9, 16 and 17: number, and the bytes that replace a line.
fn refused_lines(page: &str) -> Vec<(usize, Vec<u8>)> {
    let each = compare_changed(page, REFUSALS, 1).into_iter().map(|(row, answer)| {
        assert_eq!(answer[..4], format!("8F{:02X}", number(row[0])), "{row:?}");
        (number(row[0]), replacement(row[2]))
    });
    each.collect()
}

/// The calls of a table, on one book and one ledger.
struct Session {
    book: String,
    ledger: Vec<u8>,
}

impl Session {
    fn of(book: String) -> Self {
        Session { book, ledger: vec![0xA5; LEDGER_SIZE] }
    }

    /// Does what a row says; its answer in the page's words.
    fn call(&mut self, call: &str) -> String {
        let (operation, rest) = call.split_once(' ').expect("an operation and what it takes");
        let done = match operation {
            "open" => self.open(number(rest)),
            "request" => self.request(&hex_bytes(rest)),
            "show" => self.show(rest),
            "plan" => self.plan(number(rest)),
            "replay" => self.replay(&hex_bytes(rest)),
            "page" => self.page(number(rest)),
            _ => panic!("{call} is no call of the page"),
        };
        done.unwrap_or_else(|refusal| match (refusal, refusal.line()) {
            (Refusal::UnmetTerm { rule, term }, _) => format!("REFUSED 15, rule {rule}, term {term}"),
            (_, Some(line)) => format!("REFUSED {}, line {line}", refusal.number()),
            (_, None) => format!("REFUSED {}", refusal.number()),
        })
    }

    fn open(&mut self, length: usize) -> Result<String, Refusal> {
        let mut lent = vec![0xA5; length];
        bytes::open(self.book.as_bytes(), &mut lent).inspect_err(|_| assert_eq!(lent, vec![0xA5; length]))?;
        self.ledger = lent;
        Ok("DONE".to_owned())
    }

    fn request(&mut self, five: &[u8]) -> Result<String, Refusal> {
        let before = self.ledger.clone();
        bytes::request(self.book.as_bytes(), &mut self.ledger, five)
            .inspect_err(|_| assert_eq!(self.ledger, before))?;
        Ok("DONE".to_owned())
    }

    /// Of a person, or of a person with one byte of the ledger changed: `0`, `0, byte 1 = 08`.
    fn show(&self, what: &str) -> Result<String, Refusal> {
        let mut ledger = self.ledger.clone();
        let (person, byte) = what.split_once(", byte ").unwrap_or((what, ""));
        if let Some((at, value)) = byte.split_once(" = ") {
            ledger[number(at)] = hex_bytes(value)[0];
        }
        let person = Person(u8::try_from(number(person)).expect("a byte"));
        let mut view = [0; VIEW_SIZE];
        assert_eq!(bytes::show_into(self.book.as_bytes(), &ledger, person, &mut view)?, Shown::Done);
        Ok(format!("DONE {}", hex(&view)))
    }

    /// The plan in the buffer's front is seen to reach the query, and bytes that are not the plan's to be as they were.
    fn plan(&self, length: usize) -> Result<String, Refusal> {
        let mut lent = vec![0xA5; length];
        let planned = bytes::plan_into(self.book.as_bytes(), &mut lent);
        let count = if let Ok(Planned::Plan(count)) = planned { count } else { 0 };
        let (front, behind) = lent.split_at(REQUEST_SIZE * count);
        assert!(behind.iter().all(|&byte| byte == 0xA5));
        if planned? == Planned::NoWay {
            return Ok("NO_WAY".to_owned());
        }
        assert_eq!(self.replay(front), Ok("REACHES".to_owned()));
        Ok(format!("PLAN {count}"))
    }

    fn replay(&self, list: &[u8]) -> Result<String, Refusal> {
        Ok(match bytes::replay(self.book.as_bytes(), list)? {
            Judgement::Reaches => "REACHES".to_owned(),
            Judgement::Stops(k) => format!("STOPS {k}"),
            Judgement::EndsShort => "ENDS_SHORT".to_owned(),
        })
    }

    /// The sets of the table that are not empty, each with its place: `DONE, at 0: 0003, at 2: 0001`.
    fn page(&self, length: usize) -> Result<String, Refusal> {
        let mut table = vec![0xA5; length];
        bytes::page(self.book.as_bytes(), &mut table).inspect_err(|_| assert_eq!(table, vec![0xA5; length]))?;
        let sets = table.chunks(2).enumerate().filter(|(_, set)| set.iter().any(|&byte| byte != 0));
        let sets: String = sets.map(|(place, set)| format!(", at {}: {}", 2 * place, hex(set))).collect();
        Ok(format!("DONE{sets}"))
    }
}

/// The term of a book at the places that an answer tells: `rule 3, term 1`.
fn term_at<'b>(book: &'b str, places: &str) -> &'b str {
    let places = places.strip_prefix("rule ").and_then(|places| places.split_once(", term ")).expect("rule and term");
    let (rule, term) = (number(places.0), number(places.1));
    let rule = book.lines().filter(|line| line.starts_with("03")).nth(rule - 1).expect("a rule of the book");
    &rule[12 + 6 * (term - 1)..12 + 6 * term]
}

/// Sees that an answer is refused by the number in its row, or by none; what the answer tells beside the number.
fn told<'p>(row: &[&str], answer: &'p str) -> &'p str {
    let refusal = answer.strip_prefix("REFUSED ").unwrap_or("");
    let (refusal, places) = refusal.split_once(", ").unwrap_or((refusal, ""));
    assert_eq!(row[0], refusal, "{row:?}");
    places
}

/// Makes the calls in order, each with its answer; the refusals' numbers, and the ledger at the end. Beside an answer
/// with a rule and a term stands that term.
fn calls(page: &str) -> (Vec<usize>, Vec<u8>) {
    let mut session = Session::of(example(page));
    let mut numbers = Vec::new();
    for row in rows(page, CALLS) {
        let answer = codes(row[2])[0];
        assert_eq!(session.call(codes(row[1])[0]), answer, "{row:?}");
        let places = told(&row, answer);
        if !places.is_empty() {
            assert_eq!(codes(row[3])[0], term_at(&session.book, places), "{row:?}");
        }
        numbers.extend(row[0].parse::<usize>());
    }
    (numbers, session.ledger)
}

#[test]
fn each_book_has_its_answer() {
    let examples = examples(&page());
    assert!(examples.len() >= 2, "{} books", examples.len());
    for (book, answer) in &examples {
        assert_eq!(printed(book.as_bytes()), *answer, "{book}");
    }
}

/// The tables that take the first book and its answer apart have their lines.
#[test]
fn each_line_is_explained_as_it_stands() {
    let page = page();
    let (book, answer) = examples(&page).swap_remove(0);
    for (heading, cell, block) in [(EXPLAINED, 1, book), (ANSWERED, 0, answer)] {
        let said: String = rows(&page, heading).iter().map(|row| codes(row[cell])[0].replace(' ', "") + "\n").collect();
        assert_eq!(said, block);
    }
}

#[test]
fn each_changed_line_has_its_answer() {
    let page = page();
    let variants = compare_changed(&page, VARIANTS, 0);
    assert!(variants.len() >= 5, "{} variants", variants.len());
    let refused = refused_lines(&page);
    assert!(refused.len() >= 31, "{} refused lines", refused.len());
}

/// With the old first line that the page gives, a book is refused by 4, and the script writes the new one in its place.
#[test]
fn an_old_book_is_converted() {
    let page = page();
    let said = page.split("\n\n").find(|part| part.starts_with("**An old book**")).expect("a paragraph on old books");
    let [_, _, old, new, script] = codes(said)[..] else { panic!("{said}") };
    let headed = |line: &str| changed(&example(&page), 1, format!("{line}\n").as_bytes());
    assert_eq!(printed(&headed(old)), "8F040001\n");
    let script = repository().join(script.strip_suffix(" < old > new").expect("its call"));
    let mut child = Command::new(script).stdin(Stdio::piped()).stdout(Stdio::piped()).spawn().expect("the script runs");
    child.stdin.take().expect("a pipe").write_all(&headed(old)).expect("it reads all");
    assert_eq!(child.wait_with_output().expect("it ends").stdout, headed(new));
}

/// The table of digits has the sixteen values, and each digit is read with its value: as the last digit of the query's
/// roles it is the set of those roles that may use their rules.
#[test]
fn each_digit_has_its_value() {
    let page = page();
    let rows = rows(&page, DIGITS);
    let pairs = rows.iter().flat_map(|row| row.chunks(2));
    let mut digits: Vec<(usize, &str)> = pairs.map(|pair| (number(pair[0]), codes(pair[1])[0])).collect();
    digits.sort_unstable();
    assert!(digits.iter().map(|&(value, _)| value).eq(0..16));
    for (value, digit) in digits {
        for role in 0..4 {
            let book = format!("0101000101\n03010{role}000000\n050100000{digit}01000001\n");
            let way = if value >> role & 1 == 1 { format!("810001\n010{role}000000\n") } else { "80\n".to_owned() };
            assert_eq!(printed(book.as_bytes()), way, "digit {digit}, role {role}");
        }
    }
}

/// What editors do to a text without being asked is on the page, each time as refusal 2.
#[test]
fn editors_habits_are_refusal_2() {
    let page = page();
    let lines: Vec<Vec<u8>> =
        refused_lines(&page).into_iter().filter(|&(number, _)| number == 2).map(|(_, line)| line).collect();
    let some = |habit: &dyn Fn(&[u8]) -> bool| lines.iter().any(|line| habit(line));
    assert!(some(&|line| line.iter().any(u8::is_ascii_lowercase)), "lower case");
    assert!(some(&|line| line.ends_with(b"\r\n")), "CR LF");
    assert!(some(&|line| line.len() > 2 && line.ends_with(b"\n\n")), "a blank line at the end");
    assert!(some(&|line| line.starts_with("\u{FEFF}".as_bytes())), "a BOM");
    assert!(some(&|line| !line.ends_with(b"\n")), "the last line end missing");
    // CR LF at each line end, as an editor writes it, and not at the first alone.
    assert_eq!(printed(example(&page).replace('\n', "\r\n").as_bytes()), "8F020001\n");
}

#[test]
fn each_call_has_its_answer_and_the_ledger_its_bytes() {
    let page = page();
    let (_, ledger) = calls(&page);
    let mut sets = 0;
    for row in rows(&page, PLACES) {
        for part in row[2].split("at ").skip(1) {
            let (place, rest) = part.split_once(": `").expect("a place and its bytes");
            let bytes = hex_bytes(rest.split('`').next().expect("bytes"));
            let at = number(place);
            assert_eq!(ledger[at..at + bytes.len()], bytes, "{part}");
            sets += 1;
        }
    }
    assert!(sets >= 4, "{sets} sets");
}

/// The pilot depot stands there as it is stored, and each call on it, by its last line or another, has its answer.
#[test]
fn each_call_on_the_pilot_depot_has_its_answer() {
    let page = page();
    let pilot = fs::read_to_string(repository().join("crates/books/data/pilot.book")).expect("a stored book");
    assert!(examples(&page).iter().any(|(book, _)| *book == pilot), "the pilot depot");
    let rows = rows(&page, PILOT_CALLS);
    for row in &rows {
        let last = format!("{}\n", codes(row[1])[0]);
        let book = String::from_utf8(changed(&pilot, pilot.lines().count(), last.as_bytes())).expect("digits");
        let answer = codes(row[3])[0];
        assert_eq!(Session::of(book).call(codes(row[2])[0]), answer, "{row:?}");
        told(row, answer);
    }
    assert_eq!(codes(rows[0][1])[0], pilot.lines().next_back().expect("a query"));
    assert!(rows.len() >= 9, "{} calls", rows.len());
}

/// Each call on the depot that only grows, with a line of it replaced, has its answer.
#[test]
fn each_call_on_the_depot_that_only_grows_has_its_answer() {
    let page = page();
    let mut books = examples(&page).into_iter().map(|(book, _)| book);
    let depot = books.find(|book| book.contains("\n0503")).expect("a book of mode 03");
    let rows = rows(&page, GROWING_CALLS);
    for row in &rows {
        let book = String::from_utf8(changed(&depot, number(row[1]), &replacement(row[2]))).expect("digits");
        let answer = codes(row[4])[0];
        assert_eq!(Session::of(book).call(codes(row[3])[0]), answer, "{row:?}");
        told(row, answer);
    }
    assert!(rows.len() >= 12, "{} calls", rows.len());
}

#[test]
fn every_refusal_is_on_the_page() {
    let page = page();
    let lines = refused_lines(&page).into_iter().map(|(number, _)| number);
    let numbers: BTreeSet<usize> = lines.chain(calls(&page).0).collect();
    assert!(numbers.into_iter().eq(1..=17));
}
