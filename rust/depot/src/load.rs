//! A file as it is handed over: a depot in names or a hexadecimal book, read and judged.

use std::fs;
use std::io::{self, Read};

use bixorgun::{bytes, LEDGER_SIZE};

use crate::compile::{compile, Compiled};
use crate::fault::Fault;
use crate::model::{Depot, Question, Said};
use crate::say::grouped;
use crate::source::{split, text_of, words};
use crate::{hex, names, notation};

/// No depot's file is longer.
const LONGEST: u64 = 16 << 20;

/// A file that is good: the library accepts its book.
#[derive(Clone, Debug)]
pub struct Loaded {
    /// The depot; of a hexadecimal book with numbers as names.
    pub depot: Depot,
    /// Its book; nothing where a file for `test` has no question.
    pub book: Option<Compiled>,
    /// Whether the file is a hexadecimal book.
    pub hexadecimal: bool,
}

/// A file that is not good.
#[derive(Clone, Debug)]
pub enum Trouble {
    /// It can't be read.
    Unread(String),
    /// What is wrong in it, and its text.
    Faults {
        /// In the file's order.
        faults: Vec<Fault>,
        /// For the lines that are shown.
        source: String,
        /// Whether it is the library that refuses the book.
        refused: bool,
    },
}

/// Reads all bytes of a file, of standard input for `-`.
pub fn read_bytes(file: &str) -> Result<Vec<u8>, Trouble> {
    let unread = |error: io::Error| Trouble::Unread(said(&error));
    let mut all = Vec::new();
    let read = if file == "-" {
        io::stdin().lock().take(LONGEST + 1).read_to_end(&mut all)
    } else {
        fs::File::open(file).and_then(|opened| opened.take(LONGEST + 1).read_to_end(&mut all))
    };
    read.map_err(unread)?;
    if all.len() as u64 > LONGEST {
        return Err(Trouble::Unread("over 16 MB: no depot is so long".into()));
    }
    Ok(all)
}

/// An error of the system, in plain words where it is a common one.
pub fn said(error: &io::Error) -> String {
    match error.kind() {
        io::ErrorKind::NotFound => "there is no such file".into(),
        io::ErrorKind::PermissionDenied => "it may not be opened".into(),
        io::ErrorKind::IsADirectory => "it is a folder".into(),
        _ => error.to_string(),
    }
}

/// Loads a file. A file for `test` needs no question.
pub fn load(file: &str, needs_question: bool) -> Result<Loaded, Trouble> {
    load_bytes(file, &read_bytes(file)?, needs_question)
}

/// Loads the bytes of a file.
pub fn load_bytes(file: &str, all: &[u8], needs_question: bool) -> Result<Loaded, Trouble> {
    if is_book(file, all) {
        load_book(file, all)
    } else {
        load_names(all, needs_question)
    }
}

/// Whether a file is a hexadecimal book and no notation: by its first line, and where that leaves it open by its name.
pub fn is_book(file: &str, all: &[u8]) -> bool {
    let first = first_line(all);
    if first.is_empty() || is_notation(file, all) {
        return false;
    }
    file.ends_with(".book") || first.starts_with('0') || is_digits(&first)
}

/// Whether a line has hexadecimal digits alone: no statement does.
fn is_digits(line: &str) -> bool {
    line.chars().take_while(|c| *c != '#').all(|c| c.is_whitespace() || c.is_ascii_hexdigit())
}

/// Whether a file is a depot in names: its name says so, or its first line has words that no digits have.
pub fn is_notation(file: &str, all: &[u8]) -> bool {
    let first = first_line(all);
    let mut words = words(&first).into_iter().map(|word| word.text);
    let head = words.next();
    (file.ends_with(".depot") && !(first.starts_with('0') && is_digits(&first)))
        || head.is_some_and(|word| names::HEADS.contains(&word))
        || words.any(|word| names::JOINTS.contains(&word))
}

/// The first line that has words; none where there is no such line.
fn first_line(all: &[u8]) -> String {
    let all = all.strip_prefix(b"\xEF\xBB\xBF").unwrap_or(all);
    let lines = all.split(|byte| matches!(byte, b'\n' | b'\r')).map(String::from_utf8_lossy);
    lines.filter(|line| !words(line).is_empty()).map(|line| line.into_owned()).next().unwrap_or_default()
}

/// Never seen: the tests compare the two readings.
const UNLIKE: &str = "the library accepts this book, and the front end can't read it: use the library alone";

fn load_book(file: &str, all: &[u8]) -> Result<Loaded, Trouble> {
    let source = || String::from_utf8_lossy(all).into_owned();
    let faults = |fault| Trouble::Faults { faults: vec![in_characters(fault, all)], source: source(), refused: true };
    if let Err(refusal) = bytes::open(all, &mut [0; LEDGER_SIZE]) {
        let mut fault = hex::explain(all, &refusal);
        if file != "-" {
            fault.help = fault.help.replace("depot tidy FILE", &format!("depot tidy {file}"));
        }
        return Err(faults(fault));
    }
    let unlike = |refused: hex::Refused| faults(Fault { text: UNLIKE.into(), refusal: None, ..refused.fault });
    let depot = hex::read(all).map_err(unlike)?;
    // Words are told of what was read, so that has to be this book to the last character.
    let again = depot.question.as_ref().map(|question| compile(&depot, question).characters);
    if again.as_deref() != Some(all) {
        return Err(faults(Fault::of_file(UNLIKE)));
    }
    let lines = (1..=all.split(|byte| *byte == b'\n').count()).collect();
    Ok(Loaded { depot, book: Some(Compiled { characters: all.to_vec(), lines }), hexadecimal: true })
}

/// A fault of a hexadecimal book, whose columns are bytes, with columns in characters of the text that is shown.
pub fn in_characters(fault: Fault, all: &[u8]) -> Fault {
    let Some(line) = all.split(|byte| *byte == b'\n').nth(fault.line.wrapping_sub(1)) else { return fault };
    let characters = |from: usize, to: usize| {
        let (from, to) = (from.min(line.len()), to.min(line.len()));
        String::from_utf8_lossy(&line[from..to]).chars().count()
    };
    if fault.column == 0 {
        return fault;
    }
    let before = fault.column - 1;
    Fault { column: characters(0, before) + 1, width: characters(before, before + fault.width).max(1), ..fault }
}

fn load_names(all: &[u8], needs_question: bool) -> Result<Loaded, Trouble> {
    let source = || String::from_utf8_lossy(all).trim_start_matches('\u{FEFF}').to_string();
    let faults = |faults| Trouble::Faults { faults, source: source(), refused: false };
    let text = text_of(all).map_err(|fault| faults(vec![fault]))?;
    if words_of(text) == 0 {
        return Err(faults(vec![Fault::of_file("the file says nothing")
            .with_help("`depot help NOTATION` shows how to write one")
            .refused(3)]));
    }
    let depot = notation::read(text, needs_question).map_err(faults)?;
    let book = match &depot.question {
        Some(question) => Some(judged(&depot, question).map_err(|fault| faults(vec![fault]))?),
        None => None,
    };
    Ok(Loaded { depot, book, hexadecimal: false })
}

fn words_of(text: &str) -> usize {
    split(text).map(|line| words(line).len()).sum()
}

/// The book of a depot with a question, which the library accepts.
pub fn judged(depot: &Depot, question: &Said<Question>) -> Result<Compiled, Fault> {
    let book = compile(depot, question);
    match bytes::open(&book.characters, &mut [0; LEDGER_SIZE]) {
        Ok(()) => Ok(book),
        Err(refusal) if refusal.number() == 1 => {
            let text = format!(
                "the book of this file has {} characters, and 65,536 at most are taken",
                grouped(book.characters.len())
            );
            Err(Fault::of_file(text)
                .refused(1)
                .with_help("leave out repeats, and rules of leads that the question does not name"))
        }
        Err(refusal) => {
            let line = refusal.line().and_then(|line| book.lines.get(line.wrapping_sub(1))).copied().unwrap_or(0);
            let fault = hex::explain(&book.characters, &refusal);
            Err(Fault { line, column: 0, width: 0, ..fault })
        }
    }
}
