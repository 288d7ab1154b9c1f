//! From a depot to its book: the characters that the library reads.

use std::fmt::Write as _;

use crate::model::{Depot, Fact, Mode, Question, Rule, Said, Statement};

/// A book, and where its lines come from.
#[derive(Clone, Debug, PartialEq, Eq)]
pub struct Compiled {
    /// The book's characters.
    pub characters: Vec<u8>,
    /// The line of the file for each line of the book; 0 for the first, which the names make.
    pub lines: Vec<usize>,
}

/// The book of a depot with a question: sizes, statements in the file's order, question.
pub fn compile(depot: &Depot, question: &Said<Question>) -> Compiled {
    let mut book = sizes(depot);
    let mut lines = vec![0];
    for said in &depot.statements {
        book.push_str(&match &said.what {
            Statement::Over { senior, junior } => frame(&[2, *senior, *junior]),
            Statement::Rule(rule) => self::rule(rule),
            Statement::Fact(fact) => self::fact(fact),
        });
        lines.push(said.line);
    }
    book.push_str(&self::question(&question.what));
    lines.push(question.line);
    Compiled { characters: book.into_bytes(), lines }
}

/// Frame 01.
pub fn sizes(depot: &Depot) -> String {
    let counts = [depot.persons.len(), depot.crews.len(), depot.attributes.len()];
    let values = depot.attributes.iter().map(|attribute| attribute.values.len());
    // Faults of the notation keep each below 256.
    let bytes: Vec<u8> = [1].into_iter().chain(counts).chain(values).map(|count| count as u8).collect();
    frame(&bytes)
}

/// Frame 03.
pub fn rule(rule: &Rule) -> String {
    let mut bytes = vec![3, rule.op as u8, rule.lead, rule.a, rule.v, rule.terms.len() as u8];
    bytes.extend(rule.terms.iter().flat_map(|term| [term.kind as u8, term.a, term.v]));
    frame(&bytes)
}

/// Frame 04.
pub fn fact(fact: &Fact) -> String {
    match *fact {
        Fact::PersonHas { person, attribute, value } => frame(&[4, 1, person, attribute, value]),
        Fact::CrewHas { crew, attribute, value } => frame(&[4, 2, crew, attribute, value]),
        Fact::PersonIn { person, crew } => frame(&[4, 3, person, crew, 0]),
    }
}

/// Frame 05.
pub fn question(question: &Question) -> String {
    let mut bytes = vec![5, question.mode as u8, question.person];
    bytes.extend(question.leads.to_be_bytes());
    bytes.push(question.wants.len() as u8);
    for (attribute, set) in &question.wants {
        bytes.push(*attribute);
        bytes.extend(set.to_be_bytes());
    }
    if question.mode != Mode::AtLeast {
        bytes.extend(question.crews.to_be_bytes());
    }
    frame(&bytes)
}

/// A frame as a line of digits.
pub fn frame(bytes: &[u8]) -> String {
    let mut line = hex(bytes);
    line.push('\n');
    line
}

/// Bytes as digits.
pub fn hex(bytes: &[u8]) -> String {
    bytes.iter().fold(String::with_capacity(2 * bytes.len() + 1), |mut digits, byte| {
        let _ = write!(digits, "{byte:02X}");
        digits
    })
}
