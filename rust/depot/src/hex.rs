//! A hexadecimal book, read by the front end itself, so that a refused one is explained with its column and the reason.
//!
//! The library's answer is the answer. What is read here only stands beside it: [`explain`] gives words where this
//! reading has the library's number and line, and else the number and the line alone.
//!
//! The book is read from left to right, and the first fault ends the reading, in the order of the refusals: 1, then the
//! earliest bad line, in a line the lowest number, and 16 and 17 where every line is good.

mod digits;
mod frames;
mod whole;

use bixorgun::{Refusal, BOOK_MAX};

use crate::fault::Fault;
use crate::model::{members, Attribute, Depot, Question, Said, Statement, MOST_RULES};
use crate::say::{by_number, grouped};
use crate::tidy::tidy;

use frames::Sizes;

/// What to do about all that an editor does to a book.
const TIDY: &str = "`depot tidy FILE` puts that right";
/// What to do where a book has too much.
const LEAVE_OUT: &str = "leave out what plan does not need: repeats, rules of roles that the query does not name, \
                         facts of other persons; \"no way\" for each of two books says nothing of both together";

/// A book that this reading refuses.
#[derive(Clone, Debug, PartialEq, Eq)]
pub struct Refused {
    /// The refusal's number: 1 to 9, 16 or 17.
    pub number: u8,
    /// Counted from 1; 0 for refusal 1.
    pub line: usize,
    /// The place and the reason. 16 is about other lines than the query's, at which it stands: its column is 0.
    pub fault: Fault,
}

/// Reads a book. Its persons are called `person-0` and so on, its crews, leads, attributes and values likewise; it has
/// as many leads as the highest role takes that a rule or the query names.
///
/// # Errors
///
/// The refusal that falls.
pub fn read(characters: &[u8]) -> Result<Depot, Refused> {
    let depot = lines(characters)?;
    match whole::refusal(&depot) {
        Some(refused) => Err(refused),
        None => Ok(depot),
    }
}

/// Explains a refusal of any operation but the page: with column and reason where this reading has the same number and
/// line, else by the library's own words for the number.
pub fn explain(characters: &[u8], refusal: &Refusal) -> Fault {
    match read(characters) {
        Err(own) if own.agrees(refusal) => own.fault,
        _ => bare(refusal),
    }
}

/// Explains a refusal of the page, which a book with a "not" never has.
pub fn explain_page(characters: &[u8], refusal: &Refusal) -> Fault {
    let own = lines(characters).map(|depot| whole::page_refusal(&depot));
    match own {
        Err(own) | Ok(Some(own)) if own.agrees(refusal) => own.fault,
        _ => bare(refusal),
    }
}

/// The library's number and line, and its words for the number.
fn bare(refusal: &Refusal) -> Fault {
    let said = refusal.to_string();
    // The number and the line stand before the first colon; who prints the fault says them.
    let text = said.split_once(": ").map_or(said.as_str(), |(_, words)| words).to_string();
    Fault {
        line: refusal.line().unwrap_or(0),
        column: 0,
        width: 0,
        text,
        help: String::new(),
        refusal: Some(refusal.number()),
    }
}

impl Refused {
    /// One that is about the whole of a line, or of the book at line 0.
    fn whole(number: u8, line: usize, text: String, help: &str) -> Refused {
        Bad { number, column: 0, width: 0, text, help: help.into() }.on(line)
    }

    fn agrees(&self, refusal: &Refusal) -> bool {
        (self.number, Some(self.line)) == (refusal.number(), refusal.line())
    }
}

/// What is wrong in a line; which line it is, [`Bad::on`] adds.
struct Bad {
    number: u8,
    /// Counted from 1, in characters.
    column: usize,
    width: usize,
    text: String,
    help: String,
}

impl Bad {
    /// About so many characters, from one on that is counted from 0.
    fn characters(number: u8, at: usize, width: usize, text: impl Into<String>) -> Bad {
        Bad { number, column: at + 1, width, text: text.into(), help: String::new() }
    }

    /// About so many bytes of a frame, from one on that is counted from 0.
    fn bytes(number: u8, at: usize, bytes: usize, text: impl Into<String>) -> Bad {
        Bad::characters(number, 2 * at, 2 * bytes, text)
    }

    fn help(self, help: impl Into<String>) -> Bad {
        Bad { help: help.into(), ..self }
    }

    fn on(self, line: usize) -> Refused {
        let Bad { number, column, width, text, help } = self;
        Refused { number, line, fault: Fault { line, column, width, text, help, refusal: Some(number) } }
    }
}

/// What has been read of a book.
#[derive(Default)]
struct Book {
    sizes: Option<Sizes>,
    statements: Vec<Said<Statement>>,
    rules: usize,
    question: Option<Said<Question>>,
}

/// A book's lines, without what only the whole book shows: refusals 1 to 9.
fn lines(characters: &[u8]) -> Result<Depot, Refused> {
    if characters.len() > BOOK_MAX {
        return Err(too_long(characters));
    }
    let mut book = Book::default();
    let mut line = 0;
    for text in characters.split_inclusive(|&character| character == b'\n') {
        line += 1;
        let (text, ended) = text.strip_suffix(b"\n").map_or((text, false), |text| (text, true));
        book.line(line, text, ended).map_err(|bad| bad.on(line))?;
    }
    book.finish().map_err(|bad| bad.on(line + 1))
}

fn too_long(characters: &[u8]) -> Refused {
    let text = format!(
        "{} characters, but a book has at most {}, line ends counted",
        grouped(characters.len()),
        grouped(BOOK_MAX)
    );
    let help = if tidy(characters).book.len() > BOOK_MAX { LEAVE_OUT } else { TIDY };
    Refused::whole(1, 0, text, help)
}

impl Book {
    /// One line more.
    fn line(&mut self, line: usize, text: &[u8], ended: bool) -> Result<(), Bad> {
        let frame = digits::bytes(text, ended)?;
        let kind = frame.first().copied().unwrap_or_default();
        let Some(sizes) = &self.sizes else {
            self.sizes = Some(first(kind, &frame)?);
            return Ok(());
        };
        if let Some(Said { line, .. }) = &self.question {
            let text = format!("a frame behind the query (line {line}), but the query is a book's last line");
            return Err(Bad::bytes(3, 0, 1, text).help("put the query last"));
        }
        let what = match kind {
            1 => {
                return Err(Bad::bytes(3, 0, 1, "a second frame 01, but a book gives its sizes once, in line 1")
                    .help("leave it out"))
            }
            2 => frames::edge(&frame, sizes)?,
            3 => {
                let rule = frames::rule(&frame, sizes)?;
                if self.rules == MOST_RULES {
                    let text = format!("the 513th rule: a book has at most {MOST_RULES}");
                    return Err(Bad::bytes(8, 0, frame.len(), text).help(LEAVE_OUT));
                }
                self.rules += 1;
                Statement::Rule(rule)
            }
            4 => Statement::Fact(frames::fact(&frame, sizes)?),
            5 => {
                self.question = Some(Said { line, what: frames::query(&frame, sizes)? });
                return Ok(());
            }
            _ => return Err(Bad::bytes(3, 0, 1, format!("frame kind {kind:02X}: there are 01 to 05"))),
        };
        self.statements.push(Said { line, what });
        Ok(())
    }

    /// Behind the last line.
    fn finish(self) -> Result<Depot, Bad> {
        let Book { sizes: Some(sizes), statements, question: Some(question), .. } = self else {
            let (text, help) = match self.sizes {
                None => ("the book is empty", "a book begins with its sizes, a frame 01"),
                Some(_) => ("the book ends without a query", "its last line is the query, a frame 05"),
            };
            return Err(Bad::characters(3, 0, 1, text).help(help));
        };
        let roles = roles(&statements, &question.what);
        let attribute = |(number, &count): (usize, &u8)| Attribute {
            name: by_number("attribute", number as u8),
            values: numbered("value", count),
        };
        Ok(Depot {
            persons: numbered("person", sizes.persons),
            crews: numbered("crew", sizes.crews),
            attributes: sizes.counts.iter().enumerate().map(attribute).collect(),
            leads: numbered("lead", roles),
            statements,
            question: Some(question),
            expectations: Vec::new(),
        })
    }
}

/// The sizes, with which a book begins.
fn first(kind: u8, frame: &[u8]) -> Result<Sizes, Bad> {
    if kind == 1 {
        return frames::sizes(frame);
    }
    let text = format!("the first frame is {kind:02X}, but a book begins with its sizes, a frame 01");
    Err(Bad::bytes(3, 0, 1, text))
}

/// How many roles there are up to the highest that is named.
fn roles(statements: &[Said<Statement>], question: &Question) -> u8 {
    let of_rules = statements.iter().filter_map(|said| match &said.what {
        Statement::Rule(rule) => Some(rule.lead),
        _ => None,
    });
    of_rules.chain(members(question.leads.into())).max().map_or(0, |role| role + 1)
}

/// `person-0` and so on.
fn numbered(what: &str, count: u8) -> Vec<String> {
    (0..count).map(|number| by_number(what, number)).collect()
}
