//! What is measured on one book: the six operations, by the library, by the reference, and by the reference with the
//! book kept.

use bixorgun::{LEDGER_SIZE, PAGE_SIZE, PLAN_MAX, REQUEST_SIZE, VIEW_SIZE};
use reference::book::{self, Book, Role, Rule, Way, What};
use reference::ledger::{self, Ledger, Request};
use reference::plan::closure;
use reference::replay;

/// The most requests of a run.
const RUN: usize = 64;

/// One of the six operations.
#[derive(Clone, Copy, Debug, PartialEq, Eq)]
pub enum Operation {
    Open,
    Request,
    Show,
    Replay,
    Plan,
    Page,
}

impl Operation {
    pub const ALL: [Operation; 6] =
        [Operation::Open, Operation::Request, Operation::Show, Operation::Replay, Operation::Plan, Operation::Page];

    pub fn name(self) -> &'static str {
        ["open", "request", "show", "replay", "plan", "page"][self as usize]
    }
}

/// Who carries the operation out.
#[derive(Clone, Copy, Debug, PartialEq, Eq)]
pub enum Side {
    /// The library: each call reads the book.
    Ours,
    /// The reference, each call reading the book.
    Reference,
    /// The reference with the book read before.
    Kept,
}

impl Side {
    pub const ALL: [Side; 3] = [Side::Ours, Side::Reference, Side::Kept];

    /// The module of `calls` that has its functions.
    pub fn module(self) -> &'static str {
        ["ours", "reference", "kept"][self as usize]
    }
}

/// A book with what the operations are given beside it.
pub struct Job {
    pub text: Vec<u8>,
    pub book: Book,
    /// The requests of a run, one for each of up to 64 rules spread evenly over the book.
    pub run: Vec<[u8; REQUEST_SIZE]>,
    /// The requests that replay judges.
    pub list: Vec<u8>,
    /// The ledger after the list: what show is given.
    pub after: [u8; LEDGER_SIZE],
}

impl Job {
    /// A book with the reference's plan as its list; where there is no way, with those of the run that are permitted.
    pub fn new(text: Vec<u8>) -> Result<Self, book::Refusal> {
        let book = book::read(&text)?;
        let list = match closure::plan(&book) {
            Some(plan) => plan.iter().flat_map(Request::to_bytes).collect(),
            None => permitted(&text, &book),
        };
        Self::with_list(text, list)
    }

    /// A book with a list of requests.
    pub fn with_list(text: Vec<u8>, list: Vec<u8>) -> Result<Self, book::Refusal> {
        let book = book::read(&text)?;
        let mut after = Ledger::start(&book);
        replay::judge(&book, &list, |_, request| request.carry_out(&mut after));
        Ok(Job { run: run(&book), after: after.to_bytes(), text, book, list })
    }

    /// How many calls one measured call of an operation stands for.
    pub fn calls(&self, operation: Operation) -> usize {
        if operation == Operation::Request {
            self.run.len()
        } else {
            1
        }
    }
}

/// The caller's buffers, allocated once and not cleared between calls.
pub struct Buffers {
    pub ledger: [u8; LEDGER_SIZE],
    pub view: [u8; VIEW_SIZE],
    pub out: Vec<u8>,
    pub page: [u8; PAGE_SIZE],
}

impl Buffers {
    pub fn new() -> Self {
        Buffers { ledger: [0; LEDGER_SIZE], view: [0; VIEW_SIZE], out: vec![0; PLAN_MAX], page: [0; PAGE_SIZE] }
    }
}

/// The request that a rule speaks of, on the query's person or on some crew.
fn named(book: &Book, rule: &Rule, k: usize) -> [u8; REQUEST_SIZE] {
    let Role(role) = rule.role;
    let op = book::op(rule.way, rule.what);
    let crew = (k % usize::from(book.sizes.crews).max(1)) as u8;
    match rule.what {
        What::OfPerson(a, v) => [op, role, book.query.person.0, a.0, v.0],
        What::OfCrew(a, v) => [op, role, crew, a.0, v.0],
        What::Membership(c) => [op, role, book.query.person.0, c.0, 0],
    }
}

fn run(book: &Book) -> Vec<[u8; REQUEST_SIZE]> {
    let count = book.rules.len().min(RUN);
    if count == 0 {
        return vec![[book::op(Way::Add, What::OfPerson(book::Attr(0), book::Value(0))), 0, 0, 0, 0]];
    }
    (0..count).map(|k| named(book, &book.rules[k * book.rules.len() / count], k)).collect()
}

/// The run's requests by the query's roles that are permitted in their turn.
fn permitted(text: &[u8], book: &Book) -> Vec<u8> {
    let mut bytes = Ledger::start(book).to_bytes();
    let requests = run(book).into_iter();
    let done = requests.filter(|r| book.query.has_role(Role(r[1])) && ledger::request(text, &mut bytes, r).is_ok());
    done.flatten().collect()
}
