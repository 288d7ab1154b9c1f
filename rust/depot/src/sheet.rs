//! The cells of a depot's page: what each person has, can come to with the plan behind it, or never.
//!
//! Which values a person can come to is the library's `page`; the plan behind each is its `plan`, asked for that person and
//! that value alone.

use std::sync::atomic::{AtomicUsize, Ordering};
use std::thread;

use bixorgun::bytes::{self, Planned};
use bixorgun::{Attr, Book, Page, Person, Refusal, Request, Value, PLAN_MAX, REQUEST_SIZE};

use crate::compile;
use crate::holdings::{all_values, holdings};
use crate::html::Cell;
use crate::model::{Depot, Mode, Question};
use crate::story::Telling;

/// The cells of one person: by attribute, then by value.
pub type Row = Vec<Vec<Cell>>;

/// Why there are no cells.
#[derive(Clone, Copy, Debug, PartialEq, Eq)]
pub enum Unmade {
    /// The library refuses the book.
    Refused(Refusal),
    /// The library's page says that a person can come to a value, and its plan that there is no way. That both are proved
    /// rules this out; if it came, nothing would be told.
    Differ {
        /// Whose cell it is.
        person: u8,
        /// The attribute.
        attribute: u8,
        /// The value.
        value: u8,
    },
}

impl From<Refusal> for Unmade {
    fn from(refusal: Refusal) -> Unmade {
        Unmade::Refused(refusal)
    }
}

/// The cells of every person. `done` is told how many persons are done, now and then.
pub fn rows(depot: &Depot, book: &[u8], leads: u16, done: &(dyn Fn(usize) + Sync)) -> Result<Vec<Row>, Unmade> {
    let page = Book::new(book).page()?;
    let telling = Telling::new(depot, book)?;
    let asker = Asker { telling: &telling, book, front: front(book), page: &page, leads };
    let next = AtomicUsize::new(0);
    let workers = thread::available_parallelism().map_or(1, usize::from).min(depot.persons.len());
    let work = || {
        let mut rows = Vec::new();
        loop {
            let person = next.fetch_add(1, Ordering::Relaxed);
            if person >= depot.persons.len() {
                return Ok(rows);
            }
            done(person);
            rows.push((person, asker.row(person as u8)?));
        }
    };
    let parts: Vec<Result<Vec<(usize, Row)>, Unmade>> = thread::scope(|scope| {
        let others: Vec<_> = (1..workers).map(|_| scope.spawn(work)).collect();
        let own = work();
        let others =
            others.into_iter().map(|worker| worker.join().unwrap_or_else(|panic| std::panic::resume_unwind(panic)));
        [own].into_iter().chain(others).collect()
    });
    let mut rows: Vec<(usize, Row)> = Vec::new();
    for part in parts {
        rows.extend(part?);
    }
    rows.sort_by_key(|(person, _)| *person);
    Ok(rows.into_iter().map(|(_, row)| row).collect())
}

/// The characters of a book before its query.
fn front(book: &[u8]) -> &[u8] {
    let ended = book.strip_suffix(b"\n").unwrap_or(book);
    &book[..ended.iter().rposition(|byte| *byte == b'\n').map_or(0, |at| at + 1)]
}

struct Asker<'a> {
    telling: &'a Telling<'a>,
    book: &'a [u8],
    front: &'a [u8],
    page: &'a Page,
    leads: u16,
}

impl Asker<'_> {
    fn row(&self, person: u8) -> Result<Row, Unmade> {
        let depot = self.telling.depot;
        let held = holdings(depot, self.book, &self.telling.start, person)?;
        let mut row: Row = depot.attributes.iter().map(|_| Vec::new()).collect();
        for (attribute, value) in all_values(depot) {
            let now = held.values.iter().find(|(a, v, _)| (*a, *v) == (attribute, value));
            let cell = match now {
                Some((_, _, through)) => through.first().map_or(Cell::Has, |crew| Cell::Through(*crew)),
                None if !self.page.reaches(Person(person), Attr(attribute), Value(value)) => Cell::NoWay,
                None => self.reach(person, attribute, value)?,
            };
            row[usize::from(attribute)].push(cell);
        }
        Ok(row)
    }

    /// The plan for one value.
    fn reach(&self, person: u8, attribute: u8, value: u8) -> Result<Cell, Unmade> {
        let wants = vec![(attribute, 1 << value)];
        let question = Question { mode: Mode::AtLeast, person, leads: self.leads, wants, crews: 0 };
        let book = [self.front, compile::question(&question).as_bytes()].concat();
        let mut buffer = vec![0; PLAN_MAX];
        match bytes::plan_into(&book, &mut buffer)? {
            Planned::NoWay => Err(Unmade::Differ { person, attribute, value }),
            Planned::Plan(count) => {
                let requests = buffer[..REQUEST_SIZE * count].chunks_exact(REQUEST_SIZE);
                let plan: Vec<Request> = requests
                    .filter_map(|five| Request::from_bytes([five[0], five[1], five[2], five[3], five[4]]))
                    .collect();
                Ok(Cell::Reach(Box::new(self.telling.tell(&book, &question, &plan, false)?)))
            }
        }
    }
}
