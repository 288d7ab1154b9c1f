//! The measured calls: one function for each operation and side, kept out of line, so that callgrind counts each by its
//! name.

use std::hint::black_box;

use crate::job::{Buffers, Job, Operation, Side};

/// Carries out one operation. A request stands for a whole run from the ledger of show.
pub fn call(operation: Operation, side: Side, job: &Job, buffers: &mut Buffers) {
    match (side, operation) {
        (Side::Ours, Operation::Open) => ours::open(job, buffers),
        (Side::Ours, Operation::Request) => ours::request(job, buffers),
        (Side::Ours, Operation::Show) => ours::show(job, buffers),
        (Side::Ours, Operation::Replay) => ours::replay(job),
        (Side::Ours, Operation::Plan) => ours::plan(job, buffers),
        (Side::Ours, Operation::Page) => ours::page(job, buffers),
        (Side::Reference, Operation::Open) => reference::open(job, buffers),
        (Side::Reference, Operation::Request) => reference::request(job, buffers),
        (Side::Reference, Operation::Show) => reference::show(job),
        (Side::Reference, Operation::Replay) => reference::replay(job),
        (Side::Reference, Operation::Plan) => reference::plan(job, buffers),
        (Side::Reference, Operation::Page) => reference::page(job, buffers),
        (Side::Kept, Operation::Open) => kept::open(job, buffers),
        (Side::Kept, Operation::Request) => kept::request(job, buffers),
        (Side::Kept, Operation::Show) => kept::show(job),
        (Side::Kept, Operation::Replay) => kept::replay(job),
        (Side::Kept, Operation::Plan) => kept::plan(job),
        (Side::Kept, Operation::Page) => kept::page(job, buffers),
    }
}

/// Plans by the library with the caller's buffer cleared first.
pub fn cleared(job: &Job, buffers: &mut Buffers) {
    ours::cleared_plan(job, buffers);
}

mod ours {
    use super::{black_box, Buffers, Job};
    use bixorgun::{bytes, Person};

    #[inline(never)]
    pub fn open(job: &Job, buffers: &mut Buffers) {
        let _ = black_box(bytes::open(black_box(&job.text), &mut buffers.ledger));
    }

    #[inline(never)]
    pub fn request(job: &Job, buffers: &mut Buffers) {
        buffers.ledger = job.after;
        for request in &job.run {
            let _ = black_box(bytes::request(black_box(&job.text), &mut buffers.ledger, request));
        }
    }

    #[inline(never)]
    pub fn show(job: &Job, buffers: &mut Buffers) {
        let person = Person(job.book.query.person.0);
        let _ = black_box(bytes::show_into(black_box(&job.text), &job.after, person, &mut buffers.view));
    }

    #[inline(never)]
    pub fn replay(job: &Job) {
        let _ = black_box(bytes::replay(black_box(&job.text), &job.list));
    }

    #[inline(never)]
    pub fn plan(job: &Job, buffers: &mut Buffers) {
        let _ = black_box(bytes::plan_into(black_box(&job.text), &mut buffers.out));
    }

    #[inline(never)]
    pub fn page(job: &Job, buffers: &mut Buffers) {
        let _ = black_box(bytes::page(black_box(&job.text), &mut buffers.page));
    }

    #[inline(never)]
    pub fn cleared_plan(job: &Job, buffers: &mut Buffers) {
        black_box(&mut buffers.out).fill(0);
        let _ = black_box(bytes::plan_into(black_box(&job.text), &mut buffers.out));
    }
}

mod reference {
    use super::{black_box, Buffers, Job};
    use reference::{ledger, page, plan, replay};

    #[inline(never)]
    pub fn open(job: &Job, buffers: &mut Buffers) {
        let _ = black_box(ledger::open(black_box(&job.text), &mut buffers.ledger));
    }

    #[inline(never)]
    pub fn request(job: &Job, buffers: &mut Buffers) {
        buffers.ledger = job.after;
        for request in &job.run {
            let _ = black_box(ledger::request(black_box(&job.text), &mut buffers.ledger, request));
        }
    }

    #[inline(never)]
    pub fn show(job: &Job) {
        let _ = black_box(ledger::show(black_box(&job.text), &job.after, job.book.query.person.0));
    }

    #[inline(never)]
    pub fn replay(job: &Job) {
        let _ = black_box(replay::replay(black_box(&job.text), &job.list));
    }

    #[inline(never)]
    pub fn plan(job: &Job, buffers: &mut Buffers) {
        let _ = black_box(plan::plan(black_box(&job.text), &mut buffers.out));
    }

    #[inline(never)]
    pub fn page(job: &Job, buffers: &mut Buffers) {
        let _ = black_box(page::page(black_box(&job.text), &mut buffers.page));
    }
}

/// The steps of the reference after the book is read.
mod kept {
    use super::{black_box, Buffers, Job};
    use reference::book::Attr;
    use reference::ledger::{Depot, Ledger, Request};
    use reference::plan::closure;
    use reference::{page, replay};

    #[inline(never)]
    pub fn open(job: &Job, buffers: &mut Buffers) {
        buffers.ledger = Ledger::start(black_box(&job.book)).to_bytes();
    }

    #[inline(never)]
    pub fn request(job: &Job, buffers: &mut Buffers) {
        buffers.ledger = job.after;
        for request in &job.run {
            black_box(one(job, &mut buffers.ledger, request));
        }
    }

    fn one(job: &Job, bytes: &mut [u8], request: &[u8]) -> Option<()> {
        let book = black_box(&job.book);
        let mut facts = Ledger::from_bytes(&book.sizes, bytes)?;
        let request = Request::from_bytes(&book.sizes, request)?;
        if !Depot::new(book).permits(&facts, &request) {
            return None;
        }
        request.carry_out(&mut facts);
        bytes.copy_from_slice(&facts.to_bytes());
        Some(())
    }

    #[inline(never)]
    pub fn show(job: &Job) {
        let book = black_box(&job.book);
        let Some(facts) = Ledger::from_bytes(&book.sizes, &job.after) else { return };
        let depot = Depot::new(book);
        for attr in (0..8).map(Attr) {
            black_box(depot.person_set(&facts, book.query.person, attr));
        }
        black_box(depot.person_in(&facts, book.query.person));
    }

    #[inline(never)]
    pub fn replay(job: &Job) {
        black_box(replay::judge(black_box(&job.book), &job.list, |_, _| ()));
    }

    #[inline(never)]
    pub fn plan(job: &Job) {
        black_box(closure::plan(black_box(&job.book)));
    }

    /// A book with a "not" term has no page.
    #[inline(never)]
    pub fn page(job: &Job, buffers: &mut Buffers) {
        if !black_box(&job.book).has_not() {
            buffers.page = page::of(black_box(&job.book));
        }
    }
}

#[cfg(test)]
mod tests {
    use super::*;
    use crate::series;

    /// Each side writes every byte, whatever stood there.
    #[test]
    fn pages_are_those_of_the_book() {
        for (number, job) in series::all().iter().flat_map(|series| &series.points) {
            let page = ::reference::page::of(&job.book);
            assert!(page.iter().any(|&byte| byte != 0), "{number}");
            for side in Side::ALL {
                let mut buffers = Buffers::new();
                buffers.page = page.map(|byte| !byte);
                call(Operation::Page, side, job, &mut buffers);
                assert_eq!(buffers.page, page, "{side:?}, {number}");
            }
        }
    }
}
