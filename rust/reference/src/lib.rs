//! Crew books, ledgers and plans, written a second time from the papers and for tests only.
//!
//! * [`book`]: characters become a book, or refusal 1-9, 16 or 17 with its line.
//! * [`ledger`]: open, request and show, with refusals 11-13 and 15.
//! * [`replay`]: judges a list of requests, with refusal 14.
//! * [`plan`]: no way or a plan, with refusal 10; by two methods, and one more for books that only grow, with "not".
//! * [`page`]: for each person all values that have a plan, with refusal 10.
//! * [`gen`]: seeded books, ledgers and requests, good and damaged.
//!
//! Sentences in quotation marks are the papers': those on ladder terms, kind 05, stand in Wish 1 of the second, those
//! on what 13 and 15 tell apart in its Wish 2, those on each attribute's own count in its Wish 4, those on the page in
//! its Wish 5, those on "not" terms, mode 03, 16 and 17 in its Wish 6.

#![forbid(unsafe_code)]
#![warn(missing_docs)]

mod refusals;

pub mod book;
pub mod gen;
pub mod ledger;
pub mod page;
pub mod plan;
pub mod replay;
