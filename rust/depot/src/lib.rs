//! The front end of Bixorgun: a depot in names, answers in words, a picture to look at.
//!
//! The library's answer is the answer; words and pictures only stand beside it. Nothing here is proved, and nothing here
//! decides: names are compiled to a book, the library is asked, and the bytes that come back are put into words.
//!
//! * From a file to its book: `source` and `cursor` (words and places), `names`, `questions`, `notation` (the notation's
//!   reader), `order` (juniors first), `limits` (depots with "not"), `model` (what is read), `compile` (the book), `hex` (a
//!   hexadecimal book read and its refusal explained), `tidy`, `words` (back to names), `load`.
//! * From an answer to words: `say` (phrases), `state` (a ledger read), `ledger_names`, `matching` (rules and requests), `needed` (the
//!   moves that matter), `reasons` (why a
//!   move is permitted, compared with the library), `story`, `why`, `holdings`, `remarks`.
//! * Pictures: `bars`, `timeline` (a plan as SVG), `sheet` (the cells), `html` (the page).
//! * The program: `args`, `commands`, `reply`, `json`, `help`, `write`, `run`.

#![forbid(unsafe_code)]
#![warn(missing_docs)]

mod args;
mod bars;
mod commands;
pub mod compile;
mod cursor;
pub mod fault;
pub mod help;
pub mod hex;
mod holdings;
pub mod html;
pub mod json;
mod ledger_names;
mod lettering;
mod limits;
pub mod load;
mod matching;
pub mod model;
mod names;
mod needed;
pub mod notation;
mod order;
pub mod paint;
mod questions;
pub mod reasons;
mod remarks;
pub mod reply;
pub mod requests;
pub mod run;
pub mod say;
pub mod sheet;
pub mod source;
pub mod state;
pub mod story;
pub mod tidy;
pub mod timeline;
pub mod why;
pub mod words;
mod wrap;
mod write;
