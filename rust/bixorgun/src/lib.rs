//! Bixorgun for Rust: who may come to hold which right in a parcel depot.
//!
//! A carrier writes a **book**: crews, rules, starting facts and one query. This crate wraps the six operations on it,
//! which stand in `libbixorgun.a` and are proved there for every input:
//!
//! | Operation | By type | By slice |
//! |---|---|---|
//! | open: the ledger of starting facts | [`Book::open`] | [`bytes::open`] |
//! | request: act on a ledger under the book's rules | [`Ledger::request`] | [`bytes::request`] |
//! | show: what a person effectively holds and is effectively in | [`Ledger::show`] | [`bytes::show`] |
//! | plan: no way, or requests that lead to the query | [`Book::plan`] | [`bytes::plan_into`] |
//! | replay: judge a list of requests | [`Book::replay`] | [`bytes::replay`] |
//! | page: all that each person can come to hold | [`Book::page`] | [`bytes::page`] |
//!
//! ```
//! use bixorgun::{Answer, Attr, Book, Judgement, Person, Value};
//!
//! # fn main() -> Result<(), bixorgun::Refusal> {
//! let book = Book::new("0101010102\n030100000100\n030501000001010001\n0402000000\n050100000301000001\n");
//! let Answer::Plan(plan) = book.plan()? else { panic!("there is a way") };
//! let lines: Vec<String> = plan.iter().map(|request| request.to_string()).collect();
//! assert_eq!(lines, ["0100000001", "0501000000"]);
//! assert_eq!(book.replay(&plan)?, Judgement::Reaches);
//!
//! let mut ledger = book.open()?;
//! for request in &plan {
//!     ledger.request(&book, request)?;
//! }
//! assert!(ledger.show(&book, Person(0))?.values(Attr(0)).contains(Value(0)));
//! # Ok(())
//! # }
//! ```
//!
//! A lead whose request is not permitted is told why. By rule 1 of this book role 1 assigns to the crew anybody who
//! directly holds grade 1, and by rule 2 role 0 adds that grade.
//!
//! ```
//! use bixorgun::{Act, Attr, Book, Crew, Person, Refusal, Request, Role, Value};
//!
//! # fn main() -> Result<(), bixorgun::Refusal> {
//! let book = Book::new("0101010102\n030501000001010001\n030100000100\n050100000300\n");
//! let raise = Request::new(Role(0), Act::AddToPerson(Person(0), Attr(0), Value(1)));
//! let assign = |role| Request::new(Role(role), Act::Assign(Person(0), Crew(0)));
//! let mut ledger = book.open()?;
//!
//! let told = ledger.request(&book, assign(1)).unwrap_err();
//! assert_eq!(told, Refusal::UnmetTerm { rule: 1, term: 1 });
//! assert_eq!(told.to_string(), "refusal 15: rule 1 of the book matches the request, but its term 1 does not hold");
//! ledger.request(&book, raise)?;
//! ledger.request(&book, assign(1))?;
//!
//! let told = ledger.request(&book, assign(2)).unwrap_err();
//! assert_eq!(told.to_string(), "refusal 13: no rule of the book matches the request's op, role, a and v");
//! # Ok(())
//! # }
//! ```
//!
//! The operations keep no state, allocate nothing and may run on any number of threads at once. Give a thread [`STACK`]
//! or more. An answer that `include/bixorgun.h` does not have means that another library was linked; the functions
//! panic on it.
//!
//! Words in quotation marks are those of the specification.

#![deny(unsafe_code)]
#![warn(missing_docs)]

pub mod bytes;

mod book;
mod ledger;
mod numbers;
mod page;
mod plan;
mod refusal;
mod request;
#[allow(unsafe_code)]
mod sys;

pub use book::Book;
pub use ledger::{Ledger, View};
pub use numbers::{Attr, Crew, Crews, Numbers, Person, Role, Value, Values};
pub use page::{Page, Reached};
pub use plan::{Answer, Judgement, Plan, Requests};
pub use refusal::Refusal;
pub use request::{Act, Request};

/// The version of the library's interface, as `include/bixorgun.h` has it. The minor rises with every later change of a
/// format or of the interface.
pub const VERSION: &str = "0.6.0";
/// The first number of [`VERSION`].
pub const VERSION_MAJOR: u32 = 0;
/// The second number of [`VERSION`].
pub const VERSION_MINOR: u32 = 6;
/// The third number of [`VERSION`].
pub const VERSION_PATCH: u32 = 0;

/// The characters of the longest book that is not refused.
pub const BOOK_MAX: usize = 65_536;
/// The bytes of a ledger.
pub const LEDGER_SIZE: usize = 1_792;
/// The bytes of a request.
pub const REQUEST_SIZE: usize = 5;
/// The bytes that show writes.
pub const VIEW_SIZE: usize = 20;
/// The bytes of a page.
pub const PAGE_SIZE: usize = 1_024;
/// The bytes of a plan buffer that is long enough for every book.
pub const PLAN_MAX: usize = plan_size(32, 128);
/// The bytes of stack that a thread is given, at least. As measured with threads, plan needs 160 KB (of 1,024 bytes),
/// page 136 KB, request 84 KB and each other operation 75 KB or less; the rest is room for later versions.
pub const STACK: usize = 320 * 1_024;

/// The bytes of a plan buffer that is long enough for a book whose first line is `01 P G A` and a count for each
/// attribute: 10 × F, where F is "(1 + G) × the sum of the counts, plus G". `crews` is G, and `values` the sum.
///
/// ```
/// // Two crews; shift has three values, lane has sixteen.
/// assert_eq!(bixorgun::plan_size(2, 3 + 16), 590);
/// assert_eq!(bixorgun::PLAN_MAX, 42_560);
/// ```
#[must_use]
pub const fn plan_size(crews: usize, values: usize) -> usize {
    10 * ((1 + crews) * values + crews)
}
