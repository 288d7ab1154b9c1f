//! The commands: each answers one file with a reply.

mod book;
mod check;
mod ledger;
mod page;
mod plan;
mod replay;
mod test;

use std::io::{self, ErrorKind};

use crate::args::Args;
use crate::compile::Compiled;
use crate::fault::Fault;
use crate::load::{load, said, Loaded};
use crate::model::Depot;
use crate::paint::Paint;
use crate::reply::{Reply, REFUSED, USAGE};
use crate::words::rename;
use crate::write::{same, whole};

/// What the commands are given besides a file.
pub struct Context<'a> {
    /// The command line.
    pub args: &'a Args,
    /// Colours of standard output.
    pub paint: Paint,
    /// Colours of standard error.
    pub paint_errors: Paint,
    /// Whether progress may be shown.
    pub terminal: bool,
}

/// A result, or the reply that says why there is none.
pub type Answered<T> = Result<T, Box<Reply>>;

/// The files that a command answers one after the other; of the others the first word is the file.
pub fn files(args: &Args) -> &[String] {
    match args.command.as_str() {
        "open" | "request" | "show" | "replay" => &args.rest[..1],
        _ => &args.rest,
    }
}

/// Answers one file.
pub fn answer(context: &Context<'_>, file: &str) -> Reply {
    let answer = match context.args.command.as_str() {
        "plan" => plan::plan(context, file),
        "check" => check::check(context, file),
        "book" => book::book(context, file),
        "words" => book::words(context, file),
        "tidy" => book::tidy(context, file),
        "open" => ledger::open(context, file),
        "request" => ledger::request(context, file),
        "show" => ledger::show(context, file),
        "replay" => replay::replay(context, file),
        "page" => page::page(context, file),
        "test" => test::test(context, file),
        other => unreachable!("`{other}` is no command: the command line has been read"),
    };
    answer.unwrap_or_else(|reply| *reply)
}

impl Context<'_> {
    /// A file that is good, with the names of `--names`.
    fn load(&self, file: &str, needs_question: bool) -> Answered<Loaded> {
        let mut loaded =
            load(file, needs_question).map_err(|t| Box::new(Reply::trouble(file, &t, self.paint_errors)))?;
        if let Some(names) = &self.args.names {
            if !loaded.hexadecimal {
                return Err(usage(file, "it has names: `--names` is for hexadecimal books"));
            }
            let from = load(names, false).map_err(|t| Box::new(Reply::trouble(names, &t, self.paint_errors)))?;
            rename(&mut loaded.depot, &from.depot).map_err(|why| usage(names, &why))?;
        }
        Ok(loaded)
    }

    /// A file that is good and has a question: the depot, and its book.
    fn load_book(&self, file: &str) -> Answered<(Depot, Compiled, bool)> {
        let Loaded { depot, book, hexadecimal } = self.load(file, true)?;
        match book {
            Some(book) => Ok((depot, book, hexadecimal)),
            None => Err(refused(file, Fault::of_file("the question is missing").refused(3))),
        }
    }

    /// Writes a file, which is none of those that are read.
    fn write(&self, to: &str, bytes: &[u8]) -> Answered<()> {
        let mut read = files(self.args).iter().chain(&self.args.names);
        if self.args.command != "tidy" && read.any(|file| same(file, to)) {
            return Err(usage(to, "this file is read, so it is not written: name another"));
        }
        whole(to, bytes).map_err(|error| unwritten(to, &error))
    }
}

/// The reply where a file can't be written.
fn unwritten(file: &str, error: &io::Error) -> Box<Reply> {
    let why = if error.kind() == ErrorKind::NotFound { "there is no such folder".into() } else { said(error) };
    Box::new(Reply::unread(file, &format!("it can't be written: {why}")))
}

/// The reply where the command is wrong.
fn usage(file: &str, why: &str) -> Box<Reply> {
    let mut reply = Reply::unread(file, why);
    (reply.status, reply.answer) = (USAGE, "usage");
    Box::new(reply)
}

/// The reply where a book, or what is handed over beside it, is refused.
fn refused(file: &str, fault: Fault) -> Box<Reply> {
    let mut reply = Reply::faults(file, &[fault], "", Paint(false));
    (reply.status, reply.answer) = (REFUSED, "refused");
    Box::new(reply)
}

/// The library's refusal where none is expected: it has accepted the book before.
fn surprise(file: &str, refusal: &bixorgun::Refusal) -> Box<Reply> {
    refused(file, Fault::of_file(refusal.to_string()).refused(refusal.number()))
}
