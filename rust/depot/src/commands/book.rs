//! `depot book`, `depot words`, `depot tidy`: from names to the book and back, and a book put right.

use bixorgun::{bytes, LEDGER_SIZE};

use super::{refused, Answered, Context};
use crate::fault::{show_all, Fault};
use crate::json::Json;
use crate::load::{in_characters, is_notation, read_bytes};
use crate::reply::{Reply, REFUSED, YES};
use crate::{hex, tidy as tidying, words as notation};

/// Writes a file's book.
pub fn book(context: &Context<'_>, file: &str) -> Answered<Reply> {
    let (_, book, _) = context.load_book(file)?;
    told(context, "book", String::from_utf8_lossy(&book.characters).into_owned())
}

/// Writes a book in the notation.
pub fn words(context: &Context<'_>, file: &str) -> Answered<Reply> {
    let loaded = context.load(file, true)?;
    told(context, "words", notation::words(&loaded.depot))
}

/// Puts a hexadecimal book right, and says what was changed. The book is told even where the library refuses it still.
pub fn tidy(context: &Context<'_>, file: &str) -> Answered<Reply> {
    let paint = context.paint_errors;
    let all = read_bytes(file).map_err(|trouble| Box::new(Reply::trouble(file, &trouble, paint)))?;
    if is_notation(file, &all) {
        let fault = Fault::of_file("this is a depot in names, and `depot tidy` is for hexadecimal books");
        return Err(refused(file, fault));
    }
    let tidied = tidying::tidy(&all);
    let text = String::from_utf8_lossy(&tidied.book).into_owned();
    let refused = bytes::open(&tidied.book, &mut [0; LEDGER_SIZE]).err();
    // Where there are other characters still, the file may be no book at all: then nothing is written, and nothing told.
    let unwritten = !tidied.book.iter().all(|byte| matches!(byte, b'0'..=b'9' | b'A'..=b'F' | b'\n'));
    let mut reply = if unwritten {
        Reply::new(YES, "tidy", String::new(), vec![("book", Json::text(&*text))])
    } else {
        told(context, "tidy", text)?
    };
    reply.more.push(("changes", Json::list(tidied.changes.iter().map(Json::text))));
    reply.err = tidied.changes.iter().map(|change| format!("{file}: {change}\n")).collect();
    if tidied.changes.is_empty() {
        reply.err = format!("{file}: nothing to put right\n");
    }
    if let Some(refusal) = refused {
        let fault = in_characters(hex::explain(&tidied.book, &refusal), &tidied.book);
        let source = String::from_utf8_lossy(&tidied.book);
        let so_far =
            if unwritten { "refused still, so nothing is written" } else { "put right so far, but refused still" };
        let still = Reply::faults(file, std::slice::from_ref(&fault), &source, paint);
        (reply.status, reply.answer, reply.errors) = (REFUSED, "refused", still.errors);
        reply.err += &format!("{file}: {so_far}:\n{}", show_all(&[fault], file, &source, paint));
    }
    Ok(reply)
}

/// A text as the answer, on standard output or in the file of `-o`.
fn told(context: &Context<'_>, answer: &'static str, text: String) -> Answered<Reply> {
    let key = if answer == "words" { "words" } else { "book" };
    let mut reply = Reply::new(YES, answer, String::new(), vec![(key, Json::text(&*text))]);
    match &context.args.out {
        Some(to) => context.write(to, text.as_bytes())?,
        None => reply.out = text,
    }
    Ok(reply)
}
