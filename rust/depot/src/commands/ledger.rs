//! `depot open`, `depot request`, `depot show`: the ledger of facts.

use std::fmt::Write as _;
use std::fs;
use std::io::ErrorKind;

use bixorgun::{bytes, Refusal, Request, LEDGER_SIZE};

use super::plan::json_request;
use super::{refused, surprise, unwritten, usage, Answered, Context};
use crate::compile::Compiled;
use crate::fault::Fault;
use crate::holdings::holdings;
use crate::json::Json;
use crate::ledger_names;
use crate::load::said;
use crate::matching::Matching;
use crate::model::{Depot, Rule};
use crate::reasons::Reasons;
use crate::reply::{Reply, NO, YES};
use crate::say::{grouped, listed};
use crate::state::subject;
use crate::story::Subject;
use crate::why;
use crate::words::declarations;
use crate::wrap::wrap;
use crate::write::Held;

/// Writes the ledger of a file's starting facts.
pub fn open(context: &Context<'_>, file: &str) -> Answered<Reply> {
    let (depot, book, _) = context.load_book(file)?;
    let to = &context.args.rest[1];
    let ledger = start(file, &book)?;
    if fs::metadata(to).is_ok_and(|meta| meta.is_file()) {
        return Err(usage(to, "it is there, and a ledger in use is not replaced: remove it, or name another"));
    }
    let names = ledger_names::file(to);
    context.write(to, &ledger)?;
    context.write(&names, declarations(&depot).as_bytes())?;
    let out = format!("{to}: the ledger of the starting facts, {LEDGER_SIZE} bytes; {names}: the names in it.\n");
    Ok(Reply::new(YES, "done", out, vec![("ledger", Json::text(to))]))
}

fn start(file: &str, book: &Compiled) -> Answered<[u8; LEDGER_SIZE]> {
    let mut ledger = [0; LEDGER_SIZE];
    bytes::open(&book.characters, &mut ledger).map_err(|refusal| surprise(file, &refusal))?;
    Ok(ledger)
}

/// The bytes of the command line's ledger, held where a request is to change them; with `--start` those of the starting
/// facts.
fn ledger(
    context: &Context<'_>,
    file: &str,
    (depot, book): (&Depot, &Compiled),
    change: bool,
) -> Answered<(Option<Held>, Vec<u8>)> {
    if context.args.start {
        return Ok((None, start(file, book)?.to_vec()));
    }
    let from = &context.args.rest[1];
    if let Ok(written) = fs::read_to_string(ledger_names::file(from)) {
        if let Some(differs) = ledger_names::difference(&written, depot) {
            let fault = Fault::of_file(format!("it was opened with other names than {file} has: {differs}"));
            return Err(refused(
                from,
                fault.with_help("use the file that it was opened with; add names behind the others"),
            ));
        }
    }
    // One byte more than a ledger has tells that a file is none.
    let read = if change {
        Held::open(from, LEDGER_SIZE + 1).map(|(held, bytes)| (Some(held), bytes))
    } else {
        fs::read(from).map(|bytes| (None, bytes))
    };
    read.map_err(|error| match error.kind() {
        ErrorKind::NotFound => usage(
            from,
            &format!("there is no such file; `depot open {file} {from}` makes a ledger of the starting facts"),
        ),
        _ => Box::new(Reply::unread(from, &said(&error))),
    })
}

/// Carries out a request on a ledger, or says why it is not permitted.
pub fn request(context: &Context<'_>, file: &str) -> Answered<Reply> {
    let (depot, book, _) = context.load_book(file)?;
    let text = context.args.rest.last().map(String::as_str).unwrap_or_default();
    let request = crate::requests::request(&depot, text)
        .map_err(|fault| Box::new(Reply::faults("request", &[fault], text, context.paint_errors)))?;
    let (held, mut bytes) = ledger(context, file, (&depot, &book), true)?;
    let before = <[u8; LEDGER_SIZE]>::try_from(bytes.as_slice()).ok();
    let more = vec![("request", Json::Object(json_request(&depot, &request)))];
    match bytes::request(&book.characters, &mut bytes, &request.to_bytes()) {
        Ok(()) => {
            let reason = before.and_then(|mut copy| Reasons::new(&depot).carry_out(&mut copy, &request));
            let told = reason.map_or(String::new(), |reason| format!("  ({})", why::reason(&depot, &request, &reason)));
            let changed = before.is_some_and(|before| before[..] != bytes[..]);
            let already = if changed { "" } else { " It was so already." };
            let words = depot.request(&request);
            let Some(held) = held else {
                let out = format!("PERMITTED at the start: {words}{told}. Nothing is written.{already}\n");
                return Ok(Reply::new(YES, "permitted", out, more));
            };
            held.put(&bytes).map_err(|error| unwritten(&context.args.rest[1], &error))?;
            Ok(Reply::new(YES, "done", format!("DONE: {words}{told}.{already}\n"), more))
        }
        Err(refusal) => denied(context, (&depot, &request), &bytes, &refusal, more),
    }
}

/// A refused request, in words.
fn denied(
    context: &Context<'_>,
    (depot, request): (&Depot, &Request),
    ledger: &[u8],
    refusal: &Refusal,
    mut more: Vec<(&'static str, Json)>,
) -> Answered<Reply> {
    let Some(denial) = denial(depot, request, refusal) else {
        return Err(bad(context, ledger, refusal));
    };
    more.push(("refusal", Json::Number(refusal.number().into())));
    if let Refusal::UnmetTerm { rule, term } = *refusal {
        let line = depot.rules().nth(usize::from(rule) - 1).map_or(0, |(line, _)| line);
        more.extend([
            ("rule", Json::Number(rule.into())),
            ("line", Json::Number(line)),
            ("term", Json::Number(term.into())),
        ]);
    }
    more.push(("text", Json::text(&*denial)));
    let out =
        wrap(&format!("NOT PERMITTED: {denial}")).replacen("NOT PERMITTED", &context.paint.bad("NOT PERMITTED"), 1);
    Ok(Reply::new(NO, "not permitted", out, more))
}

/// The reply where the library takes neither the ledger nor the request for what it should be.
fn bad(context: &Context<'_>, ledger: &[u8], refusal: &Refusal) -> Box<Reply> {
    let from = context.args.rest.get(1).map_or("ledger", String::as_str);
    let (of, text) = match refusal {
        Refusal::BadLedger if ledger.len() != LEDGER_SIZE => {
            let length = if ledger.len() > LEDGER_SIZE { "more".into() } else { grouped(ledger.len()) };
            (from, format!("this is no ledger: it has {length} bytes, and a ledger has {}", grouped(LEDGER_SIZE)))
        }
        Refusal::BadLedger => {
            (from, "it has persons, crews or values that this depot lacks: another depot's ledger?".into())
        }
        Refusal::BadRequest => ("request", "it names what this book does not have".into()),
        other => (from, other.to_string()),
    };
    refused(of, Fault::of_file(text).refused(refusal.number()))
}

/// Why a request is not permitted, of refusals 13 and 15.
pub fn denial(depot: &Depot, request: &Request, refusal: &Refusal) -> Option<String> {
    let lead = depot.lead(request.role.0);
    match *refusal {
        Refusal::NoRule => {
            let kind = if subject_is_crew(request) { "crew" } else { "person" };
            let mut text = format!("no rule lets {lead} do this, to whatever {kind} (refusal 13).");
            let others = others(depot, request);
            if let Some((line, who, what)) = other_kind(depot, request) {
                let _ = write!(text, " Line {line} lets {lead} do it to {who}, and this is a {what}.");
            } else if others.is_empty() {
                text += " Nor has any other lead such a rule.";
            } else {
                let _ = write!(text, " There are rules for {}.", listed(others.into_iter(), ""));
            }
            Some(text)
        }
        Refusal::UnmetTerm { rule, term } => {
            let (line, found) = depot.rules().nth(usize::from(rule) - 1)?;
            let unmet = depot.term(found.terms.get(usize::from(term) - 1)?);
            let who = match subject(request) {
                Subject::Person(person) => depot.person(person),
                Subject::Crew(crew) => depot.the_crew(crew),
            };
            let more = Matching::new(depot).of(request).count() - 1;
            let more = match more {
                0 => String::new(),
                1 => " The other rule for it has a condition that does not hold, too.".into(),
                more => format!(" The {more} other rules for it each have a condition that does not hold, too."),
            };
            let place = if found.terms.len() == 1 { String::new() } else { format!(", condition {term}") };
            Some(format!(
                "line {line} (rule {rule}) lets {lead} do this{place} `if {unmet}`, and that does not hold of {who} \
                 (refusal 15).{more}"
            ))
        }
        _ => None,
    }
}

fn subject_is_crew(request: &Request) -> bool {
    matches!(subject(request), Subject::Crew(_))
}

/// The line of a rule that lets the same lead make the same change to persons and not to crews, or the other way; to whom,
/// and what the request's subject is.
fn other_kind(depot: &Depot, request: &Request) -> Option<(usize, &'static str, &'static str)> {
    let [op, lead, _, a, v] = request.to_bytes();
    let (other, who, what) = match op {
        1 | 2 => (op + 2, "crews", "person"),
        3 | 4 => (op - 2, "persons", "crew"),
        _ => return None,
    };
    let same = |rule: &Rule| (rule.op as u8, rule.lead, rule.a, rule.v) == (other, lead, a, v);
    depot.rules().find(|(_, rule)| same(rule)).map(|(line, _)| (line, who, what))
}

/// The leads that have a rule for the same change, each with its first line.
fn others(depot: &Depot, request: &Request) -> Vec<String> {
    let [op, _, _, a, v] = request.to_bytes();
    let mut leads: Vec<(u8, usize)> = Vec::new();
    for (line, rule) in depot.rules().filter(|(_, rule)| (rule.op as u8, rule.a, rule.v) == (op, a, v)) {
        if leads.iter().all(|(lead, _)| *lead != rule.lead) {
            leads.push((rule.lead, line));
        }
    }
    leads.into_iter().map(|(lead, line)| format!("{} (line {line})", depot.lead(lead))).collect()
}

/// Shows what persons hold.
pub fn show(context: &Context<'_>, file: &str) -> Answered<Reply> {
    let (depot, book, _) = context.load_book(file)?;
    let (_, bytes) = ledger(context, file, (&depot, &book), false)?;
    let names = &context.args.rest[if context.args.start { 1 } else { 2 }..];
    let Ok(ledger) = <[u8; LEDGER_SIZE]>::try_from(bytes.as_slice()) else {
        return Err(bad(context, &bytes, &Refusal::BadLedger));
    };
    let (mut out, mut shown) = (String::new(), Vec::new());
    for name in if names.is_empty() { &depot.persons } else { names } {
        let person = crate::requests::person(&depot, name)
            .map_err(|fault| Box::new(Reply::faults("depot show", &[fault], "", context.paint_errors)))?;
        let held =
            holdings(&depot, &book.characters, &ledger, person).map_err(|refusal| bad(context, &ledger, &refusal))?;
        out += &wrap(&format!("{name} {}.", held.words(&depot)));
        shown.push(Json::Object(vec![("person", Json::text(name)), ("holds", held.json(&depot))]));
    }
    Ok(Reply::new(YES, "shown", out, vec![("persons", Json::List(shown))]))
}
