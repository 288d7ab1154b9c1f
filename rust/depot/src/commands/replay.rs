//! `depot replay`: a list of requests judged from the starting facts.

use bixorgun::{bytes, Judgement, Refusal, Request, LEDGER_SIZE};

use super::ledger::denial;
use super::{surprise, Answered, Context};
use crate::json::Json;
use crate::load::read_bytes;
use crate::model::{Depot, Question};
use crate::reply::{Reply, NO, YES};
use crate::requests::list;
use crate::say::counted;
use crate::source::text_of;
use crate::wrap::wrap;

/// Judges a plan.
pub fn replay(context: &Context<'_>, file: &str) -> Answered<Reply> {
    let (depot, book, _) = context.load_book(file)?;
    let question = &depot.question.as_ref().expect("a book has a question").what;
    let from = &context.args.rest[1];
    let paint = context.paint_errors;
    let all = read_bytes(from).map_err(|trouble| Box::new(Reply::trouble(from, &trouble, paint)))?;
    let source = String::from_utf8_lossy(&all);
    let faults = |fault| Box::new(Reply::faults(from, &[fault], &source, paint));
    let requests = list(&depot, text_of(&all).map_err(faults)?).map_err(faults)?;
    let plan: Vec<u8> = requests.iter().flat_map(Request::to_bytes).collect();
    let judged = bytes::replay(&book.characters, &plan).map_err(|refusal| surprise(file, &refusal))?;
    let (person, goal) = (depot.person(question.person), depot.goal(question));
    let count = counted(requests.len(), "request");
    let (lets, do_not_let) = if requests.len() == 1 { ("lets", "does not let") } else { ("let", "do not let") };
    let more = |rest: Vec<(&'static str, Json)>| {
        [("question", Json::text(depot.question(question))), ("count", Json::Number(requests.len()))]
            .into_iter()
            .chain(rest)
    };
    Ok(match judged {
        Judgement::Reaches => {
            let out = format!("REACHES: {count}, each permitted in its turn, {lets} {person} {goal}.");
            Reply::new(YES, "reaches", wrap(&out), more(Vec::new()).collect())
        }
        Judgement::EndsShort => {
            let out = format!("ENDS SHORT: {count}, each permitted in its turn, {do_not_let} {person} {goal}.");
            Reply::new(NO, "ends short", wrap(&out), more(Vec::new()).collect())
        }
        Judgement::Stops(at) => {
            let request = requests[at - 1];
            let why = stopped(&depot, question, &book.characters, &requests[..at]);
            let out = format!("STOPS at request {at} of {}, {}: {why}", requests.len(), depot.request(&request));
            let rest = vec![("stops", Json::Number(at)), ("text", Json::text(&*why))];
            Reply::new(NO, "stops", wrap(&out), more(rest).collect())
        }
    })
}

/// Why the last of some requests is not made: the others are permitted, each in its turn.
fn stopped(depot: &Depot, question: &Question, book: &[u8], requests: &[Request]) -> String {
    let Some((last, before)) = requests.split_last() else { return String::new() };
    if question.leads.checked_shr(last.role.0.into()).unwrap_or(0) & 1 == 0 {
        return format!("the question does not name {} among its leads.", depot.lead(last.role.0));
    }
    let mut ledger = [0; LEDGER_SIZE];
    let opened = bytes::open(book, &mut ledger);
    let made = before.iter().try_for_each(|request| bytes::request(book, &mut ledger, &request.to_bytes()));
    let refused = opened.and(made).and_then(|()| bytes::request(book, &mut ledger, &last.to_bytes()));
    match refused {
        Err(Refusal::BadRequest) => "it names what this book does not have (refusal 12).".into(),
        Err(refusal) => denial(depot, last, &refusal).unwrap_or_else(|| refusal.to_string()),
        Ok(()) => "the library's request and its replay differ.".into(),
    }
}
