//! `depot test`: the expectations of a file.

use std::fmt::Write as _;

use bixorgun::Book;

use super::{refused, surprise, Answered, Context};
use crate::fault::Fault;
use crate::json::Json;
use crate::load::judged;
use crate::model::{Depot, Expectation, Said};
use crate::reply::{Reply, NO, YES};

/// Asks each question that a file expects an answer to.
pub fn test(context: &Context<'_>, file: &str) -> Answered<Reply> {
    let depot = context.load(file, false)?.depot;
    if depot.expectations.is_empty() {
        let fault = Fault::of_file("the file has no line `expect`, so there is nothing to test");
        return Err(refused(
            file,
            fault.with_help("write, say, `expect no way: may PERSON ever have ATTRIBUTE VALUE by LEAD..`"),
        ));
    }
    let (mut out, mut told, mut missed) = (format!("{file}\n"), Vec::new(), 0);
    for said in &depot.expectations {
        let found = found(file, &depot, said)?;
        let met = found == said.what.yes;
        missed += usize::from(!met);
        let (wanted, question) = (expected(said.what.yes), depot.question(&said.what.question));
        let found = expected(found);
        let mark = if met { context.paint.good("passed") } else { context.paint.bad("FAILED") };
        let but = if met { String::new() } else { format!("\n          the answer is {found}") };
        let _ = writeln!(out, "  {mark}  line {}: expect {wanted}: {question}{but}", said.line);
        told.push(Json::Object(vec![
            ("line", Json::Number(said.line)),
            ("expected", Json::text(wanted)),
            ("question", Json::text(question)),
            ("found", Json::text(found)),
            ("passed", Json::Bool(met)),
        ]));
    }
    let _ = writeln!(out, "{} passed, {missed} failed", depot.expectations.len() - missed);
    let more = vec![
        ("passed", Json::Number(depot.expectations.len() - missed)),
        ("failed", Json::Number(missed)),
        ("expectations", Json::List(told)),
    ];
    Ok(if missed == 0 { Reply::new(YES, "passed", out, more) } else { Reply::new(NO, "failed", out, more) })
}

fn expected(yes: bool) -> &'static str {
    if yes {
        "yes"
    } else {
        "no way"
    }
}

/// The library's answer: whether there is a plan.
fn found(file: &str, depot: &Depot, said: &Said<Expectation>) -> Answered<bool> {
    let question = Said { line: said.line, what: said.what.question.clone() };
    let book = judged(depot, &question).map_err(|fault| refused(file, fault))?;
    let answer = Book::new(&book.characters).plan().map_err(|refusal| surprise(file, &refusal))?;
    Ok(!answer.is_no_way())
}
