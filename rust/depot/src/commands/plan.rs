//! `depot plan`: the question answered.

use std::fmt::Write as _;

use bixorgun::{Answer, Book, Judgement, Request, Value};

use super::{surprise, Answered, Context};
use crate::compile::hex;
use crate::fault::width;
use crate::holdings::holdings;
use crate::json::Json;
use crate::model::{Depot, Question};
use crate::paint::Paint;
use crate::remarks::idle_leads;
use crate::reply::{Reply, NO, YES};
use crate::say::counted;
use crate::story::{Move, Story, Telling};
use crate::wrap::wrap;
use crate::{timeline, why};

/// Behind moves of at most so many cells their reasons stand in one column.
const WIDEST: usize = 60;

/// Answers the question of a file.
pub fn plan(context: &Context<'_>, file: &str) -> Answered<Reply> {
    let (depot, book, _) = context.load_book(file)?;
    let question = &depot.question.as_ref().expect("a book has a question").what;
    let surprise = |refusal: bixorgun::Refusal| surprise(file, &refusal);
    let mut more = vec![
        ("question", Json::text(depot.question(question))),
        ("book", Json::text(String::from_utf8_lossy(&book.characters))),
    ];
    let plan = match Book::new(&book.characters).plan().map_err(surprise)? {
        Answer::NoWay => {
            let remarks = idle_leads(&depot, question.leads);
            let noted: String = remarks.iter().map(|remark| wrap(&format!("Is this meant? {remark}."))).collect();
            more.push(("remarks", Json::list(remarks.into_iter().map(Json::Text))));
            let mut reply = Reply::new(NO, "no way", no_way(&depot, question, context.paint) + &noted, more);
            if context.args.svg.is_some() || context.args.out.is_some() {
                reply.err = format!("{file}: there is no plan, so none is written\n");
            }
            return Ok(reply);
        }
        Answer::Plan(plan) => plan,
    };
    let telling = Telling::new(&depot, &book.characters).map_err(surprise)?;
    let story = telling.tell(&book.characters, question, plan.as_slice(), context.args.all).map_err(surprise)?;
    let held = holdings(&depot, &book.characters, &story.last, question.person).map_err(surprise)?;
    let mut out = yes(&depot, question, &story, context.paint);
    let then = format!("Then {} {}. {}", depot.person(question.person), held.words(&depot), replayed(story.replay));
    let _ = write!(out, "\n{}", wrap(&then));
    if let Some(svg) = &context.args.svg {
        context.write(svg, timeline::svg(&depot, &story, &title(&depot, question, &story)).as_bytes())?;
    }
    if let Some(to) = &context.args.out {
        context.write(to, moves_file(&depot, question, &story).as_bytes())?;
    }
    more.extend([
        ("moves", Json::list(story.moves.iter().map(|step| json_move(&depot, step)))),
        ("plan", Json::list(plan.iter().map(|request| Json::text(request.to_string())))),
        ("holds", held.json(&depot)),
        ("replay", Json::text(judged(story.replay))),
    ]);
    Ok(Reply::new(YES, "plan", out, more))
}

fn no_way(depot: &Depot, question: &Question, paint: Paint) -> String {
    let (person, goal) = (depot.person(question.person), depot.goal(question));
    let why = match question.leads {
        0 => format!("Nobody acts, and the starting facts alone do not let {person} {goal}."),
        leads => format!(
            "By {} no chain of requests, of whatever length and on any persons and crews, ever lets {person} {goal}.",
            depot.leads_of(leads)
        ),
    };
    wrap(&format!("NO WAY. {why}")).replacen("NO WAY", &paint.bad("NO WAY"), 1)
}

/// The answer's first line, and the moves.
fn yes(depot: &Depot, question: &Question, story: &Story, paint: Paint) -> String {
    let (person, goal) = (depot.person(question.person), depot.goal(question));
    let acting = story.moves.iter().fold(0u16, |set, step| set | 1 << (step.request.role.0 & 15));
    let first = match story.moves.len() {
        0 => format!("YES: no move is needed for {person} to {goal}."),
        count => {
            format!("YES: {person} can come to {goal}, in {} by {}.", counted(count, "move"), depot.leads_of(acting))
        }
    };
    let mut out = wrap(&first).replacen("YES", &paint.good("YES"), 1);
    let told: Vec<String> = story.moves.iter().map(|step| depot.request(&step.request)).collect();
    let column = told.iter().map(|text| width(text)).filter(|cells| *cells <= WIDEST).max().unwrap_or(0);
    let digits = told.len().to_string().len().max(2);
    for (at, (step, text)) in story.moves.iter().zip(&told).enumerate() {
        let blanks = " ".repeat(column.saturating_sub(width(text)));
        let reason = step.reason.as_ref().map_or(String::new(), |reason| why::reason(depot, &step.request, reason));
        let line = format!("{:>digits$}. {text}{blanks}  {}", at + 1, paint.faint(&reason));
        let _ = writeln!(out, "{}{}", if at == 0 { "\n " } else { " " }, line.trim_end());
    }
    if story.whole > story.moves.len() {
        let whole = story.whole;
        let rest = match story.moves.len() {
            0 => format!("The library's plan has {}; `--all` tells them.", counted(whole, "move")),
            _ => format!(
                "Of the {whole} moves of the library's plan these are needed: replayed alone, they reach. `--all` tells all \
                 {whole}."
            ),
        };
        let _ = write!(out, "\n{}", wrap(&rest));
    }
    out
}

fn replayed(judgement: Judgement) -> &'static str {
    match judgement {
        Judgement::Reaches => "Replayed from the starting facts: reaches.",
        _ => "Replayed from the starting facts: DOES NOT REACH. Do not rely on this plan.",
    }
}

fn judged(judgement: Judgement) -> &'static str {
    match judgement {
        Judgement::Reaches => "reaches",
        Judgement::Stops(_) => "stops",
        Judgement::EndsShort => "ends short",
    }
}

/// The picture's title.
pub fn title(depot: &Depot, question: &Question, story: &Story) -> String {
    let (person, goal) = (depot.person(question.person), depot.goal(question));
    format!("{person} can come to {goal}: {}", counted(story.moves.len(), "move"))
}

/// The moves as `replay` takes them.
fn moves_file(depot: &Depot, question: &Question, story: &Story) -> String {
    let mut text = format!("# {}\n", depot.question(question));
    for step in &story.moves {
        let reason = step.reason.as_ref().map_or(String::new(), |reason| why::reason(depot, &step.request, reason));
        let _ = writeln!(text, "{}  # {reason}", depot.request(&step.request));
    }
    text
}

/// A request for machines.
pub fn json_request(depot: &Depot, request: &Request) -> Vec<(&'static str, Json)> {
    use bixorgun::Act::*;
    let op = match request.act {
        AddToPerson(..) | AddToCrew(..) => "add",
        DeleteFromPerson(..) | DeleteFromCrew(..) => "delete",
        Assign(..) => "assign",
        Remove(..) => "remove",
    };
    let value = |attribute: u8, Value(value): Value| {
        [
            ("attribute", Json::text(depot.attribute(attribute))),
            ("value", Json::text(depot.value_alone(attribute, value))),
        ]
    };
    let mut members = vec![("lead", Json::text(depot.lead(request.role.0))), ("op", Json::text(op))];
    match request.act {
        AddToPerson(person, a, v) | DeleteFromPerson(person, a, v) => {
            members.push(("person", Json::text(depot.person(person.0))));
            members.extend(value(a.0, v));
        }
        AddToCrew(crew, a, v) | DeleteFromCrew(crew, a, v) => {
            members.push(("crew", Json::text(depot.crew(crew.0))));
            members.extend(value(a.0, v));
        }
        Assign(person, crew) | Remove(person, crew) => {
            members.push(("person", Json::text(depot.person(person.0))));
            members.push(("crew", Json::text(depot.crew(crew.0))));
        }
    }
    members.extend([("words", Json::text(depot.request(request))), ("bytes", Json::text(hex(&request.to_bytes())))]);
    members
}

fn json_move(depot: &Depot, step: &Move) -> Json {
    let mut members = json_request(depot, &step.request);
    if let Some(reason) = &step.reason {
        members.extend([
            ("rule", Json::Number(reason.rule)),
            ("line", Json::Number(reason.line)),
            ("because", Json::text(why::reason(depot, &step.request, reason))),
        ]);
    }
    Json::Object(members)
}
