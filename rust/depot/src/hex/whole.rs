//! What only the whole book shows, where every line is good: refusals 16 and 17, at the line of the query.

use super::{Bad, Refused};
use crate::model::{Depot, Kind, Mode, Op, Rule, Term};

/// 16 or 17, where one falls.
pub(super) fn refusal(depot: &Depot) -> Option<Refused> {
    beyond(depot).or_else(|| wrong_mode(depot))
}

/// 16 or 17, where one falls on the page.
pub(super) fn page_refusal(depot: &Depot) -> Option<Refused> {
    beyond(depot).or_else(|| no_page(depot)).or_else(|| wrong_mode(depot))
}

/// The first term that says "not", with its line.
fn first_not(depot: &Depot) -> Option<(usize, Term)> {
    depot.rules().find_map(|(line, rule)| Some((line, *rule.terms.iter().find(|term| term.kind.is_not())?)))
}

/// The line of the query, which each book has that was read to its end.
fn query_line(depot: &Depot) -> usize {
    depot.question.as_ref().map_or(0, |said| said.line)
}

/// 16: the first rule that a book with a "not" may not have.
fn beyond(depot: &Depot) -> Option<Refused> {
    let (not_line, not) = first_not(depot)?;
    let rules: Vec<(usize, &Rule)> = depot.rules().collect();
    let (broken, limit) = rules.iter().enumerate().find_map(|(place, (line, rule))| {
        not_growing(*line, rule).or_else(|| not_direct(*line, rule)).or_else(|| second(&rules[..place], *line, rule))
    })?;
    let text = format!("{broken}, but a book with a \"not\" (line {not_line}: term {}) {limit}", bytes(&not));
    let help =
        "a book with a \"not\" has ops 01, 03 and 05, terms 01, 03, 81 and 83, and one rule for each op, a and v";
    Some(Refused::whole(16, query_line(depot), text, help))
}

/// What a rule breaks, and the limit that it breaks.
type Broken = (String, &'static str);

fn not_growing(line: usize, rule: &Rule) -> Option<Broken> {
    let does = match rule.op {
        Op::DeleteFromPerson | Op::DeleteFromCrew => "deletes",
        Op::Remove => "removes",
        Op::AddToPerson | Op::AddToCrew | Op::Assign => return None,
    };
    Some((format!("the rule of line {line} {does} (op {:02X})", rule.op as u8), "only grows"))
}

fn not_direct(line: usize, rule: &Rule) -> Option<Broken> {
    let effective = |term: &&Term| matches!(term.kind, Kind::Has | Kind::In | Kind::HasOrHigher);
    let term = rule.terms.iter().find(effective)?;
    let broken = format!("the rule of line {line} asks what is effective (term {})", bytes(term));
    Some((broken, "asks what is direct alone"))
}

/// A second rule for an op, a and v, whatever the roles.
fn second(before: &[(usize, &Rule)], line: usize, rule: &Rule) -> Option<Broken> {
    let key = |rule: &Rule| (rule.op, rule.a, rule.v);
    let (first, _) = before.iter().find(|(_, other)| key(other) == key(rule))?;
    let (op, a, v) = (rule.op as u8, rule.a, rule.v);
    let broken = format!("lines {first} and {line} are two rules for op {op:02X}, a {a:02X} and v {v:02X}");
    Some((broken, "has one at most"))
}

/// A term as the book writes it.
fn bytes(term: &Term) -> String {
    format!("{:02X}{:02X}{:02X}", term.kind as u8, term.a, term.v)
}

/// 17: mode 03 without a "not", or another mode with one.
fn wrong_mode(depot: &Depot) -> Option<Refused> {
    let question = depot.question.as_ref()?;
    let mode = question.what.mode;
    let (text, help) = match first_not(depot) {
        None if mode == Mode::Directly => {
            ("mode 03, but no rule of this book has a \"not\" (term 81 or 83)".to_string(), "ask in mode 01 or 02")
        }
        Some((line, not)) if mode != Mode::Directly => {
            let not = bytes(&not);
            let text =
                format!("mode {:02X}, but a book with a \"not\" (line {line}: term {not}) is asked in 03", mode as u8);
            (text, "ask in mode 03")
        }
        _ => return None,
    };
    Some(Bad::bytes(17, 1, 1, text).help(help).on(question.line))
}

/// 17 of the page alone: a book with a "not", whatever its mode.
fn no_page(depot: &Depot) -> Option<Refused> {
    let (line, not) = first_not(depot)?;
    let text = format!("a book with a \"not\" (line {line}: term {}) has no page", bytes(&not));
    Some(Refused::whole(17, query_line(depot), text, "ask `depot plan` for each person"))
}
