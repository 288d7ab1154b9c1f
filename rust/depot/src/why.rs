//! Why a move is permitted, in words.

use bixorgun::{Act, Request};

use crate::model::{Depot, Kind};
use crate::story::{Ground, Reason, Rest};

/// The line of the rule and what its terms rest on: `line 11: Ana has grade trainee, through returns`, or
/// `line 10, no condition`.
pub fn reason(depot: &Depot, request: &Request, reason: &Reason) -> String {
    if reason.grounds.is_empty() {
        return format!("line {}, no condition", reason.line);
    }
    let mut grounds: Vec<String> = Vec::new();
    for ground in reason.grounds.iter().map(|ground| one(depot, ground)) {
        if !grounds.contains(&ground) {
            grounds.push(ground);
        }
    }
    format!("line {}: {} {}", reason.line, subject(depot, request), grounds.join("; "))
}

/// Whom a request changes: `Ana`, `crew returns`.
fn subject(depot: &Depot, request: &Request) -> String {
    match request.act {
        Act::AddToPerson(person, ..) | Act::DeleteFromPerson(person, ..) => depot.person(person.0),
        Act::Assign(person, _) | Act::Remove(person, _) => depot.person(person.0),
        Act::AddToCrew(crew, ..) | Act::DeleteFromCrew(crew, ..) => depot.the_crew(crew.0),
    }
}

/// What one term rests on: `directly has grade sorter`.
fn one(depot: &Depot, ground: &Ground) -> String {
    let term = ground.term;
    let directly = if matches!(term.kind, Kind::HasDirectly | Kind::InDirectly) { "directly " } else { "" };
    match ground.rest {
        Rest::Value(value) => format!("{directly}has {}", holding(depot, ground, value)),
        Rest::ValueThrough { value, crew } => {
            format!("has {}, through {}", holding(depot, ground, value), depot.crew(crew))
        }
        Rest::Member => format!("is {directly}in {}", depot.crew(term.a)),
        Rest::MemberThrough(senior) => {
            format!("is in {}, through {} (above it)", depot.crew(term.a), depot.crew(senior))
        }
        Rest::Lacking if term.kind.names_crew() => format!("is not directly in {}", depot.crew(term.a)),
        Rest::Lacking => format!("does not directly have {}", depot.value(term.a, term.v)),
    }
}

/// The value held: `grade sorter`, or `grade clerk, which is sorter or higher` where the term asks for a lower one.
fn holding(depot: &Depot, ground: &Ground, value: u8) -> String {
    let held = depot.value(ground.term.a, value);
    if value == ground.term.v {
        return held;
    }
    format!("{held}, which is {} or higher", depot.value_alone(ground.term.a, ground.term.v))
}
