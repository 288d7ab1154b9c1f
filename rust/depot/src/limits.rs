//! The limits of a depot with "not": refusals 16 and 17, each fault at the word that breaks a limit.

use crate::fault::Fault;
use crate::model::{Depot, Kind, Mode, Op, Question, Rule};
use crate::notation::RulePlace;

/// Where the words stand that a limit may forbid.
pub struct Places {
    /// Of each rule that was read.
    pub rules: Vec<RulePlace>,
    /// Line, and column and width of the word behind `ever`, of each question.
    pub asked: Vec<(usize, (usize, usize))>,
    /// Whether the file says `not` somewhere, perhaps in a rule that could not be read.
    pub not_said: bool,
}

/// Judges the limits.
pub fn judge(depot: &Depot, places: &Places, faults: &mut Vec<Fault>) {
    let not = depot.has_not();
    if not {
        let rules: Vec<(&Rule, &RulePlace)> = depot.rules().map(|(_, rule)| rule).zip(&places.rules).collect();
        for (at, (rule, place)) in rules.iter().enumerate() {
            grows(rule, place, faults);
            let same = rules[..at].iter().find(|(r, _)| (r.op, r.a, r.v) == (rule.op, rule.a, rule.v));
            if let Some((_, first)) = same {
                let text = format!("line {} has a rule for this: with `not` there is one for each change", first.line);
                faults.push(at_place(place.line, place.verb, text).refused(16));
            }
        }
    }
    let own = depot.question.iter().map(|said| (said.line, &said.what));
    let expected = depot.expectations.iter().map(|said| (said.line, &said.what.question));
    for (line, question) in own.chain(expected) {
        let place = places.asked.iter().find(|(at, _)| *at == line).map_or((0, 0), |(_, place)| *place);
        faults.extend(mode(question, not, places.not_said).map(|text| at_place(line, place, text).refused(17)));
    }
}

fn at_place(line: usize, (column, width): (usize, usize), text: impl Into<String>) -> Fault {
    Fault::at(line, column, width, text)
}

/// In a depot with "not" a rule only adds, and asks only for what is held directly.
fn grows(rule: &Rule, place: &RulePlace, faults: &mut Vec<Fault>) {
    if !matches!(rule.op, Op::AddToPerson | Op::AddToCrew | Op::Assign) {
        let text = "a depot with `not` only grows: nothing is deleted, nobody removed";
        faults.push(at_place(place.line, place.verb, text).refused(16));
    }
    for (term, where_) in rule.terms.iter().zip(&place.terms) {
        if matches!(term.kind, Kind::Has | Kind::In | Kind::HasOrHigher) {
            let text = "in a depot with `not` each condition says `directly`";
            faults.push(at_place(place.line, *where_, text).refused(16));
        }
    }
}

/// A depot with "not" is asked `directly`, and no other.
fn mode(question: &Question, not: bool, not_said: bool) -> Option<&'static str> {
    match (question.mode == Mode::Directly, not) {
        (false, true) => Some("a depot with `not` is asked `may PERSON ever directly ..`"),
        (true, false) if !not_said => {
            Some("`may PERSON ever directly ..` is for a depot with a `not`: leave out `directly`")
        }
        _ => None,
    }
}
