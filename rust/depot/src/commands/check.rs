//! `depot check`: a file judged, and counted.

use super::{Answered, Context};
use crate::json::Json;
use crate::model::Statement;
use crate::remarks::remarks;
use crate::reply::{Reply, YES};
use crate::say::{counted, listed};
use crate::wrap::wrap;

/// Judges a file.
pub fn check(context: &Context<'_>, file: &str) -> Answered<Reply> {
    let (depot, book, _) = context.load_book(file)?;
    let statements = |wanted: fn(&Statement) -> bool| depot.statements.iter().filter(|said| wanted(&said.what)).count();
    let values: usize = depot.attributes.iter().map(|attribute| attribute.values.len()).sum();
    let counts = [
        ("persons", "person", depot.persons.len()),
        ("crews", "crew", depot.crews.len()),
        ("attributes", "attribute", depot.attributes.len()),
        ("values", "value", values),
        ("leads", "lead", depot.leads.len()),
        ("edges", "edge between crews", statements(|statement| matches!(statement, Statement::Over { .. }))),
        ("rules", "rule", statements(|statement| matches!(statement, Statement::Rule(_)))),
        ("facts", "starting fact", statements(|statement| matches!(statement, Statement::Fact(_)))),
        ("expectations", "expectation", depot.expectations.len()),
    ];
    let words = counts.iter().filter(|(_, _, count)| *count > 0).map(|(_, what, count)| match *what {
        "edge between crews" => format!("{} between crews", counted(*count, "edge")),
        what => counted(*count, what),
    });
    let characters = book.characters.len();
    let text = format!("{file}: good. {}. Its book has {characters} of 65,536 characters.", listed(words, "nothing"));
    let mut more: Vec<(&'static str, Json)> =
        counts.iter().map(|(key, _, count)| (*key, Json::Number(*count))).collect();
    more.push(("characters", Json::Number(characters)));
    let remarks = remarks(&depot);
    let noted: String = remarks.iter().map(|remark| wrap(&format!("Is this meant? {remark}."))).collect();
    more.push(("remarks", Json::list(remarks.into_iter().map(Json::Text))));
    Ok(Reply::new(YES, "good", wrap(&text) + &noted, more))
}
