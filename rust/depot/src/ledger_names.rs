//! The names that a ledger was opened with, in a file beside it. A ledger has numbers alone: of a file whose names have
//! come to stand elsewhere it would tell one person's rights of another.

use crate::model::{Attribute, Depot};
use crate::names::{self, Names};
use crate::source::lines;

/// The file beside a ledger.
pub fn file(ledger: &str) -> String {
    format!("{ledger}.names")
}

/// What differs between the names that a ledger was opened with and those of a depot; nothing where names were only added
/// behind the others.
pub fn difference(written: &str, depot: &Depot) -> Option<String> {
    let mut faults = Vec::new();
    let before = names::read(&lines(written, &mut faults), &mut faults);
    if !faults.is_empty() {
        return Some("the names beside it can't be read".into());
    }
    let Names { persons, crews, attributes, .. } = &before;
    let now = &depot.attributes;
    let own = |attributes: &[Attribute]| attributes.iter().map(|attribute| attribute.name.clone()).collect::<Vec<_>>();
    let values = || attributes.iter().zip(now).find_map(|(was, is)| moved("value", &was.values, &is.values));
    moved("person", persons, &depot.persons)
        .or_else(|| moved("crew", crews, &depot.crews))
        .or_else(|| moved("attribute", &own(attributes), &own(now)))
        .or_else(values)
}

/// The first name that has another number now, or none.
fn moved(what: &str, before: &[String], now: &[String]) -> Option<String> {
    let at = before.iter().enumerate().find(|(at, name)| now.get(*at) != Some(name))?;
    let is = now.get(at.0).map_or("there is none".into(), |name| format!("it is `{name}`"));
    Some(format!("{what} {} was `{}`, and now {is}", at.0, at.1))
}
