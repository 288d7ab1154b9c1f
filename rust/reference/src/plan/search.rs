//! Breadth first over every ledger that can be reached, all persons and crews: for small depots.
//!
//! "no finite list of requests, on any persons and crews, made by the query's roles and each permitted when its turn
//! comes, leads from the book's starting facts to a ledger that meets the query": here every such ledger is looked at.

use std::collections::VecDeque;

use crate::book::{Book, Crew, Fact, Person, Role, Rule, Way, ROLES};
use crate::ledger::{Depot, Ledger, Request};

/// The most facts of a depot, persons all counted, that are searched.
pub const MOST_FACTS: usize = 20;

/// The depot has more than [`MOST_FACTS`] facts.
#[derive(Clone, Copy, Debug, PartialEq, Eq)]
pub struct TooLarge;

/// A shortest chain to a ledger that meets the query, or nothing when there is none.
///
/// # Errors
///
/// [`TooLarge`], when the ledgers are too many.
pub fn shortest(book: &Book) -> Result<Option<Vec<Request>>, TooLarge> {
    let facts = all_facts(book);
    if facts.len() > MOST_FACTS {
        return Err(TooLarge);
    }
    let depot = Depot::new(book);
    let requests = requests(book, &facts);
    let start = facts
        .iter()
        .enumerate()
        .filter(|(_, fact)| book.facts.binary_search(fact).is_ok())
        .fold(0, |set, (n, _)| set | 1 << n);

    // How each ledger was first reached: by which request, from which ledger.
    let mut came: Vec<Option<(u32, Option<Request>)>> = vec![None; 1 << facts.len()];
    came[start as usize] = Some((start, None));
    let mut queue = VecDeque::from([start]);
    while let Some(set) = queue.pop_front() {
        let ledger = expand(&facts, set);
        if depot.met(&ledger) {
            return Ok(Some(way_to(&came, set)));
        }
        for &(bit, request) in &requests {
            let next = match request.way {
                Way::Add => set | bit,
                Way::Delete => set & !bit,
            };
            if came[next as usize].is_none() && depot.permits(&ledger, &request) {
                came[next as usize] = Some((set, Some(request)));
                queue.push_back(next);
            }
        }
    }
    Ok(None)
}

/// The number of facts of a depot, of all persons.
#[must_use]
pub fn size(book: &Book) -> usize {
    all_facts(book).len()
}

fn all_facts(book: &Book) -> Vec<Fact> {
    let sizes = &book.sizes;
    let persons = || (0..sizes.persons).map(Person);
    let crews = || (0..sizes.crews).map(Crew);
    let mut facts = Vec::new();
    for person in persons() {
        facts.extend(sizes.pairs().map(|(a, v)| Fact::PersonHolds(person, a, v)));
        facts.extend(crews().map(|crew| Fact::PersonIn(person, crew)));
    }
    for crew in crews() {
        facts.extend(sizes.pairs().map(|(a, v)| Fact::CrewHolds(crew, a, v)));
    }
    facts
}

/// Every request that some rule could permit to one of the query's roles, with its fact's bit.
fn requests(book: &Book, facts: &[Fact]) -> Vec<(u32, Request)> {
    let mut requests = Vec::new();
    for (n, &fact) in facts.iter().enumerate() {
        for role in (0..ROLES).map(Role).filter(|&role| book.query.has_role(role)) {
            for way in [Way::Add, Way::Delete] {
                let fits = |rule: &Rule| (rule.role, rule.way, rule.what) == (role, way, fact.what());
                if book.rules.iter().any(fits) {
                    requests.push((1 << n, Request { role, way, fact }));
                }
            }
        }
    }
    requests
}

fn expand(facts: &[Fact], set: u32) -> Ledger {
    let mut ledger = Ledger::default();
    for (n, &fact) in facts.iter().enumerate() {
        if set >> n & 1 == 1 {
            ledger.set(fact, true);
        }
    }
    ledger
}

fn way_to(came: &[Option<(u32, Option<Request>)>], mut set: u32) -> Vec<Request> {
    let mut plan = Vec::new();
    while let Some((before, Some(request))) = came[set as usize] {
        plan.push(request);
        set = before;
    }
    plan.reverse();
    plan
}
