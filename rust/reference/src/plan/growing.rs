//! The planner for books that only grow, with "not".
//!
//! "Plan and "no way" mean there what they mean elsewhere, over lists of these requests." In such a book nothing is
//! ever deleted, a fact has at most one rule that adds it, and the terms of a rule look at the direct facts of its own
//! subject: those it *asks for*, kinds 01 and 03, must be there before the request, those it *bars*, 81 and 83, must
//! not. So of all facts only the own ones of the query's person matter: the values the person directly holds and the
//! crews the person is directly in.
//!
//! Call a fact *needed* when it is not there at the start and the query names it, or the rule of a needed fact asks for
//! it. Every chain that leads to a ledger which meets the query adds every needed fact:
//!
//! * one that the query names is there at the end, and not at the start;
//! * one that the rule of a needed fact asks for is there when that fact is added, which the chain does, and not at the
//!   start.
//!
//! A chain adds a needed fact at one request only, because nothing is deleted, and by the fact's one rule. Hence there
//! is no way
//!
//! * when a needed fact has no rule of the query's roles;
//! * when the rule of a needed fact bars a fact of the start, which is there for ever;
//! * when the needed facts cannot be put in an order in which f *precedes* g wherever the rule of g asks for f, and
//!   wherever the rule of f bars g and g is another fact than f: in any chain that reaches, f is added before g, in the
//!   first case because it is there when g is added, in the second because g is added by that chain too, is there for
//!   ever after, and is not there when f is added. A fact whose rule asks for itself precedes itself.
//!
//! Otherwise such an order is a plan. When the turn of f comes, the ledger has of the person's own facts the start and
//! the needed facts before f. What the rule of f asks for is at the start or precedes f. What it bars is not at the
//! start; it is f itself, which is not yet there; or another needed fact, which f precedes; or not needed, and then
//! nobody adds it. So each request is permitted and adds a fact that was missing, each needed fact once, and at the end
//! all that the query names is there. This holds for every size, and a plan has at most as many requests as the person
//! has own facts.
//!
//! The order is found by going down: before a fact is put in, all that precede it are, and a fact that is met again on
//! the way down precedes itself.

use std::collections::BTreeMap;

use crate::book::{Attr, Book, Crew, Fact, Mode, Person, Rule, Term, Value, Way};
use crate::ledger::{crews, numbers, Request};

/// A plan that demand 3 allows, or nothing when there is no way, for an accepted book of mode 03.
#[must_use]
pub fn plan(book: &Book) -> Option<Vec<Request>> {
    let needed = Needed::new(book)?;
    let mut order = Order { needed: &needed, marks: BTreeMap::new(), plan: Vec::new() };
    for &fact in needed.rules.keys() {
        order.put(fact)?;
    }
    Some(order.plan)
}

/// The needed facts with their rules.
struct Needed<'b> {
    person: Person,
    rules: BTreeMap<Fact, &'b Rule>,
    /// For a fact the needed facts, others than itself, whose rules bar it.
    barring: BTreeMap<Fact, Vec<Fact>>,
}

impl<'b> Needed<'b> {
    /// Nothing where a needed fact has no rule, or its rule bars a fact of the start.
    fn new(book: &'b Book) -> Option<Self> {
        let person = book.query.person;
        let at_start = |fact: &Fact| book.facts.binary_search(fact).is_ok();
        // An accepted book has one rule at most for what is added.
        let usable = book.rules.iter().filter(|rule| rule.way == Way::Add && book.query.has_role(rule.role));
        let by_what: BTreeMap<_, _> = usable.map(|rule| (rule.what, rule)).collect();
        let mut needed = Needed { person, rules: BTreeMap::new(), barring: BTreeMap::new() };
        let mut open = named(book);
        while let Some(fact) = open.pop() {
            if at_start(&fact) || needed.rules.contains_key(&fact) {
                continue;
            }
            let rule = *by_what.get(&fact.what())?;
            if bars(rule, person).any(|barred| at_start(&barred)) {
                return None;
            }
            needed.rules.insert(fact, rule);
            open.extend(asks_for(rule, person));
        }
        for (&fact, rule) in &needed.rules {
            for barred in bars(rule, person).filter(|&barred| barred != fact) {
                needed.barring.entry(barred).or_default().push(fact);
            }
        }
        Some(needed)
    }

    /// The needed facts that precede one of them.
    fn preceding(&self, fact: Fact) -> impl Iterator<Item = Fact> + '_ {
        let asked = asks_for(self.rules[&fact], self.person).filter(|asked| self.rules.contains_key(asked));
        asked.chain(self.barring.get(&fact).into_iter().flatten().copied())
    }
}

/// The facts that the query names.
fn named(book: &Book) -> Vec<Fact> {
    let person = book.query.person;
    let values = |&(attr, set): &(Attr, u16)| {
        numbers(set.into()).map(move |value| Fact::PersonHolds(person, attr, Value(value)))
    };
    let listed = match book.query.mode {
        Mode::AtLeastDirectly { crews } => crews,
        Mode::AtLeast | Mode::Exactly { .. } => unreachable!("the query's mode is 03"),
    };
    book.query
        .named
        .iter()
        .flat_map(values)
        .chain(crews(listed).map(|crew: Crew| Fact::PersonIn(person, crew)))
        .collect()
}

/// The facts of a person that a rule asks for.
fn asks_for(rule: &Rule, person: Person) -> impl Iterator<Item = Fact> + '_ {
    rule.terms.iter().filter_map(move |&term| match term {
        Term::Holds(attr, value) => Some(Fact::PersonHolds(person, attr, value)),
        Term::In(crew) => Some(Fact::PersonIn(person, crew)),
        _ => None,
    })
}

/// The facts of a person that a rule bars.
fn bars(rule: &Rule, person: Person) -> impl Iterator<Item = Fact> + '_ {
    rule.terms.iter().filter_map(move |&term| match term {
        Term::NotHolds(attr, value) => Some(Fact::PersonHolds(person, attr, value)),
        Term::NotIn(crew) => Some(Fact::PersonIn(person, crew)),
        _ => None,
    })
}

/// How far the order has come with a fact.
#[derive(Clone, Copy, PartialEq, Eq)]
enum Mark {
    /// What precedes it is being put in.
    Down,
    /// It is put in.
    In,
}

struct Order<'n, 'b> {
    needed: &'n Needed<'b>,
    marks: BTreeMap<Fact, Mark>,
    plan: Vec<Request>,
}

impl Order<'_, '_> {
    /// Puts in a needed fact behind all that precede it; nothing when one of them precedes itself.
    fn put(&mut self, fact: Fact) -> Option<()> {
        match self.marks.insert(fact, Mark::Down) {
            Some(Mark::Down) => return None,
            Some(Mark::In) => {
                self.marks.insert(fact, Mark::In);
                return Some(());
            }
            None => {}
        }
        let needed = self.needed;
        for before in needed.preceding(fact) {
            self.put(before)?;
        }
        self.marks.insert(fact, Mark::In);
        self.plan.push(Request { role: needed.rules[&fact].role, way: Way::Add, fact });
        Some(())
    }
}
