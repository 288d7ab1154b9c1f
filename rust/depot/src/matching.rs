//! The rules that match a request: those that have its op, lead, a and v.

use std::collections::HashMap;

use bixorgun::Request;

use crate::model::{Depot, Rule};

/// A rule that matches.
#[derive(Clone, Copy, Debug)]
pub struct Matched<'d> {
    /// Its place among all rules, counted from 1.
    pub place: usize,
    /// Its line in the file.
    pub line: usize,
    /// The rule.
    pub rule: &'d Rule,
}

/// A depot's rules, by what they match.
pub struct Matching<'d>(HashMap<[u8; 4], Vec<Matched<'d>>>);

impl<'d> Matching<'d> {
    /// The rules of a depot.
    pub fn new(depot: &'d Depot) -> Matching<'d> {
        let mut rules: HashMap<[u8; 4], Vec<Matched<'d>>> = HashMap::new();
        for (at, (line, rule)) in depot.rules().enumerate() {
            let key = [rule.op as u8, rule.lead, rule.a, rule.v];
            rules.entry(key).or_default().push(Matched { place: at + 1, line, rule });
        }
        Matching(rules)
    }

    /// The rules that match a request, in their order.
    pub fn of(&self, request: &Request) -> impl Iterator<Item = &Matched<'d>> {
        let [op, lead, _, a, v] = request.to_bytes();
        self.0.get(&[op, lead, a, v]).into_iter().flatten()
    }
}
