//! Which moves of a plan matter: going back from what the question asks for, a move is kept when something behind it
//! needs the fact that it changes.
//!
//! The library's plan is a plan that works, and not a shortest one: it often has moves that nothing rests on. What is left
//! here is only a proposal; the caller asks `replay` whether it reaches, and else takes the whole plan.

use bixorgun::{Request, LEDGER_SIZE};

use crate::matching::Matching;
use crate::model::{members, Depot, Fact, Mode, Question, Rule};
use crate::state::{below, change, subject, value_ways, ways, State, Way};
use crate::story::Subject;

/// So often a plan is gone back over, at most.
const PASSES: usize = 20;

/// The moves that matter, in their order.
pub fn needed(
    depot: &Depot,
    rules: &Matching<'_>,
    question: &Question,
    start: &[u8; LEDGER_SIZE],
    plan: &[Request],
) -> Vec<Request> {
    let start = State(*start);
    let mut kept = plan.to_vec();
    // What was kept for a move that is left out afterwards is not needed either.
    for _ in 0..PASSES {
        let none = State([0; LEDGER_SIZE]);
        let back = Back { depot, rules, below: below(depot), start: &start, present: none.clone(), absent: none };
        let fewer = changing(&start, &back.over(question, &kept));
        if fewer.len() == kept.len() {
            break;
        }
        kept = fewer;
    }
    kept
}

/// The moves that change something: one that takes away what another added is idle where that other is left out.
fn changing(start: &State, plan: &[Request]) -> Vec<Request> {
    let mut state = start.clone();
    let mut changes = |request: &&Request| {
        let (fact, holds) = change(request);
        let other = state.has(fact) != holds;
        state.put(fact, holds);
        other
    };
    plan.iter().filter(|request| changes(request)).copied().collect()
}

struct Back<'d> {
    depot: &'d Depot,
    rules: &'d Matching<'d>,
    below: Vec<u32>,
    start: &'d State,
    /// The facts that have to hold at the time that has been come back to.
    present: State,
    /// The facts that must not hold then.
    absent: State,
}

impl Back<'_> {
    /// Goes back once over moves that each change something.
    fn over(mut self, question: &Question, plan: &[Request]) -> Vec<Request> {
        let mut state = self.start.clone();
        for request in plan {
            let (fact, holds) = change(request);
            state.put(fact, holds);
        }
        self.want(question, &state);
        let mut kept = Vec::new();
        for request in plan.iter().rev() {
            let (fact, holds) = change(request);
            state.put(fact, !holds);
            if self.needs(fact, holds) {
                self.put(fact, holds, false);
                self.permit(request, &state);
                kept.push(*request);
            }
        }
        kept.reverse();
        kept
    }

    fn needs(&self, fact: Fact, holds: bool) -> bool {
        if holds { &self.present } else { &self.absent }.has(fact)
    }

    fn put(&mut self, fact: Fact, holds: bool, needed: bool) {
        if holds { &mut self.present } else { &mut self.absent }.put(fact, needed);
    }

    fn need(&mut self, fact: Fact, holds: bool) {
        self.put(fact, holds, true);
    }

    /// How many moves a way may ask for: its facts that nothing needs yet and that were otherwise at the start.
    fn cost(&self, way: &Way) -> usize {
        let new = |(fact, holds): &&(Fact, bool)| self.start.has(*fact) != *holds && !self.needs(*fact, *holds);
        way.facts.iter().filter(new).count()
    }

    fn cheapest(&self, ways: Vec<Way>) -> Option<(usize, Way)> {
        ways.into_iter().map(|way| (self.cost(&way), way)).min_by_key(|(cost, _)| *cost)
    }

    fn take(&mut self, way: Way) {
        way.facts.into_iter().for_each(|(fact, holds)| self.need(fact, holds));
    }

    /// Needs what the question asks for, as the last ledger has it.
    fn want(&mut self, question: &Question, last: &State) {
        let person = question.person;
        let holder = Subject::Person(person);
        for (attribute, set) in question.wants.iter().copied() {
            for value in members(set.into()) {
                let direct = question.mode == Mode::Directly;
                let ways = value_ways(last, &self.below, holder, attribute, value..=value, direct);
                if let Some((_, way)) = self.cheapest(ways) {
                    self.take(way);
                }
            }
        }
        match question.mode {
            Mode::AtLeast => {}
            Mode::Directly => members(question.crews).for_each(|crew| self.need(Fact::PersonIn { person, crew }, true)),
            Mode::Exactly => self.want_exactly(question),
        }
    }

    /// Needs the crews to be just those asked for, and no other value of an attribute asked for to be held, by the person
    /// or by a crew of those.
    fn want_exactly(&mut self, question: &Question) {
        let person = question.person;
        let mut inherited = 0;
        for crew in 0..self.depot.crews.len() as u8 {
            let inside = question.crews >> crew & 1 == 1;
            self.need(Fact::PersonIn { person, crew }, inside);
            inherited |= if inside { self.below[usize::from(crew)] } else { 0 };
        }
        for (attribute, set) in question.wants.iter().copied() {
            let count = self.depot.attributes[usize::from(attribute)].values.len() as u8;
            for value in (0..count).filter(|value| set >> value & 1 == 0) {
                self.need(Fact::PersonHas { person, attribute, value }, false);
                members(inherited).for_each(|crew| self.need(Fact::CrewHas { crew, attribute, value }, false));
            }
        }
    }

    /// Needs what lets a request be made: the terms of the rule that asks for the least.
    fn permit(&mut self, request: &Request, state: &State) {
        let rules = self.rules;
        let asked = |rule: &Rule| self.asks(rule, request, state);
        let best = rules.of(request).filter_map(|matched| asked(matched.rule).map(|cost| (cost, matched.rule)));
        if let Some((_, rule)) = best.min_by_key(|(cost, _)| *cost) {
            for term in &rule.terms {
                if let Some((_, way)) = self.cheapest(ways(state, &self.below, subject(request), term)) {
                    self.take(way);
                }
            }
        }
    }

    /// What a rule's terms cost together; nothing where one does not hold.
    fn asks(&self, rule: &Rule, request: &Request, state: &State) -> Option<usize> {
        let costs = rule.terms.iter().map(|term| {
            let ways = ways(state, &self.below, subject(request), term);
            self.cheapest(ways).map(|(cost, _)| cost)
        });
        costs.sum()
    }
}
