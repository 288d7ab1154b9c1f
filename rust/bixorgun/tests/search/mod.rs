//! Every ledger that chains of requests reach in a small depot, by open, request and show alone.
//!
//! A ledger is a number here, a state: fact i of the depot has the weight 2^i.

use bixorgun::{bytes, Attr, LEDGER_SIZE, PAGE_SIZE};

use crate::depots::{is_adding, Depot, Fact};
use crate::trials::Ledger;

/// A request that a rule names, and the number of its fact.
struct Move {
    request: [u8; 5],
    fact: usize,
}

/// A breadth-first search under way.
struct Search<'d> {
    depot: &'d Depot,
    moves: Vec<Move>,
    seen: Vec<bool>,
    queue: Vec<usize>,
}

/// What is true of some ledger that a chain of requests leads to from the starting facts.
pub struct Reached {
    /// It meets the query.
    pub query: bool,
    /// A person effectively holds a value in it: bit v of two bytes at 16·p + 2·a, big-endian.
    pub held: [u8; PAGE_SIZE],
    /// How many such ledgers there are.
    pub ledgers: usize,
}

impl Default for Reached {
    fn default() -> Self {
        Reached { query: false, held: [0; PAGE_SIZE], ledgers: 0 }
    }
}

impl Reached {
    /// Notes a ledger, by what show gives of each person. One who was seen with every value is shown no more, but for
    /// the query: nothing is left to note. A book with a "not" term has no page, and the query alone is judged.
    pub fn note(&mut self, depot: &Depot, ledger: &Ledger) {
        self.ledgers += 1;
        let full = depot.sizes.full_row();
        for (person, row) in (0..depot.sizes.persons).zip(self.held.chunks_exact_mut(16)) {
            let is_asked = person == depot.draft.query()[2] && !self.query;
            if (depot.has_not() || *row == full) && !is_asked {
                continue;
            }
            let view = depot.draft.show(ledger, person);
            for (a, set) in (0..).zip(row.chunks_exact_mut(2)) {
                set.iter_mut().zip(view.values(Attr(a)).bits().to_be_bytes()).for_each(|(byte, bits)| *byte |= bits);
            }
            self.query |= is_asked && depot.draft.is_met_by(ledger, &view);
        }
    }
}

/// Walks through every ledger that chains of requests reach, to the last; where the book has a "not" term, to the first
/// that meets the query, since nothing else is asked of it.
pub fn walk(depot: &Depot) -> Reached {
    let seen = vec![false; 1 << depot.facts.len()];
    let mut search = Search { depot, moves: moves_of(depot), seen, queue: Vec::new() };
    search.enter(search.state_of(&depot.draft.open()));
    let mut reached = Reached::default();
    while let Some(&state) = search.queue.get(reached.ledgers) {
        if reached.query && depot.has_not() {
            break;
        }
        let ledger = search.ledger_of(state);
        reached.note(depot, &ledger);
        search.expand(state, &ledger);
    }
    reached
}

/// The requests that may be permitted, on any person and crew: one that no rule names, or of a role outside the
/// query's, leads nowhere.
fn moves_of(depot: &Depot) -> Vec<Move> {
    let mut moves = Vec::new();
    for rule in depot.rules() {
        let &[_, op, role, a, v, ..] = rule else { panic!("a rule") };
        if !depot.draft.asks(role) {
            continue;
        }
        for subject in 0..depot.subjects(op) {
            let request = [op, role, subject, a, v];
            let fact = depot.number_of(Fact::of(&request)).expect("a rule is about a fact of the depot");
            moves.push(Move { request, fact });
        }
    }
    moves
}

impl Search<'_> {
    fn ledger_of(&self, state: usize) -> Ledger {
        let mut ledger = [0; LEDGER_SIZE];
        for (i, fact) in self.depot.facts.iter().enumerate() {
            fact.put(&mut ledger, state >> i & 1 == 1);
        }
        ledger
    }

    fn state_of(&self, ledger: &Ledger) -> usize {
        let facts = self.depot.facts.iter().enumerate();
        facts.map(|(i, fact)| usize::from(fact.holds(ledger)) << i).sum()
    }

    /// A state enters the queue when it is first seen.
    fn enter(&mut self, state: usize) {
        if !self.seen[state] {
            self.seen[state] = true;
            self.queue.push(state);
        }
    }

    /// The states one move from a state, whose ledger is given. A move to a state that was seen is not tried: it leads
    /// to nothing new.
    fn expand(&mut self, state: usize, ledger: &Ledger) {
        for i in 0..self.moves.len() {
            let Move { request, fact } = &self.moves[i];
            let aim = if is_adding(request[0]) { state | 1 << fact } else { state & !(1 << fact) };
            if self.seen[aim] {
                continue;
            }
            let mut next = *ledger;
            if bytes::request(self.depot.draft.text(), &mut next, request).is_ok() {
                self.enter(self.state_of(&next));
            }
        }
    }
}
