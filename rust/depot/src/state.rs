//! The front end's own reading of a ledger: what is held directly, and what comes through crews.
//!
//! It finds the words of a reason; whether the reason is right, the library is asked (`reasons`).

use bixorgun::{Act, Request, LEDGER_SIZE};

use crate::model::{members, Depot, Fact, Kind, Statement, Term};
use crate::story::{Rest, Subject};

/// A ledger's bytes.
#[derive(Clone)]
pub struct State(pub [u8; LEDGER_SIZE]);

impl State {
    /// Whether a fact holds.
    pub fn has(&self, fact: Fact) -> bool {
        let (byte, bit) = place(fact);
        self.0[byte] >> bit & 1 == 1
    }

    /// Sets a fact, or clears it.
    pub fn put(&mut self, fact: Fact, holds: bool) {
        let (byte, bit) = place(fact);
        self.0[byte] = self.0[byte] & !(1 << bit) | u8::from(holds) << bit;
    }

    /// The crews that a person is directly in.
    pub fn crews(&self, person: u8) -> u32 {
        let at = 1536 + 4 * usize::from(person);
        self.0[at..at + 4].iter().fold(0, |set, byte| set << 8 | u32::from(*byte))
    }
}

/// Byte and bit of a fact: sets are written with the high byte first.
fn place(fact: Fact) -> (usize, u8) {
    let (first, last, bit) = match fact {
        Fact::PersonHas { person, attribute, value } => {
            (16 * usize::from(person) + 2 * usize::from(attribute), 1, value)
        }
        Fact::CrewHas { crew, attribute, value } => {
            (1024 + 16 * usize::from(crew) + 2 * usize::from(attribute), 1, value)
        }
        Fact::PersonIn { person, crew } => (1536 + 4 * usize::from(person), 3, crew),
    };
    (first + last - usize::from(bit / 8), bit % 8)
}

/// The fact that a request changes, and whether it sets it.
pub fn change(request: &Request) -> (Fact, bool) {
    match request.act {
        Act::AddToPerson(p, a, v) => (Fact::PersonHas { person: p.0, attribute: a.0, value: v.0 }, true),
        Act::DeleteFromPerson(p, a, v) => (Fact::PersonHas { person: p.0, attribute: a.0, value: v.0 }, false),
        Act::AddToCrew(c, a, v) => (Fact::CrewHas { crew: c.0, attribute: a.0, value: v.0 }, true),
        Act::DeleteFromCrew(c, a, v) => (Fact::CrewHas { crew: c.0, attribute: a.0, value: v.0 }, false),
        Act::Assign(p, c) => (Fact::PersonIn { person: p.0, crew: c.0 }, true),
        Act::Remove(p, c) => (Fact::PersonIn { person: p.0, crew: c.0 }, false),
    }
}

/// Whom a request acts on.
pub fn subject(request: &Request) -> Subject {
    match change(request).0 {
        Fact::PersonHas { person, .. } | Fact::PersonIn { person, .. } => Subject::Person(person),
        Fact::CrewHas { crew, .. } => Subject::Crew(crew),
    }
}

/// For each crew itself and all below it.
pub fn below(depot: &Depot) -> Vec<u32> {
    let mut below: Vec<u32> = (0..depot.crews.len()).map(|crew| 1 << crew).collect();
    let mut edges: Vec<(u8, u8)> = depot
        .statements
        .iter()
        .filter_map(|said| match said.what {
            Statement::Over { senior, junior } => Some((senior, junior)),
            _ => None,
        })
        .collect();
    // Juniors have the smaller numbers, so each is whole before a senior takes it.
    edges.sort_unstable();
    for (senior, junior) in edges {
        below[usize::from(senior)] |= below[usize::from(junior)];
    }
    below
}

/// What a subject has or is in directly.
pub fn direct_value(subject: Subject, attribute: u8, value: u8) -> Fact {
    match subject {
        Subject::Person(person) => Fact::PersonHas { person, attribute, value },
        Subject::Crew(crew) => Fact::CrewHas { crew, attribute, value },
    }
}

/// A way in which a term holds: what it rests on, and the facts that make it so, each with what it has to be.
pub struct Way {
    /// What it rests on.
    pub rest: Rest,
    /// The facts.
    pub facts: Vec<(Fact, bool)>,
}

/// Every way in which a term holds of a subject; none where it does not. Direct ones first.
pub fn ways(state: &State, below: &[u32], subject: Subject, term: &Term) -> Vec<Way> {
    let Term { kind, a, v } = *term;
    match (kind, subject) {
        (Kind::HasDirectly, _) => value_ways(state, below, subject, a, v..=v, true),
        (Kind::Has, _) => value_ways(state, below, subject, a, v..=v, false),
        (Kind::HasOrHigher, _) => value_ways(state, below, subject, a, v..=15, false),
        (Kind::HasNot, _) => lacking(state, direct_value(subject, a, v)),
        (Kind::InDirectly, Subject::Person(person)) => member_ways(state, below, person, a, true),
        (Kind::In, Subject::Person(person)) => member_ways(state, below, person, a, false),
        (Kind::InNot, Subject::Person(person)) => lacking(state, Fact::PersonIn { person, crew: a }),
        // A term on crews stands in no rule on crews.
        (Kind::InDirectly | Kind::In | Kind::InNot, Subject::Crew(_)) => Vec::new(),
    }
}

fn lacking(state: &State, fact: Fact) -> Vec<Way> {
    if state.has(fact) {
        return Vec::new();
    }
    vec![Way { rest: Rest::Lacking, facts: vec![(fact, false)] }]
}

fn member_ways(state: &State, below: &[u32], person: u8, crew: u8, direct: bool) -> Vec<Way> {
    let member = |crew| vec![(Fact::PersonIn { person, crew }, true)];
    let crews = state.crews(person);
    let own = members(crews & 1 << crew).map(|_| Way { rest: Rest::Member, facts: member(crew) });
    let above = members(if direct { 0 } else { crews & !(1 << crew) });
    let above = above.filter(|senior| below[usize::from(*senior)] >> crew & 1 == 1);
    own.chain(above.map(|senior| Way { rest: Rest::MemberThrough(senior), facts: member(senior) })).collect()
}

/// The ways in which a subject has one of some values: directly, then through the crews that have it, and for each of these
/// by every crew that leads to it.
pub fn value_ways(
    state: &State,
    below: &[u32],
    subject: Subject,
    attribute: u8,
    values: std::ops::RangeInclusive<u8>,
    direct: bool,
) -> Vec<Way> {
    let mut ways = Vec::new();
    for value in values.clone() {
        let fact = direct_value(subject, attribute, value);
        if state.has(fact) {
            ways.push(Way { rest: Rest::Value(value), facts: vec![(fact, true)] });
        }
    }
    let entries: Vec<(Option<Fact>, u8)> = match subject {
        _ if direct => Vec::new(),
        Subject::Crew(crew) => vec![(None, crew)],
        Subject::Person(person) => {
            members(state.crews(person)).map(|crew| (Some(Fact::PersonIn { person, crew }), crew)).collect()
        }
    };
    for value in values {
        for (entry, from) in &entries {
            for crew in members(below[usize::from(*from)]) {
                let held = Fact::CrewHas { crew, attribute, value };
                if state.has(held) && subject != Subject::Crew(crew) {
                    let facts = entry.iter().copied().chain([held]).map(|fact| (fact, true)).collect();
                    ways.push(Way { rest: Rest::ValueThrough { value, crew }, facts });
                }
            }
        }
    }
    ways
}
