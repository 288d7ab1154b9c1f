//! A small planner over drawn depots whose books only grow, right unless it is given a fault. It calls no operation of the
//! library.
//!
//! Such a book has one rule at most for a fact, nothing is ever deleted, and terms are about what the subject directly
//! has. So of all facts those of the query's person count alone. A set of facts is a number: fact i of the depot has the
//! weight 2^i.

use crate::depots::{Depot, Fact, NOT_HELD, NOT_IN};

/// What a planner takes otherwise than the specification has it.
#[derive(Clone, Copy, PartialEq, Eq)]
pub enum Fault {
    None,
    /// No "not" term is heeded.
    NotsUnheeded,
    /// A fact is added as soon as its terms hold, though one that bars it is still to come.
    AnyOrder,
    /// The facts that have to come are added in the order of their numbers.
    ByNumber,
    /// What a needed rule asks for does not have to come, but for what the query names.
    NeedsUnclosed,
    /// Whatever a rule can add has to come.
    AllNeeded,
    /// Of the facts that are there, those at the start bar nothing.
    StartBarsNothing,
    /// No fact is there at the start.
    StartForgotten,
    /// The rules of roles outside the query's are used too.
    RolesIgnored,
    /// A rule that bars its own fact is taken to bar it from coming.
    OwnFactBarred,
    /// What is effectively held, and the crews one is effectively in, bar as well.
    EffectiveBars,
    /// The query is met by what is effectively held, and by crews one is effectively in.
    EffectiveMeets,
    /// A "not" term asks for the fact.
    NotTurned,
    /// Of "not" terms those on values are heeded, and of those on crews none.
    CrewNotsUnheeded,
    /// No term that asks for a fact is tested.
    AskedUnheeded,
    /// The listed crews are not asked for.
    CrewsNotAsked,
    /// The named sets and the listed crews are asked for exactly, as in mode 02.
    Exactly,
    /// What other persons hold at the start is taken for the person's own.
    AnyPersonsStart,
}

/// The rule that adds a fact: its request, the facts it asks for and those it bars.
struct Rule {
    request: [u8; 5],
    fact: u16,
    asks: u16,
    bars: u16,
}

/// A depot as the small planner sees it: the facts of the query's person that are there at the start and that are wanted,
/// and the rules that the query's roles can use.
struct Model<'d> {
    depot: &'d Depot,
    person: u8,
    start: u16,
    wanted: u16,
    rules: Vec<Rule>,
    fault: Fault,
}

impl<'d> Model<'d> {
    fn of(depot: &'d Depot, fault: Fault) -> Self {
        let person = depot.draft.query()[2];
        let mut model = Model { depot, person, start: 0, wanted: 0, rules: Vec::new(), fault };
        model.start = match fault {
            Fault::StartForgotten => 0,
            Fault::AnyPersonsStart => (0..depot.sizes.persons).fold(0, |start, other| start | model.start_of(other)),
            _ => model.start_of(person),
        };
        model.rules = depot.rules().filter_map(|rule| model.rule(rule)).collect();
        model.wanted = model.named();
        model
    }

    fn value(&self, a: u8, v: u8) -> u16 {
        self.weight(Fact { kind: 1, subject: self.person, a, v })
    }

    fn member(&self, crew: u8) -> u16 {
        self.weight(Fact { kind: 3, subject: self.person, a: crew, v: 0 })
    }

    fn weight(&self, fact: Fact) -> u16 {
        1 << self.depot.number_of(fact).expect("a fact of the depot")
    }

    /// The facts of a person at the start, as the query's person's.
    fn start_of(&self, other: u8) -> u16 {
        let facts = self.depot.draft.frames.iter().filter(|frame| frame[0] == 4).map(|frame| Fact::of_frame(frame));
        let own = facts.filter(|fact| fact.kind != 2 && fact.subject == other);
        own.fold(0, |start, fact| start | self.weight(Fact { subject: self.person, ..fact }))
    }

    /// A rule of the query's roles about persons.
    fn rule(&self, frame: &[u8]) -> Option<Rule> {
        let &[_, op, role, a, v, _, ref terms @ ..] = frame else { panic!("a rule") };
        if op == 3 || (!self.depot.draft.asks(role) && self.fault != Fault::RolesIgnored) {
            return None;
        }
        let fact = if op == 5 { self.member(a) } else { self.value(a, v) };
        let (mut asks, mut bars) = (0, 0);
        for term in terms.chunks_exact(3) {
            let &[kind, a, v] = term else { panic!("a term") };
            match (kind, self.fault) {
                (NOT_HELD | NOT_IN, Fault::NotsUnheeded) => {}
                (1 | 3, Fault::AskedUnheeded) | (NOT_IN, Fault::CrewNotsUnheeded) => {}
                (1, _) | (NOT_HELD, Fault::NotTurned) => asks |= self.value(a, v),
                (3, _) | (NOT_IN, Fault::NotTurned) => asks |= self.member(a),
                (NOT_HELD, _) => bars |= self.value(a, v),
                (NOT_IN, _) => bars |= self.member(a),
                _ => panic!("a term's kind"),
            }
        }
        Some(Rule { request: [op, role, self.person, a, v], fact, asks, bars })
    }

    /// The facts that the query names.
    fn named(&self) -> u16 {
        let &[_, _, _, _, _, q, ref rest @ ..] = self.depot.draft.query() else { panic!("a query") };
        let (sets, crews) = rest.split_at(3 * usize::from(q));
        let mut wanted = 0;
        for set in sets.chunks_exact(3) {
            let values = (0..self.depot.sizes.values(set[0])).filter(|v| set[2] >> v & 1 == 1);
            wanted = values.fold(wanted, |wanted, v| wanted | self.value(set[0], v));
        }
        let listed = (0..self.depot.sizes.crews).filter(|crew| crews[3] >> crew & 1 == 1);
        match self.fault {
            Fault::CrewsNotAsked => wanted,
            _ => listed.fold(wanted, |wanted, crew| wanted | self.member(crew)),
        }
    }

    /// Whether a crew is reached downwards from another, or is it.
    fn is_below(&self, crew: u8, senior: u8) -> bool {
        let edges = self.depot.draft.frames.iter().filter(|frame| frame[0] == 2 && frame[1] == senior);
        crew == senior || edges.into_iter().any(|edge| self.is_below(crew, edge[2]))
    }

    /// What the person effectively has where these are the direct facts and crews hold what they do at the start.
    fn effective(&self, facts: u16) -> u16 {
        let crews = || 0..self.depot.sizes.crews;
        let entered = |crew: u8| crews().any(|from| facts & self.member(from) != 0 && self.is_below(crew, from));
        let inside = crews().filter(|&crew| entered(crew)).fold(facts, |all, crew| all | self.member(crew));
        let held = self.depot.draft.frames.iter().filter(|frame| frame[..2] == [4, 2] && entered(frame[2]));
        held.fold(inside, |all, fact| all | self.value(fact[3], fact[4]))
    }

    fn rule_for(&self, fact: u16) -> Option<&Rule> {
        self.rules.iter().find(|rule| rule.fact == fact)
    }

    /// The facts that have to come: those of the query and what their rules ask for, and so on.
    fn needed(&self) -> u16 {
        let there = if self.fault == Fault::EffectiveMeets { self.effective(self.start) } else { self.start };
        let mut needed = self.wanted & !there;
        if self.fault == Fault::AllNeeded {
            needed |= self.rules.iter().fold(0, |all, rule| all | rule.fact) & !self.start;
        }
        loop {
            let asked = self.rules.iter().filter(|rule| needed & rule.fact != 0).fold(0, |all, rule| all | rule.asks);
            let more = needed | asked & !self.start;
            if more == needed || self.fault == Fault::NeedsUnclosed {
                return needed;
            }
            needed = more;
        }
    }

    /// Whether a rule's terms hold.
    fn is_permitted(&self, rule: &Rule, facts: u16) -> bool {
        let there = match self.fault {
            Fault::StartBarsNothing => facts & !self.start,
            Fault::EffectiveBars => self.effective(facts),
            _ => facts,
        };
        rule.asks & !facts == 0 && rule.bars & there == 0
    }

    /// Whether a rule bars a fact of those that are still to come.
    fn is_barred(&self, fact: u16, to_come: u16) -> bool {
        let others = to_come & !if self.fault == Fault::OwnFactBarred { 0 } else { fact };
        self.rules.iter().any(|rule| others & rule.fact != 0 && rule.bars & fact != 0)
    }

    /// The needed facts, each put in when its turn has come: its terms hold, and no other that is still to come bars it.
    fn plan(&self) -> Option<Vec<[u8; 5]>> {
        let (needed, mut facts, mut plan) = (self.needed(), self.start, Vec::new());
        while needed & !facts != 0 {
            let to_come = needed & !facts;
            let each = (0..self.depot.facts.len()).map(|i| 1 << i).filter(|fact| to_come & fact != 0);
            let free = |rule: &&Rule| match self.fault {
                Fault::ByNumber => true,
                Fault::AnyOrder => self.is_permitted(rule, facts),
                _ => self.is_permitted(rule, facts) && !self.is_barred(rule.fact, to_come),
            };
            let rule = each.filter_map(|fact| self.rule_for(fact)).find(free)?;
            facts |= rule.fact;
            plan.push(rule.request);
        }
        (self.fault != Fault::Exactly || facts == self.wanted).then_some(plan)
    }

    /// Breadth first through the sets of facts that the rules lead to: the shortest plan.
    fn shortest(&self) -> Option<Vec<[u8; 5]>> {
        let mut queue = vec![(self.start, Vec::new())];
        let mut seen = vec![false; 1 << self.depot.facts.len()];
        let mut head = 0;
        while let Some((facts, plan)) = queue.get(head).cloned() {
            if self.wanted & !facts == 0 {
                return Some(plan);
            }
            for rule in self.rules.iter().filter(|rule| facts & rule.fact == 0 && self.is_permitted(rule, facts)) {
                let next = facts | rule.fact;
                if !seen[usize::from(next)] {
                    seen[usize::from(next)] = true;
                    queue.push((next, [&plan[..], &[rule.request]].concat()));
                }
            }
            head += 1;
        }
        None
    }
}

/// The small planner's plan; nothing where it says no way.
pub fn plan(depot: &Depot, fault: Fault) -> Option<Vec<[u8; 5]>> {
    Model::of(depot, fault).plan()
}

/// The same by a search, without a fault.
pub fn shortest(depot: &Depot) -> Option<Vec<[u8; 5]>> {
    Model::of(depot, Fault::None).shortest()
}

/// Whether a depot's rule that the query's roles can use bars its own fact, and whether one has a "not" term on a crew.
pub fn traits(depot: &Depot) -> [bool; 2] {
    let model = Model::of(depot, Fault::None);
    let own = model.rules.iter().any(|rule| rule.bars & rule.fact != 0);
    let on_crews = depot.rules().any(|rule| rule[6..].chunks_exact(3).any(|term| term[0] == NOT_IN));
    [own, on_crews]
}
