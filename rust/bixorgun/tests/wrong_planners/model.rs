//! A small planner over drawn depots, right unless it is given a fault. It calls no operation of the library.
//!
//! A ledger is a number, a state: fact i of the depot has the weight 2^i. Of the persons' facts it looks at those
//! of one person alone, the query's unless another is taken in its place.

use std::ops::Range;

use crate::depots::{is_adding, Depot, Fact, LADDER};

/// What a planner takes otherwise than the specification has it.
#[derive(Clone, Copy, PartialEq, Eq)]
pub enum Fault {
    None,
    /// The rules of roles outside the query's are used too.
    RolesIgnored,
    /// A deletion's terms are tested after the fact is gone.
    TermsAfterDeletion,
    /// A crew effectively holds what it directly holds, and no more.
    CrewsInheritNothing,
    /// A crew effectively holds what its direct seniors effectively hold, and not what its juniors do.
    JuniorsInherit,
    /// Mode 02 asks for at least the named values, as mode 01 does, and for no crews.
    ModeTwoAsOne,
    /// A ladder term asks for v alone, as kind 02 does.
    LadderAsKindTwo,
    /// A ladder term asks for v or any lower value.
    LadderDownward,
    /// A ladder term asks for a value above v.
    LadderWithoutLowest,
    /// A ladder term asks for v or a higher value below the highest.
    LadderWithoutHighest,
    /// A ladder term takes the values above v only where they are held directly.
    HigherValuesDirect,
    /// A deletion's ladder terms are tested after the fact is gone.
    OwnRungForgotten,
    /// A ladder term is taken to hold.
    LadderNotTested,
    /// A ladder term asks for v or a higher value below the first attribute's count.
    LadderToFirstCount,
    /// Every attribute is taken to have the first one's values, and no others.
    ValuesOfFirst,
}

/// A condition on a state: one of some facts is there, or both sides of one of some pairs of such sets are.
pub struct Condition {
    any: u16,
    pairs: Vec<(u16, u16)>,
}

/// A request that a rule names, with the rule's terms.
pub struct Move {
    pub request: [u8; 5],
    pub adds: bool,
    fact: u16,
    terms: Vec<Condition>,
}

impl Move {
    /// Whether this deletes what another move adds.
    pub fn undoes(&self, other: &Move) -> bool {
        !self.adds && other.adds && self.fact == other.fact
    }
}

/// A depot as the small planner sees it.
pub struct Model {
    /// How many ledgers its facts give.
    states: usize,
    pub start: u16,
    pub moves: Vec<Move>,
    fault: Fault,
    /// What has to hold at the end.
    wanted: Vec<Condition>,
    /// What must not hold at the end.
    unwanted: Vec<Condition>,
    /// The facts that stand in the way of a query of mode 02.
    forbidden: u16,
}

impl Condition {
    pub fn holds(&self, state: u16) -> bool {
        state & self.any != 0 || self.pairs.iter().any(|&(one, other)| state & one != 0 && state & other != 0)
    }

    pub fn of(any: u16) -> Self {
        Condition { any, pairs: Vec::new() }
    }

    /// One of two conditions.
    fn or(mut self, other: Condition) -> Self {
        self.any |= other.any;
        self.pairs.extend(other.pairs);
        self
    }

    /// The condition as if a fact were not there.
    fn without(self, fact: u16) -> Self {
        let pairs = self.pairs.into_iter().map(|(one, other)| (one & !fact, other & !fact)).collect();
        Condition { any: self.any & !fact, pairs }
    }
}

/// What terms and queries are made of: each fact's weight, and from which crews a crew has what.
pub struct Weights<'d> {
    pub depot: &'d Depot,
    fault: Fault,
    /// The crews whose direct values each crew effectively holds.
    sources: Vec<Vec<u8>>,
    /// The crews in which one is effectively in each crew.
    entries: Vec<Vec<u8>>,
}

impl<'d> Weights<'d> {
    pub fn of(depot: &'d Depot, fault: Fault) -> Self {
        let crews = 0..depot.sizes.crews;
        let below: Vec<Vec<u8>> = crews.clone().map(|crew| crews_below(depot, crew)).collect();
        let above = |crew: u8| crews.clone().filter(|&other| below[usize::from(other)].contains(&crew)).collect();
        let above: Vec<Vec<u8>> = crews.clone().map(above).collect();
        let sources = match fault {
            Fault::CrewsInheritNothing => crews.map(|crew| vec![crew]).collect(),
            Fault::JuniorsInherit => above.clone(),
            _ => below,
        };
        Weights { depot, fault, sources, entries: above }
    }

    /// The weight of a fact; 0 where the fault makes it one that is never there.
    fn fact(&self, fact: Fact) -> u16 {
        if self.fault == Fault::ValuesOfFirst && fact.kind < 3 && fact.v >= self.values(fact.a) {
            return 0;
        }
        1 << self.depot.number_of(fact).expect("a fact of the depot")
    }

    /// How many values an attribute has, of those that it has.
    pub fn values(&self, a: u8) -> u8 {
        let own = self.depot.sizes.values(a);
        match self.fault {
            Fault::ValuesOfFirst => own.min(self.depot.sizes.values(0)),
            _ => own,
        }
    }

    pub fn own(&self, person: u8, a: u8, v: u8) -> u16 {
        self.fact(Fact { kind: 1, subject: person, a, v })
    }

    fn crew_own(&self, crew: u8, a: u8, v: u8) -> u16 {
        self.fact(Fact { kind: 2, subject: crew, a, v })
    }

    fn member(&self, person: u8, crew: u8) -> u16 {
        self.fact(Fact { kind: 3, subject: person, a: crew, v: 0 })
    }

    fn crew_holds(&self, crew: u8, a: u8, v: u8) -> u16 {
        self.sources[usize::from(crew)].iter().map(|&source| self.crew_own(source, a, v)).sum()
    }

    pub fn person_holds(&self, person: u8, a: u8, v: u8) -> Condition {
        let crews = 0..self.depot.sizes.crews;
        let pairs = crews.map(|crew| (self.member(person, crew), self.crew_holds(crew, a, v))).collect();
        Condition { any: self.own(person, a, v), pairs }
    }

    fn person_in(&self, person: u8, crew: u8) -> u16 {
        self.entries[usize::from(crew)].iter().map(|&entry| self.member(person, entry)).sum()
    }

    /// The subject of an op directly holds a value.
    fn holds(&self, op: u8, subject: u8, a: u8, v: u8) -> Condition {
        Condition::of(match op {
            3 | 4 => self.crew_own(subject, a, v),
            _ => self.own(subject, a, v),
        })
    }

    /// The subject of an op effectively holds a value.
    fn effectively_holds(&self, op: u8, subject: u8, a: u8, v: u8) -> Condition {
        match op {
            3 | 4 => Condition::of(self.crew_holds(subject, a, v)),
            _ => self.person_holds(subject, a, v),
        }
    }

    /// The values of which a ladder term asks for one: v and all higher ones of the attribute.
    fn rungs(&self, a: u8, v: u8) -> Range<u8> {
        let values = self.values(a);
        match self.fault {
            Fault::LadderAsKindTwo => v..v + 1,
            Fault::LadderDownward => 0..v + 1,
            Fault::LadderWithoutLowest => v + 1..values,
            Fault::LadderWithoutHighest => v..(values - 1).max(v + 1),
            Fault::LadderToFirstCount => v..values.min(self.depot.sizes.values(0)),
            _ => v..values,
        }
    }

    /// The subject of an op effectively holds v or any higher value.
    fn climbs(&self, op: u8, subject: u8, a: u8, v: u8) -> Condition {
        let rung = |w| match self.fault {
            Fault::HigherValuesDirect if w > v => self.holds(op, subject, a, w),
            _ => self.effectively_holds(op, subject, a, w),
        };
        self.rungs(a, v).map(rung).fold(Condition::of(0), Condition::or)
    }

    /// A term of a rule, about the subject of a request.
    fn term(&self, request: &[u8; 5], term: &[u8]) -> Condition {
        let (&[op, _, subject, ..], &[kind, a, v]) = (request, term) else { panic!("a term") };
        match kind {
            1 => self.holds(op, subject, a, v),
            2 => self.effectively_holds(op, subject, a, v),
            3 => Condition::of(self.member(subject, a)),
            4 => Condition::of(self.person_in(subject, a)),
            LADDER if self.fault == Fault::OwnRungForgotten && !is_adding(op) => {
                self.climbs(op, subject, a, v).without(self.fact(Fact::of(request)))
            }
            LADDER => self.climbs(op, subject, a, v),
            _ => panic!("a term's kind"),
        }
    }
}

/// A crew and all crews that are reached downwards from it.
fn crews_below(depot: &Depot, crew: u8) -> Vec<u8> {
    let mut crews = vec![crew];
    let mut at = 0;
    while let Some(&senior) = crews.get(at) {
        for edge in depot.draft.frames.iter().filter(|frame| frame[0] == 2 && frame[1] == senior) {
            if !crews.contains(&edge[2]) {
                crews.push(edge[2]);
            }
        }
        at += 1;
    }
    crews
}

impl Model {
    pub fn of(depot: &Depot, fault: Fault) -> Self {
        Model::of_person(&Weights::of(depot, fault), depot.draft.query()[2])
    }

    /// The depot as it is with another person in its query.
    pub fn of_person(weights: &Weights<'_>, person: u8) -> Self {
        let facts = weights.depot.draft.frames.iter().filter(|frame| frame[0] == 4);
        let start = facts.fold(0, |state, frame| state | weights.fact(Fact::of_frame(frame)));
        let moves = moves_of(weights, person);
        let states = 1 << weights.depot.facts.len();
        let (wanted, unwanted) = (Vec::new(), Vec::new());
        let mut model = Model { states, start, moves, fault: weights.fault, wanted, unwanted, forbidden: 0 };
        model.take_query(weights, person);
        model
    }

    fn take_query(&mut self, weights: &Weights<'_>, person: u8) {
        let &[_, mode, _, _, _, q, ref rest @ ..] = weights.depot.draft.query() else { panic!("a query") };
        let (sets, crews) = rest.split_at(3 * usize::from(q));
        let exactly = mode == 2 && self.fault != Fault::ModeTwoAsOne;
        let listed = |crew: u8| exactly && crews[3] >> crew & 1 == 1;
        let all_crews = 0..weights.depot.sizes.crews;
        for set in sets.chunks_exact(3) {
            for v in 0..weights.values(set[0]) {
                let test = weights.person_holds(person, set[0], v);
                if set[2] >> v & 1 == 1 {
                    self.wanted.push(test);
                } else if exactly {
                    let ways = all_crews.clone().filter(|&crew| listed(crew));
                    self.forbidden |= ways.fold(test.any, |facts, crew| facts | weights.crew_holds(crew, set[0], v));
                    self.unwanted.push(test);
                }
            }
        }
        for crew in all_crews.filter(|_| exactly) {
            let member = weights.member(person, crew);
            if listed(crew) {
                self.wanted.push(Condition::of(member));
            } else {
                self.forbidden |= member;
                self.unwanted.push(Condition::of(member));
            }
        }
    }

    pub fn is_met(&self, state: u16) -> bool {
        self.wanted.iter().all(|test| test.holds(state)) && self.is_clear(state)
    }

    /// Whether nothing holds that a query of mode 02 does not want.
    pub fn is_clear(&self, state: u16) -> bool {
        !self.unwanted.iter().any(|test| test.holds(state))
    }

    /// The state behind a move; nothing where the move is not permitted.
    pub fn after(&self, state: u16, step: &Move) -> Option<u16> {
        let next = if step.adds { state | step.fact } else { state & !step.fact };
        let judged = if self.fault == Fault::TermsAfterDeletion && !step.adds { next } else { state };
        step.terms.iter().all(|term| term.holds(judged)).then_some(next)
    }

    /// Whether a move deletes a fact that stands in the way of the query.
    pub fn clears_way(&self, step: &Move) -> bool {
        !step.adds && step.fact & self.forbidden != 0
    }

    /// Breadth first from a state by some of the moves: the shortest list of moves to a state that is an end. Since
    /// more facts never spoil a term, no such list adds or deletes a fact twice.
    pub fn shortest(
        &self,
        start: u16,
        allowed: impl Fn(&Move) -> bool,
        is_end: impl Fn(u16) -> bool,
    ) -> Option<Vec<&Move>> {
        // Each state with the place in the queue that it was reached from, and by which move.
        let mut queue: Vec<(u16, Option<(usize, &Move)>)> = vec![(start, None)];
        let mut seen = vec![false; self.states];
        seen[usize::from(start)] = true;
        let mut head = 0;
        while let Some(&(state, _)) = queue.get(head) {
            if is_end(state) {
                return Some(way_to(&queue, head));
            }
            for step in self.moves.iter().filter(|step| allowed(step)) {
                if let Some(next) = self.after(state, step).filter(|&next| !seen[usize::from(next)]) {
                    seen[usize::from(next)] = true;
                    queue.push((next, Some((head, step))));
                }
            }
            head += 1;
        }
        None
    }
}

/// The moves that led to a place of the queue.
fn way_to<'m>(queue: &[(u16, Option<(usize, &'m Move)>)], mut place: usize) -> Vec<&'m Move> {
    let mut way = Vec::new();
    while let (_, Some((before, step))) = queue[place] {
        way.push(step);
        place = before;
    }
    way.reverse();
    way
}

fn moves_of(weights: &Weights<'_>, person: u8) -> Vec<Move> {
    let (depot, fault) = (weights.depot, weights.fault);
    let mut moves = Vec::new();
    for rule in depot.rules() {
        let &[_, op, role, a, v, _, ref terms @ ..] = rule else { panic!("a rule") };
        if !depot.draft.asks(role) && fault != Fault::RolesIgnored {
            continue;
        }
        let is_tested = |term: &&[u8]| term[0] != LADDER || fault != Fault::LadderNotTested;
        for subject in 0..depot.subjects(op) {
            let request = [op, role, subject, a, v];
            let fact = Fact::of(&request);
            if fact.kind == 2 || subject == person {
                let terms = terms.chunks_exact(3).filter(is_tested);
                let terms = terms.map(|term| weights.term(&request, term)).collect();
                moves.push(Move { request, adds: is_adding(op), fact: weights.fact(fact), terms });
            }
        }
    }
    moves
}
