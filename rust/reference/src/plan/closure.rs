//! The planner for every size.
//!
//! Books with "not" terms, whose query has mode 03, are [`growing`]'s. What follows is about all others.
//!
//! No term speaks of a missing fact, so what is permitted in a ledger is permitted in every larger one. Terms about a
//! person look at that person and at crews, terms about a crew at it and its juniors: of all persons only the query's
//! matters. Call a fact *unwanted* when no ledger that meets the query has it.
//!
//! * A fact that is not unwanted may stay for ever: it helps every later request and hinders none.
//! * An unwanted fact must go again. Of those that a chain ever has, consider the last deletion of each, backwards in
//!   time: its terms hold in what stays, the unwanted facts that go later, and the fact itself.
//!
//! So: from the starting facts, add all that can be added. From what stays of it, walk backwards over the deletions. An
//! unwanted fact that is not reached so is *stuck*: no chain that meets the query ever has it. Take the stuck facts back
//! with all that rests on them, in the additions and in the deletions, and look for stuck facts again. A stuck starting
//! fact is no way, as is a wanted fact that cannot be had. When nothing is stuck, the additions in order and then the
//! deletions, the last found first, are a plan; each fact is added at most once and deleted at most once.
//!
//! Facts stand in columns, one for each value of each attribute: bits 0-31 are the crews, bit 32 is the query's person.
//! A rule is tried on all crews at once. Each rule sleeps until a column or crew that one of its terms names changes.
//! Each fact put in keeps its rule and its turn. To take a fact back, all facts are withdrawn whose rule may have looked
//! at it, and theirs in turn; then the withdrawn ones are tried again. What was not withdrawn rests on earlier turns only.

use std::ops::RangeInclusive;

use crate::book::{Attr, Book, Crew, Fact, Mode, Person, Role, Rule, Sizes, Term, Value, Way, What, MOST_CREWS};
use crate::book::{MOST_ATTRS, MOST_RULES, MOST_TERMS, MOST_VALUES};
use crate::ledger::{crews, numbers, Request};

use super::growing;

/// The query's person in a column.
const PERSON: u64 = 1 << 32;
/// The crews in a column.
const CREWS: u64 = PERSON - 1;
/// One for each value of each attribute.
const COLUMNS: usize = MOST_ATTRS * MOST_VALUES;

/// A plan that demand 3 allows, or nothing when there is no way.
#[must_use]
pub fn plan(book: &Book) -> Option<Vec<Request>> {
    if matches!(book.query.mode, Mode::AtLeastDirectly { .. }) {
        return growing::plan(book);
    }
    let tree = Tree::new(book);
    let goal = Goal::new(book, &tree);
    let adding = Moves::new(book, Way::Add, &tree);
    let start = start(book);
    let mut all = State::new(start.clone(), &tree);
    all.grow(&adding, adding.all(), &mut universe(book).without(&start));
    if !goal.met(&all) {
        return None;
    }
    let mut stuck = all.facts.and(&goal.unwanted);
    if stuck.is_empty() {
        return Some(all.requests(&adding));
    }
    let deleting = Moves::new(book, Way::Delete, &tree);
    let mut last = State::new(all.facts.without(&goal.unwanted), &tree);
    last.grow(&deleting, deleting.all(), &mut stuck);
    while !stuck.is_empty() {
        if !stuck.and(&start).is_empty() {
            return None;
        }
        let lost = all.shrink(&adding, stuck);
        if !goal.met(&all) {
            return None;
        }
        stuck = last.shrink(&deleting, lost.clone()).without(&lost);
    }
    let mut plan = all.requests(&adding);
    plan.extend(last.requests(&deleting).into_iter().rev());
    Some(plan)
}

/// The place of a value in the columns.
fn column(attr: Attr, value: Value) -> usize {
    attr.index() * MOST_VALUES + value.index()
}

/// A set of facts of the query's person and of the crews.
#[derive(Clone)]
struct Facts {
    columns: [u64; COLUMNS],
    memberships: u32,
}

impl Facts {
    const NONE: Facts = Facts { columns: [0; COLUMNS], memberships: 0 };

    fn and(&self, other: &Facts) -> Facts {
        let mut both = self.clone();
        for (column, with) in both.columns.iter_mut().zip(&other.columns) {
            *column &= with;
        }
        both.memberships &= other.memberships;
        both
    }

    fn without(&self, other: &Facts) -> Facts {
        let mut rest = self.clone();
        for (column, gone) in rest.columns.iter_mut().zip(&other.columns) {
            *column &= !gone;
        }
        rest.memberships &= !other.memberships;
        rest
    }

    fn is_empty(&self) -> bool {
        self.memberships == 0 && self.columns.iter().all(|&column| column == 0)
    }
}

/// Every fact of the query's person and of the crews.
fn universe(book: &Book) -> Facts {
    let mut facts = Facts { memberships: book.sizes.all_crews(), ..Facts::NONE };
    for (attr, value) in book.sizes.pairs() {
        facts.columns[column(attr, value)] = u64::from(book.sizes.all_crews()) | PERSON;
    }
    facts
}

/// The starting facts of the query's person and of the crews.
fn start(book: &Book) -> Facts {
    let mut facts = Facts::NONE;
    for &fact in &book.facts {
        match fact {
            Fact::CrewHolds(crew, attr, value) => facts.columns[column(attr, value)] |= 1 << crew.0,
            Fact::PersonHolds(person, attr, value) if person == book.query.person => {
                facts.columns[column(attr, value)] |= PERSON;
            }
            Fact::PersonIn(person, crew) if person == book.query.person => facts.memberships |= 1 << crew.0,
            _ => {}
        }
    }
    facts
}

/// The crews below and above each crew, itself among them.
struct Tree {
    below: [u32; MOST_CREWS],
    above: [u32; MOST_CREWS],
    person: Person,
}

impl Tree {
    fn new(book: &Book) -> Self {
        let below = book.below();
        let mut above = [0; MOST_CREWS];
        for (senior, &set) in below.iter().enumerate() {
            for junior in crews(set) {
                above[junior.index()] |= 1 << senior;
            }
        }
        Tree { below, above, person: book.query.person }
    }
}

/// What the query asks, in columns.
struct Goal {
    /// The facts that no ledger has which meets the query.
    unwanted: Facts,
    /// The columns that the person must effectively hold.
    wanted: Vec<usize>,
    /// The crews that the person must be in.
    crews: u32,
    /// In mode 02: the person, and every crew that the person inherits from once in the listed crews.
    sources: Option<u64>,
}

impl Goal {
    /// Mode 01 leaves every fact free. Mode 02 forbids other crews than the listed ones, and other values than the named
    /// ones to the person and to every crew that the person then inherits from.
    fn new(book: &Book, tree: &Tree) -> Self {
        let mut goal = Goal { unwanted: Facts::NONE, wanted: Vec::new(), crews: 0, sources: None };
        if let Mode::Exactly { crews: listed } = book.query.mode {
            let below = crews(listed).fold(0, |set, crew| set | tree.below[crew.index()]);
            goal.crews = listed;
            goal.unwanted.memberships = book.sizes.all_crews() & !listed;
            goal.sources = Some(PERSON | u64::from(below));
        }
        for &(attr, set) in &book.query.named {
            for value in (0..book.sizes.values(attr)).map(Value) {
                if set >> value.0 & 1 == 1 {
                    goal.wanted.push(column(attr, value));
                } else {
                    goal.unwanted.columns[column(attr, value)] = goal.sources.unwrap_or(0);
                }
            }
        }
        goal
    }

    /// Whether the query is met once the unwanted facts are gone.
    fn met(&self, state: &State) -> bool {
        self.crews & !state.facts.memberships == 0
            && self.wanted.iter().all(|&column| match self.sources {
                Some(sources) => state.facts.columns[column] & sources != 0,
                None => state.effective[column] & PERSON != 0,
            })
    }
}

/// A set of rules.
#[derive(Clone, Copy)]
struct Rules([u64; MOST_RULES / 64]);

impl Rules {
    const NONE: Rules = Rules([0; MOST_RULES / 64]);

    fn insert(&mut self, rule: usize) {
        self.0[rule / 64] |= 1 << (rule % 64);
    }

    fn wake(&mut self, rules: &Rules) {
        for (word, with) in self.0.iter_mut().zip(&rules.0) {
            *word |= with;
        }
    }

    fn iter(mut self) -> impl Iterator<Item = usize> {
        std::iter::from_fn(move || self.take())
    }

    /// Takes one rule out, the lowest of the first word that has one.
    fn take(&mut self) -> Option<usize> {
        let (n, word) = self.0.iter_mut().enumerate().find(|(_, word)| **word != 0)?;
        let bit = word.trailing_zeros() as usize;
        *word &= *word - 1;
        Some(n * 64 + bit)
    }
}

/// The rules of one way that the query's roles may use, ready for trial.
struct Moves {
    way: Way,
    rules: Vec<Trial>,
    /// Which rules to wake when a column changes for the person, and when it changes for a crew.
    direct: [ForWhom; COLUMNS],
    effective: [ForWhom; COLUMNS],
    /// Which rules to wake when the person comes into a crew, directly and effectively.
    inside: [Rules; MOST_CREWS],
    under: [Rules; MOST_CREWS],
    /// Which rules give a column, and which a place in a crew.
    gives: [ForWhom; COLUMNS],
    lets_in: [Rules; MOST_CREWS],
}

#[derive(Clone, Copy)]
struct ForWhom {
    person: Rules,
    crew: Rules,
}

impl ForWhom {
    const NONE: ForWhom = ForWhom { person: Rules::NONE, crew: Rules::NONE };
}

/// A rule in columns. In a deletion the terms that its own fact fulfils are left out: they are judged while it is there.
struct Trial {
    role: Role,
    what: What,
    /// The columns that must be held directly, then those of which one must be held effectively: one column alone, or
    /// for a ladder term a value's and those of all higher ones.
    columns: [Columns; MOST_TERMS],
    direct: u8,
    all: u8,
    /// For a value: on whom it is tried. For a crew: who may hold an effective column, the person or, in a removal, the
    /// crew that the person is still in.
    scope: u64,
    /// Crews that the person must be in.
    inside: u32,
    under: u32,
}

/// Columns of one attribute, first and last.
#[derive(Clone, Copy, Default)]
struct Columns {
    first: u8,
    last: u8,
}

impl Columns {
    fn one(attr: Attr, value: Value) -> Self {
        Columns::from_to(attr, value, value)
    }

    fn from_to(attr: Attr, low: Value, high: Value) -> Self {
        Columns { first: column(attr, low) as u8, last: column(attr, high) as u8 }
    }

    fn iter(self) -> RangeInclusive<usize> {
        self.first.into()..=self.last.into()
    }
}

impl Trial {
    fn new(rule: &Rule, sizes: &Sizes, tree: &Tree) -> Self {
        let mut scope = match rule.what {
            What::OfCrew(..) => CREWS,
            What::OfPerson(..) | What::Membership(_) => PERSON,
        };
        let (mut direct, mut effective) = (Vec::new(), Vec::new());
        let (mut inside, mut under) = (0, 0);
        for &term in &rule.terms {
            match term {
                Term::Holds(attr, value) => direct.push(Columns::one(attr, value)),
                Term::EffectivelyHolds(attr, value) => effective.push(Columns::one(attr, value)),
                Term::Ladder(attr, value) => {
                    effective.push(Columns::from_to(attr, value, Value(sizes.values(attr) - 1)));
                }
                Term::In(crew) => inside |= 1 << crew.0,
                Term::EffectivelyIn(crew) => under |= 1 << crew.0,
                Term::NotHolds(..) | Term::NotIn(_) => unreachable!("books with such a term have mode 03"),
            }
        }
        if rule.way == Way::Delete {
            match rule.what {
                What::OfPerson(attr, value) | What::OfCrew(attr, value) => {
                    let own = column(attr, value);
                    direct.retain(|columns| !columns.iter().contains(&own));
                    effective.retain(|columns| !columns.iter().contains(&own));
                }
                What::Membership(crew) => {
                    scope |= 1 << crew.0;
                    inside &= !(1 << crew.0);
                    under &= !tree.below[crew.index()];
                }
            }
        }
        let mut columns = [Columns::default(); MOST_TERMS];
        for (to, &from) in columns.iter_mut().zip(direct.iter().chain(&effective)) {
            *to = from;
        }
        let (direct, all) = (direct.len() as u8, (direct.len() + effective.len()) as u8);
        Trial { role: rule.role, what: rule.what, columns, direct, all, scope, inside, under }
    }

    fn direct(&self) -> impl Iterator<Item = usize> + '_ {
        self.columns[..self.direct.into()].iter().map(|columns| columns.first.into())
    }

    fn effective(&self) -> impl Iterator<Item = RangeInclusive<usize>> + '_ {
        self.columns[self.direct.into()..self.all.into()].iter().map(|columns| columns.iter())
    }

    /// On whom of a column's set the rule may be used.
    fn values(&self, state: &State, mut on: u64) -> u64 {
        on &= self.scope;
        for column in self.direct() {
            on &= state.facts.columns[column];
        }
        for columns in self.effective() {
            on &= columns.fold(0, |set, column| set | state.effective[column]);
        }
        on
    }

    /// Whether the rule may be used on the person.
    fn membership(&self, state: &State) -> bool {
        self.inside & !state.facts.memberships == 0
            && self.under & !state.under == 0
            && self.direct().all(|column| state.facts.columns[column] & PERSON != 0)
            && self.effective().all(|mut columns| columns.any(|column| state.effective[column] & self.scope != 0))
    }
}

impl Moves {
    fn new(book: &Book, way: Way, tree: &Tree) -> Self {
        let mut moves = Moves {
            way,
            rules: Vec::new(),
            direct: [ForWhom::NONE; COLUMNS],
            effective: [ForWhom::NONE; COLUMNS],
            inside: [Rules::NONE; MOST_CREWS],
            under: [Rules::NONE; MOST_CREWS],
            gives: [ForWhom::NONE; COLUMNS],
            lets_in: [Rules::NONE; MOST_CREWS],
        };
        for rule in book.rules.iter().filter(|rule| rule.way == way && book.query.has_role(rule.role)) {
            let n = moves.rules.len();
            let trial = Trial::new(rule, &book.sizes, tree);
            for column in trial.direct() {
                moves.direct[column].watch(n, trial.scope);
            }
            for column in trial.effective().flatten() {
                moves.effective[column].watch(n, trial.scope);
            }
            for crew in crews(trial.inside) {
                moves.inside[crew.index()].insert(n);
            }
            for crew in crews(trial.under) {
                moves.under[crew.index()].insert(n);
            }
            match rule.what {
                What::OfPerson(attr, value) | What::OfCrew(attr, value) => {
                    moves.gives[column(attr, value)].watch(n, trial.scope);
                }
                What::Membership(crew) => moves.lets_in[crew.index()].insert(n),
            }
            moves.rules.push(trial);
        }
        moves
    }

    fn all(&self) -> Rules {
        let mut all = Rules::NONE;
        (0..self.rules.len()).for_each(|n| all.insert(n));
        all
    }

    /// The rules that could put in one of these facts.
    fn giving(&self, facts: &Facts) -> Rules {
        let mut rules = Rules::NONE;
        for (gives, &set) in self.gives.iter().zip(&facts.columns) {
            if set & PERSON != 0 {
                rules.wake(&gives.person);
            }
            if set & CREWS != 0 {
                rules.wake(&gives.crew);
            }
        }
        for crew in crews(facts.memberships) {
            rules.wake(&self.lets_in[crew.index()]);
        }
        rules
    }
}

impl ForWhom {
    fn watch(&mut self, rule: usize, scope: u64) {
        if scope & PERSON != 0 {
            self.person.insert(rule);
        }
        if scope & CREWS != 0 {
            self.crew.insert(rule);
        }
    }
}

/// One fact by its place.
#[derive(Clone, Copy)]
enum Place {
    /// A column, and in it a crew's number or the person's, 32.
    Value(usize, u8),
    /// The person in a crew.
    In(Crew),
}

/// The person's number in a column.
const PERSON_BIT: u8 = 32;
/// The bits of a column that are in use.
const BITS: usize = 33;

impl Place {
    fn index(self) -> usize {
        match self {
            Place::Value(column, bit) => column * BITS + usize::from(bit),
            Place::In(crew) => COLUMNS * BITS + crew.index(),
        }
    }
}

impl Facts {
    fn has(&self, place: Place) -> bool {
        match place {
            Place::Value(column, bit) => self.columns[column] >> bit & 1 == 1,
            Place::In(crew) => self.memberships >> crew.0 & 1 == 1,
        }
    }

    fn insert(&mut self, place: Place) {
        match place {
            Place::Value(column, bit) => self.columns[column] |= 1 << bit,
            Place::In(crew) => self.memberships |= 1 << crew.0,
        }
    }

    fn remove(&mut self, place: Place) {
        match place {
            Place::Value(column, bit) => self.columns[column] &= !(1 << bit),
            Place::In(crew) => self.memberships &= !(1 << crew.0),
        }
    }

    fn places(&self) -> impl Iterator<Item = Place> + '_ {
        let values = self.columns.iter().enumerate();
        let values = values.flat_map(|(column, &set)| numbers(set).map(move |bit| Place::Value(column, bit)));
        values.chain(crews(self.memberships).map(Place::In))
    }

    fn insert_all(&mut self, other: &Facts) {
        for (column, with) in self.columns.iter_mut().zip(&other.columns) {
            *column |= with;
        }
        self.memberships |= other.memberships;
    }
}

/// How a fact was put in.
#[derive(Clone, Copy)]
struct Origin {
    /// The rule; a fact that was given has none.
    rule: u16,
    turn: u32,
}

impl Origin {
    const GIVEN: Origin = Origin { rule: u16::MAX, turn: 0 };
}

/// Facts with all that is inherited.
struct State<'t> {
    tree: &'t Tree,
    facts: Facts,
    /// Who effectively holds each column.
    effective: [u64; COLUMNS],
    /// The crews that the person is effectively in.
    under: u32,
    /// By [`Place::index`].
    origins: Vec<Origin>,
    turn: u32,
}

impl<'t> State<'t> {
    fn new(facts: Facts, tree: &'t Tree) -> Self {
        let origins = vec![Origin::GIVEN; COLUMNS * BITS + MOST_CREWS];
        let mut state = State { tree, facts, effective: [0; COLUMNS], under: 0, origins, turn: 0 };
        state.inherit();
        state
    }

    /// Works out what is inherited, anew.
    fn inherit(&mut self) {
        (0..COLUMNS).for_each(|column| self.inherit_column(column));
        self.under = crews(self.facts.memberships).fold(0, |set, crew| set | self.tree.below[crew.index()]);
    }

    fn inherit_column(&mut self, column: usize) {
        let direct = self.facts.columns[column];
        let mut set = crews(direct as u32).fold(direct, |set, crew| set | u64::from(self.tree.above[crew.index()]));
        if set & u64::from(self.facts.memberships) != 0 {
            set |= PERSON;
        }
        self.effective[column] = set;
    }

    /// Moves facts out of `open` into the state as long as some rule allows it.
    fn grow(&mut self, moves: &Moves, mut awake: Rules, open: &mut Facts) {
        while let Some(n) = awake.take() {
            let trial = &moves.rules[n];
            match trial.what {
                What::OfPerson(attr, value) | What::OfCrew(attr, value) => {
                    let column = column(attr, value);
                    let on = trial.values(self, open.columns[column]);
                    open.columns[column] &= !on;
                    for bit in numbers(on) {
                        self.sign(Place::Value(column, bit), n);
                        if bit == PERSON_BIT {
                            self.person_holds(column, moves, &mut awake);
                        } else {
                            self.crew_holds(column, Crew(bit), moves, &mut awake);
                        }
                    }
                }
                What::Membership(crew) => {
                    if open.has(Place::In(crew)) && trial.membership(self) {
                        open.remove(Place::In(crew));
                        self.sign(Place::In(crew), n);
                        self.person_in(crew, moves, &mut awake);
                    }
                }
            }
        }
    }

    fn sign(&mut self, place: Place, rule: usize) {
        self.turn += 1;
        self.origins[place.index()] = Origin { rule: rule as u16, turn: self.turn };
    }

    fn person_holds(&mut self, column: usize, moves: &Moves, awake: &mut Rules) {
        self.facts.columns[column] |= PERSON;
        awake.wake(&moves.direct[column].person);
        self.person_inherits(column, moves, awake);
    }

    fn person_inherits(&mut self, column: usize, moves: &Moves, awake: &mut Rules) {
        if self.effective[column] & PERSON == 0 {
            self.effective[column] |= PERSON;
            awake.wake(&moves.effective[column].person);
        }
    }

    fn crew_holds(&mut self, column: usize, crew: Crew, moves: &Moves, awake: &mut Rules) {
        self.facts.columns[column] |= 1 << crew.0;
        awake.wake(&moves.direct[column].crew);
        let heirs = u64::from(self.tree.above[crew.index()]);
        if heirs & !self.effective[column] != 0 {
            self.effective[column] |= heirs;
            awake.wake(&moves.effective[column].crew);
            if heirs & u64::from(self.facts.memberships) != 0 {
                self.person_inherits(column, moves, awake);
            }
        }
    }

    fn person_in(&mut self, crew: Crew, moves: &Moves, awake: &mut Rules) {
        self.facts.memberships |= 1 << crew.0;
        awake.wake(&moves.inside[crew.index()]);
        let below = self.tree.below[crew.index()];
        for junior in crews(below & !self.under) {
            awake.wake(&moves.under[junior.index()]);
        }
        self.under |= below;
        for column in 0..COLUMNS {
            if self.effective[column] >> crew.0 & 1 == 1 {
                self.person_inherits(column, moves, awake);
            }
        }
    }

    /// Takes facts back with all that cannot be put in without them; gives all that is gone.
    fn shrink(&mut self, moves: &Moves, lost: Facts) -> Facts {
        let mut gone = self.facts.and(&lost);
        let members = self.facts.memberships;
        let mut queue: Vec<Place> = gone.places().collect();
        self.facts = self.facts.without(&lost);
        let mut withdrawn = Facts::NONE;
        let mut columns: u128 = 0;
        while let Some(place) = queue.pop() {
            if let Place::Value(column, _) = place {
                columns |= 1 << column;
            }
            self.resting_on(place, members, moves, |state, place| {
                state.facts.remove(place);
                state.origins[place.index()] = Origin::GIVEN;
                withdrawn.insert(place);
                queue.push(place);
            });
        }
        if self.facts.memberships == members {
            while columns != 0 {
                self.inherit_column(columns.trailing_zeros() as usize);
                columns &= columns - 1;
            }
        } else {
            self.inherit();
        }
        if !withdrawn.is_empty() {
            self.grow(moves, moves.giving(&withdrawn), &mut withdrawn);
            gone.insert_all(&withdrawn);
        }
        gone
    }

    /// Withdraws the facts whose rule may have looked at this one. What is inherited is not yet worked out anew.
    fn resting_on(&mut self, place: Place, members: u32, moves: &Moves, mut withdraw: impl FnMut(&mut Self, Place)) {
        match place {
            Place::Value(column, PERSON_BIT) => {
                self.withdraw(&moves.direct[column].person, PERSON, moves, &mut withdraw);
                self.withdraw(&moves.effective[column].person, PERSON, moves, &mut withdraw);
            }
            Place::Value(column, crew) => {
                let heirs = self.tree.above[usize::from(crew)];
                self.withdraw(&moves.direct[column].crew, 1 << crew, moves, &mut withdraw);
                self.withdraw(&moves.effective[column].crew, heirs.into(), moves, &mut withdraw);
                if heirs & members != 0 {
                    self.withdraw(&moves.effective[column].person, PERSON, moves, &mut withdraw);
                }
            }
            Place::In(crew) => {
                self.withdraw(&moves.inside[crew.index()], PERSON, moves, &mut withdraw);
                for junior in crews(self.tree.below[crew.index()]) {
                    self.withdraw(&moves.under[junior.index()], PERSON, moves, &mut withdraw);
                }
                for column in 0..COLUMNS {
                    if self.effective[column] >> crew.0 & 1 == 1 {
                        self.withdraw(&moves.effective[column].person, PERSON, moves, &mut withdraw);
                    }
                }
            }
        }
    }

    /// Withdraws what these rules have put in, values only on the subjects named.
    fn withdraw(&mut self, rules: &Rules, on: u64, moves: &Moves, withdraw: &mut impl FnMut(&mut Self, Place)) {
        for n in rules.iter() {
            let mut one = |state: &mut Self, place: Place| {
                if state.facts.has(place) && usize::from(state.origins[place.index()].rule) == n {
                    withdraw(state, place);
                }
            };
            match moves.rules[n].what {
                What::OfPerson(attr, value) => one(self, Place::Value(column(attr, value), PERSON_BIT)),
                What::OfCrew(attr, value) => {
                    let column = column(attr, value);
                    for crew in crews((on & self.facts.columns[column]) as u32) {
                        one(self, Place::Value(column, crew.0));
                    }
                }
                What::Membership(crew) => one(self, Place::In(crew)),
            }
        }
    }

    /// The requests that put the facts in, by their turns.
    fn requests(&self, moves: &Moves) -> Vec<Request> {
        let mut turns = vec![None; self.turn as usize + 1];
        for place in self.facts.places() {
            let Origin { rule, turn } = self.origins[place.index()];
            if let Some(trial) = moves.rules.get(usize::from(rule)) {
                turns[turn as usize] = Some((place, trial));
            }
        }
        let request = |(place, trial): (Place, &Trial)| {
            let fact = match (trial.what, place) {
                (What::OfCrew(attr, value), Place::Value(_, crew)) => Fact::CrewHolds(Crew(crew), attr, value),
                (What::OfPerson(attr, value) | What::OfCrew(attr, value), _) => {
                    Fact::PersonHolds(self.tree.person, attr, value)
                }
                (What::Membership(crew), _) => Fact::PersonIn(self.tree.person, crew),
            };
            Request { role: trial.role, way: moves.way, fact }
        };
        turns.into_iter().flatten().map(request).collect()
    }
}
