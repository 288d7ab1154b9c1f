//! The ledger, its requests, and what a person effectively holds.
//!
//! "A ledger is 1,792 bytes."

use crate::book::{
    self, Attr, Book, Crew, Fact, Mode, Person, Query, Role, Sizes, Term, Value, Way, What, MOST_ATTRS, MOST_CREWS,
    MOST_PERSONS, ROLES,
};
use crate::refusals::numbered;

/// "A ledger is 1,792 bytes."
pub const LEDGER_BYTES: usize = 1_792;
/// "A request is five bytes"
pub const REQUEST_BYTES: usize = 5;

/// "A ledger is a set of facts."
#[derive(Clone, PartialEq, Eq)]
pub struct Ledger {
    persons: [[u16; MOST_ATTRS]; MOST_PERSONS],
    crews: [[u16; MOST_ATTRS]; MOST_CREWS],
    memberships: [u32; MOST_PERSONS],
}

impl Default for Ledger {
    fn default() -> Self {
        Ledger {
            persons: [[0; MOST_ATTRS]; MOST_PERSONS],
            crews: [[0; MOST_ATTRS]; MOST_CREWS],
            memberships: [0; MOST_PERSONS],
        }
    }
}

impl Ledger {
    /// The ledger of the starting facts.
    #[must_use]
    pub fn start(book: &Book) -> Self {
        let mut ledger = Ledger::default();
        for &fact in &book.facts {
            ledger.set(fact, true);
        }
        ledger
    }

    /// Whether a fact is in the ledger.
    #[must_use]
    pub fn has(&self, fact: Fact) -> bool {
        match fact {
            Fact::PersonHolds(p, a, v) => self.persons[p.index()][a.index()] >> v.0 & 1 == 1,
            Fact::CrewHolds(c, a, v) => self.crews[c.index()][a.index()] >> v.0 & 1 == 1,
            Fact::PersonIn(p, c) => self.memberships[p.index()] >> c.0 & 1 == 1,
        }
    }

    /// "A permitted request sets or clears its one fact"
    pub fn set(&mut self, fact: Fact, there: bool) {
        match fact {
            Fact::PersonHolds(p, a, v) => put(&mut self.persons[p.index()][a.index()], 1 << v.0, there),
            Fact::CrewHolds(c, a, v) => put(&mut self.crews[c.index()][a.index()], 1 << v.0, there),
            Fact::PersonIn(p, c) => {
                let set = &mut self.memberships[p.index()];
                *set = if there { *set | 1 << c.0 } else { *set & !(1 << c.0) };
            }
        }
    }

    /// The values of an attribute that a person directly holds.
    #[must_use]
    pub fn values(&self, person: Person, attr: Attr) -> u16 {
        self.persons[person.index()][attr.index()]
    }

    /// The crews a person is directly in.
    #[must_use]
    pub fn memberships(&self, person: Person) -> u32 {
        self.memberships[person.index()]
    }

    /// Reads a ledger; nothing when it is "not 1,792 bytes or a bit outside the sizes".
    #[must_use]
    pub fn from_bytes(sizes: &Sizes, bytes: &[u8]) -> Option<Self> {
        if bytes.len() != LEDGER_BYTES {
            return None;
        }
        let mut ledger = Ledger::default();
        let mut good = true;
        for (p, row) in ledger.persons.iter_mut().enumerate() {
            for (a, set) in row.iter_mut().enumerate() {
                *set = two(bytes, 16 * p + 2 * a);
                good &= inside(sizes, p, sizes.persons, a, *set);
            }
        }
        for (c, row) in ledger.crews.iter_mut().enumerate() {
            for (a, set) in row.iter_mut().enumerate() {
                *set = two(bytes, 1_024 + 16 * c + 2 * a);
                good &= inside(sizes, c, sizes.crews, a, *set);
            }
        }
        for (p, set) in ledger.memberships.iter_mut().enumerate() {
            let at = 1_536 + 4 * p;
            *set = u32::from_be_bytes([bytes[at], bytes[at + 1], bytes[at + 2], bytes[at + 3]]);
            let room = if p < sizes.persons.into() { sizes.all_crews() } else { 0 };
            good &= *set & !room == 0;
        }
        good.then_some(ledger)
    }

    /// "Person p's attribute a is a two-byte set at 16·p + 2·a, crew c's at 1,024 + 16·c + 2·a, person p's crews a
    /// four-byte set at 1,536 + 4·p; big-endian, weights as above, bits beyond the book's sizes 0."
    #[must_use]
    pub fn to_bytes(&self) -> [u8; LEDGER_BYTES] {
        let mut bytes = [0; LEDGER_BYTES];
        let sets = self.persons.iter().chain(&self.crews).flatten();
        for (to, set) in bytes[..1_536].chunks_exact_mut(2).zip(sets) {
            to.copy_from_slice(&set.to_be_bytes());
        }
        for (to, set) in bytes[1_536..].chunks_exact_mut(4).zip(&self.memberships) {
            to.copy_from_slice(&set.to_be_bytes());
        }
        bytes
    }
}

fn put(set: &mut u16, bit: u16, there: bool) {
    *set = if there { *set | bit } else { *set & !bit };
}

fn two(bytes: &[u8], at: usize) -> u16 {
    u16::from_be_bytes([bytes[at], bytes[at + 1]])
}

/// "ledger bits are bounded by their own attribute's count"
fn inside(sizes: &Sizes, row: usize, rows: u8, attr: usize, set: u16) -> bool {
    let room = if row < rows.into() { sizes.all_values(Attr(attr as u8)) } else { 0 };
    set & !room == 0
}

/// The numbers in a set, rising.
pub fn numbers(mut set: u64) -> impl Iterator<Item = u8> {
    std::iter::from_fn(move || {
        let lowest = (set != 0).then(|| set.trailing_zeros() as u8);
        set &= set.wrapping_sub(1);
        lowest
    })
}

/// The crews of a set, rising.
pub fn crews(set: u32) -> impl Iterator<Item = Crew> {
    numbers(set.into()).map(Crew)
}

/// A book with its inheritance worked out: what the definitions look at beside a ledger.
pub struct Depot<'b> {
    /// The book.
    pub book: &'b Book,
    below: [u32; MOST_CREWS],
}

impl<'b> Depot<'b> {
    /// Takes the crews below each crew from the book's edges.
    #[must_use]
    pub fn new(book: &'b Book) -> Self {
        Depot { book, below: book.below() }
    }

    /// "A crew effectively holds a value when it holds it directly or some direct junior effectively holds it."
    #[must_use]
    pub fn crew_holds(&self, ledger: &Ledger, crew: Crew, attr: Attr, value: Value) -> bool {
        crews(self.below[crew.index()]).any(|c| ledger.has(Fact::CrewHolds(c, attr, value)))
    }

    /// "A person is effectively in c when directly in c or in a crew from which c is reached downwards by edges."
    #[must_use]
    pub fn person_in(&self, ledger: &Ledger, person: Person) -> u32 {
        crews(ledger.memberships(person)).fold(0, |set, c| set | self.below[c.index()])
    }

    /// "A person effectively holds a value when holding it directly or when some crew the person is directly in
    /// effectively holds it."
    #[must_use]
    pub fn person_holds(&self, ledger: &Ledger, person: Person, attr: Attr, value: Value) -> bool {
        ledger.has(Fact::PersonHolds(person, attr, value))
            || crews(ledger.memberships(person)).any(|c| self.crew_holds(ledger, c, attr, value))
    }

    /// The set of values of an attribute that a person effectively holds.
    #[must_use]
    pub fn person_set(&self, ledger: &Ledger, person: Person, attr: Attr) -> u16 {
        let under = crews(self.person_in(ledger, person));
        under.fold(ledger.values(person, attr), |set, c| set | ledger.crews[c.index()][attr.index()])
    }

    /// Whether a term holds of the subject of a fact.
    #[must_use]
    pub fn term_holds(&self, ledger: &Ledger, fact: Fact, term: Term) -> bool {
        let sizes = &self.book.sizes;
        let person = match fact {
            Fact::PersonHolds(person, ..) | Fact::PersonIn(person, _) => person,
            Fact::CrewHolds(crew, ..) => {
                return match term {
                    Term::Holds(a, v) => ledger.has(Fact::CrewHolds(crew, a, v)),
                    Term::EffectivelyHolds(a, v) => self.crew_holds(ledger, crew, a, v),
                    Term::Ladder(a, v) => sizes.and_higher(a, v).any(|w| self.crew_holds(ledger, crew, a, w)),
                    Term::NotHolds(a, v) => !ledger.has(Fact::CrewHolds(crew, a, v)),
                    Term::In(_) | Term::EffectivelyIn(_) | Term::NotIn(_) => false,
                }
            }
        };
        match term {
            Term::Holds(a, v) => ledger.has(Fact::PersonHolds(person, a, v)),
            Term::EffectivelyHolds(a, v) => self.person_holds(ledger, person, a, v),
            Term::Ladder(a, v) => sizes.and_higher(a, v).any(|w| self.person_holds(ledger, person, a, w)),
            Term::In(c) => ledger.has(Fact::PersonIn(person, c)),
            Term::EffectivelyIn(c) => self.person_in(ledger, person) >> c.0 & 1 == 1,
            Term::NotHolds(a, v) => !ledger.has(Fact::PersonHolds(person, a, v)),
            Term::NotIn(c) => !ledger.has(Fact::PersonIn(person, c)),
        }
    }

    /// "A request is permitted when some rule has its op, role, a and v and all terms hold of the subject before the
    /// request."
    #[must_use]
    pub fn permits(&self, ledger: &Ledger, request: &Request) -> bool {
        let what = request.fact.what();
        self.book.rules.iter().any(|rule| {
            rule.role == request.role
                && rule.way == request.way
                && rule.what == what
                && rule.terms.iter().all(|&term| self.term_holds(ledger, request.fact, term))
        })
    }

    /// Every rule that has a request's op, role, a and v, in the book's order, and how its trial ends.
    #[must_use]
    pub fn trials(&self, ledger: &Ledger, request: &Request) -> Vec<Trial> {
        let sought = (request.role, request.way, request.fact.what());
        let mut trials = Vec::new();
        for (place, rule) in (1..).zip(&self.book.rules) {
            if (rule.role, rule.way, rule.what) == sought {
                let mut terms = (1..).zip(&rule.terms);
                let unmet = terms.find(|&(_, &term)| !self.term_holds(ledger, request.fact, term));
                trials.push(Trial { rule: place, unmet: unmet.map(|(place, _)| place) });
            }
        }
        trials
    }

    /// "13 stays for a request whose op, role, a and v match no rule. Where rules match and each has a term that does
    /// not hold, the answer tells the first such rule by its place among all the book's rules, counted from 1, and its
    /// first unmet term, counted from 1." "That second case gets number 15, in the place that 13 had."
    ///
    /// Nothing for a request that some rule permits.
    #[must_use]
    pub fn refusal(&self, ledger: &Ledger, request: &Request) -> Option<Refusal> {
        let trials = self.trials(ledger, request);
        let unmet = trials.iter().map(|trial| Some(Refusal::UnmetTerm { rule: trial.rule, term: trial.unmet? }));
        // Nothing where a rule has no such term.
        let each: Option<Vec<Refusal>> = unmet.collect();
        each.map(|each| each.first().copied().unwrap_or(Refusal::NoRule))
    }

    /// Whether a ledger meets the query.
    #[must_use]
    pub fn met(&self, ledger: &Ledger) -> bool {
        let Query { mode, person, ref named, .. } = self.book.query;
        let mut sets = named.iter().map(|&(attr, set)| (self.person_set(ledger, person, attr), set));
        match mode {
            Mode::AtLeast => sets.all(|(held, set)| set & !held == 0),
            Mode::Exactly { crews } => ledger.memberships(person) == crews && sets.all(|(held, set)| held == set),
            Mode::AtLeastDirectly { crews } => {
                crews & !ledger.memberships(person) == 0
                    && named.iter().all(|&(attr, set)| set & !ledger.values(person, attr) == 0)
            }
        }
    }
}

/// "The first term that does not hold ends the trial of a rule."
#[derive(Clone, Copy, Debug, PartialEq, Eq)]
pub struct Trial {
    /// The rule's "place among all the book's rules, counted from 1": the frames 03 in their order, repeats too.
    pub rule: u16,
    /// "its first unmet term, counted from 1" among the rule's terms of every kind; nothing where all hold.
    pub unmet: Option<u8>,
}

/// "A request is five bytes: op role subject a v, fields as in a rule."
#[derive(Clone, Copy, Debug, PartialEq, Eq, PartialOrd, Ord, Hash)]
pub struct Request {
    /// Who makes it.
    pub role: Role,
    /// Whether it adds or deletes.
    pub way: Way,
    /// What it adds or deletes.
    pub fact: Fact,
}

impl Request {
    /// Reads a request; nothing when it is "not five bytes or field out of range".
    #[must_use]
    pub fn from_bytes(sizes: &Sizes, bytes: &[u8]) -> Option<Self> {
        let &[op, role, subject, a, v] = bytes else {
            return None;
        };
        if role >= ROLES {
            return None;
        }
        let (way, what) = book::deed(sizes, op, a, v)?;
        let fact = match what {
            What::OfPerson(a, v) => Fact::PersonHolds(sizes.person(subject)?, a, v),
            What::OfCrew(a, v) => Fact::CrewHolds(sizes.crew(subject)?, a, v),
            What::Membership(c) => Fact::PersonIn(sizes.person(subject)?, c),
        };
        Some(Request { role: Role(role), way, fact })
    }

    /// The five bytes.
    #[must_use]
    pub fn to_bytes(&self) -> [u8; REQUEST_BYTES] {
        let op = book::op(self.way, self.fact.what());
        let (subject, a, v) = match self.fact {
            Fact::PersonHolds(p, a, v) => (p.0, a.0, v.0),
            Fact::CrewHolds(c, a, v) => (c.0, a.0, v.0),
            Fact::PersonIn(p, c) => (p.0, c.0, 0),
        };
        [op, self.role.0, subject, a, v]
    }

    /// The ledger after the request, once it is permitted.
    pub fn carry_out(&self, ledger: &mut Ledger) {
        ledger.set(self.fact, self.way == Way::Add);
    }
}

/// What turns an operation on a ledger back.
#[derive(Clone, Copy, Debug, PartialEq, Eq)]
pub enum Refusal {
    /// 1 to 9, 16 and 17.
    Book(book::Refusal),
    /// 11: "ledger not 1,792 bytes or a bit outside the sizes"
    Ledger,
    /// 12: "request not five bytes or field out of range; no such person to show"
    Request,
    /// 13: "a request whose op, role, a and v match no rule"
    NoRule,
    /// 15: "rules match and each has a term that does not hold"
    UnmetTerm {
        /// "the first such rule by its place among all the book's rules, counted from 1": 1 to 512
        rule: u16,
        /// "its first unmet term, counted from 1": 1 to 8
        term: u8,
    },
}

numbered!(Ledger = 11, Request = 12, NoRule = 13, UnmetTerm { rule, term } = 15);

/// "**open** writes the ledger of starting facts"; "11 for open (by length alone, the bytes there are not read)".
///
/// # Errors
///
/// 1-9, 16 and 17, then 11; the ledger then keeps its bytes.
pub fn open(characters: &[u8], ledger: &mut [u8]) -> Result<(), Refusal> {
    let book = book::read(characters)?;
    if ledger.len() != LEDGER_BYTES {
        return Err(Refusal::Ledger);
    }
    ledger.copy_from_slice(&Ledger::start(&book).to_bytes());
    Ok(())
}

/// "**request** acts on a ledger"; "11, 12, 13 for requests", and 15 "in the place that 13 had".
///
/// # Errors
///
/// 1-9, 16 and 17, then 11, 12, then 13 or 15; the ledger then keeps its bytes.
pub fn request(characters: &[u8], ledger: &mut [u8], request: &[u8]) -> Result<(), Refusal> {
    let book = book::read(characters)?;
    let mut facts = Ledger::from_bytes(&book.sizes, ledger).ok_or(Refusal::Ledger)?;
    let request = Request::from_bytes(&book.sizes, request).ok_or(Refusal::Request)?;
    if let Some(refusal) = Depot::new(&book).refusal(&facts, &request) {
        return Err(refusal);
    }
    request.carry_out(&mut facts);
    ledger.copy_from_slice(&facts.to_bytes());
    Ok(())
}

/// "a person's eight effective sets (0 for an absent attribute) and effective crews"
#[derive(Clone, Copy, Debug, PartialEq, Eq)]
pub struct Shown {
    /// The eight effective sets.
    pub sets: [u16; MOST_ATTRS],
    /// The effective crews.
    pub crews: u32,
}

/// "**show** gives a person's eight effective sets (0 for an absent attribute) and effective crews"; "11 then 12 for
/// show".
///
/// # Errors
///
/// 1-9, 16 and 17, then 11, 12.
pub fn show(characters: &[u8], ledger: &[u8], person: u8) -> Result<Shown, Refusal> {
    let book = book::read(characters)?;
    let facts = Ledger::from_bytes(&book.sizes, ledger).ok_or(Refusal::Ledger)?;
    let person = book.sizes.person(person).ok_or(Refusal::Request)?;
    let depot = Depot::new(&book);
    let mut sets = [0; MOST_ATTRS];
    for (a, set) in (0..).zip(sets.iter_mut()) {
        *set = depot.person_set(&facts, person, Attr(a));
    }
    Ok(Shown { sets, crews: depot.person_in(&facts, person) })
}

#[cfg(test)]
mod tests {
    use super::*;
    use crate::gen::{self, Rng};

    const HEAD: &str = "0101020102\n";
    const EDGE: &str = "020100\n";
    const QUERY: &str = "0501000000 00";

    fn opened(characters: &str) -> [u8; LEDGER_BYTES] {
        let mut ledger = [0xAA; LEDGER_BYTES];
        open(characters.as_bytes(), &mut ledger).expect("opens");
        ledger
    }

    fn book(frames: &str) -> String {
        format!("{HEAD}{frames}{}\n", QUERY.replace(' ', ""))
    }

    #[test]
    fn places() {
        let text = "014020081010101010101010\n04013F070F\n04021F070F\n04033F1F00\n0401000000\n050100000000\n";
        let ledger = opened(text);
        let set: Vec<(usize, u8)> = ledger.iter().copied().enumerate().filter(|&(_, byte)| byte != 0).collect();
        assert_eq!(set, [(1, 0x01), (1_022, 0x80), (1_534, 0x80), (1_788, 0x80)]);
    }

    #[test]
    fn d10_a_senior_inherits_and_a_junior_does_not() {
        let text = book(&format!("{EDGE}0403000100\n0402000000\n"));
        let shown = show(text.as_bytes(), &opened(&text), 0).expect("shown");
        assert_eq!(shown, Shown { sets: [1, 0, 0, 0, 0, 0, 0, 0], crews: 0b11 });
        let text = book(&format!("{EDGE}0403000000\n0402010000\n"));
        let shown = show(text.as_bytes(), &opened(&text), 0).expect("shown");
        assert_eq!(shown, Shown { sets: [0; 8], crews: 0b01 });
    }

    #[test]
    fn d11_removal_from_a_crew_held_through_a_senior() {
        let text = book(&format!("{EDGE}0403000100\n030600000000\n"));
        let before = opened(&text);
        let mut after = before;
        assert_eq!(request(text.as_bytes(), &mut after, &[6, 0, 0, 0, 0]), Ok(()));
        assert_eq!(before, after);
    }

    #[test]
    fn d12_a_deleted_value_that_is_inherited() {
        let text = book("0401000000\n0402000000\n0403000000\n030200000000\n");
        let mut ledger = opened(&text);
        assert_eq!(request(text.as_bytes(), &mut ledger, &[2, 0, 0, 0, 0]), Ok(()));
        assert_eq!(ledger[1], 0);
        assert_eq!(show(text.as_bytes(), &ledger, 0).expect("shown").sets[0], 1);
    }

    /// Two persons, crew 1 the senior of crew 0, attributes 0 and 1, values 0, 1 and 2.
    const GRADES: &str = "010202020303\n020100\n";

    /// The answer to a request under a book of these rules and starting facts; a refusal leaves every byte.
    fn answer(rules: &str, facts: &[&str], asked: [u8; 5]) -> Result<(), Refusal> {
        let facts: String = facts.iter().map(|fact| format!("04{fact}\n")).collect();
        let text = format!("{GRADES}{rules}{facts}050100000000\n");
        let mut ledger = opened(&text);
        let answer = request(text.as_bytes(), &mut ledger, &asked);
        assert!(answer.is_ok() || ledger == opened(&text), "{answer:?} wrote");
        answer
    }

    /// Refusal 15.
    fn unmet(rule: u16, term: u8) -> Result<(), Refusal> {
        Err(Refusal::UnmetTerm { rule, term })
    }

    /// Whether a request is carried out, and if not, for the first term of a rule.
    fn done(rules: &str, facts: &[&str], asked: [u8; 5]) -> bool {
        let answer = answer(rules, facts, asked);
        assert!(matches!(answer, Ok(()) | Err(Refusal::UnmetTerm { term: 1, .. })), "{answer:?}");
        answer.is_ok()
    }

    /// Person 0 in crew 0, and in crew 1.
    const IN_0: &str = "03000000";
    const IN_1: &str = "03000100";

    /// "holds when the subject effectively holds v or any higher value of a": v is 1, and of 0 to 2 this leaves out 0.
    #[test]
    fn a_ladder_about_a_person() {
        let of_person_0 = |v: u8| format!("010000{v:02X}");
        let of_crew_0 = |v: u8| format!("020000{v:02X}");
        let of_crew_1 = |v: u8| format!("020100{v:02X}");
        // Ops 01, 02, 05 and 06, each on person 0, and crew 1 for the last two.
        let requests =
            [("01", [1, 0, 0, 1, 0]), ("02", [2, 0, 0, 1, 0]), ("05", [5, 0, 0, 1, 0]), ("06", [6, 0, 0, 1, 0])];
        for (op, asked) in requests {
            let rule = format!("03{op}00010001050001\n");
            let done = |facts: &[&str]| done(&rule, facts, asked);
            assert!(!done(&[]), "op {op}");
            for (v, met) in [(0, false), (1, true), (2, true)] {
                assert_eq!(done(&[&of_person_0(v)]), met, "op {op}, value {v} directly");
                assert_eq!(done(&[&of_crew_0(v), IN_0]), met, "op {op}, value {v} by a crew");
                assert_eq!(done(&[&of_crew_0(v), IN_1]), met, "op {op}, value {v} by a junior of the crew");
                assert!(!done(&[&of_crew_1(v), IN_0]), "op {op}, value {v} of a senior of the crew");
                assert!(!done(&[&of_crew_0(v)]) && !done(&[&of_crew_1(v)]), "op {op}, value {v} of another's crew");
                assert!(!done(&[&format!("010100{v:02X}")]), "op {op}, value {v} of another person");
                assert!(!done(&[&format!("010001{v:02X}")]), "op {op}, value {v} of another attribute");
            }
            // The higher value may come from elsewhere than the lower ones.
            assert!(done(&[&of_person_0(0), &of_crew_0(2), IN_1]), "op {op}");
            assert!(!done(&[&of_person_0(0), &of_crew_0(0), IN_1]), "op {op}");
        }
    }

    /// The same of crew 1, ops 03 and 04: persons play no part, whoever is in it.
    #[test]
    fn a_ladder_about_a_crew() {
        for (op, asked) in [("03", [3, 0, 1, 1, 0]), ("04", [4, 0, 1, 1, 0])] {
            let rule = format!("03{op}00010001050001\n");
            let done = |facts: &[&str], asked| done(&rule, facts, asked);
            for (v, met) in [(0, false), (1, true), (2, true)] {
                assert_eq!(done(&[&format!("020100{v:02X}")], asked), met, "op {op}, value {v} directly");
                assert_eq!(done(&[&format!("020000{v:02X}")], asked), met, "op {op}, value {v} by its junior");
                assert!(!done(&[&format!("010000{v:02X}"), IN_1], asked), "op {op}, value {v} of a person in it");
                let junior = [asked[0], 0, 0, 1, 0];
                assert!(!done(&[&format!("020100{v:02X}")], junior), "op {op}, value {v} of its senior");
            }
        }
    }

    /// "all terms hold of the subject before the request"
    #[test]
    fn a_ladder_is_judged_before_the_request() {
        // Deleting w needs v or any higher of the same attribute, and w alone is held.
        for (v, w) in [(0, 0), (0, 1), (0, 2), (1, 0), (1, 1), (1, 2), (2, 0), (2, 1), (2, 2)] {
            for (op, kind) in [(2, 1), (4, 2)] {
                let rule = format!("03{op:02X}0000{w:02X}010500{v:02X}\n");
                let fact = format!("{kind:02X}0000{w:02X}");
                assert_eq!(done(&rule, &[&fact], [op, 0, 0, 0, w]), w >= v, "op {op}, {v} {w}");
                assert!(!done(&rule, &[], [op, 0, 0, 0, w]));
            }
        }
        // A removal rests on the value of the crew that is left, and an assignment not on that of the crew joined.
        for v in 0..3 {
            let junior = format!("020000{v:02X}");
            for (crew, inside) in [(0, IN_0), (1, IN_1)] {
                let rules = format!("0306000{crew}0001050001\n0305000{crew}0001050001\n");
                assert_eq!(done(&rules, &[&junior, inside], [6, 0, 0, crew, 0]), v >= 1, "crew {crew}, value {v}");
                assert!(!done(&rules, &[&junior], [5, 0, 0, crew, 0]), "crew {crew}, value {v}");
            }
        }
    }

    /// At the largest sizes: each crew above the one before it, crew 0 holds one value of attribute 7, and person 63 is
    /// in crew 31.
    #[test]
    fn a_ladder_through_all_crews() {
        let edges: String = (1..32).map(|senior| format!("02{senior:02X}{:02X}\n", senior - 1)).collect();
        for (v, w) in [(0, 15), (14, 15), (15, 15), (0, 0), (15, 14), (15, 0), (8, 7)] {
            let rule = format!("0301000000010507{v:02X}\n");
            let text = format!("014020081010101010101010\n{edges}{rule}04020007{w:02X}\n04033F1F00\n050100000000\n");
            let mut ledger = opened(&text);
            assert_eq!(request(text.as_bytes(), &mut ledger, &[1, 0, 62, 0, 0]), unmet(1, 1));
            let expected = if w >= v { Ok(()) } else { unmet(1, 1) };
            assert_eq!(request(text.as_bytes(), &mut ledger, &[1, 0, 63, 0, 0]), expected, "{v} {w}");
        }
    }

    /// "13 stays for a request whose op, role, a and v match no rule."
    #[test]
    fn no_rule() {
        let none = Err(Refusal::NoRule);
        // Op, role, a and v of a request on person 0, and of rules with another in one of these places.
        let adding = ("01000100", vec!["02000100", "03000100", "01010100", "01000000", "01000101", "01000102"]);
        let assigning = ("05000100", vec!["06000100", "05010100", "05000000"]);
        for ((own, others), op) in [(adding, 1), (assigning, 5)] {
            let asked = [op, 0, 0, 1, 0];
            assert_eq!(answer("", &[], asked), none);
            assert_eq!(answer(&format!("03{own}00\n"), &[], asked), Ok(()));
            assert_eq!(answer(&format!("03{own}01010000\n"), &[], asked), unmet(1, 1));
            // Their terms change nothing, met or not.
            let mut all = String::new();
            for (other, terms) in
                others.iter().flat_map(|other| ["00", "01010000", "02010000050001"].map(|n| (other, n)))
            {
                let rule = format!("03{other}{terms}\n");
                assert_eq!(answer(&rule, &[], asked), none, "{rule}");
                assert_eq!(answer(&rule, &["01000000", "01000001"], asked), none, "{rule}");
                all += &rule;
            }
            assert_eq!(answer(&all, &[], asked), none);
            assert_eq!(answer(&all, &["01000000", "01000001"], asked), none);
        }
    }

    /// "its first unmet term, counted from 1": the n-th of eight terms asks for value n - 1, held directly.
    #[test]
    fn one_rule_and_its_terms() {
        let terms: String = (0..8).map(|v| format!("0100{v:02X}")).collect();
        let holding = |held: &dyn Fn(u8) -> bool| {
            let facts: String = (0..8).filter(|&v| held(v)).map(|v| format!("04010000{v:02X}\n")).collect();
            let text = format!("0101000110\n{facts}030100000F08{terms}\n050100000000\n");
            let mut ledger = opened(&text);
            request(text.as_bytes(), &mut ledger, &[1, 0, 0, 0, 15])
        };
        assert_eq!(holding(&|_| true), Ok(()));
        assert_eq!(holding(&|_| false), unmet(1, 1));
        for n in 1..=8 {
            assert_eq!(holding(&|v| v != n - 1), unmet(1, n), "all but the {n}th");
            assert_eq!(holding(&|v| v < n - 1), unmet(1, n), "those before the {n}th");
            assert_eq!(holding(&|v| v == n - 1), unmet(1, if n == 1 { 2 } else { 1 }), "the {n}th alone");
        }
    }

    /// The place in the rule counts, whatever the kind: of each kind one term, and for each a fact that alone meets it.
    #[test]
    fn an_unmet_term_of_each_kind() {
        let terms = ["010000", "020001", "030000", "040100", "050101"];
        let facts = ["01000000", "01000001", "03000000", "03000100", "01000102"];
        let but = |n: usize| [&facts[..n], &facts[n + 1..]].concat();
        for (op, asked) in [("05", [5, 0, 0, 0, 0]), ("06", [6, 0, 0, 0, 0])] {
            let rule = format!("03{op}00000005{}\n", terms.concat());
            let backwards = format!("03{op}00000005{}\n", terms.iter().rev().copied().collect::<String>());
            assert_eq!(answer(&rule, &facts, asked), Ok(()));
            assert_eq!(answer(&backwards, &facts, asked), Ok(()));
            for n in 0..5 {
                assert_eq!(answer(&rule, &but(n), asked), unmet(1, n as u8 + 1), "op {op}, kind {}", n + 1);
                assert_eq!(answer(&backwards, &but(n), asked), unmet(1, 5 - n as u8), "op {op}, kind {}", n + 1);
            }
        }
        // About values, in the other ops: of a person, and of crew 0 by the kinds of its facts.
        for (op, kind) in [(1, "01"), (2, "01"), (3, "02"), (4, "02")] {
            let rule = format!("03{op:02X}00010003010000020001050101\n");
            let facts = [0x0000, 0x0001, 0x0102].map(|av: u16| format!("{kind}00{av:04X}"));
            let facts = facts.each_ref().map(String::as_str);
            let asked = [op, 0, 0, 1, 0];
            assert_eq!(answer(&rule, &facts, asked), Ok(()));
            assert_eq!(answer(&rule, &facts[1..], asked), unmet(1, 1), "op {op}");
            assert_eq!(answer(&rule, &[facts[0], facts[2]], asked), unmet(1, 2), "op {op}");
            assert_eq!(answer(&rule, &facts[..2], asked), unmet(1, 3), "op {op}");
        }
    }

    /// The answer to requests one after the other, under a book of these rules and starting facts with mode 03.
    fn answers(rules: &str, facts: &[&str], asked: &[[u8; 5]]) -> Vec<Result<(), Refusal>> {
        let facts: String = facts.iter().map(|fact| format!("04{fact}\n")).collect();
        let text = format!("{GRADES}{rules}{facts}05030000000000000000\n");
        let mut ledger = opened(&text);
        let mut one = |request: &[u8; 5]| {
            let before = ledger;
            let answer = super::request(text.as_bytes(), &mut ledger, request);
            assert!(answer.is_ok() || ledger == before, "{answer:?} wrote");
            answer
        };
        asked.iter().map(&mut one).collect()
    }

    /// "the subject does not directly hold v of a": of a person in ops 01 and 05, of a crew in op 03.
    #[test]
    fn a_not_term_about_a_value() {
        for (op, subject, asked) in
            [(1, "0100", [1, 0, 0, 1, 0]), (3, "0200", [3, 0, 0, 1, 0]), (5, "0100", [5, 0, 0, 1, 0])]
        {
            let rule = format!("03{op:02X}00010001810001\n");
            let done = |facts: &[&str]| match answers(&rule, facts, &[asked])[0] {
                Ok(()) => true,
                refused => {
                    assert_eq!(refused, unmet(1, 1));
                    false
                }
            };
            assert!(done(&[]), "op {op}");
            assert!(!done(&[&format!("{subject}0001")]), "op {op}");
            // Other values, another attribute and other subjects hinder nothing, nor what is inherited.
            assert!(
                done(&[&format!("{subject}0000"), &format!("{subject}0002"), &format!("{subject}0101")]),
                "op {op}"
            );
            let other = if op == 3 { ["01000001", "02010001"] } else { ["01010001", "02000001"] };
            assert!(done(&[other[0], other[1], IN_0, IN_1]), "op {op}");
        }
    }

    /// "the person is not directly in crew a"
    #[test]
    fn a_not_term_about_a_crew() {
        let rules = "030500010001830000\n030500000000\n";
        let (join_0, join_1) = ([5, 0, 0, 0, 0], [5, 0, 0, 1, 0]);
        assert_eq!(answers(rules, &[], &[join_1, join_0, join_1]), [Ok(()), Ok(()), unmet(1, 1)]);
        assert_eq!(answers(rules, &[], &[join_0, join_1]), [Ok(()), unmet(1, 1)]);
        // Effectively in crew 0, the junior of crew 1, is not directly; another person in it is another.
        assert_eq!(answers(rules, &[IN_1], &[join_1]), [Ok(())]);
        assert_eq!(answers(rules, &["03010000"], &[join_1, [5, 0, 1, 1, 0]]), [Ok(()), unmet(1, 1)]);
    }

    /// "before the request": a rule that bars its own fact is used once.
    #[test]
    fn a_not_term_about_its_own_fact() {
        let add = [1, 0, 0, 0, 0];
        assert_eq!(answers("030100000001810000\n", &[], &[add, add]), [Ok(()), unmet(1, 1)]);
        assert_eq!(answers("030300000001810000\n", &[], &[[3, 0, 1, 0, 0]; 2]), [Ok(()), unmet(1, 1)]);
        assert_eq!(answers("030500000001830000\n", &[], &[[5, 0, 1, 0, 0]; 2]), [Ok(()), unmet(1, 1)]);
    }

    /// 15 names a "not" term as any other.
    #[test]
    fn an_unmet_not_term() {
        let rules = "030100000200\n030500000004010000810001030100830000\n";
        let join = [5, 0, 0, 0, 0];
        let one = |facts: &[&str]| answers(rules, facts, &[join])[0];
        assert_eq!(one(&[]), unmet(2, 1));
        assert_eq!(one(&["01000000", "01000001", IN_1]), unmet(2, 2));
        assert_eq!(one(&["01000000"]), unmet(2, 3));
        assert_eq!(one(&["01000000", IN_1, IN_0]), unmet(2, 4));
        assert_eq!(one(&["01000000", IN_1]), Ok(()));
        assert_eq!(one(&["01000001", IN_0]), unmet(2, 1));
        // 13 where no rule has the role.
        assert_eq!(answers(rules, &[], &[[5, 1, 0, 0, 0]]), [Err(Refusal::NoRule)]);
    }

    /// "the person must at least directly hold the named sets and directly be in the listed crews"
    #[test]
    fn met_directly() {
        let met = |facts: &[&str], query: &str| {
            let facts: String = facts.iter().map(|fact| format!("04{fact}\n")).collect();
            let text = format!("{GRADES}030100000001810000\n{facts}{query}\n");
            let book = book::read(text.as_bytes()).expect("accepted");
            Depot::new(&book).met(&Ledger::start(&book))
        };
        let value = "05030000000100000200000000";
        assert!(!met(&[], value) && met(&["01000001"], value));
        assert!(met(&["01000000", "01000001", "01000102", IN_1], value), "more is allowed");
        assert!(!met(&["02000001", IN_0, "01010001"], value), "neither inherited nor another's");
        let crew_0 = "05030000000000000001";
        assert!(!met(&[], crew_0) && met(&[IN_0], crew_0) && met(&[IN_0, IN_1], crew_0));
        assert!(!met(&[IN_1, "03010000"], crew_0), "neither effectively nor another");
        let both = "0503000000020000030100040000 0003".replace(' ', "");
        let all = ["01000000", "01000001", "01000102", IN_0, IN_1];
        assert!(met(&all, &both));
        for n in 0..all.len() {
            assert!(!met(&[&all[..n], &all[n + 1..]].concat(), &both), "all but {n}");
        }
        assert!(met(&[], "05030000000000000000"));
    }

    /// A lower grade does not meet a ladder term, nor a crew's value the kind 01.
    #[test]
    fn unmet_by_a_lower_grade_and_by_a_crew() {
        let asked = [1, 0, 0, 1, 0];
        let ladder = "030100010002010000050001\n";
        assert_eq!(answer(ladder, &["01000000"], asked), unmet(1, 2));
        assert_eq!(answer(ladder, &["01000000", "01000001"], asked), Ok(()));
        assert_eq!(answer(ladder, &["01000000", "01000002"], asked), Ok(()));
        let direct = "030100010002020000010000\n";
        assert_eq!(answer(direct, &["02000000", IN_1], asked), unmet(1, 2));
        assert_eq!(answer(direct, &["02010000", IN_0], asked), unmet(1, 1));
    }

    /// "the first such rule by its place among all the book's rules, counted from 1"
    #[test]
    fn the_first_of_several_rules() {
        let asked = [1, 0, 0, 1, 0];
        // Values 0 and 1, and value 2, of attribute 0; a rule of another role.
        let (two, one, other) = ("030100010002010000010001\n", "030100010001010002\n", "030101010000\n");
        let answer = |rules: &[&str], facts: &[&str]| answer(&rules.concat(), facts, asked);
        let low = ["01000000"];
        assert_eq!(answer(&[two, one], &low), unmet(1, 2));
        assert_eq!(answer(&[one, two], &low), unmet(1, 1));
        assert_eq!(answer(&[two, one], &[]), unmet(1, 1));
        // One that does not match counts, and so does one given twice.
        assert_eq!(answer(&[other, two], &low), unmet(2, 2));
        assert_eq!(answer(&[other, other, two, other, one], &low), unmet(3, 2));
        assert_eq!(answer(&[two, two], &low), unmet(1, 2));
        assert_eq!(answer(&[other, one, one, two], &low), unmet(2, 1));
        // Edges and starting facts are no rules.
        assert_eq!(answer(&["020100\n", "0401010000\n", other, "0401010001\n", two], &low), unmet(2, 2));
        // One of them permits, whichever it is.
        let free = "030100010000\n";
        for rules in [[free, two, one], [two, free, one], [two, one, free]] {
            assert_eq!(answer(&rules, &low), Ok(()));
        }
        assert_eq!(answer(&[two, one], &["01000002"]), Ok(()));
        assert_eq!(answer(&[two, one], &["01000000", "01000001"]), Ok(()));
    }

    #[test]
    fn the_places_of_512_rules() {
        let asked = [1, 0, 0, 1, 0];
        let (other, own, free) = ("030101010000\n", "030100010002010000050001\n", "030100010000\n");
        for before in [0, 1, 254, 255, 256, 510, 511] {
            let rules = other.repeat(before) + own + &other.repeat(511 - before);
            let place = before as u16 + 1;
            assert_eq!(answer(&rules, &[], asked), unmet(place, 1));
            assert_eq!(answer(&rules, &["01000000"], asked), unmet(place, 2));
            assert_eq!(answer(&rules, &["01000000", "01000002"], asked), Ok(()));
        }
        assert_eq!(answer(&own.repeat(512), &["01000000"], asked), unmet(1, 2));
        assert_eq!(answer(&(own.repeat(511) + free), &[], asked), Ok(()));
        assert_eq!(answer(&other.repeat(512), &[], asked), Err(Refusal::NoRule));
    }

    /// "before the request": the ledger as it stands, and neither the starting facts nor another subject.
    #[test]
    fn unmet_in_the_ledger_as_it_stands() {
        let rules = "030100000000\n030100000100\n030200000000\n030100010002010000010001\n";
        let text = format!("{GRADES}{rules}050100000000\n");
        let mut ledger = opened(&text);
        let mut ask = |op, subject, a, v| request(text.as_bytes(), &mut ledger, &[op, 0, subject, a, v]);
        assert_eq!(ask(1, 0, 1, 0), unmet(4, 1));
        assert_eq!(ask(1, 0, 0, 0), Ok(()));
        assert_eq!(ask(1, 0, 1, 0), unmet(4, 2));
        assert_eq!(ask(1, 1, 1, 0), unmet(4, 1));
        assert_eq!(ask(1, 0, 0, 1), Ok(()));
        assert_eq!(ask(2, 0, 0, 0), Ok(()));
        assert_eq!(ask(1, 0, 1, 0), unmet(4, 1));
        assert_eq!(ask(1, 0, 0, 0), Ok(()));
        assert_eq!(ask(1, 0, 1, 0), Ok(()));
        assert_eq!(ask(1, 1, 1, 0), unmet(4, 1));
        assert_eq!(ask(2, 0, 1, 0), Err(Refusal::NoRule));
    }

    /// 11, then 12, then 13 or 15; every byte stays.
    #[test]
    fn thirteen_and_fifteen_come_last() {
        let text = book("030100000001010001\n");
        let (matching, other) = ([1, 0, 0, 0, 0], [2, 0, 0, 0, 0]);
        let mut full = [0; LEDGER_BYTES];
        // Value 0 of the person and both crews, and both memberships: all but what the term asks for.
        [1, 1_025, 1_041].iter().for_each(|&at| full[at] = 1);
        full[1_539] = 0b11;
        let asked = |bytes: &[u8], asked: &[u8]| {
            let mut ledger = bytes.to_vec();
            let refusal = request(text.as_bytes(), &mut ledger, asked).expect_err("refused");
            assert_eq!(ledger, bytes, "{refusal} wrote");
            refusal
        };
        for ledger in [[0; LEDGER_BYTES], full] {
            assert_eq!(asked(&ledger, &matching), Refusal::UnmetTerm { rule: 1, term: 1 });
            assert_eq!(asked(&ledger, &other), Refusal::NoRule);
            for bytes in [matching, other] {
                let mut outside = ledger;
                outside[1] |= 4;
                assert_eq!(asked(&outside, &bytes), Refusal::Ledger);
                assert_eq!(asked(&ledger[1..], &bytes), Refusal::Ledger);
                assert_eq!(asked(&outside, &bytes[1..]), Refusal::Ledger);
                assert_eq!(asked(&ledger, &bytes[1..]), Refusal::Request);
                let [op, role, _, a, v] = bytes;
                assert_eq!(asked(&ledger, &[op, role, 1, a, v]), Refusal::Request);
            }
        }
    }

    #[test]
    fn numbers_and_words() {
        let refusal = Refusal::UnmetTerm { rule: 512, term: 8 };
        assert_eq!((Refusal::NoRule.number(), refusal.number()), (13, 15));
        assert_eq!(Refusal::NoRule.to_string(), "refusal 13");
        assert_eq!(refusal.to_string(), "refusal 15, rule 512, term 8");
    }

    #[test]
    fn the_tables_examples() {
        let text = book("030100000000\n");
        let text = text.as_bytes();
        let mut ledger = [0; LEDGER_BYTES];
        assert_eq!(open(text, &mut ledger[1..]), Err(Refusal::Ledger));
        assert_eq!(request(text, &mut ledger[1..], &[1, 0, 0, 0, 0]), Err(Refusal::Ledger));
        assert_eq!(show(text, &ledger[1..], 0), Err(Refusal::Ledger));
        assert_eq!(request(text, &mut ledger, &[7, 0, 0, 0, 0]), Err(Refusal::Request));
        assert_eq!(request(text, &mut ledger, &[1, 0, 0, 0]), Err(Refusal::Request));
        assert_eq!(request(text, &mut ledger, &[1, 16, 0, 0, 0]), Err(Refusal::Request));
        assert_eq!(show(text, &ledger, 1), Err(Refusal::Request));
        assert_eq!(request(text, &mut ledger, &[1, 1, 0, 0, 0]), Err(Refusal::NoRule));
        assert_eq!(ledger, [0; LEDGER_BYTES]);
        assert_eq!(request(text, &mut ledger, &[1, 0, 0, 0, 0]), Ok(()));
        assert_eq!(ledger[1], 1);
    }

    #[test]
    fn open_reads_no_byte_and_others_read_all() {
        let text = book("");
        for at in [0, 2, 16, 1_024, 1_026, 1_056, 1_536, 1_539, 1_540, 1_791] {
            let mut ledger = [0; LEDGER_BYTES];
            ledger[at] = 4;
            assert_eq!(show(text.as_bytes(), &ledger, 0), Err(Refusal::Ledger), "byte {at}");
            assert_eq!(request(text.as_bytes(), &mut ledger, &[]), Err(Refusal::Ledger), "byte {at}");
            assert_eq!(open(text.as_bytes(), &mut ledger), Ok(()));
            assert_eq!(ledger, [0; LEDGER_BYTES]);
        }
    }

    /// Two persons, two crews, and three attributes of three, sixteen and one values.
    const OWN_COUNTS: &str = "01020203031001\n";

    /// "ledger bits are bounded by their own attribute's count": each bit of each attribute, alone in a ledger.
    #[test]
    fn bits_by_their_own_count() {
        let text = format!("{OWN_COUNTS}050100000000\n");
        let counts = [3, 16, 1, 0, 0, 0, 0, 0];
        // Persons 0 to 2 and crews 0 to 2, of which the last are absent.
        for (row, there) in [(0, true), (16, true), (32, false), (1_024, true), (1_040, true), (1_056, false)] {
            for (a, v) in (0..8).flat_map(|a| (0..16).map(move |v| (a, v))) {
                let mut ledger = [0; LEDGER_BYTES];
                ledger[row + 2 * a..][..2].copy_from_slice(&u16::to_be_bytes(1 << v));
                let before = ledger;
                let good = there && v < counts[a];
                let expected = if good { Refusal::NoRule } else { Refusal::Ledger };
                assert_eq!(request(text.as_bytes(), &mut ledger, &[1, 0, 0, 0, 0]), Err(expected), "{row} {a} {v}");
                assert_eq!(ledger, before);
                let shown = show(text.as_bytes(), &ledger, 0);
                let mut sets = [0; 8];
                sets[a] = if row == 0 { 1 << v } else { 0 };
                let expected = if good { Ok(Shown { sets, crews: 0 }) } else { Err(Refusal::Ledger) };
                assert_eq!(shown, expected, "{row} {a} {v}");
            }
        }
    }

    /// The same of a request's value, in each op that has one.
    #[test]
    fn requests_by_their_own_count() {
        let rules = "030100010F00\n030200010F00\n030300010F00\n030400010F00\n";
        let text = format!("{OWN_COUNTS}{rules}050100000000\n");
        for op in 1..=4 {
            for (a, v) in (0..=8).flat_map(|a| (0..=17).chain([255]).map(move |v| (a, v))) {
                let mut ledger = [0; LEDGER_BYTES];
                let answer = request(text.as_bytes(), &mut ledger, &[op, 0, 1, a, v]);
                let inside = [3, 16, 1].get(usize::from(a)).is_some_and(|&count| v < count);
                let expected = match (inside, a, v) {
                    (true, 1, 15) => Ok(()),
                    (true, ..) => Err(Refusal::NoRule),
                    _ => Err(Refusal::Request),
                };
                assert_eq!(answer, expected, "op {op}, {a} {v}");
                assert_eq!(ledger != [0; LEDGER_BYTES], answer.is_ok() && op % 2 == 1);
            }
        }
    }

    /// Each attribute's highest value is shown, held directly and through a crew and its junior, and an absent
    /// attribute is 0.
    #[test]
    fn shown_by_their_own_count() {
        let facts = "0401000002\n040200010F\n0402010200\n0403000100\n";
        let text = format!("{OWN_COUNTS}020100\n{facts}050100000000\n");
        let shown = show(text.as_bytes(), &opened(&text), 0);
        assert_eq!(shown, Ok(Shown { sets: [4, 0x8000, 1, 0, 0, 0, 0, 0], crews: 0b11 }));
    }

    /// "v or any higher value of a" ends with the attribute's own count, whether its neighbours have more or fewer.
    #[test]
    fn a_ladder_to_its_own_count() {
        for (a, count) in [(0, 3), (1, 16), (2, 1)] {
            for (v, w) in (0..count).flat_map(|v| (0..count).map(move |w| (v, w))) {
                let rules = format!("030100000001 05{a:02X}{v:02X}\n030300000001 05{a:02X}{v:02X}\n").replace(' ', "");
                let facts = format!("040100{a:02X}{w:02X}\n040200{a:02X}{w:02X}\n");
                let text = format!("{OWN_COUNTS}{rules}{facts}050100000000\n");
                for (op, rule) in [(1, 1), (3, 2)] {
                    let expected = if w >= v { Ok(()) } else { unmet(rule, 1) };
                    let answer = request(text.as_bytes(), &mut opened(&text), &[op, 0, 0, 0, 0]);
                    assert_eq!(answer, expected, "op {op}, attribute {a}, {v} {w}");
                }
            }
        }
        // The highest value of each neighbour fulfils no term about attribute 1.
        let text = format!("{OWN_COUNTS}030100000001050100\n0401000002\n0401000200\n050100000000\n");
        assert_eq!(request(text.as_bytes(), &mut opened(&text), &[1, 0, 0, 0, 0]), unmet(1, 1));
    }

    #[test]
    fn numbers_of_a_set() {
        assert!(numbers(0).eq([]));
        assert!(numbers(1 << 63 | 0b101).eq([0, 2, 63]));
        assert!(crews(u32::MAX).eq((0..32).map(Crew)));
    }

    /// The definition as the paper words it: crew test and scan over its direct juniors.
    fn holds_by_juniors(book: &Book, ledger: &Ledger, crew: Crew, attr: Attr, value: Value) -> bool {
        ledger.has(Fact::CrewHolds(crew, attr, value))
            || book
                .edges
                .iter()
                .any(|&(senior, junior)| senior == crew && holds_by_juniors(book, ledger, junior, attr, value))
    }

    #[test]
    fn inheritance_is_that_of_the_definition() {
        let mut rng = Rng::new(0x1E46);
        for _ in 0..300 {
            let text = gen::middle_book(&mut rng).text();
            let book = book::read(&text).expect("accepted");
            let bytes = gen::ledger(&mut rng, &book.sizes);
            let ledger = Ledger::from_bytes(&book.sizes, &bytes).expect("good");
            assert_eq!(ledger.to_bytes()[..], bytes[..]);
            let depot = Depot::new(&book);
            for (a, v) in book.sizes.pairs() {
                for c in crews(book.sizes.all_crews()) {
                    let held = holds_by_juniors(&book, &ledger, c, a, v);
                    assert_eq!(depot.crew_holds(&ledger, c, a, v), held);
                    let rest = |w| holds_by_juniors(&book, &ledger, c, a, Value(w));
                    let ladder = (v.0..book.sizes.counts[a.index()]).any(rest);
                    assert_eq!(depot.term_holds(&ledger, Fact::CrewHolds(c, a, v), Term::Ladder(a, v)), ladder);
                }
                for p in (0..book.sizes.persons).map(Person) {
                    let by_crew = |c| holds_by_juniors(&book, &ledger, c, a, v);
                    let held = ledger.has(Fact::PersonHolds(p, a, v)) || crews(ledger.memberships(p)).any(by_crew);
                    assert_eq!(depot.person_holds(&ledger, p, a, v), held);
                    let set = depot.person_set(&ledger, p, a);
                    assert_eq!(set >> v.0 & 1 == 1, held);
                    let ladder = depot.term_holds(&ledger, Fact::PersonHolds(p, a, v), Term::Ladder(a, v));
                    assert_eq!(ladder, set >> v.0 != 0);
                }
            }
        }
    }
}
