//! The book and its reader.
//!
//! "House format: lines of hexadecimal, one frame a line, digits 0-9 and A-F, two a byte, each line ended by byte 0A."

use std::collections::BTreeSet;
use std::fmt;

/// "At most 65,536 characters."
pub const MOST_CHARACTERS: usize = 65_536;
/// "a rule; at most 512, repeats counted."
pub const MOST_RULES: usize = 512;
/// "persons 1-64"
pub const MOST_PERSONS: usize = 64;
/// "crews 0-32"
pub const MOST_CREWS: usize = 32;
/// "attributes 1-8"
pub const MOST_ATTRS: usize = 8;
/// "one count of 1-16 for each attribute"
pub const MOST_VALUES: usize = 16;
/// "Roles 00-0F, n 0-8."
pub const ROLES: u8 = 16;
/// "Roles 00-0F, n 0-8."
pub const MOST_TERMS: usize = 8;

macro_rules! number {
    ($(#[$doc:meta])* $name:ident) => {
        $(#[$doc])*
        #[derive(Clone, Copy, Debug, PartialEq, Eq, PartialOrd, Ord, Hash)]
        pub struct $name(pub u8);

        impl $name {
            /// The number as an index.
            #[must_use]
            pub fn index(self) -> usize {
                usize::from(self.0)
            }
        }
    };
}

number!(
    /// "A person's number is never taken for a crew's"
    Person
);
number!(
    /// "An edge makes one crew the direct senior of another."
    Crew
);
number!(
    /// "nor an attribute's for a role's."
    Attr
);
number!(
    /// A value of an attribute.
    Value
);
number!(
    /// "Administrators' roles are given from outside."
    Role
);

/// "persons 1-64, crews 0-32, attributes 1-8" ... "All are numbered from 0."
///
/// "Frame 01 becomes P G A, then one count of 1-16 for each attribute."
#[derive(Clone, Copy, Debug, PartialEq, Eq)]
pub struct Sizes {
    /// P
    pub persons: u8,
    /// G
    pub crews: u8,
    /// The count of each attribute, 0 for an absent one.
    pub counts: [u8; MOST_ATTRS],
}

impl Sizes {
    /// The sizes of a depot whose attributes have these counts, eight at most.
    #[must_use]
    pub fn new(persons: u8, crews: u8, own: &[u8]) -> Self {
        let mut counts = [0; MOST_ATTRS];
        counts[..own.len()].copy_from_slice(own);
        Sizes { persons, crews, counts }
    }

    /// A
    #[must_use]
    pub fn attrs(&self) -> u8 {
        self.counts.iter().filter(|&&count| count > 0).count() as u8
    }

    /// The count of an attribute's values, 0 for an absent one.
    #[must_use]
    pub fn values(&self, attr: Attr) -> u8 {
        self.counts.get(attr.index()).copied().unwrap_or(0)
    }

    /// Whether two attributes have not the same count.
    #[must_use]
    pub fn differ(&self) -> bool {
        self.counts[..self.attrs().into()].windows(2).any(|two| two[0] != two[1])
    }

    /// The same depot with the highest of the counts for every attribute.
    #[must_use]
    pub fn widened(&self) -> Self {
        let highest = self.counts.into_iter().max().unwrap_or(0);
        Sizes { counts: self.counts.map(|count| if count > 0 { highest } else { 0 }), ..*self }
    }

    /// A person's number, when there is such a person.
    #[must_use]
    pub fn person(&self, number: u8) -> Option<Person> {
        (number < self.persons).then_some(Person(number))
    }

    /// A crew's number, when there is such a crew.
    #[must_use]
    pub fn crew(&self, number: u8) -> Option<Crew> {
        (number < self.crews).then_some(Crew(number))
    }

    /// An attribute and one of its values, when both are there: "All value fields, query sets and ledger bits are
    /// bounded by their own attribute's count."
    #[must_use]
    pub fn pair(&self, attr: u8, value: u8) -> Option<(Attr, Value)> {
        (value < self.values(Attr(attr))).then_some((Attr(attr), Value(value)))
    }

    /// Every value of every attribute, rising.
    pub fn pairs(&self) -> impl Iterator<Item = (Attr, Value)> {
        let counts = (0..).map(Attr).zip(self.counts);
        counts.flat_map(|(attr, count)| (0..count).map(move |value| (attr, Value(value))))
    }

    /// A value of an attribute and all its higher ones, rising.
    pub fn and_higher(&self, attr: Attr, value: Value) -> impl Iterator<Item = Value> {
        (value.0..self.values(attr)).map(Value)
    }

    /// Every value of an attribute: a set of sixteen bits, empty for an absent one.
    #[must_use]
    pub fn all_values(&self, attr: Attr) -> u16 {
        u16::MAX.checked_shr(16 - u32::from(self.values(attr))).unwrap_or(0)
    }

    /// Every crew: a set of 32 bits.
    #[must_use]
    pub fn all_crews(&self) -> u32 {
        u32::MAX.checked_shr(32 - u32::from(self.crews)).unwrap_or(0)
    }

    /// "F becomes (1 + G) × the sum of the counts, plus G."
    #[must_use]
    pub fn facts(&self) -> usize {
        let crews = usize::from(self.crews);
        let sum: usize = self.counts.into_iter().map(usize::from).sum();
        (1 + crews) * sum + crews
    }
}

/// "A **fact** is one of: person p directly holds value v of attribute a; crew c directly holds v of a; person p is
/// directly in crew c."
#[derive(Clone, Copy, Debug, PartialEq, Eq, PartialOrd, Ord, Hash)]
pub enum Fact {
    /// Person p directly holds value v of attribute a.
    PersonHolds(Person, Attr, Value),
    /// Crew c directly holds v of a.
    CrewHolds(Crew, Attr, Value),
    /// Person p is directly in crew c.
    PersonIn(Person, Crew),
}

impl Fact {
    /// The fact without its subject, as a rule names it.
    #[must_use]
    pub fn what(self) -> What {
        match self {
            Fact::PersonHolds(_, attr, value) => What::OfPerson(attr, value),
            Fact::CrewHolds(_, attr, value) => What::OfCrew(attr, value),
            Fact::PersonIn(_, crew) => What::Membership(crew),
        }
    }
}

/// What a rule lets somebody add or delete: a fact whose subject is left open.
#[derive(Clone, Copy, Debug, PartialEq, Eq, PartialOrd, Ord, Hash)]
pub enum What {
    /// A value of a person.
    OfPerson(Attr, Value),
    /// A value of a crew.
    OfCrew(Attr, Value),
    /// A person's place in a crew.
    Membership(Crew),
}

/// The two directions of an op.
#[derive(Clone, Copy, Debug, PartialEq, Eq, PartialOrd, Ord, Hash)]
pub enum Way {
    /// Ops 01, 03 and 05.
    Add,
    /// Ops 02, 04 and 06.
    Delete,
}

/// "op: 01 add to a person, 02 delete from a person, 03 add to a crew, 04 delete from a crew, 05 assign a person, 06
/// remove a person. In 05 and 06 a is the crew and v is 00."
///
/// Reads op, a and v; nothing when one of them is outside its range.
#[must_use]
pub fn deed(sizes: &Sizes, op: u8, a: u8, v: u8) -> Option<(Way, What)> {
    let way = if op % 2 == 1 { Way::Add } else { Way::Delete };
    let what = match op {
        1 | 2 => sizes.pair(a, v).map(|(a, v)| What::OfPerson(a, v)),
        3 | 4 => sizes.pair(a, v).map(|(a, v)| What::OfCrew(a, v)),
        5 | 6 if v == 0 => sizes.crew(a).map(What::Membership),
        _ => None,
    };
    what.map(|what| (way, what))
}

/// The op of a way and a what: the inverse of [`deed`].
#[must_use]
pub fn op(way: Way, what: What) -> u8 {
    let add = match what {
        What::OfPerson(..) => 1,
        What::OfCrew(..) => 3,
        What::Membership(_) => 5,
    };
    match way {
        Way::Add => add,
        Way::Delete => add + 1,
    }
}

/// "A term is **kind a v**, about the person or crew acted on: 01 directly holds, 02 effectively holds; 03 directly in
/// crew a, 04 effectively in crew a (v is 00; only in ops 05, 06)."
///
/// "A new term, kind 05, holds when the subject effectively holds v or any higher value of a. It is legal in all six
/// ops."
///
/// "New terms 81 and 83 say that the subject does not directly hold v of a, or that the person is not directly in crew
/// a (v 00; only in ops 05, 06, else refusal 7)."
#[derive(Clone, Copy, Debug, PartialEq, Eq, PartialOrd, Ord, Hash)]
pub enum Term {
    /// 01
    Holds(Attr, Value),
    /// 02
    EffectivelyHolds(Attr, Value),
    /// 03
    In(Crew),
    /// 04
    EffectivelyIn(Crew),
    /// 05, a ladder term
    Ladder(Attr, Value),
    /// 81, a "not" term
    NotHolds(Attr, Value),
    /// 83, a "not" term
    NotIn(Crew),
}

impl Term {
    /// Whether it is a "not" term.
    #[must_use]
    pub fn is_not(self) -> bool {
        matches!(self, Term::NotHolds(..) | Term::NotIn(_))
    }

    /// Whether it is about a crew: "only in ops 05, 06".
    fn is_about_crews(self) -> bool {
        matches!(self, Term::In(_) | Term::EffectivelyIn(_) | Term::NotIn(_))
    }
}

/// "**03 op role a v n, then n terms**: a rule"
#[derive(Clone, Debug, PartialEq, Eq)]
pub struct Rule {
    /// Who may use it.
    pub role: Role,
    /// Whether it adds or deletes.
    pub way: Way,
    /// What it adds or deletes.
    pub what: What,
    /// "all terms hold of the subject before the request"
    pub terms: Vec<Term>,
}

impl Rule {
    /// Whether one of its terms is a ladder term.
    #[must_use]
    pub fn has_ladder(&self) -> bool {
        self.terms.iter().any(|term| matches!(term, Term::Ladder(..)))
    }

    /// Whether one of its terms is a "not" term.
    #[must_use]
    pub fn has_not(&self) -> bool {
        self.terms.iter().any(|term| term.is_not())
    }
}

/// What the query asks of crews.
#[derive(Clone, Copy, Debug, PartialEq, Eq)]
pub enum Mode {
    /// "**Mode 01** is met when the person effectively holds at least the values in each named set."
    AtLeast,
    /// "**Mode 02** is met when the person is directly in exactly the listed crews and effectively holds exactly the
    /// named set of each named attribute."
    Exactly {
        /// The listed crews.
        crews: u32,
    },
    /// "a new mode 03, laid out as mode 02: the person must at least directly hold the named sets and directly be in
    /// the listed crews"
    AtLeastDirectly {
        /// The listed crews.
        crews: u32,
    },
}

/// "**05 mode person roles(2) q, then q of attribute set(2)**; mode 02 adds crews(4) at its end.", and so does mode 03.
#[derive(Clone, Debug, PartialEq, Eq)]
pub struct Query {
    /// What meets it.
    pub mode: Mode,
    /// Whom it is about.
    pub person: Person,
    /// Whose requests count.
    pub roles: u16,
    /// "Attributes rise strictly" ... "Attributes not named are free."
    pub named: Vec<(Attr, u16)>,
}

impl Query {
    /// Whether a role is one of the query's: "weight 2^v for number v".
    #[must_use]
    pub fn has_role(&self, role: Role) -> bool {
        self.roles >> role.0 & 1 == 1
    }
}

/// An accepted book.
#[derive(Clone, Debug, PartialEq, Eq)]
pub struct Book {
    /// Its first line.
    pub sizes: Sizes,
    /// "**02 s j**: crew s is direct senior of crew j"; senior first.
    pub edges: BTreeSet<(Crew, Crew)>,
    /// The rules as they stand in the book, repeats too.
    pub rules: Vec<Rule>,
    /// "**04 k s a v**: a starting fact."; in rising order, each once.
    pub facts: Vec<Fact>,
    /// Its last line.
    pub query: Query,
}

impl Book {
    /// For each crew the set of the crews reached from it downwards by edges, itself among them.
    ///
    /// "j must be the smaller number", so one walk upwards finds them all.
    #[must_use]
    pub fn below(&self) -> [u32; MOST_CREWS] {
        let mut below = [0; MOST_CREWS];
        for (crew, set) in below.iter_mut().enumerate() {
            *set = 1 << crew;
        }
        // Edges stand in order of their seniors.
        for &(senior, junior) in &self.edges {
            below[senior.index()] |= below[junior.index()];
        }
        below
    }

    /// Whether some rule has a ladder term.
    #[must_use]
    pub fn has_ladder(&self) -> bool {
        self.rules.iter().any(Rule::has_ladder)
    }

    /// Whether some rule has a "not" term, whatever its role.
    #[must_use]
    pub fn has_not(&self) -> bool {
        self.rules.iter().any(Rule::has_not)
    }

    /// "A book with such a term has only ops 01, 03 and 05, at most one rule for each op, a and v, and only terms 01,
    /// 03, 81, 83." "A rule given twice counts as two here."
    ///
    /// Whether the rules keep these limits, with a "not" term among them or without.
    #[must_use]
    pub fn only_grows(&self) -> bool {
        let mut seen = BTreeSet::new();
        self.rules.iter().all(|rule| {
            let direct =
                |term: &Term| !matches!(term, Term::EffectivelyHolds(..) | Term::EffectivelyIn(_) | Term::Ladder(..));
            rule.way == Way::Add && seen.insert(rule.what) && rule.terms.iter().all(direct)
        })
    }

    /// "A book breaking the first limits gets 16, and mode 03 without a "not" term or another mode with one gets 17, 16
    /// before 17".
    fn last_fault(&self) -> Option<Fault> {
        let (has_not, direct) = (self.has_not(), matches!(self.query.mode, Mode::AtLeastDirectly { .. }));
        if has_not && !self.only_grows() {
            Some(Fault::Limits)
        } else if has_not != direct {
            Some(Fault::Mode)
        } else {
            None
        }
    }

    /// The same book without its "not" terms: whatever the subject has, they are fulfilled.
    #[must_use]
    pub fn nots_dropped(&self) -> Book {
        let mut book = self.clone();
        book.rules.iter_mut().for_each(|rule| rule.terms.retain(|term| !term.is_not()));
        book
    }

    /// The same book with kind 02 in the place of each ladder term: a higher value fulfils none of them.
    #[must_use]
    pub fn ladders_cut(&self) -> Book {
        self.with_ladders(|attr, value| Some(Term::EffectivelyHolds(attr, value)))
    }

    /// The same book without its ladder terms: whatever the subject holds, they are fulfilled.
    #[must_use]
    pub fn ladders_dropped(&self) -> Book {
        self.with_ladders(|_, _| None)
    }

    fn with_ladders(&self, instead: impl Fn(Attr, Value) -> Option<Term>) -> Book {
        let mut book = self.clone();
        for rule in &mut book.rules {
            let terms = rule.terms.iter().filter_map(|&term| match term {
                Term::Ladder(attr, value) => instead(attr, value),
                other => Some(other),
            });
            rule.terms = terms.collect();
        }
        book
    }
}

/// The refusals that give a line: 1 to 9 of the table, and of Wish 6 the numbers 16 and 17.
#[derive(Clone, Copy, Debug, PartialEq, Eq, PartialOrd, Ord, Hash)]
pub enum Fault {
    /// "over 65,536 characters"
    TooLong = 1,
    /// "empty line, odd digits, another character, last line unended"
    Characters = 2,
    /// "first frame not 01, a later 01, kind not 01-05, a frame after 05, book ends without 05 (line after the last)"
    Kind = 3,
    /// "any length but the one that the kind, with its n or q, gives"; "Refusal 4 judges frame 01 by its A"
    Length = 4,
    /// "a field outside its range, n over 8, q over 8, a set bit outside the sizes"
    Range = 5,
    /// "j not smaller than s"
    Edge = 6,
    /// "term 03 or 04 in ops 01-04", and 83 there
    Term = 7,
    /// "the 513th rule"
    TooManyRules = 8,
    /// "query attributes not rising"
    NotRising = 9,
    /// A book with a "not" term, and an op, a second rule for an op, a and v, or a term that such a book may not have.
    Limits = 16,
    /// "mode 03 without a "not" term or another mode with one"; and every book with a "not" term for the page.
    Mode = 17,
}

/// "Each returns its number, and 1-9 a line (1 for refusal 1: line 0)"; 16 and 17 "with the line of the 05 frame".
#[derive(Clone, Copy, Debug, PartialEq, Eq)]
pub struct Refusal {
    /// Which of 1 to 9, 16 and 17.
    pub fault: Fault,
    /// The line, counted from 1; 0 for [`Fault::TooLong`].
    pub line: usize,
}

impl Refusal {
    /// The refusal's number in the table.
    #[must_use]
    pub fn number(&self) -> u8 {
        self.fault as u8
    }
}

impl fmt::Display for Refusal {
    fn fmt(&self, f: &mut fmt::Formatter<'_>) -> fmt::Result {
        write!(f, "refusal {} on line {}", self.number(), self.line)
    }
}

impl std::error::Error for Refusal {}

/// Reads a book.
///
/// "Order: 1; then the earliest bad line, and in a line the lowest of 2-9"; then 16 and 17, "both only where no line
/// has any of 1-9".
///
/// # Errors
///
/// The one refusal of 1 to 9, 16 and 17 that falls on the characters.
pub fn read(characters: &[u8]) -> Result<Book, Refusal> {
    let (book, line) = lines(characters)?;
    book.last_fault().map_or(Ok(book), |fault| Err(Refusal { fault, line }))
}

/// Reads a book for the page: "The page of Wish 5 refuses every book with a "not" term by 17."
///
/// # Errors
///
/// As [`read`], and 17 for every book with a "not" term that 16 does not refuse: "the page's 17 stands there too".
pub fn read_for_page(characters: &[u8]) -> Result<Book, Refusal> {
    let (book, line) = lines(characters)?;
    let fault = book.last_fault().or(book.has_not().then_some(Fault::Mode));
    fault.map_or(Ok(book), |fault| Err(Refusal { fault, line }))
}

/// A book whose lines are all good, and the line of its 05 frame, "called the last line".
fn lines(characters: &[u8]) -> Result<(Book, usize), Refusal> {
    if characters.len() > MOST_CHARACTERS {
        return Err(Refusal { fault: Fault::TooLong, line: 0 });
    }
    let mut reader = Reader::default();
    let mut frame = Vec::new();
    let mut lines = 0;
    for line in characters.split_inclusive(|&c| c == b'\n') {
        lines += 1;
        bytes(line, &mut frame).and_then(|()| reader.frame(&frame)).map_err(|fault| Refusal { fault, line: lines })?;
    }
    let book = reader.book().ok_or(Refusal { fault: Fault::Kind, line: lines + 1 })?;
    Ok((book, lines))
}

/// Puts the bytes that a line's digits write into a frame.
fn bytes(line: &[u8], frame: &mut Vec<u8>) -> Result<(), Fault> {
    let Some((b'\n', digits)) = line.split_last() else {
        return Err(Fault::Characters);
    };
    if digits.is_empty() || !digits.len().is_multiple_of(2) {
        return Err(Fault::Characters);
    }
    frame.clear();
    for two in digits.chunks_exact(2) {
        let (Some(high), Some(low)) = (digit(two[0]), digit(two[1])) else {
            return Err(Fault::Characters);
        };
        frame.push(high << 4 | low);
    }
    Ok(())
}

fn digit(character: u8) -> Option<u8> {
    match character {
        b'0'..=b'9' => Some(character - b'0'),
        b'A'..=b'F' => Some(character - b'A' + 10),
        _ => None,
    }
}

/// What the lines read so far have given.
#[derive(Default)]
struct Reader {
    sizes: Option<Sizes>,
    edges: BTreeSet<(Crew, Crew)>,
    rules: Vec<Rule>,
    facts: Vec<Fact>,
    query: Option<Query>,
}

impl Reader {
    fn book(mut self) -> Option<Book> {
        self.facts.sort_unstable();
        self.facts.dedup();
        Some(Book { sizes: self.sizes?, edges: self.edges, rules: self.rules, facts: self.facts, query: self.query? })
    }

    fn frame(&mut self, frame: &[u8]) -> Result<(), Fault> {
        if self.query.is_some() {
            return Err(Fault::Kind);
        }
        match (self.sizes, frame[0]) {
            (None, 1) => {
                self.sizes = Some(sizes(frame)?);
            }
            (Some(sizes), 2) => {
                self.edges.insert(edge(&sizes, frame)?);
            }
            (Some(sizes), 3) => {
                let rule = rule(&sizes, frame)?;
                if self.rules.len() == MOST_RULES {
                    return Err(Fault::TooManyRules);
                }
                self.rules.push(rule);
            }
            (Some(sizes), 4) => {
                self.facts.push(fact(&sizes, frame)?);
            }
            (Some(sizes), 5) => {
                self.query = Some(query(&sizes, frame)?);
            }
            _ => return Err(Fault::Kind),
        }
        Ok(())
    }
}

/// "Refusal 4 judges frame 01 by its A": by the A as written, in its range or not.
fn sizes(frame: &[u8]) -> Result<Sizes, Fault> {
    let &[_, persons, crews, attrs, ref counts @ ..] = frame else {
        return Err(Fault::Length);
    };
    if counts.len() != usize::from(attrs) {
        return Err(Fault::Length);
    }
    let good = (1..=MOST_PERSONS).contains(&persons.into())
        && usize::from(crews) <= MOST_CREWS
        && (1..=MOST_ATTRS).contains(&counts.len())
        && counts.iter().all(|&count| (1..=MOST_VALUES).contains(&count.into()));
    good.then(|| Sizes::new(persons, crews, counts)).ok_or(Fault::Range)
}

fn edge(sizes: &Sizes, frame: &[u8]) -> Result<(Crew, Crew), Fault> {
    let &[_, senior, junior] = frame else {
        return Err(Fault::Length);
    };
    let senior = sizes.crew(senior).ok_or(Fault::Range)?;
    let junior = sizes.crew(junior).ok_or(Fault::Range)?;
    (junior < senior).then_some((senior, junior)).ok_or(Fault::Edge)
}

fn rule(sizes: &Sizes, frame: &[u8]) -> Result<Rule, Fault> {
    let &[_, op, role, a, v, n, ref terms @ ..] = frame else {
        return Err(Fault::Length);
    };
    let n = usize::from(n);
    if terms.len() != 3 * n {
        return Err(Fault::Length);
    }
    if n > MOST_TERMS || role >= ROLES {
        return Err(Fault::Range);
    }
    let (way, what) = deed(sizes, op, a, v).ok_or(Fault::Range)?;
    let terms = terms
        .chunks_exact(3)
        .map(|t| term(sizes, t[0], t[1], t[2]))
        .collect::<Option<Vec<Term>>>()
        .ok_or(Fault::Range)?;
    if !matches!(what, What::Membership(_)) && terms.iter().any(|term| term.is_about_crews()) {
        return Err(Fault::Term);
    }
    Ok(Rule { role: Role(role), way, what, terms })
}

fn term(sizes: &Sizes, kind: u8, a: u8, v: u8) -> Option<Term> {
    match kind {
        1 => sizes.pair(a, v).map(|(a, v)| Term::Holds(a, v)),
        2 => sizes.pair(a, v).map(|(a, v)| Term::EffectivelyHolds(a, v)),
        3 if v == 0 => sizes.crew(a).map(Term::In),
        4 if v == 0 => sizes.crew(a).map(Term::EffectivelyIn),
        5 => sizes.pair(a, v).map(|(a, v)| Term::Ladder(a, v)),
        0x81 => sizes.pair(a, v).map(|(a, v)| Term::NotHolds(a, v)),
        0x83 if v == 0 => sizes.crew(a).map(Term::NotIn),
        _ => None,
    }
}

/// "k 01: person s holds v of a. k 02: crew s does. k 03: person s is in crew a, v 00."
fn fact(sizes: &Sizes, frame: &[u8]) -> Result<Fact, Fault> {
    let &[_, kind, s, a, v] = frame else {
        return Err(Fault::Length);
    };
    let fact = match kind {
        1 => sizes.person(s).zip(sizes.pair(a, v)).map(|(p, (a, v))| Fact::PersonHolds(p, a, v)),
        2 => sizes.crew(s).zip(sizes.pair(a, v)).map(|(c, (a, v))| Fact::CrewHolds(c, a, v)),
        3 if v == 0 => sizes.person(s).zip(sizes.crew(a)).map(|(p, c)| Fact::PersonIn(p, c)),
        _ => None,
    };
    fact.ok_or(Fault::Range)
}

/// "For 4, a 05 frame of unknown mode has the length of mode 01."
fn query(sizes: &Sizes, frame: &[u8]) -> Result<Query, Fault> {
    let &[_, mode, person, r1, r0, q, ref rest @ ..] = frame else {
        return Err(Fault::Length);
    };
    let q = usize::from(q);
    if rest.len() != 3 * q + if matches!(mode, 2 | 3) { 4 } else { 0 } {
        return Err(Fault::Length);
    }
    let (sets, crews) = rest.split_at(3 * q);
    let named: Vec<(Attr, u16)> =
        sets.chunks_exact(3).map(|t| (Attr(t[0]), u16::from_be_bytes([t[1], t[2]]))).collect();
    let outside = |&(attr, set): &(Attr, u16)| attr.0 >= sizes.attrs() || set & !sizes.all_values(attr) != 0;
    if q > MOST_ATTRS || named.iter().any(outside) {
        return Err(Fault::Range);
    }
    let person = sizes.person(person).ok_or(Fault::Range)?;
    let crews = crews.try_into().map_or(0, u32::from_be_bytes);
    let mode = match mode {
        1 => Mode::AtLeast,
        2 => Mode::Exactly { crews },
        3 => Mode::AtLeastDirectly { crews },
        _ => return Err(Fault::Range),
    };
    if crews & !sizes.all_crews() != 0 {
        return Err(Fault::Range);
    }
    if named.windows(2).any(|two| two[0].0 >= two[1].0) {
        return Err(Fault::NotRising);
    }
    Ok(Query { mode, person, roles: u16::from_be_bytes([r1, r0]), named })
}

#[cfg(test)]
mod tests {
    use super::*;

    /// The paper's example book.
    const EXAMPLE: &str = "0101010102\n030100000100\n030501000001010001\n0402000000\n050100000301000001\n";

    fn refused(characters: &str) -> (u8, usize) {
        let refusal = read(characters.as_bytes()).expect_err("a refused book");
        (refusal.number(), refusal.line)
    }

    #[test]
    fn the_example_book() {
        let book = read(EXAMPLE.as_bytes()).expect("accepted");
        assert_eq!(book.sizes, Sizes { persons: 1, crews: 1, counts: [2, 0, 0, 0, 0, 0, 0, 0] });
        assert_eq!(book.sizes.facts(), 5);
        assert!(book.edges.is_empty());
        let add = Rule { role: Role(0), way: Way::Add, what: What::OfPerson(Attr(0), Value(1)), terms: vec![] };
        let assign = Rule {
            role: Role(1),
            way: Way::Add,
            what: What::Membership(Crew(0)),
            terms: vec![Term::Holds(Attr(0), Value(1))],
        };
        assert_eq!(book.rules, [add, assign]);
        assert_eq!(book.facts, [Fact::CrewHolds(Crew(0), Attr(0), Value(0))]);
        let query = Query { mode: Mode::AtLeast, person: Person(0), roles: 3, named: vec![(Attr(0), 1)] };
        assert_eq!(book.query, query);
    }

    #[test]
    fn the_tables_examples() {
        let long = vec![b'0'; MOST_CHARACTERS + 1];
        assert_eq!(read(&long), Err(Refusal { fault: Fault::TooLong, line: 0 }));
        assert_eq!(refused("0101010102\n03 1\n"), (2, 2));
        assert_eq!(refused("03 1\n"), (2, 1));
        assert_eq!(refused(""), (3, 1));
        assert_eq!(refused("0101010102\n0200\n"), (4, 2));
        assert_eq!(refused("0100010102\n"), (5, 1));
        assert_eq!(refused("0101010102\n020000\n"), (6, 2));
        assert_eq!(refused("0101010102\n030100000001030000\n"), (7, 2));
        let rules = "030100000000\n".repeat(513);
        assert_eq!(refused(&format!("0101010102\n{rules}")), (8, 514));
        assert_eq!(refused("0101010102\n0501000000020000000000000\n"), (2, 2));
        assert_eq!(refused("0101010102\n050100000002000000000000\n"), (9, 2));
    }

    #[test]
    fn lines() {
        assert_eq!(refused("\n"), (2, 1));
        assert_eq!(refused("0101010102"), (2, 1));
        assert_eq!(refused("0101010102\n"), (3, 2));
        assert_eq!(refused("0101010102\n050100000000\n020000\n"), (3, 3));
        assert_eq!(refused("0101010102\n050100000000\n02000\n"), (2, 3));
        assert_eq!(refused("0101010102\n050100000000\n\n"), (2, 3));
        assert_eq!(refused("0101010102\r\n"), (2, 1));
        assert_eq!(refused("010101010a\n"), (2, 1));
    }

    #[test]
    fn the_lowest_in_a_line() {
        // A later 01 of a wrong length; nine terms written and not written; a query of an unknown mode.
        assert_eq!(refused("0101010102\n0101\n"), (3, 2));
        let nine = "010000".repeat(9);
        assert_eq!(refused(&format!("0101010102\n030100000009{nine}\n")), (5, 2));
        assert_eq!(refused(&format!("0101010102\n030100000009{}\n", &nine[6..])), (4, 2));
        assert_eq!(refused("0101010102\n050400000000\n"), (5, 2));
        assert_eq!(refused("0101010102\n05040000000000000000\n"), (4, 2));
        assert_eq!(refused("0101000102\n050200000000\n"), (4, 2));
        assert_eq!(refused("0101000102\n050300000000\n"), (4, 2));
        assert!(read(b"0101000102\n05020000000000000000\n").is_ok());
        // Range before 6, 7 and 9.
        assert_eq!(refused("0101000102\n020000\n"), (5, 2));
        assert_eq!(refused("0101010102\n030100000001030001\n"), (5, 2));
        assert_eq!(refused("0101010102\n050101000002000000000000\n"), (5, 2));
        // Rules about crews name no crew.
        assert!(read(b"0101000102\n030300000000\n050100000000\n").is_ok());
    }

    /// A rule's frame as a line: the op, a and v 0, and terms.
    fn rule_line(op: u8, terms: &[[u8; 3]]) -> String {
        let fields = [&[3, op, 0, 0, 0, terms.len() as u8], terms.as_flattened()].concat();
        fields.iter().map(|byte| format!("{byte:02X}")).collect::<String>() + "\n"
    }

    /// "It is legal in all six ops."
    #[test]
    fn ladder_terms() {
        let lone = |head: &str, op, terms: &[[u8; 3]]| {
            read(format!("{head}\n{}050100000000\n", rule_line(op, terms)).as_bytes())
                .map(|book| book.rules[0].terms.clone())
                .map_err(|refusal| (refusal.number(), refusal.line))
        };
        // One crew, three values of attribute 0 and five of attribute 1.
        let head = "010101020305";
        for op in 1..=6 {
            for (a, v) in [(0, 0), (0, 2), (1, 0), (1, 2), (1, 4)] {
                assert_eq!(lone(head, op, &[[5, a, v]]), Ok(vec![Term::Ladder(Attr(a), Value(v))]), "op {op}");
            }
            for (a, v) in [(2, 0), (0, 3), (0, 4), (1, 5), (2, 3), (255, 0), (0, 255)] {
                assert_eq!(lone(head, op, &[[5, a, v]]), Err((5, 2)), "op {op}, {a} {v}");
            }
            for kind in (0..=255).filter(|kind| !(1..=5).contains(kind) && ![0x81, 0x83].contains(kind)) {
                assert_eq!(lone(head, op, &[[kind, 0, 0]]), Err((5, 2)), "op {op}, kind {kind}");
            }
            assert_eq!(lone(head, op, &[[5, 1, 2]; 8]).map(|terms| terms.len()), Ok(8), "op {op}");
            assert_eq!(lone(head, op, &[[5, 1, 2]; 9]), Err((5, 2)), "op {op}");
        }
        // No crew: a rule about crews may have the term too; there is none to assign to or to remove from.
        for op in 1..=4 {
            assert_eq!(lone("010100020303", op, &[[5, 1, 2]]), Ok(vec![Term::Ladder(Attr(1), Value(2))]), "op {op}");
        }
        for op in 5..=6 {
            assert_eq!(lone("010100020303", op, &[[5, 1, 2]]), Err((5, 2)), "op {op}");
        }
    }

    /// Beside a term about a crew: 7 falls for that one alone, and 5 comes before it.
    #[test]
    fn ladder_terms_beside_others() {
        let (ladder, inside, under) = ([5, 1, 2], [3, 0, 0], [4, 0, 0]);
        let line = |op, terms: &[[u8; 3]]| format!("010101020303\n{}050100000000\n", rule_line(op, terms));
        for op in 1..=6 {
            for crew in [inside, under] {
                for terms in [[ladder, crew], [crew, ladder]] {
                    match op {
                        1..=4 => assert_eq!(refused(&line(op, &terms)), (7, 2), "op {op}"),
                        _ => assert!(read(line(op, &terms).as_bytes()).is_ok(), "op {op}"),
                    }
                }
                for bad in [[5, 2, 0], [5, 0, 3], [6, 0, 0], [3, 1, 0], [4, 0, 1]] {
                    assert_eq!(refused(&line(op, &[crew, bad])), (5, 2), "op {op}, {bad:?}");
                    assert_eq!(refused(&line(op, &[bad, crew])), (5, 2), "op {op}, {bad:?}");
                    assert_eq!(refused(&line(op, &[ladder, bad])), (5, 2), "op {op}, {bad:?}");
                }
            }
        }
    }

    #[test]
    fn ladders_in_a_book() {
        let text =
            format!("010101020303\n{}{}050100000000\n", rule_line(5, &[[5, 1, 2], [3, 0, 0]]), rule_line(1, &[]));
        let book = read(text.as_bytes()).expect("accepted");
        assert!(book.has_ladder() && book.rules[0].has_ladder() && !book.rules[1].has_ladder());
        let of = |book: &Book| book.rules[0].terms.clone();
        let inside = Term::In(Crew(0));
        assert_eq!(of(&book), [Term::Ladder(Attr(1), Value(2)), inside]);
        assert_eq!(of(&book.ladders_cut()), [Term::EffectivelyHolds(Attr(1), Value(2)), inside]);
        assert_eq!(of(&book.ladders_dropped()), [inside]);
        assert!(!book.ladders_cut().has_ladder() && !book.ladders_dropped().has_ladder());
    }

    /// "New terms 81 and 83" ... "(v 00; only in ops 05, 06, else refusal 7)": 5 before 7, and 7 before 16 and 17.
    #[test]
    fn not_terms() {
        let lone = |head: &str, op, terms: &[[u8; 3]]| {
            read(format!("{head}\n{}05030000000000000000\n", rule_line(op, terms)).as_bytes())
                .map(|book| book.rules[0].terms.clone())
                .map_err(|refusal| (refusal.number(), refusal.line))
        };
        // Two crews, three values of attribute 0 and five of attribute 1.
        let head = "010102020305";
        for op in 1..=6 {
            // Ops 02, 04 and 06 are beyond the limits, at the line of the query.
            let good = |terms: Vec<Term>| if op % 2 == 1 { Ok(terms) } else { Err((16, 3)) };
            for (a, v) in [(0, 0), (0, 2), (1, 0), (1, 2), (1, 4)] {
                assert_eq!(lone(head, op, &[[0x81, a, v]]), good(vec![Term::NotHolds(Attr(a), Value(v))]), "op {op}");
            }
            for (a, v) in [(2, 0), (0, 3), (0, 4), (1, 5), (2, 3), (255, 0), (0, 255)] {
                assert_eq!(lone(head, op, &[[0x81, a, v]]), Err((5, 2)), "op {op}, {a} {v}");
            }
            for crew in 0..2 {
                let expected = if op < 5 { Err((7, 2)) } else { good(vec![Term::NotIn(Crew(crew))]) };
                assert_eq!(lone(head, op, &[[0x83, crew, 0]]), expected, "op {op}");
                assert_eq!(lone(head, op, &[[0x83, crew, 1]]), Err((5, 2)), "op {op}");
                for bad in [[0x81, 2, 0], [0x83, 2, 0], [5, 0, 3], [0x82, 0, 0]] {
                    assert_eq!(lone(head, op, &[[0x83, crew, 0], bad]), Err((5, 2)), "op {op}, {bad:?}");
                    assert_eq!(lone(head, op, &[bad, [0x83, crew, 0]]), Err((5, 2)), "op {op}, {bad:?}");
                }
            }
            for crew in [2, 32, 255] {
                assert_eq!(lone(head, op, &[[0x83, crew, 0]]), Err((5, 2)), "op {op}, crew {crew}");
            }
            assert_eq!(lone(head, op, &[[0x81, 1, 2]; 8]).map(|terms| terms.len()), good(vec![]).map(|_| 8), "op {op}");
            assert_eq!(lone(head, op, &[[0x81, 1, 2]; 9]), Err((5, 2)), "op {op}");
            assert_eq!(lone("010100020305", op, &[[0x83, 0, 0]]), Err((5, 2)), "no crew, op {op}");
        }
    }

    /// "a new mode 03, laid out as mode 02"
    #[test]
    fn mode_03() {
        let judged = |head: &str, query: &str| {
            let text = format!("{head}\n030100000001810000\n{query}\n");
            read(text.as_bytes()).map(|book| book.query).map_err(|refusal| (refusal.number(), refusal.line))
        };
        let query = |named: Vec<(Attr, u16)>, crews| {
            let mode = Mode::AtLeastDirectly { crews };
            Ok(Query { mode, person: Person(1), roles: 0x8001, named })
        };
        let head = "010202020305";
        assert_eq!(judged(head, "05030180010000000000"), query(vec![], 0));
        assert_eq!(judged(head, "05030180010000000003"), query(vec![], 3));
        assert_eq!(
            judged(head, "0503018001010100 1F00000002".replace(' ', "").as_str()),
            query(vec![(Attr(1), 31)], 2)
        );
        assert_eq!(judged("010200020305", "05030180010000000000"), query(vec![], 0), "no crew");
        // Without the crew bytes, with some of them and with one more; crews and values outside the sizes; 9 as
        // elsewhere.
        for short in ["050301800100", "050301800100000000", "0503018001000000000000", "050301800101010001"] {
            assert_eq!(judged(head, short), Err((4, 3)), "{short}");
        }
        for bad in
            ["05030180010000000004", "05030180010080000000", "05030280010000000000", "05030180010101002000000000"]
        {
            assert_eq!(judged(head, bad), Err((5, 3)), "{bad}");
        }
        assert_eq!(judged("010200020305", "05030180010000000001"), Err((5, 3)), "no crew");
        assert_eq!(judged(head, "05030180010201000101000100000000"), Err((9, 3)));
        for unknown in ["050401800100", "050001800100", "05FF01800100"] {
            assert_eq!(judged(head, unknown), Err((5, 3)), "{unknown}");
            assert_eq!(judged(head, &format!("{unknown}00000000")), Err((4, 3)), "{unknown}");
        }
    }

    /// 16 and 17, by one cause after the other; of the page as well, which refuses every book with a "not" term.
    #[test]
    fn limits_and_modes() {
        let not = "030100000001810001\n";
        let (first, second, third) = ("050100000000\n", "05020000000000000000\n", "05030000000000000000\n");
        let judged = |frames: &str, query: &str| {
            let text = format!("0102020102\n{frames}{query}");
            let of = |read: Result<Book, Refusal>| read.map_or_else(|refusal| refusal.number(), |_| 0);
            let last = |read: &Result<Book, Refusal>| {
                read.as_ref().map_or_else(|refusal| refusal.line, |_| text.lines().count())
            };
            let (book, page) = (read(text.as_bytes()), read_for_page(text.as_bytes()));
            assert_eq!((last(&book), last(&page)), (text.lines().count(), text.lines().count()), "{text}");
            (of(book), of(page))
        };
        for (frames, numbers) in [
            // For modes 01, 02 and 03, each with the page's.
            ("", [(0, 0), (0, 0), (17, 17)]),
            ("030200000000\n030200000000\n", [(0, 0), (0, 0), (17, 17)]),
            (not, [(17, 17), (17, 17), (0, 17)]),
            // Other ops, a and v; edges and facts are not limited.
            (&format!("{not}030100000100\n030300000000\n030500000000\n030500010000\n"), [(17, 17), (17, 17), (0, 17)]),
            (&format!("020100\n020100\n0401000000\n0401000000\n{not}"), [(17, 17), (17, 17), (0, 17)]),
            (&format!("{not}{not}"), [(16, 16); 3]),
            (&format!("{not}030101000000\n"), [(16, 16); 3]),
            (&format!("{not}030500000000\n030500000000\n"), [(16, 16); 3]),
            (&format!("{not}030200000100\n"), [(16, 16); 3]),
            (&format!("{not}030400000000\n"), [(16, 16); 3]),
            (&format!("030600000000\n{not}"), [(16, 16); 3]),
            (&format!("030100000101020000\n{not}"), [(16, 16); 3]),
            (&format!("030100000101050000\n{not}"), [(16, 16); 3]),
            (&format!("{not}030500000001040000\n"), [(16, 16); 3]),
            ("030100000002020000810001\n", [(16, 16); 3]),
            ("030200000001810001\n", [(16, 16); 3]),
            ("030600000001830000\n", [(16, 16); 3]),
            // The "not" term's role is not one of the query's.
            ("030107000001810001\n", [(17, 17), (17, 17), (0, 17)]),
        ] {
            assert_eq!([first, second, third].map(|query| judged(frames, query)), numbers, "{frames}");
        }
    }

    #[test]
    fn nots_in_a_book() {
        let text = format!(
            "0101010103\n{}{}05030000000000000000\n",
            rule_line(5, &[[0x81, 0, 2], [3, 0, 0]]),
            rule_line(1, &[])
        );
        let book = read(text.as_bytes()).expect("accepted");
        assert!(book.has_not() && book.rules[0].has_not() && !book.rules[1].has_not() && book.only_grows());
        assert_eq!(book.rules[0].terms, [Term::NotHolds(Attr(0), Value(2)), Term::In(Crew(0))]);
        let dropped = book.nots_dropped();
        assert!(!dropped.has_not() && dropped.rules[0].terms == [Term::In(Crew(0))]);
    }

    /// The shift has three values and the lane sixteen, as in the wish, and a third attribute has one.
    const SHIFT_AND_LANE: Sizes = Sizes { persons: 64, crews: 2, counts: [3, 16, 1, 0, 0, 0, 0, 0] };

    #[test]
    fn sizes_give_sets() {
        let sizes = |crews| Sizes::new(1, crews, &[1]);
        assert_eq!(sizes(0).all_crews(), 0);
        assert_eq!(sizes(31).all_crews(), u32::MAX >> 1);
        assert_eq!(sizes(32).all_crews(), u32::MAX);
        let sizes = SHIFT_AND_LANE;
        assert_eq!([0, 1, 2, 3, 7, 8, 255].map(|a| sizes.all_values(Attr(a))), [7, u16::MAX, 1, 0, 0, 0, 0]);
        assert_eq!([0, 1, 2, 3, 7, 8, 255].map(|a| sizes.values(Attr(a))), [3, 16, 1, 0, 0, 0, 0]);
        assert_eq!(sizes.pairs().count(), 20);
        assert!(sizes.pairs().all(|(a, v)| sizes.pair(a.0, v.0) == Some((a, v))));
        let inside = (0..=255).flat_map(|a| (0..=255).map(move |v| sizes.pair(a, v))).flatten();
        assert!(inside.eq(sizes.pairs()));
        assert!(sizes.and_higher(Attr(0), Value(1)).eq([1, 2].map(Value)));
        assert!(sizes.and_higher(Attr(1), Value(1)).eq((1..16).map(Value)));
        assert!(sizes.and_higher(Attr(2), Value(0)).eq([Value(0)]));
    }

    #[test]
    fn sizes_beside_one_another() {
        assert_eq!(SHIFT_AND_LANE.attrs(), 3);
        assert!(SHIFT_AND_LANE.differ());
        assert_eq!(SHIFT_AND_LANE.widened().counts, [16, 16, 16, 0, 0, 0, 0, 0]);
        for counts in [&[4][..], &[4, 4], &[16; 8]] {
            let sizes = Sizes::new(1, 0, counts);
            assert!(!sizes.differ());
            assert_eq!(sizes.widened(), sizes);
        }
        assert!(Sizes::new(1, 0, &[4, 4, 4, 4, 4, 4, 4, 3]).differ());
    }

    /// "F becomes (1 + G) × the sum of the counts, plus G."
    #[test]
    fn the_number_of_facts() {
        assert_eq!(SHIFT_AND_LANE.facts(), 3 * 20 + 2);
        assert_eq!(Sizes::new(64, 32, &[16; 8]).facts(), 4_256);
        assert_eq!(Sizes::new(1, 0, &[1]).facts(), 1);
        assert_eq!(Sizes::new(1, 0, &[3, 1]).facts(), 4);
        assert_eq!(Sizes::new(64, 1, &[1, 2, 3, 4, 5, 6, 7, 8]).facts(), 2 * 36 + 1);
    }

    /// A frame 01 of one person and no crew: A, then counts.
    fn first_line(attrs: u8, counts: &[u8]) -> String {
        [&[1, 1, 0, attrs], counts].concat().iter().map(|byte| format!("{byte:02X}")).collect::<String>() + "\n"
    }

    /// "Refusal 4 judges frame 01 by its A": the length is 4 + A bytes for every A that can be written.
    #[test]
    fn the_length_of_the_first_line() {
        for short in ["01\n", "0102\n", "010101\n", "01FF\n", "010000\n"] {
            assert_eq!(refused(short), (4, 1), "{short}");
        }
        for attrs in 0..=u8::MAX {
            let due = usize::from(attrs);
            let whole = first_line(attrs, &vec![2; due]);
            match attrs {
                1..=8 => {
                    let book = read(format!("{whole}050100000000\n").as_bytes()).expect("accepted");
                    assert_eq!(book.sizes, Sizes::new(1, 0, &vec![2; due]));
                }
                _ => assert_eq!(refused(&whole), (5, 1), "A = {attrs}"),
            }
            for other in [0, 1, 7, 8, 9, due.saturating_sub(1), due + 1, due + 256] {
                if other != due {
                    assert_eq!(refused(&first_line(attrs, &vec![2; other])), (4, 1), "A = {attrs}, {other} counts");
                }
            }
        }
        // 4 comes before 5, whichever field is out of range.
        assert_eq!(refused("01000001\n"), (4, 1));
        assert_eq!(refused("010021010202\n"), (4, 1));
        assert_eq!(refused("0101000200\n"), (4, 1));
        assert_eq!(refused("01010002001102\n"), (4, 1));
    }

    /// "one count of 1-16 for each attribute"
    #[test]
    fn the_counts_of_the_first_line() {
        for at in 0..8 {
            for count in 0..=u8::MAX {
                let mut counts = [2; 8];
                counts[at] = count;
                let text = format!("{}050100000000\n", first_line(8, &counts));
                match count {
                    1..=16 => assert_eq!(read(text.as_bytes()).map(|book| book.sizes.counts), Ok(counts)),
                    _ => assert_eq!(refused(&text), (5, 1), "count {count} at {at}"),
                }
            }
        }
        // A count is read for its own attribute alone.
        assert_eq!(refused("01010002100011\n"), (4, 1));
        assert_eq!(refused("010100021000\n"), (5, 1));
        assert_eq!(refused("010100020011\n"), (5, 1));
        for (field, bad) in [(1, 0), (1, 65), (1, 255), (2, 33), (2, 255)] {
            let mut frame = [1, 1, 1, 2, 3, 16];
            frame[field] = bad;
            let line: String = frame.iter().map(|byte| format!("{byte:02X}")).collect();
            assert_eq!(refused(&format!("{line}\n")), (5, 1), "{line}");
        }
    }

    /// "All value fields, query sets" ... "are bounded by their own attribute's count."
    #[test]
    fn every_field_by_its_own_count() {
        let accepted = |frame: &[u8], query: &[u8]| {
            let line = |bytes: &[u8]| bytes.iter().map(|byte| format!("{byte:02X}")).collect::<String>() + "\n";
            let text = line(&[1, 2, 3, 3, 3, 16, 1]) + &line(frame) + &line(query);
            match read(text.as_bytes()) {
                Ok(_) => true,
                Err(refusal) => {
                    assert_eq!(refusal.number(), 5, "{text}");
                    assert_eq!(refusal.line, if query.len() > 6 { 3 } else { 2 }, "{text}");
                    false
                }
            }
        };
        let (edge, free) = ([2, 1, 0], [5, 1, 0, 0, 0, 0]);
        for a in 0..=4 {
            for v in (0..=17).chain([255]) {
                let inside = [3, 16, 1].get(usize::from(a)).is_some_and(|&count| v < count);
                for op in 1..=4 {
                    assert_eq!(accepted(&[3, op, 0, a, v, 0], &free), inside, "op {op}, {a} {v}");
                }
                for (op, kind) in (1..=6).flat_map(|op| [1, 2, 5].map(|kind| (op, kind))) {
                    let term = [3, op, 0, 0, 0, 2, kind, 1, 15, kind, a, v];
                    assert_eq!(accepted(&term, &free), inside, "op {op}, kind {kind}, {a} {v}");
                }
                for k in 1..=2 {
                    assert_eq!(accepted(&[4, k, 1, a, v], &free), inside, "k {k}, {a} {v}");
                }
                if v < 16 {
                    let [high, low] = u16::to_be_bytes(1 << v);
                    let query = [5, 1, 0, 0, 0, 1, a, high, low, 0, 0, 0, 0];
                    assert_eq!(accepted(&edge, &query[..9]), inside, "mode 01, {a} {v}");
                    let query = [&[5, 2], &query[2..]].concat();
                    assert_eq!(accepted(&edge, &query), inside, "mode 02, {a} {v}");
                }
            }
            for set in [[0, 0], [0, 1]] {
                assert_eq!(accepted(&edge, &[&[5, 1, 0, 0, 0, 1, a], &set[..]].concat()), a < 3, "{a}, {set:?}");
            }
        }
        // All values of each, beside one another.
        assert!(accepted(&edge, &[5, 1, 0, 0, 0, 3, 0, 0, 7, 1, 255, 255, 2, 0, 1]));
        assert!(!accepted(&edge, &[5, 1, 0, 0, 0, 3, 0, 0, 15, 1, 255, 255, 2, 0, 1]));
        assert!(!accepted(&edge, &[5, 1, 0, 0, 0, 3, 0, 0, 7, 1, 255, 255, 2, 0, 3]));
    }

    #[test]
    fn below_follows_edges_downwards() {
        let book = read(b"0101040101\n020302\n020201\n020200\n050100000000\n").expect("accepted");
        assert_eq!(book.below()[..4], [0b0001, 0b0010, 0b0111, 0b1111]);
    }
}
