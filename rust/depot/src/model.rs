//! A depot: its names, and what its file says with them. The numbers are those of the book, so crews are numbered juniors
//! first, whatever the order in which a file names them.

use bixorgun::{Act, Attr, Crew, Person, Request, Role, Value};

/// The most of each that a book can have.
pub const MOST_PERSONS: usize = 64;
/// Crews.
pub const MOST_CREWS: usize = 32;
/// Attributes.
pub const MOST_ATTRIBUTES: usize = 8;
/// Values of one attribute.
pub const MOST_VALUES: usize = 16;
/// Leads, which are the book's roles.
pub const MOST_LEADS: usize = 16;
/// Rules.
pub const MOST_RULES: usize = 512;
/// Terms of one rule.
pub const MOST_TERMS: usize = 8;

/// A depot with its names.
#[derive(Clone, Debug, Default, PartialEq, Eq)]
pub struct Depot {
    /// By number.
    pub persons: Vec<String>,
    /// By number: a junior before its seniors.
    pub crews: Vec<String>,
    /// By number.
    pub attributes: Vec<Attribute>,
    /// By number: lead r acts by role r.
    pub leads: Vec<String>,
    /// Edges, rules and facts, in the file's order.
    pub statements: Vec<Said<Statement>>,
    /// The question that `plan` answers. Only a file for `test` may lack it.
    pub question: Option<Said<Question>>,
    /// The lines `expect`, in the file's order.
    pub expectations: Vec<Said<Expectation>>,
}

/// An attribute and its values, lowest first.
#[derive(Clone, Debug, PartialEq, Eq)]
pub struct Attribute {
    /// Its name.
    pub name: String,
    /// By number.
    pub values: Vec<String>,
}

/// Something, and the line of the file that says it, counted from 1.
#[derive(Clone, Debug, PartialEq, Eq)]
pub struct Said<T> {
    /// Counted from 1.
    pub line: usize,
    /// What it says.
    pub what: T,
}

/// The frames 02, 03 and 04.
#[derive(Clone, Debug, PartialEq, Eq)]
pub enum Statement {
    /// 02: a crew over a smaller number.
    Over {
        /// The senior.
        senior: u8,
        /// The junior.
        junior: u8,
    },
    /// 03.
    Rule(Rule),
    /// 04.
    Fact(Fact),
}

/// What a rule or a request does; the numbers are the book's.
#[derive(Clone, Copy, Debug, PartialEq, Eq)]
pub enum Op {
    /// 01.
    AddToPerson = 1,
    /// 02.
    DeleteFromPerson = 2,
    /// 03.
    AddToCrew = 3,
    /// 04.
    DeleteFromCrew = 4,
    /// 05.
    Assign = 5,
    /// 06.
    Remove = 6,
}

impl Op {
    /// The op of a number.
    pub fn of(number: u8) -> Option<Op> {
        use Op::*;
        [AddToPerson, DeleteFromPerson, AddToCrew, DeleteFromCrew, Assign, Remove]
            .into_iter()
            .find(|op| *op as u8 == number)
    }

    /// Whether a and v are a crew and 00, and not an attribute and its value.
    pub fn names_crew(self) -> bool {
        matches!(self, Op::Assign | Op::Remove)
    }

    /// Whether the subject is a crew.
    pub fn on_crew(self) -> bool {
        matches!(self, Op::AddToCrew | Op::DeleteFromCrew)
    }
}

/// A rule: the lead may do op with a and v, to whom all terms hold of.
#[derive(Clone, Debug, PartialEq, Eq)]
pub struct Rule {
    /// What it lets do.
    pub op: Op,
    /// The lead.
    pub lead: u8,
    /// An attribute, or a crew in `Assign` and `Remove`.
    pub a: u8,
    /// A value; 0 in `Assign` and `Remove`.
    pub v: u8,
    /// At most eight.
    pub terms: Vec<Term>,
}

/// A term of a rule.
#[derive(Clone, Copy, Debug, PartialEq, Eq)]
pub struct Term {
    /// What it asks.
    pub kind: Kind,
    /// An attribute, or a crew.
    pub a: u8,
    /// A value; 0 in terms on crews.
    pub v: u8,
}

/// What a term asks; the numbers are the book's.
#[derive(Clone, Copy, Debug, PartialEq, Eq)]
pub enum Kind {
    /// 01: directly has.
    HasDirectly = 0x01,
    /// 02: has, through a crew too.
    Has = 0x02,
    /// 03: directly in a crew.
    InDirectly = 0x03,
    /// 04: in a crew, through a senior too.
    In = 0x04,
    /// 05: has the value or a higher one, through a crew too.
    HasOrHigher = 0x05,
    /// 81: does not directly have.
    HasNot = 0x81,
    /// 83: is not directly in.
    InNot = 0x83,
}

impl Kind {
    /// The kind of a number.
    pub fn of(number: u8) -> Option<Kind> {
        use Kind::*;
        [HasDirectly, Has, InDirectly, In, HasOrHigher, HasNot, InNot].into_iter().find(|kind| *kind as u8 == number)
    }

    /// Whether it asks about a crew.
    pub fn names_crew(self) -> bool {
        matches!(self, Kind::InDirectly | Kind::In | Kind::InNot)
    }

    /// Whether it says "not".
    pub fn is_not(self) -> bool {
        matches!(self, Kind::HasNot | Kind::InNot)
    }
}

/// A starting fact.
#[derive(Clone, Copy, Debug, PartialEq, Eq)]
pub enum Fact {
    /// k 01: a person has a value.
    PersonHas {
        /// The person.
        person: u8,
        /// The attribute.
        attribute: u8,
        /// The value.
        value: u8,
    },
    /// k 02: a crew has a value.
    CrewHas {
        /// The crew.
        crew: u8,
        /// The attribute.
        attribute: u8,
        /// The value.
        value: u8,
    },
    /// k 03: a person is in a crew.
    PersonIn {
        /// The person.
        person: u8,
        /// The crew.
        crew: u8,
    },
}

/// How a question is meant; the numbers are the book's modes.
#[derive(Clone, Copy, Debug, PartialEq, Eq)]
pub enum Mode {
    /// 01: has at least these values.
    AtLeast = 1,
    /// 02: has exactly these values, and is directly in exactly these crews.
    Exactly = 2,
    /// 03: directly has at least these values, and is directly in at least these crews.
    Directly = 3,
}

/// A question.
#[derive(Clone, Debug, PartialEq, Eq)]
pub struct Question {
    /// How it is meant.
    pub mode: Mode,
    /// Of whom.
    pub person: u8,
    /// The leads that act: bit r is lead r.
    pub leads: u16,
    /// Attributes, rising, each with its set of values: bit v is value v.
    pub wants: Vec<(u8, u16)>,
    /// Bit c is crew c; 0 in `AtLeast`.
    pub crews: u32,
}

/// A line `expect`.
#[derive(Clone, Debug, PartialEq, Eq)]
pub struct Expectation {
    /// Whether a plan is expected, and not "no way".
    pub yes: bool,
    /// The question.
    pub question: Question,
}

impl Depot {
    /// The rules in the book's order, which is that of the file: refusal 15 counts them so, from 1.
    pub fn rules(&self) -> impl Iterator<Item = (usize, &Rule)> {
        self.statements.iter().filter_map(|said| match &said.what {
            Statement::Rule(rule) => Some((said.line, rule)),
            _ => None,
        })
    }

    /// Whether a rule has a term that says "not".
    pub fn has_not(&self) -> bool {
        self.not_line().is_some()
    }

    /// The line of the first rule that has one.
    pub fn not_line(&self) -> Option<usize> {
        let says_not = |(_, rule): &(usize, &Rule)| rule.terms.iter().any(|term| term.kind.is_not());
        self.rules().find(says_not).map(|(line, _)| line)
    }
}

/// The numbers of a set's members, rising.
pub fn members(set: u32) -> impl Iterator<Item = u8> {
    (0..32).filter(move |number| set >> number & 1 == 1)
}

/// A request's op, lead, subject, a and v.
pub fn request_of(op: Op, lead: u8, subject: u8, a: u8, v: u8) -> Request {
    let act = match op {
        Op::AddToPerson => Act::AddToPerson(Person(subject), Attr(a), Value(v)),
        Op::DeleteFromPerson => Act::DeleteFromPerson(Person(subject), Attr(a), Value(v)),
        Op::AddToCrew => Act::AddToCrew(Crew(subject), Attr(a), Value(v)),
        Op::DeleteFromCrew => Act::DeleteFromCrew(Crew(subject), Attr(a), Value(v)),
        Op::Assign => Act::Assign(Person(subject), Crew(a)),
        Op::Remove => Act::Remove(Person(subject), Crew(a)),
    };
    Request::new(Role(lead), act)
}
