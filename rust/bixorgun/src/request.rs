use std::fmt;

use crate::{Attr, Crew, Person, Role, Value, REQUEST_SIZE};

/// What a request does: the ops 01 to 06.
#[derive(Clone, Copy, Debug, PartialEq, Eq, PartialOrd, Ord, Hash)]
pub enum Act {
    /// 01: add to a person.
    AddToPerson(Person, Attr, Value),
    /// 02: delete from a person.
    DeleteFromPerson(Person, Attr, Value),
    /// 03: add to a crew.
    AddToCrew(Crew, Attr, Value),
    /// 04: delete from a crew.
    DeleteFromCrew(Crew, Attr, Value),
    /// 05: assign a person.
    Assign(Person, Crew),
    /// 06: remove a person.
    Remove(Person, Crew),
}

/// "A request is five bytes: op role subject a v, fields as in a rule."
///
/// The numbers may be any; a request with a field out of range is refused by 12.
///
/// ```
/// use bixorgun::{Act, Attr, Person, Request, Role, Value};
///
/// let request = Request::new(Role(2), Act::AddToPerson(Person(7), Attr(1), Value(15)));
/// assert_eq!(request.to_bytes(), [0x01, 0x02, 0x07, 0x01, 0x0F]);
/// assert_eq!(request.to_string(), "010207010F");
/// assert_eq!(Request::from_bytes(request.to_bytes()), Some(request));
/// ```
#[derive(Clone, Copy, Debug, PartialEq, Eq, PartialOrd, Ord, Hash)]
pub struct Request {
    /// Who makes it.
    pub role: Role,
    /// What it does.
    pub act: Act,
}

impl Request {
    /// A request of a role.
    #[must_use]
    pub const fn new(role: Role, act: Act) -> Self {
        Request { role, act }
    }

    /// The five bytes.
    #[must_use]
    pub const fn to_bytes(&self) -> [u8; REQUEST_SIZE] {
        let Role(role) = self.role;
        match self.act {
            Act::AddToPerson(Person(p), Attr(a), Value(v)) => [1, role, p, a, v],
            Act::DeleteFromPerson(Person(p), Attr(a), Value(v)) => [2, role, p, a, v],
            Act::AddToCrew(Crew(c), Attr(a), Value(v)) => [3, role, c, a, v],
            Act::DeleteFromCrew(Crew(c), Attr(a), Value(v)) => [4, role, c, a, v],
            Act::Assign(Person(p), Crew(c)) => [5, role, p, c, 0],
            Act::Remove(Person(p), Crew(c)) => [6, role, p, c, 0],
        }
    }

    /// The request of five bytes; nothing when op is not 01 to 06, or v is not 00 in 05 and 06. Refusal 12 falls on such
    /// bytes in every book.
    #[must_use]
    pub const fn from_bytes(bytes: [u8; REQUEST_SIZE]) -> Option<Self> {
        let [op, role, subject, a, v] = bytes;
        let act = match (op, v) {
            (1, _) => Act::AddToPerson(Person(subject), Attr(a), Value(v)),
            (2, _) => Act::DeleteFromPerson(Person(subject), Attr(a), Value(v)),
            (3, _) => Act::AddToCrew(Crew(subject), Attr(a), Value(v)),
            (4, _) => Act::DeleteFromCrew(Crew(subject), Attr(a), Value(v)),
            (5, 0) => Act::Assign(Person(subject), Crew(a)),
            (6, 0) => Act::Remove(Person(subject), Crew(a)),
            _ => return None,
        };
        Some(Request { role: Role(role), act })
    }
}

impl fmt::Display for Request {
    /// The five bytes in the book's hexadecimal.
    fn fmt(&self, f: &mut fmt::Formatter<'_>) -> fmt::Result {
        self.to_bytes().iter().try_for_each(|byte| write!(f, "{byte:02X}"))
    }
}
