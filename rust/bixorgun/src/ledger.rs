use std::array::TryFromSliceError;
use std::fmt;

use crate::{bytes, Attr, Book, Crews, Person, Refusal, Request, Values, LEDGER_SIZE, VIEW_SIZE};

/// A ledger: 1,792 bytes, the facts as they stand.
///
/// "Person p's attribute a is a two-byte set at 16·p + 2·a, crew c's at 1,024 + 16·c + 2·a, person p's crews a four-byte
/// set at 1,536 + 4·p; big-endian". [`Book::open`] gives the ledger of starting facts; a kept one comes back by
/// [`Ledger::from`] its bytes, which may be any: 11 falls on a bit outside the book's sizes when it is used.
#[derive(Clone, PartialEq, Eq, Hash)]
pub struct Ledger([u8; LEDGER_SIZE]);

impl Ledger {
    /// The ledger's bytes, to keep.
    #[must_use]
    pub const fn as_bytes(&self) -> &[u8; LEDGER_SIZE] {
        &self.0
    }

    /// The ledger's bytes.
    #[must_use]
    pub const fn into_bytes(self) -> [u8; LEDGER_SIZE] {
        self.0
    }

    /// Carries out a request: "A permitted request sets or clears its one fact; it may find the fact so already, and then
    /// the ledger stays equal."
    ///
    /// ```
    /// use bixorgun::{Act, Attr, Book, Person, Refusal, Request, Role, Value};
    ///
    /// # fn main() -> Result<(), Refusal> {
    /// // Attribute 0 is the grade, of three values, attribute 1 the lane, of two. Rule 1: role 1 adds lane 0 to who
    /// // directly holds grade 1. Rule 2: role 0 adds grade 1.
    /// let book = Book::new("010100020302\n030101010001010001\n030100000100\n050100000000\n");
    /// let mut ledger = book.open()?;
    /// let add = |role, attr, value| Request::new(Role(role), Act::AddToPerson(Person(0), Attr(attr), Value(value)));
    ///
    /// // A rule is there for lane 0, and its term is not met: first the grade is raised.
    /// assert_eq!(ledger.request(&book, add(1, 1, 0)), Err(Refusal::UnmetTerm { rule: 1, term: 1 }));
    /// ledger.request(&book, add(0, 0, 1))?;
    /// ledger.request(&book, add(1, 1, 0))?;
    /// assert_eq!(ledger.as_bytes()[..4], [0, 0b10, 0, 0b01]);
    ///
    /// // No rule is there for lane 1, whatever grade there is; nor for grade 2. There is no lane 2.
    /// assert_eq!(ledger.request(&book, add(1, 1, 1)), Err(Refusal::NoRule));
    /// assert_eq!(ledger.request(&book, add(1, 0, 2)), Err(Refusal::NoRule));
    /// assert_eq!(ledger.request(&book, add(1, 1, 2)), Err(Refusal::BadRequest));
    /// # Ok(())
    /// # }
    /// ```
    ///
    /// # Errors
    ///
    /// 1-9, 16 or 17, then 11, 12, then 13 or 15; the ledger then keeps its bytes.
    pub fn request(&mut self, book: &Book<'_>, request: Request) -> Result<(), Refusal> {
        bytes::request(book.characters(), &mut self.0, &request.to_bytes())
    }

    /// Shows "a person's eight effective sets (0 for an absent attribute) and effective crews".
    ///
    /// ```
    /// use bixorgun::{Attr, Book, Crew, Person, Value};
    ///
    /// # fn main() -> Result<(), bixorgun::Refusal> {
    /// // Person 0 is in crew 1, the senior of crew 0, which holds value 0.
    /// let book = Book::new("0101020102\n020100\n0403000100\n0402000000\n050100000000\n");
    /// let view = book.open()?.show(&book, Person(0))?;
    /// assert!(view.values(Attr(0)).iter().eq([Value(0)]));
    /// assert!(view.crews().iter().eq([Crew(0), Crew(1)]));
    /// # Ok(())
    /// # }
    /// ```
    ///
    /// # Errors
    ///
    /// 1-9, 16 or 17, then 11, 12.
    pub fn show(&self, book: &Book<'_>, person: Person) -> Result<View, Refusal> {
        bytes::show(book.characters(), &self.0, person)
    }
}

impl From<[u8; LEDGER_SIZE]> for Ledger {
    fn from(bytes: [u8; LEDGER_SIZE]) -> Self {
        Ledger(bytes)
    }
}

impl TryFrom<&[u8]> for Ledger {
    type Error = TryFromSliceError;

    /// A ledger of bytes that were kept; an error when they are not 1,792.
    fn try_from(bytes: &[u8]) -> Result<Self, TryFromSliceError> {
        bytes.try_into().map(Ledger)
    }
}

impl AsRef<[u8]> for Ledger {
    fn as_ref(&self) -> &[u8] {
        &self.0
    }
}

impl fmt::Debug for Ledger {
    /// The bytes that are not 0, by their places.
    fn fmt(&self, f: &mut fmt::Formatter<'_>) -> fmt::Result {
        let set = self.0.iter().enumerate().filter(|&(_, &byte)| byte != 0);
        f.write_str("Ledger ")?;
        f.debug_map().entries(set).finish()
    }
}

/// What a person effectively holds and is effectively in.
#[derive(Clone, Copy, Debug, Default, PartialEq, Eq, Hash)]
#[must_use]
pub struct View {
    sets: [Values; 8],
    crews: Crews,
}

impl View {
    /// The values of an attribute that the person effectively holds; none of an attribute that the book lacks.
    #[must_use]
    pub fn values(&self, attr: Attr) -> Values {
        self.sets.get(usize::from(attr.0)).copied().unwrap_or_default()
    }

    /// The crews that the person is effectively in.
    #[must_use]
    pub const fn crews(&self) -> Crews {
        self.crews
    }

    /// The eight attributes with their sets, rising.
    pub fn sets(&self) -> impl ExactSizeIterator<Item = (Attr, Values)> {
        (0..8_u8).map(Attr).zip(self.sets)
    }

    /// The view of the bytes that show writes: "eight sets, two bytes each, and the set of crews, four bytes; big-endian".
    pub fn from_bytes(bytes: &[u8; VIEW_SIZE]) -> Self {
        let mut view = View::default();
        let (sets, crews) = bytes.split_at(16);
        for (set, two) in view.sets.iter_mut().zip(sets.chunks_exact(2)) {
            *set = Values::from_bits(u16::from_be_bytes([two[0], two[1]]));
        }
        view.crews = Crews::from_bits(crews.iter().fold(0, |bits, &byte| bits << 8 | u32::from(byte)));
        view
    }
}
