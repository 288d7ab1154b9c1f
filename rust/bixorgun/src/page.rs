use std::fmt;
use std::iter::{Enumerate, FusedIterator};
use std::slice::ChunksExact;

use crate::{Attr, Numbers, Person, Value, Values, PAGE_SIZE};

/// The whole depot on one page: for each person the values that the roles of the book's query can bring.
///
/// A value is there "exactly when the mode 01 query for that person, that value alone and the roles of the book's query
/// would get a plan". The plan may be empty, so what a person effectively holds at the start is there too.
/// [`Book::page`](crate::Book::page) gives it; a table that [`bytes::page`](crate::bytes::page) has filled, or one that
/// was kept, is read by [`Page::from`] its bytes.
///
/// ```
/// use bixorgun::{Attr, Book, Page, Person, Value};
///
/// # fn main() -> Result<(), bixorgun::Refusal> {
/// // Role 0 adds value 2 to who holds value 0: person 1 does.
/// let book = Book::new("0102000103\n030100000201010000\n0401010000\n050100000100\n");
/// let page = book.page()?;
/// assert!(page.reaches(Person(1), Attr(0), Value(2)) && !page.reaches(Person(0), Attr(0), Value(2)));
/// assert_eq!(page.values(Person(1), Attr(0)).bits(), 0b101);
/// for (person, attr, value) in &page {
///     println!("person {} can come to hold value {} of attribute {}", person.0, value.0, attr.0);
/// }
/// assert_eq!(Page::from(*page.as_bytes()), page);
/// # Ok(())
/// # }
/// ```
#[derive(Clone, PartialEq, Eq, Hash)]
#[must_use]
pub struct Page([u8; PAGE_SIZE]);

impl Page {
    /// Whether a person can come to hold a value; not so where the book has no such person, attribute or value.
    #[must_use]
    pub fn reaches(&self, person: Person, attr: Attr, value: Value) -> bool {
        self.values(person, attr).contains(value)
    }

    /// The values of an attribute that a person can come to hold; none where the book has no such person or attribute.
    #[must_use]
    pub fn values(&self, person: Person, attr: Attr) -> Values {
        let of_person = self.0.chunks_exact(16).nth(person.0.into());
        of_person.and_then(|sets| sets.chunks_exact(2).nth(attr.0.into())).map(set).unwrap_or_default()
    }

    /// All that can come to be held, rising: by persons, then by attributes, then by values.
    pub fn iter(&self) -> Reached<'_> {
        Reached {
            person: Person(0),
            attr: Attr(0),
            values: Values::default().iter(),
            sets: self.0.chunks_exact(2).enumerate(),
        }
    }

    /// The page's bytes: "for each person a two-byte set for each of eight attributes", at 16·p + 2·a, big-endian.
    #[must_use]
    pub const fn as_bytes(&self) -> &[u8; PAGE_SIZE] {
        &self.0
    }
}

/// The set that two bytes write.
fn set(two: &[u8]) -> Values {
    Values::from_bits(two.iter().fold(0, |bits, &byte| bits << 8 | u16::from(byte)))
}

impl From<[u8; PAGE_SIZE]> for Page {
    fn from(bytes: [u8; PAGE_SIZE]) -> Self {
        Page(bytes)
    }
}

impl fmt::Debug for Page {
    /// The sets that are not empty, by person and attribute.
    fn fmt(&self, f: &mut fmt::Formatter<'_>) -> fmt::Result {
        let sets = self.0.chunks_exact(2).map(set).enumerate().filter(|(_, set)| !set.is_empty());
        f.write_str("Page ")?;
        f.debug_map().entries(sets.map(|(place, set)| ((place / 8, place % 8), set))).finish()
    }
}

impl<'p> IntoIterator for &'p Page {
    type Item = (Person, Attr, Value);
    type IntoIter = Reached<'p>;

    fn into_iter(self) -> Reached<'p> {
        self.iter()
    }
}

/// Iterates over all that can come to be held on a lent [`Page`], rising.
#[derive(Clone, Debug)]
#[must_use = "an iterator does nothing until it is used"]
pub struct Reached<'p> {
    person: Person,
    attr: Attr,
    /// What is left of the set of this person and attribute.
    values: Numbers<Value>,
    /// The sets behind it, by their places: 8 × person + attribute.
    sets: Enumerate<ChunksExact<'p, u8>>,
}

impl Iterator for Reached<'_> {
    type Item = (Person, Attr, Value);

    fn next(&mut self) -> Option<Self::Item> {
        loop {
            if let Some(value) = self.values.next() {
                return Some((self.person, self.attr, value));
            }
            let (place, two) = self.sets.next()?;
            // A page has 64 × 8 sets.
            (self.person, self.attr) = (Person((place / 8) as u8), Attr((place % 8) as u8));
            self.values = set(two).iter();
        }
    }

    fn size_hint(&self) -> (usize, Option<usize>) {
        let behind = self.sets.clone().map(|(_, two)| set(two).len());
        let len = self.values.len() + behind.sum::<usize>();
        (len, Some(len))
    }
}

impl ExactSizeIterator for Reached<'_> {}
impl FusedIterator for Reached<'_> {}
