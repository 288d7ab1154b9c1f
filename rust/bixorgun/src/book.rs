use crate::bytes::Planned;
use crate::{bytes, Answer, Judgement, Ledger, Page, Plan, Refusal, Request};
use crate::{LEDGER_SIZE, PAGE_SIZE, PLAN_MAX, REQUEST_SIZE};

/// A book's characters, borrowed.
///
/// Any characters will do: each operation reads the book, and refuses it by 1 to 9, 16 or 17 where it is bad.
///
/// ```
/// use bixorgun::{Book, Refusal};
///
/// let book = Book::new("0101000102\n0200\n");
/// assert_eq!(book.open(), Err(Refusal::BadLength { line: 2 }));
/// ```
#[derive(Clone, Copy, Debug, PartialEq, Eq, Hash)]
pub struct Book<'a> {
    characters: &'a [u8],
}

impl<'a> Book<'a> {
    /// The book of some characters: a string's, or any bytes.
    #[must_use]
    pub fn new(characters: &'a (impl AsRef<[u8]> + ?Sized)) -> Self {
        Book { characters: characters.as_ref() }
    }

    /// The book's characters.
    #[must_use]
    pub const fn characters(&self) -> &'a [u8] {
        self.characters
    }

    /// The ledger of the starting facts.
    ///
    /// ```
    /// use bixorgun::Book;
    ///
    /// # fn main() -> Result<(), bixorgun::Refusal> {
    /// let ledger = Book::new("0101000102\n0401000001\n050100000000\n").open()?;
    /// assert_eq!(ledger.as_bytes()[..2], [0, 0b10]);
    /// # Ok(())
    /// # }
    /// ```
    ///
    /// # Errors
    ///
    /// 1-9, 16 or 17.
    pub fn open(&self) -> Result<Ledger, Refusal> {
        let mut ledger = [0; LEDGER_SIZE];
        bytes::open(self.characters, &mut ledger)?;
        Ok(Ledger::from(ledger))
    }

    /// Plans the query: no way, by any chain of requests whatever, or a plan that works.
    ///
    /// ```
    /// use bixorgun::{Answer, Book};
    ///
    /// # fn main() -> Result<(), bixorgun::Refusal> {
    /// // Value 0 may be added to who holds it.
    /// let book = Book::new("0101000102\n030100000001010000\n050100FFFF01000001\n");
    /// assert_eq!(book.plan()?, Answer::NoWay);
    /// # Ok(())
    /// # }
    /// ```
    ///
    /// A carrier that never deletes may write "not" terms, kinds 81 and 83, and asks by mode 03 for what is to be held
    /// directly.
    ///
    /// ```
    /// use bixorgun::{Act, Book, Crew, Person, Request, Role};
    ///
    /// # fn main() -> Result<(), bixorgun::Refusal> {
    /// // Anybody may join returns (crew 0), and customs (crew 1) if not in returns. Person 0 is to be in both.
    /// let book = Book::new("0101020101\n030500000000\n030500010001830000\n05030000010000000003\n");
    /// let plan = book.plan()?.plan().expect("there is a way");
    /// let join = |crew| Request::new(Role(0), Act::Assign(Person(0), Crew(crew)));
    /// assert_eq!(plan.as_slice(), [join(1), join(0)]);
    /// # Ok(())
    /// # }
    /// ```
    ///
    /// # Errors
    ///
    /// 1-9, 16 or 17.
    pub fn plan(&self) -> Result<Answer, Refusal> {
        let mut buffer = vec![0; PLAN_MAX];
        Ok(match bytes::plan_into(self.characters, &mut buffer)? {
            Planned::NoWay => Answer::NoWay,
            Planned::Plan(count) => Answer::Plan(Plan::of(&buffer[..REQUEST_SIZE * count])),
        })
    }

    /// Judges a list of requests, of a [`Plan`] or any other, from the starting facts.
    ///
    /// ```
    /// use bixorgun::{Act, Attr, Book, Judgement, Person, Request, Role, Value};
    ///
    /// # fn main() -> Result<(), bixorgun::Refusal> {
    /// let book = Book::new("0101000102\n030100000000\n050100000101000001\n");
    /// let add = |value| Request::new(Role(0), Act::AddToPerson(Person(0), Attr(0), Value(value)));
    /// assert_eq!(book.replay([add(0)])?, Judgement::Reaches);
    /// assert_eq!(book.replay([add(0), add(1)])?, Judgement::Stops(2));
    /// assert_eq!(book.replay([])?, Judgement::EndsShort);
    /// # Ok(())
    /// # }
    /// ```
    ///
    /// # Errors
    ///
    /// 1-9, 16 or 17.
    pub fn replay(&self, requests: impl IntoIterator<Item = Request>) -> Result<Judgement, Refusal> {
        let list: Vec<u8> = requests.into_iter().flat_map(|request| request.to_bytes()).collect();
        bytes::replay(self.characters, &list)
    }

    /// The whole depot on one page: what each person can come to hold by the roles of the query.
    ///
    /// Of the query the roles alone count; its mode, person, sets and crews do not matter. A book with a "not" term has no
    /// page: 17.
    ///
    /// ```
    /// use bixorgun::{Attr, Book, Person, Value};
    ///
    /// # fn main() -> Result<(), bixorgun::Refusal> {
    /// // The pilot depot. Role 0 lends the sorter to the returns crew, which holds grade 0 (of attribute 0); role 1
    /// // raises who has grade 0 to grade 1; role 2 gives lane control (value 0 of attribute 1) to who holds grade 1.
    /// let rules = "030500000000\n030101000101020000\n030102010001010001\n";
    /// let pilot = |roles| format!("010101020202\n{rules}0402000000\n050100{roles}01010001\n");
    /// let (sorter, grade, lane) = (Person(0), Attr(0), Attr(1));
    ///
    /// let page = Book::new(&pilot("0007")).page()?;
    /// assert!(page.reaches(sorter, lane, Value(0)));
    /// assert!(page.values(sorter, grade).iter().eq([Value(0), Value(1)]));
    ///
    /// // Without the third lead she comes to grade 1, and not to the lane.
    /// let page = Book::new(&pilot("0003")).page()?;
    /// assert!(page.iter().eq([(sorter, grade, Value(0)), (sorter, grade, Value(1))]));
    /// # Ok(())
    /// # }
    /// ```
    ///
    /// # Errors
    ///
    /// 1-9, 16 or 17.
    pub fn page(&self) -> Result<Page, Refusal> {
        let mut table = [0; PAGE_SIZE];
        bytes::page(self.characters, &mut table)?;
        Ok(Page::from(table))
    }
}

impl<'a> From<&'a [u8]> for Book<'a> {
    fn from(characters: &'a [u8]) -> Self {
        Book { characters }
    }
}

impl<'a> From<&'a str> for Book<'a> {
    fn from(characters: &'a str) -> Self {
        Book { characters: characters.as_bytes() }
    }
}
