//! The page: for each person every value that the person can come to hold.
//!
//! "On Mondays security runs a mode 01 query for each person and value. They want one operation that takes the book and
//! fills a table: for each person a two-byte set for each of eight attributes, 1,024 bytes. A bit is set exactly when
//! the mode 01 query for that person, that value alone and the roles of the book's query would get a plan."
//!
//! One ledger answers all these queries at once: the *fullest*, which has the starting facts and all that the query's
//! roles can add, to any person and to any crew.
//!
//! * A chain leads to it: the additions, in the order in which they are found. They delete nothing.
//! * No chain leads to a ledger that has a fact more. No term speaks of a missing fact, so what is permitted in a part
//!   of the fullest ledger is permitted in the fullest too. The starting facts are a part of it; an addition to a part
//!   adds a fact that the fullest has, and a deletion leaves a part.
//! * A mode 01 query forbids nothing: what a person effectively holds in a ledger is held in every larger one. So to
//!   delete never helps, neither on the way nor at its end.
//!
//! Hence a value's query gets a plan, the empty one too, exactly when the person effectively holds the value in the
//! fullest ledger.
//!
//! "The page of Wish 5 refuses every book with a "not" term by 17.": there a larger ledger may permit less.
//!
//! "What crews can come to hold doesn't depend on the person and is worked out once for the depot.": terms about a crew
//! look at crews alone, and a fact of a crew is put in once for all persons. Nor do persons depend on one another.

use crate::book::{self, Attr, Book, Crew, Fact, Person, Sizes, Term, Way, What};
use crate::ledger::{Depot, Ledger};
use crate::refusals::numbered;

/// "for each person a two-byte set for each of eight attributes, 1,024 bytes"
pub const PAGE_BYTES: usize = 1_024;

/// What turns the page back.
#[derive(Clone, Copy, Debug, PartialEq, Eq)]
pub enum Refusal {
    /// 1 to 9, 16 and 17.
    Book(book::Refusal),
    /// 10: "A table of another length is refused under 10."
    Table,
}

numbered!(Table = 10);

/// "takes the book and fills a table"; every byte of it is written, whatever stood there.
///
/// Of the book's own query only the roles count: its mode, person, sets and crews are not looked at.
///
/// # Errors
///
/// 1-9, 16 and 17, then 10; the table then keeps its bytes.
pub fn page(characters: &[u8], table: &mut [u8]) -> Result<(), Refusal> {
    let book = book::read_for_page(characters)?;
    if table.len() != PAGE_BYTES {
        return Err(Refusal::Table);
    }
    table.copy_from_slice(&of(&book));
    Ok(())
}

/// The page of an accepted book without a "not" term. Person p's attribute a is a two-byte set at 16·p + 2·a,
/// big-endian, weight 2^v for value v: as in a ledger.
///
/// "Bytes of absent persons and attributes are 0.", and so are the bits of absent values.
#[must_use]
pub fn of(book: &Book) -> [u8; PAGE_BYTES] {
    let depot = Depot::new(book);
    let ledger = fullest(&depot);
    let mut table = [0; PAGE_BYTES];
    for person in (0..book.sizes.persons).map(Person) {
        for attr in (0..book.sizes.attrs()).map(Attr) {
            let set = depot.person_set(&ledger, person, attr);
            table[16 * person.index() + 2 * attr.index()..][..2].copy_from_slice(&set.to_be_bytes());
        }
    }
    table
}

/// The starting facts and all that the query's roles can add.
///
/// Passes over the facts that some rule may add, each with the terms of that rule, until a pass adds none.
fn fullest(depot: &Depot) -> Ledger {
    let book = depot.book;
    let rules = book.rules.iter().filter(|rule| rule.way == Way::Add && book.query.has_role(rule.role));
    let mut missing: Vec<(Fact, &[Term])> =
        rules.flat_map(|rule| facts(&book.sizes, rule.what).map(|fact| (fact, &rule.terms[..]))).collect();
    let mut ledger = Ledger::start(book);
    loop {
        let before = missing.len();
        missing.retain(|&(fact, terms)| {
            let there = ledger.has(fact) || terms.iter().all(|&term| depot.term_holds(&ledger, fact, term));
            ledger.set(fact, there);
            !there
        });
        if missing.len() == before {
            return ledger;
        }
    }
}

/// What a rule names, as facts of every subject of the depot.
fn facts(sizes: &Sizes, what: What) -> impl Iterator<Item = Fact> {
    let subjects = match what {
        What::OfPerson(..) | What::Membership(_) => sizes.persons,
        What::OfCrew(..) => sizes.crews,
    };
    (0..subjects).map(move |subject| match what {
        What::OfPerson(attr, value) => Fact::PersonHolds(Person(subject), attr, value),
        What::OfCrew(attr, value) => Fact::CrewHolds(Crew(subject), attr, value),
        What::Membership(crew) => Fact::PersonIn(Person(subject), crew),
    })
}

#[cfg(test)]
mod tests {
    use super::*;

    const D1: &str = "0101010102\n030100000100\n030501000001010001\n0402000000\n050100000301000001\n";

    /// The bytes of a page that are not 0, with their places.
    fn marks(characters: &str) -> Vec<(usize, u8)> {
        let mut table = [0xFF; PAGE_BYTES];
        page(characters.as_bytes(), &mut table).expect("a page");
        table.into_iter().enumerate().filter(|&(_, byte)| byte != 0).collect()
    }

    #[test]
    fn d1_and_d2() {
        assert_eq!(marks(D1), [(1, 0b11)]);
        let roles = |roles: &str| D1.replace("0501000003", &format!("050100{roles}"));
        assert_eq!(marks(&roles("0001")), [(1, 0b10)], "D2");
        assert_eq!(marks(&roles("0002")), [], "assigning needs value 1");
        assert_eq!(marks(&roles("0000")), []);
        assert_eq!(marks(&roles("FFFF")), [(1, 0b11)]);
    }

    /// What is there at the start is marked, whatever mode 02 would have gone again, and whoever could delete it.
    #[test]
    fn d3_to_d9() {
        let bare = |frames: &str| format!("0101000102\n{frames}050200FFFF0100000000000000\n");
        let both = "0401000000\n0401000001\n";
        assert_eq!(marks(&bare(&format!("{both}030200000001010001\n030200000101010000\n"))), [(1, 0b11)], "D3, D4");
        assert_eq!(marks(&bare(&format!("{both}030200000001010001\n030200000100\n"))), [(1, 0b11)], "D5");
        assert_eq!(marks(&bare("030100000000\n030100000100\n")), [(1, 0b11)], "D6");
        assert_eq!(marks(&bare("")), [], "D7");
        assert_eq!(marks(&bare("030100000001010000\n")), [], "D8");
        assert_eq!(marks(&bare("0401000000\n030200000001010000\n")), [(1, 0b01)], "D9");
        // Values 0 and 1 each need the other.
        assert_eq!(marks(&bare("030100000001010001\n030100000101010000\n")), []);
    }

    #[test]
    fn d10_a_senior_inherits_and_a_junior_does_not() {
        let two = |frames: &str| format!("0101020102\n020100\n{frames}050100000000\n");
        assert_eq!(marks(&two("0403000100\n0402000000\n")), [(1, 0b01)]);
        assert_eq!(marks(&two("0403000000\n0402010000\n")), []);
    }

    /// "a sorter was lent to the returns crew by one lead, a second lead raised her grade, and that grade let a third
    /// give her lane control": with a lead less she gets that far and no further, and so do the other sorters.
    #[test]
    fn the_pilot_depot() {
        let rules = "0402000000\n030500000000\n030101000101020000\n030102010001010001\n";
        let pilot = |roles: &str| format!("010301020202\n{rules}050102{roles}00\n");
        let each = |grades: u8, lane: u8| {
            let bytes = (0..3).flat_map(|p| [(16 * p + 1, grades), (16 * p + 3, lane)]);
            bytes.filter(|&(_, byte)| byte != 0).collect::<Vec<_>>()
        };
        assert_eq!(marks(&pilot("0007")), each(0b11, 1));
        assert_eq!(marks(&pilot("0003")), each(0b11, 0));
        assert_eq!(marks(&pilot("0005")), each(0b01, 0));
        assert_eq!(marks(&pilot("0006")), []);
    }

    /// Of four persons the first alone holds value 1, which lets into crew 1; the second is in crew 1, the third in its
    /// junior, crew 0.
    #[test]
    fn each_from_their_own_starting_facts() {
        let starts = "0401000001\n0403010100\n0403020000\n";
        let depot = |frames: &str| format!("0104020103\n020100\n030500010001010001\n{starts}{frames}050103FFFF00\n");
        assert_eq!(marks(&depot("")), [(1, 0b010)]);
        assert_eq!(marks(&depot("0402010000\n")), [(1, 0b011), (17, 0b001)]);
        assert_eq!(marks(&depot("0402000000\n")), [(1, 0b011), (17, 0b001), (33, 0b001)]);
        // Every crew comes to hold 2, by a rule without a term; by one about 0 only crew 1, which has it.
        assert_eq!(marks(&depot("030300000200\n")), [(1, 0b110), (17, 0b100), (33, 0b100)]);
        let by_zero = "0402010000\n030300000201010000\n";
        assert_eq!(marks(&depot(by_zero)), [(1, 0b111), (17, 0b101)]);
        // Crew 0 has 0, and crew 1 effectively; then a ladder term about 2 is fulfilled for those who are inside.
        let by_ladder = "0402000000\n030300000201020000\n030100000101050002\n";
        assert_eq!(marks(&depot(by_ladder)), [(1, 0b111), (17, 0b111), (33, 0b111)]);
    }

    #[test]
    fn the_last_places() {
        let last = "014020081010101010101010\n04013F070F\n0401000008\n050100000000\n";
        assert_eq!(marks(last), [(0, 0x01), (1_022, 0x80)]);
        // All values of each attribute, whose counts are 3, 16 and 1, and of the second person alone.
        let facts = [(0, 3), (1, 16), (2, 1)].map(|(a, count)| (0..count).map(move |v| format!("0401010{a}{v:02X}\n")));
        let facts: String = facts.into_iter().flatten().collect();
        let text = format!("01020003031001\n{facts}050100000000\n");
        assert_eq!(marks(&text), [(17, 0b111), (18, 0xFF), (19, 0xFF), (21, 1)]);
    }

    /// "The page of Wish 5 refuses every book with a "not" term by 17.", 16 first, and both before 10.
    #[test]
    fn books_with_not() {
        let not = "030100000001810001\n";
        let (first, third) = ("050100000000\n", "05030000000000000000\n");
        for (frames, query, expected) in [
            (not.to_owned(), third, (17, 3)),
            (not.to_owned(), first, (17, 3)),
            (format!("{not}030500000000\n0401000000\n"), third, (17, 5)),
            (format!("{not}{not}"), third, (16, 4)),
            (format!("{not}030200000000\n"), first, (16, 4)),
            (format!("{not}03\n"), third, (4, 3)),
            (String::new(), third, (17, 2)),
        ] {
            let text = format!("0101010102\n{frames}{query}");
            for length in [0, 3, PAGE_BYTES, PAGE_BYTES + 1] {
                let mut table = vec![0xA5; length];
                let Err(Refusal::Book(refusal)) = page(text.as_bytes(), &mut table) else { panic!("{text}") };
                assert_eq!((refusal.number(), refusal.line), expected, "{text}");
                assert!(table.iter().all(|&byte| byte == 0xA5));
            }
        }
    }

    #[test]
    fn the_refusals() {
        for length in [0, 1, 1_023, 1_025, 1_792, 2_048] {
            let mut table = vec![0xA5; length];
            assert_eq!(page(D1.as_bytes(), &mut table), Err(Refusal::Table), "{length} bytes");
            assert_eq!(page(b"", &mut table).map_err(|refusal| refusal.number()), Err(3), "{length} bytes");
            assert!(table.iter().all(|&byte| byte == 0xA5));
        }
        assert_eq!(Refusal::Table.number(), 10);
        assert_eq!(Refusal::Table.to_string(), "refusal 10");
    }
}
