//! The six operations on slices of any lengths, each as the library has it.
//!
//! Here every refusal of the table can fall. On a refusal every byte of the buffer that was lent is as it was.

use crate::{sys, Judgement, Person, Refusal, View, VIEW_SIZE};

/// What [`plan_into`] did with its buffer.
#[derive(Clone, Copy, Debug, PartialEq, Eq, Hash)]
#[must_use]
pub enum Planned {
    /// There is no way; the buffer keeps its bytes.
    NoWay,
    /// A plan of so many requests, five bytes each, fills the buffer's front; the bytes behind keep their content.
    Plan(usize),
}

/// What [`show_into`] did with its buffer.
#[derive(Clone, Copy, Debug, PartialEq, Eq, Hash)]
#[must_use]
pub enum Shown {
    /// The view fills the first 20 bytes; the bytes behind keep their content.
    Done,
    /// The buffer is under 20 bytes, and keeps them.
    NoRoom,
}

/// One of the header's results.
#[derive(Clone, Copy)]
enum Reply {
    Done,
    NoWay,
    Plan(usize),
    Reaches,
    Stops(usize),
    EndsShort,
    NoRoom,
}

/// An answer of the library: bits 0-7 the result, 8-15 a refusal's number, 16-63 the value: a line, rule and term, or a
/// count. Nothing for a number that the header does not have.
fn reply(answer: u64) -> Option<Result<Reply, Refusal>> {
    let [result, number, ..] = answer.to_le_bytes();
    // 48 bits, and a usize of x86-64 has 64.
    let value = (answer >> 16) as usize;
    if result == 1 {
        return Refusal::of(number, value).map(Err);
    }
    Some(Ok(match (result, number, value) {
        (0, 0, 0) => Reply::Done,
        (2, 0, 0) => Reply::NoWay,
        (3, 0, count) => Reply::Plan(count),
        (4, 0, 0) => Reply::Reaches,
        (5, 0, k) => Reply::Stops(k),
        (6, 0, 0) => Reply::EndsShort,
        (7, 0, 0) => Reply::NoRoom,
        _ => return None,
    }))
}

/// Reads an answer as an operation's own: `own` takes the results that the header gives it.
#[track_caller]
fn read<T>(operation: &str, answer: u64, own: impl FnOnce(Reply) -> Option<T>) -> Result<T, Refusal> {
    match reply(answer) {
        Some(Err(refusal)) => Err(refusal),
        Some(Ok(reply)) => Ok(own(reply).unwrap_or_else(|| strange(operation, answer))),
        None => strange(operation, answer),
    }
}

#[cold]
#[track_caller]
fn strange(operation: &str, answer: u64) -> ! {
    panic!("{operation}: {answer:#018X} is no answer of bixorgun.h; is this its libbixorgun.a?")
}

/// Writes the ledger of the book's starting facts over `ledger`, whose bytes are not read.
///
/// ```
/// use bixorgun::{bytes, Refusal};
///
/// let mut short = [0xAA; 1_791];
/// assert_eq!(bytes::open(b"0101000102\n050100000000\n", &mut short), Err(Refusal::BadLedger));
/// assert_eq!(short, [0xAA; 1_791]);
/// ```
///
/// # Errors
///
/// 1-9, 16 or 17, then 11.
pub fn open(book: &[u8], ledger: &mut [u8]) -> Result<(), Refusal> {
    read("open", sys::open(book, ledger), |reply| matches!(reply, Reply::Done).then_some(()))
}

/// Carries out a request, five bytes, on a ledger.
///
/// ```
/// use bixorgun::{bytes, Refusal};
///
/// // Rule 1 adds value 0 to who directly holds value 1, and rule 2 adds value 1 to anybody.
/// let book = b"0101000102\n030100000001010001\n030100000100\n050100000000\n";
/// let mut ledger = [0; 1_792];
/// let mut ask = |request: &[u8]| bytes::request(book, &mut ledger, request);
/// assert_eq!(ask(&[1, 0, 0, 0, 0]), Err(Refusal::UnmetTerm { rule: 1, term: 1 }));
/// assert_eq!(ask(&[1, 0, 0, 0, 1]), Ok(()));
/// assert_eq!(ask(&[1, 0, 0, 0, 0]), Ok(()));
/// assert_eq!(ask(&[2, 0, 0, 0, 0]), Err(Refusal::NoRule));
/// assert_eq!(ask(&[7, 0, 0, 0, 0]), Err(Refusal::BadRequest));
/// ```
///
/// # Errors
///
/// 1-9, 16 or 17, then 11, 12, then 13 or 15.
pub fn request(book: &[u8], ledger: &mut [u8], request: &[u8]) -> Result<(), Refusal> {
    read("request", sys::request(book, ledger, request), |reply| matches!(reply, Reply::Done).then_some(()))
}

/// Shows what a person effectively holds and is effectively in.
///
/// ```
/// use bixorgun::{bytes, Attr, Person};
///
/// # fn main() -> Result<(), bixorgun::Refusal> {
/// let mut ledger = [0; 1_792];
/// ledger[1] = 0b10;
/// let view = bytes::show(b"0101000102\n050100000000\n", &ledger, Person(0))?;
/// assert_eq!(view.values(Attr(0)).bits(), 0b10);
/// # Ok(())
/// # }
/// ```
///
/// # Errors
///
/// 1-9, 16 or 17, then 11, 12.
pub fn show(book: &[u8], ledger: &[u8], person: Person) -> Result<View, Refusal> {
    let mut view = [0; VIEW_SIZE];
    let answer = sys::show(book, ledger, person.0, &mut view);
    read("show", answer, |reply| matches!(reply, Reply::Done).then(|| View::from_bytes(&view)))
}

/// Shows into a buffer: in its front the eight attributes' sets, two bytes each, and the set of crews, four bytes;
/// big-endian.
///
/// ```
/// use bixorgun::bytes::{self, Shown};
/// use bixorgun::Person;
///
/// # fn main() -> Result<(), bixorgun::Refusal> {
/// let (book, ledger) = (b"0101000102\n050100000000\n", [0; 1_792]);
/// assert_eq!(bytes::show_into(book, &ledger, Person(0), &mut [0; 20])?, Shown::Done);
/// assert_eq!(bytes::show_into(book, &ledger, Person(0), &mut [0; 19])?, Shown::NoRoom);
/// # Ok(())
/// # }
/// ```
///
/// # Errors
///
/// 1-9, 16 or 17, then 11, 12.
pub fn show_into(book: &[u8], ledger: &[u8], person: Person, view: &mut [u8]) -> Result<Shown, Refusal> {
    read("show", sys::show(book, ledger, person.0, view), |reply| match reply {
        Reply::Done => Some(Shown::Done),
        Reply::NoRoom => Some(Shown::NoRoom),
        _ => None,
    })
}

/// Judges a list of requests, five bytes each, from the book's starting facts.
///
/// ```
/// use bixorgun::{bytes, Judgement, Refusal};
///
/// let book = b"0101000102\n050100000000\n";
/// assert_eq!(bytes::replay(book, &[]), Ok(Judgement::Reaches));
/// assert_eq!(bytes::replay(book, &[0; 5]), Ok(Judgement::Stops(1)));
/// assert_eq!(bytes::replay(book, &[0; 7]), Err(Refusal::BadPlanLength));
/// ```
///
/// # Errors
///
/// 1-9, 16 or 17, then 14.
pub fn replay(book: &[u8], plan: &[u8]) -> Result<Judgement, Refusal> {
    read("replay", sys::replay(book, plan), |reply| match reply {
        Reply::Reaches => Some(Judgement::Reaches),
        Reply::Stops(k) => Some(Judgement::Stops(k)),
        Reply::EndsShort => Some(Judgement::EndsShort),
        _ => None,
    })
}

/// Plans the book's query into a buffer, which is long enough from [`plan_size`](crate::plan_size) bytes on.
///
/// ```
/// use bixorgun::bytes::{self, Planned};
/// use bixorgun::Refusal;
///
/// // Attribute 0 has one value, attribute 1 three: F = (1 + 0) × (1 + 3) + 0 = 4.
/// let book = b"010100020103\n050100FFFF00\n";
/// assert_eq!(bytes::plan_into(book, &mut [0; 39]), Err(Refusal::ShortPlanBuffer));
/// assert_eq!(bytes::plan_into(book, &mut [0; 40]), Ok(Planned::Plan(0)));
/// ```
///
/// # Errors
///
/// 1-9, 16 or 17, then 10.
pub fn plan_into(book: &[u8], out: &mut [u8]) -> Result<Planned, Refusal> {
    read("plan", sys::plan(book, out), |reply| match reply {
        Reply::NoWay => Some(Planned::NoWay),
        Reply::Plan(count) => Some(Planned::Plan(count)),
        _ => None,
    })
}

/// Fills the page of the whole depot: what each person can come to hold by the roles of the book's query.
///
/// Every byte of a table of 1,024 bytes is written: person p's attribute a is a two-byte set at 16·p + 2·a, big-endian.
/// [`Page::from`](crate::Page) reads it. Here alone a page can be refused by 10. A book with a "not" term has no page: 17.
///
/// ```
/// use bixorgun::{bytes, Refusal};
///
/// # fn main() -> Result<(), Refusal> {
/// // Role 0 adds value 1 to anybody; person 1 holds value 0.
/// let book = b"0102000102\n030100000100\n0401010000\n050100000100\n";
/// let mut table = [0xAA; 1_024];
/// bytes::page(book, &mut table)?;
/// assert_eq!((table[1], table[17]), (0b10, 0b11));
///
/// let mut short = [0xAA; 1_023];
/// assert_eq!(bytes::page(book, &mut short), Err(Refusal::ShortPlanBuffer));
/// assert_eq!(short, [0xAA; 1_023]);
/// # Ok(())
/// # }
/// ```
///
/// # Errors
///
/// 1-9, 16 or 17, then 10 for a table of any other length.
pub fn page(book: &[u8], table: &mut [u8]) -> Result<(), Refusal> {
    read("page", sys::page(book, table), |reply| matches!(reply, Reply::Done).then_some(()))
}

#[cfg(test)]
mod tests {
    use super::*;

    /// An answer REFUSED with a number and a value.
    fn refused(number: u8, value: u64) -> u64 {
        1 | u64::from(number) << 8 | value << 16
    }

    /// Whether the value of a refusal is a line, counted from 1.
    fn has_line(number: u8) -> bool {
        matches!(number, 2..=9 | 16 | 17)
    }

    #[test]
    fn every_answer_of_the_header_is_read() {
        for number in (1..=14).chain([16, 17]) {
            let lines: &[u64] = if has_line(number) { &[1, 2, 0x1_0007] } else { &[0] };
            for &line in lines {
                let answer = refused(number, line);
                let Some(Err(refusal)) = reply(answer) else { panic!("{answer:#X}") };
                assert_eq!(refusal.number(), number);
                assert_eq!(refusal.line(), (number == 1 || has_line(number)).then_some(line as usize));
            }
        }
        assert!(matches!(reply(3 | 8_512 << 16), Some(Ok(Reply::Plan(8_512)))));
        assert!(matches!(reply(5 | ((1 << 48) - 1) << 16), Some(Ok(Reply::Stops(k))) if k == (1 << 48) - 1));
    }

    #[test]
    fn rule_and_term_are_read() {
        for rule in 1..=512 {
            for term in 1..=8 {
                let answer = refused(15, 256 * u64::from(rule) + u64::from(term));
                let Some(Err(refusal)) = reply(answer) else { panic!("{answer:#X}") };
                assert_eq!(refusal, Refusal::UnmetTerm { rule, term });
                assert_eq!((refusal.number(), refusal.line()), (15, None));
            }
        }
    }

    #[test]
    fn other_numbers_are_no_answers() {
        let others = [refused(18, 0), refused(18, 1), refused(255, 0), 1 << 8, 15 << 8 | 257 << 16, 17 << 8 | 1 << 16];
        for answer in [1, 8, 255, 1 << 16, 2 | 1 << 63].into_iter().chain(others) {
            assert!(reply(answer).is_none(), "{answer:#X}");
        }
    }

    #[test]
    fn a_refusal_has_no_value_but_its_own() {
        for number in (1..=14).chain([16, 17]) {
            // A book that is refused by 2 to 9, 16 or 17 has a line, and no other refusal has a value.
            let others: &[u64] = if has_line(number) { &[0] } else { &[1, 257, 1 << 47] };
            for &value in others {
                assert!(reply(refused(number, value)).is_none(), "{number}, {value}");
            }
        }
        // No rule and no term, either alone, a rule or term beyond the last, and one whose low 16 bits are a rule's.
        for value in
            [0, 1, 8, 256, 512, 256 + 9, 256 + 255, 512 * 256, 513 * 256 + 1, 513 * 256 + 8, 0x1_0001 * 256 + 1]
        {
            assert!(reply(refused(15, value)).is_none(), "15, {value}");
        }
    }

    #[test]
    #[should_panic(expected = "plan: 0x0000000000000004 is no answer of bixorgun.h")]
    fn another_operations_answer() {
        let _ = read("plan", 4, |reply| matches!(reply, Reply::NoWay).then_some(()));
    }
}
