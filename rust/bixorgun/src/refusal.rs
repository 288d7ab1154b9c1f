use std::error::Error;
use std::fmt;

/// What turns an operation back: the fourteen rows of the specification's table, and 15 to 17.
///
/// Refusals 1 to 9, 16 and 17 are those of a book and come first, in every operation. On a refusal "every lent buffer
/// keeps its bytes".
///
/// A request that is not permitted gets 13 or 15. With 13 no rule is there for it, whatever the ledger says: ask who
/// writes the rules. With 15 one is there, and what it asks for is still missing, a grade perhaps.
///
/// ```
/// use bixorgun::{Book, Refusal};
///
/// let refusal = Book::new("").plan().unwrap_err();
/// assert_eq!(refusal, Refusal::BadFrame { line: 1 });
/// assert_eq!((refusal.number(), refusal.line()), (3, Some(1)));
/// assert!(refusal.to_string().starts_with("refusal 3 on line 1: first frame not 01, "));
///
/// let refusal = Refusal::UnmetTerm { rule: 3, term: 2 };
/// assert_eq!((refusal.number(), refusal.line()), (15, None));
/// assert_eq!(refusal.to_string(), "refusal 15: rule 3 of the book matches the request, but its term 2 does not hold");
///
/// // Value 0 may be added to who does not directly hold value 1: a book with such a term is asked by mode 03.
/// let book = Book::new("0101000102\n030100000001810001\n050100000101000001\n");
/// assert_eq!(book.plan(), Err(Refusal::WrongMode { line: 3 }));
/// ```
#[derive(Clone, Copy, Debug, PartialEq, Eq, PartialOrd, Ord, Hash)]
#[non_exhaustive]
pub enum Refusal {
    /// 1: "over 65,536 characters"; its line is 0.
    BookTooLong,
    /// 2: "empty line, odd digits, another character, last line unended"
    BadLine {
        /// Counted from 1.
        line: usize,
    },
    /// 3: "first frame not 01, a later 01, kind not 01-05, a frame after 05, book ends without 05 (line after the last)"
    BadFrame {
        /// Counted from 1.
        line: usize,
    },
    /// 4: "any length but the one that the kind, with its n or q, gives"; and frame 01 is judged "by its A"
    BadLength {
        /// Counted from 1.
        line: usize,
    },
    /// 5: "a field outside its range, n over 8, q over 8, a set bit outside the sizes"; values and sets "are bounded by
    /// their own attribute's count"
    BadField {
        /// Counted from 1.
        line: usize,
    },
    /// 6: "j not smaller than s"
    BadEdge {
        /// Counted from 1.
        line: usize,
    },
    /// 7: "term 03, 04 or 83 in ops 01-04", or 83 there
    BadTerm {
        /// Counted from 1.
        line: usize,
    },
    /// 8: "the 513th rule"
    TooManyRules {
        /// Counted from 1.
        line: usize,
    },
    /// 9: "query attributes not rising"
    NotRising {
        /// Counted from 1.
        line: usize,
    },
    /// 10: "plan buffer under 10 × F"; and of a page "a table of another length" than 1,024 bytes
    ShortPlanBuffer,
    /// 11: "ledger not 1,792 bytes or a bit outside the sizes", of an attribute's set outside its own count
    BadLedger,
    /// 12: "request not five bytes or field out of range; no such person to show"
    BadRequest,
    /// 13: no rule has the request's op, role, a and v.
    NoRule,
    /// 14: "plan length no multiple of five"
    BadPlanLength,
    /// 15: "rules match and each has a term that does not hold", in the ledger as it stands before the request. Of the
    /// rules that have the request's op, role, a and v it tells the first, and of that the first such term.
    UnmetTerm {
        /// The rule's place among all the book's rules, counted from 1: 1 to 512. All `03` frames count, in the book's
        /// order, repeats too; other lines do not.
        rule: u16,
        /// The term's place in that rule, counted from 1: 1 to 8.
        term: u8,
    },
    /// 16: a book with a "not" term, kind 81 or 83, "has only ops 01, 03 and 05, at most one rule for each op, a and v,
    /// and only terms 01, 03, 81, 83", and this one goes beyond. Rules of all roles count, and one given twice as two.
    BeyondNot {
        /// That of the query, counted from 1.
        line: usize,
    },
    /// 17: "mode 03 without a "not" term or another mode with one"; and the page refuses "every book with a "not" term".
    WrongMode {
        /// That of the query, counted from 1.
        line: usize,
    },
}

impl Refusal {
    /// The refusal of a number and a value as the library gives them: a line, 256 × rule + term, or 0. Nothing for a
    /// value that the number cannot have.
    pub(crate) fn of(number: u8, value: usize) -> Option<Self> {
        Some(match (number, value) {
            (1, 0) => Refusal::BookTooLong,
            (2, line @ 1..) => Refusal::BadLine { line },
            (3, line @ 1..) => Refusal::BadFrame { line },
            (4, line @ 1..) => Refusal::BadLength { line },
            (5, line @ 1..) => Refusal::BadField { line },
            (6, line @ 1..) => Refusal::BadEdge { line },
            (7, line @ 1..) => Refusal::BadTerm { line },
            (8, line @ 1..) => Refusal::TooManyRules { line },
            (9, line @ 1..) => Refusal::NotRising { line },
            (10, 0) => Refusal::ShortPlanBuffer,
            (11, 0) => Refusal::BadLedger,
            (12, 0) => Refusal::BadRequest,
            (13, 0) => Refusal::NoRule,
            (14, 0) => Refusal::BadPlanLength,
            (15, both) => Refusal::UnmetTerm {
                rule: u16::try_from(both / 256).ok().filter(|rule| (1..=512).contains(rule))?,
                term: u8::try_from(both % 256).ok().filter(|term| (1..=8).contains(term))?,
            },
            (16, line @ 1..) => Refusal::BeyondNot { line },
            (17, line @ 1..) => Refusal::WrongMode { line },
            _ => return None,
        })
    }

    /// The refusal's number, 1 to 17.
    #[must_use]
    pub const fn number(&self) -> u8 {
        match self {
            Refusal::BookTooLong => 1,
            Refusal::BadLine { .. } => 2,
            Refusal::BadFrame { .. } => 3,
            Refusal::BadLength { .. } => 4,
            Refusal::BadField { .. } => 5,
            Refusal::BadEdge { .. } => 6,
            Refusal::BadTerm { .. } => 7,
            Refusal::TooManyRules { .. } => 8,
            Refusal::NotRising { .. } => 9,
            Refusal::ShortPlanBuffer => 10,
            Refusal::BadLedger => 11,
            Refusal::BadRequest => 12,
            Refusal::NoRule => 13,
            Refusal::BadPlanLength => 14,
            Refusal::UnmetTerm { .. } => 15,
            Refusal::BeyondNot { .. } => 16,
            Refusal::WrongMode { .. } => 17,
        }
    }

    /// The line of refusals 1 to 9, 16 and 17: counted from 1, and 0 for refusal 1; nothing for 10 to 15.
    #[must_use]
    pub const fn line(&self) -> Option<usize> {
        match *self {
            Refusal::BookTooLong => Some(0),
            Refusal::BadLine { line }
            | Refusal::BadFrame { line }
            | Refusal::BadLength { line }
            | Refusal::BadField { line }
            | Refusal::BadEdge { line }
            | Refusal::BadTerm { line }
            | Refusal::TooManyRules { line }
            | Refusal::NotRising { line }
            | Refusal::BeyondNot { line }
            | Refusal::WrongMode { line } => Some(line),
            _ => None,
        }
    }

    /// Says when the refusal falls, in the table's words, of 4 with the A of frame 01, of 7 with term 83, of 10 with the
    /// page's table; of 13 and 15 in a lead's.
    fn say_when(&self, f: &mut fmt::Formatter<'_>) -> fmt::Result {
        f.write_str(match self {
            Refusal::BookTooLong => "over 65,536 characters",
            Refusal::BadLine { .. } => "empty line, odd digits, another character, last line unended",
            Refusal::BadFrame { .. } => {
                "first frame not 01, a later 01, kind not 01-05, a frame after 05, book ends without 05 (line after the \
                 last)"
            }
            Refusal::BadLength { .. } => "any length but the one that the kind, with its A, n or q, gives",
            Refusal::BadField { .. } => "a field outside its range, n over 8, q over 8, a set bit outside the sizes",
            Refusal::BadEdge { .. } => "j not smaller than s",
            Refusal::BadTerm { .. } => "term 03, 04 or 83 in ops 01-04",
            Refusal::TooManyRules { .. } => "the 513th rule",
            Refusal::NotRising { .. } => "query attributes not rising",
            Refusal::ShortPlanBuffer => "plan buffer under 10 × F; page table not 1,024 bytes",
            Refusal::BadLedger => "ledger not 1,792 bytes or a bit outside the sizes",
            Refusal::BadRequest => "request not five bytes or field out of range; no such person to show",
            Refusal::NoRule => "no rule of the book matches the request's op, role, a and v",
            Refusal::BadPlanLength => "plan length no multiple of five",
            Refusal::UnmetTerm { rule, term } => {
                return write!(f, "rule {rule} of the book matches the request, but its term {term} does not hold")
            }
            Refusal::BeyondNot { .. } => {
                "a \"not\" term, 81 or 83, in a book with an op but 01, 03 and 05, two rules for an op, a and v, or a \
                 term but 01, 03, 81 and 83"
            }
            Refusal::WrongMode { .. } => {
                "mode 03 without a \"not\" term, 81 or 83, or another mode with one; page of a book with one"
            }
        })
    }
}

impl fmt::Display for Refusal {
    fn fmt(&self, f: &mut fmt::Formatter<'_>) -> fmt::Result {
        write!(f, "refusal {}", self.number())?;
        if let Some(line @ 1..) = self.line() {
            write!(f, " on line {line}")?;
        }
        f.write_str(": ")?;
        self.say_when(f)
    }
}

impl Error for Refusal {}
