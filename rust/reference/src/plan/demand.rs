//! What holds of every plan, tried on one plan by replay.

use std::collections::BTreeSet;
use std::fmt;

use crate::book::{Book, Way};
use crate::ledger::Request;
use crate::replay::{self, Verdict};

/// Why a list of requests is no plan.
#[derive(Clone, Copy, Debug, PartialEq, Eq)]
pub enum Flaw {
    /// Replay does not answer "reaches".
    Replay(Verdict),
    /// Request k, counted from 1, does not change the ledger.
    Idle(usize),
    /// Request k adds or deletes its fact a second time.
    Twice(usize),
    /// There are more than 2 × F requests.
    TooLong,
}

impl fmt::Display for Flaw {
    fn fmt(&self, f: &mut fmt::Formatter<'_>) -> fmt::Result {
        match self {
            Flaw::Replay(verdict) => write!(f, "replay: {verdict:?}"),
            Flaw::Idle(k) => write!(f, "request {k} changes nothing"),
            Flaw::Twice(k) => write!(f, "request {k} adds or deletes its fact a second time"),
            Flaw::TooLong => write!(f, "more than 2 × F requests"),
        }
    }
}

impl std::error::Error for Flaw {}

/// "Carried out in order from those facts, every request of the plan is made by one of those roles, is permitted when
/// its turn comes, and changes the ledger. The last ledger meets the query. Over the whole plan no fact is added more
/// than once, nor deleted more than once. Replay answers "reaches" to it."
///
/// # Errors
///
/// The first flaw that is found.
pub fn check(book: &Book, plan: &[Request]) -> Result<(), Flaw> {
    let bytes: Vec<u8> = plan.iter().flat_map(Request::to_bytes).collect();
    let mut seen = BTreeSet::new();
    let mut flaw = None;
    let mut k = 0;
    let verdict = replay::judge(book, &bytes, |ledger, request| {
        k += 1;
        if ledger.has(request.fact) == (request.way == Way::Add) {
            flaw = flaw.or(Some(Flaw::Idle(k)));
        }
        if !seen.insert((request.way, request.fact)) {
            flaw = flaw.or(Some(Flaw::Twice(k)));
        }
    });
    if verdict != Verdict::Reaches {
        flaw = Some(Flaw::Replay(verdict));
    }
    if plan.len() > 2 * book.sizes.facts() {
        flaw = Some(Flaw::TooLong);
    }
    flaw.map_or(Ok(()), Err)
}

#[cfg(test)]
mod tests {
    use super::*;
    use crate::book;

    #[test]
    fn flaws_are_found() {
        // One value that may be added and deleted at will, and is wanted.
        let text = b"0101000101\n030100000000\n030200000000\n050100000101000001\n";
        let book = book::read(text).expect("accepted");
        let request = |op: u8| Request::from_bytes(&book.sizes, &[op, 0, 0, 0, 0]).expect("in range");
        let (add, delete) = (request(1), request(2));
        assert_eq!(check(&book, &[add]), Ok(()));
        assert_eq!(check(&book, &[]), Err(Flaw::Replay(Verdict::EndsShort)));
        assert_eq!(check(&book, &[delete, add]), Err(Flaw::Idle(1)));
        assert_eq!(check(&book, &[add, delete, add]), Err(Flaw::TooLong));
        let role = crate::book::Role(1);
        assert_eq!(check(&book, &[Request { role, ..add }]), Err(Flaw::Replay(Verdict::StopsAt(1))));
        let text = b"0101000102\n030100000000\n030200000000\n050100000101000001\n";
        let book = book::read(text).expect("accepted");
        assert_eq!(check(&book, &[add, delete, add]), Err(Flaw::Twice(3)));
    }
}
