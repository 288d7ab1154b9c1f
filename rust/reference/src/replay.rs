//! Replay: the judge of any list of requests.
//!
//! "**replay** judges any list of requests from the starting facts: reaches, stops at request k (counted from 1: first
//! ill-formed, outside the query's roles, or not permitted), or ends short of the query."

use crate::book::{self, Book};
use crate::ledger::{Depot, Ledger, Request, REQUEST_BYTES};
use crate::refusals::numbered;

/// What replay says of a list.
#[derive(Clone, Copy, Debug, PartialEq, Eq)]
pub enum Verdict {
    /// The last ledger meets the query.
    Reaches,
    /// The first request, counted from 1, that ends the chain.
    StopsAt(usize),
    /// Every request is carried out and the last ledger does not meet the query.
    EndsShort,
}

/// What turns replay back.
#[derive(Clone, Copy, Debug, PartialEq, Eq)]
pub enum Refusal {
    /// 1 to 9, 16 and 17.
    Book(book::Refusal),
    /// 14: "plan length no multiple of five"
    Length,
}

numbered!(Length = 14);

/// Judges a list of requests from the starting facts.
///
/// # Errors
///
/// 1-9, 16 and 17, then 14.
pub fn replay(characters: &[u8], plan: &[u8]) -> Result<Verdict, Refusal> {
    let book = book::read(characters)?;
    if !plan.len().is_multiple_of(REQUEST_BYTES) {
        return Err(Refusal::Length);
    }
    Ok(judge(&book, plan, |_, _| ()))
}

/// Judges a list whose length is a multiple of five, and shows each request with the ledger it acts on.
pub fn judge(book: &Book, plan: &[u8], mut each: impl FnMut(&Ledger, &Request)) -> Verdict {
    let depot = Depot::new(book);
    let mut ledger = Ledger::start(book);
    for (k, bytes) in (1..).zip(plan.chunks(REQUEST_BYTES)) {
        let request = Request::from_bytes(&book.sizes, bytes)
            .filter(|request| book.query.has_role(request.role) && depot.permits(&ledger, request));
        let Some(request) = request else {
            return Verdict::StopsAt(k);
        };
        each(&ledger, &request);
        request.carry_out(&mut ledger);
    }
    if depot.met(&ledger) {
        Verdict::Reaches
    } else {
        Verdict::EndsShort
    }
}

#[cfg(test)]
mod tests {
    use super::*;
    use crate::ledger;

    const D1: &str = "0101010102\n030100000100\n030501000001010001\n0402000000\n050100000301000001\n";
    const ADD: [u8; 5] = [1, 0, 0, 0, 1];
    const ASSIGN: [u8; 5] = [5, 1, 0, 0, 0];

    fn verdict(book: &str, plan: &[[u8; 5]]) -> Verdict {
        replay(book.as_bytes(), &plan.concat()).expect("judged")
    }

    #[test]
    fn d1() {
        assert_eq!(verdict(D1, &[ADD, ASSIGN]), Verdict::Reaches);
        assert_eq!(verdict(D1, &[ADD]), Verdict::EndsShort);
        assert_eq!(verdict(D1, &[]), Verdict::EndsShort);
        assert_eq!(verdict(D1, &[ASSIGN, ADD]), Verdict::StopsAt(1));
        assert_eq!(verdict(D1, &[ADD, ADD, [9; 5], ASSIGN]), Verdict::StopsAt(3));
    }

    #[test]
    fn d2_roles_outside_the_query() {
        let d2 = D1.replace("05010000030", "05010000010");
        assert_eq!(verdict(&d2, &[ADD, ASSIGN]), Verdict::StopsAt(2));
    }

    #[test]
    fn d5_the_order_of_deletions() {
        let d5 = "0101000102\n0401000000\n0401000001\n030200000001010001\n030200000100\n0502\
                  00FFFF0100000000000000\n";
        let (zero, one) = ([2, 0, 0, 0, 0], [2, 0, 0, 0, 1]);
        assert_eq!(verdict(d5, &[zero, one]), Verdict::Reaches);
        assert_eq!(verdict(d5, &[one, zero]), Verdict::StopsAt(2));
    }

    #[test]
    fn d9_a_deletion_may_rest_on_its_own_fact() {
        let d9 = "0101000102\n0401000000\n030200000001010000\n050200FFFF0100000000000000\n";
        let zero = [2, 0, 0, 0, 0];
        assert_eq!(verdict(d9, &[zero]), Verdict::Reaches);
        assert_eq!(verdict(d9, &[zero, zero]), Verdict::StopsAt(2));
    }

    /// Grade 1 or any higher lets role 1 assign; crew 0 holds grade 0.
    #[test]
    fn a_ladder_in_a_list() {
        let rules = "030100000200\n030100000000\n030501000001050001\n030600000001050001\n030200000201050002\n";
        let text = format!("0101010103\n{rules}0402000000\n050100000301000001\n");
        let (low, high) = ([1, 0, 0, 0, 0], [1, 0, 0, 0, 2]);
        let (leave, drop) = ([6, 0, 0, 0, 0], [2, 0, 0, 0, 2]);
        assert_eq!(verdict(&text, &[ASSIGN]), Verdict::StopsAt(1));
        assert_eq!(verdict(&text, &[low, ASSIGN]), Verdict::StopsAt(2));
        assert_eq!(verdict(&text, &[high, ASSIGN]), Verdict::Reaches);
        assert_eq!(verdict(&text, &[high, ASSIGN, drop]), Verdict::Reaches);
        assert_eq!(verdict(&text, &[high, ASSIGN, drop, drop]), Verdict::StopsAt(4));
        assert_eq!(verdict(&text, &[high, ASSIGN, drop, leave]), Verdict::StopsAt(4));
        assert_eq!(verdict(&text, &[high, ASSIGN, leave]), Verdict::EndsShort);
    }

    /// "Replay still gives only k.": whether no rule matches or each that does has an unmet term.
    #[test]
    fn the_stop_is_all_that_is_told() {
        // Rules 1 and 2 add values 0 and 1; 3 and 4 assign where both are held, and where 2 is.
        let rules = "030100000000\n030100000100\n030501000002010000010001\n030501000001050002\n";
        let text = format!("0101010103\n{rules}050100000300\n");
        let (zero, one, none) = ([1, 0, 0, 0, 0], [1, 0, 0, 0, 1], [2, 0, 0, 0, 0]);
        let no_rule = ledger::Refusal::NoRule;
        let unmet = |term| ledger::Refusal::UnmetTerm { rule: 3, term };
        for (before, last, refusal) in [
            (&[][..], ASSIGN, unmet(1)),
            (&[one], ASSIGN, unmet(1)),
            (&[zero], ASSIGN, unmet(2)),
            (&[zero, zero], ASSIGN, unmet(2)),
            (&[], none, no_rule),
            (&[zero, one], none, no_rule),
        ] {
            let mut bytes = [0; ledger::LEDGER_BYTES];
            for request in before {
                assert_eq!(ledger::request(text.as_bytes(), &mut bytes, request), Ok(()));
            }
            assert_eq!(ledger::request(text.as_bytes(), &mut bytes, &last), Err(refusal));
            let list = [before, &[last]].concat();
            assert_eq!(verdict(&text, &list), Verdict::StopsAt(list.len()));
            assert_eq!(verdict(&text, &[&list[..], &list].concat()), Verdict::StopsAt(list.len()));
        }
        assert_eq!(verdict(&text, &[zero, one, ASSIGN]), Verdict::Reaches);
    }

    #[test]
    fn the_tables_example() {
        assert_eq!(replay(D1.as_bytes(), &[0; 7]), Err(Refusal::Length));
        let refusal = replay(b"", &[0; 7]).expect_err("refused");
        assert_eq!(refusal.number(), 3);
        assert_eq!(Refusal::Length.number(), 14);
    }
}
