//! The planner: no way, or a plan.
//!
//! Two methods: [`search`] tries every ledger of a small depot by the ledger's definitions, [`closure`] serves every size
//! with sets of its own. They share the book, with the crews below each crew, and nothing of the ledger but how the
//! numbers of a set are counted off. [`plan`] uses the second, which hands books with "not" terms on to [`growing`].

use std::fmt::Write as _;

use crate::book;
use crate::ledger::REQUEST_BYTES;
use crate::refusals::numbered;

pub mod closure;
pub mod compare;
pub mod demand;
pub mod growing;
pub mod search;

/// "It returns no way, and the buffer keeps its bytes, or a plan's count of requests."
#[derive(Clone, Copy, Debug, PartialEq, Eq)]
pub enum Answer {
    /// No chain leads to a ledger that meets the query.
    NoWay,
    /// A plan of so many requests fills the buffer's front.
    Plan(usize),
}

/// What turns the planner back.
#[derive(Clone, Copy, Debug, PartialEq, Eq)]
pub enum Refusal {
    /// 1 to 9, 16 and 17.
    Book(book::Refusal),
    /// 10: "plan buffer under 10 × F"
    Buffer,
}

numbered!(Buffer = 10);

/// "A plan fills its front, five bytes a request, at most 2 × F requests; bytes behind it keep their content."
///
/// # Errors
///
/// 1-9, 16 and 17, then 10; the buffer then keeps its bytes.
pub fn plan(characters: &[u8], buffer: &mut [u8]) -> Result<Answer, Refusal> {
    let book = book::read(characters)?;
    if buffer.len() < 2 * REQUEST_BYTES * book.sizes.facts() {
        return Err(Refusal::Buffer);
    }
    let Some(requests) = closure::plan(&book) else {
        return Ok(Answer::NoWay);
    };
    for (to, request) in buffer.chunks_exact_mut(REQUEST_BYTES).zip(&requests) {
        to.copy_from_slice(&request.to_bytes());
    }
    Ok(Answer::Plan(requests.len()))
}

/// "A program reads a book on standard input and prints, in the book's hexadecimal and line ends, `80` (no way), `81` and
/// a two-byte count with the plan below it, one request a line, or on one line `8F`, refusal number (one byte) and line
/// (two bytes)".
#[must_use]
pub fn printed(characters: &[u8]) -> String {
    let book = match book::read(characters) {
        Ok(book) => book,
        Err(refusal) => return format!("8F{:02X}{:04X}\n", refusal.number(), refusal.line),
    };
    let Some(requests) = closure::plan(&book) else {
        return "80\n".to_owned();
    };
    let mut text = format!("81{:04X}\n", requests.len());
    for request in &requests {
        for byte in request.to_bytes() {
            // Writing to a string does not fail.
            let _ = write!(text, "{byte:02X}");
        }
        text.push('\n');
    }
    text
}

#[cfg(test)]
mod tests {
    use super::*;
    use crate::replay::{replay, Verdict};

    const D1: &str = "0101010102\n030100000100\n030501000001010001\n0402000000\n050100000301000001\n";
    const HOLDS_BOTH: &str = "0401000000\n0401000001\n";
    const EACH_NEEDS_THE_OTHER: &str = "030200000001010001\n030200000101010000\n";

    /// A book without crews, one person, one attribute, two values.
    fn bare(frames: &str, query: &str) -> String {
        format!("0101000102\n{frames}{query}\n")
    }

    /// "exactly": mode 02, all roles, the one attribute, no crews.
    fn exactly(set: u16) -> String {
        format!("050200FFFF0100{set:04X}00000000")
    }

    /// Both methods on a book: the count of a plan of each, the shortest first.
    fn counts(characters: &str) -> Option<(usize, usize)> {
        let book = book::read(characters.as_bytes()).expect("accepted");
        let shortest = search::shortest(&book).expect("small").map(|plan| plan.len());
        let mut buffer = vec![0xEE; 10 * book.sizes.facts() + 3];
        let count = match plan(characters.as_bytes(), &mut buffer).expect("planned") {
            Answer::NoWay => None,
            Answer::Plan(count) => Some(count),
        };
        let (front, rest) = buffer.split_at(5 * count.unwrap_or(0));
        assert!(rest.iter().all(|&byte| byte == 0xEE));
        if count.is_some() {
            assert_eq!(replay(characters.as_bytes(), front), Ok(Verdict::Reaches));
        }
        assert_eq!(shortest.is_some(), count.is_some());
        shortest.zip(count)
    }

    #[test]
    fn d1_to_d9() {
        assert_eq!(counts(D1), Some((2, 2)));
        assert_eq!(counts(&D1.replace("05010000030", "05010000010")), None, "D2");
        let d3 = format!("{HOLDS_BOTH}{EACH_NEEDS_THE_OTHER}");
        assert_eq!(counts(&bare(&d3, &exactly(0))), None, "D3");
        assert_eq!(counts(&bare(&d3, &exactly(2))), Some((1, 1)), "D4");
        let d5 = format!("{HOLDS_BOTH}030200000001010001\n030200000100\n");
        assert_eq!(counts(&bare(&d5, &exactly(0))), Some((2, 2)), "D5");
        assert_eq!(counts(&bare("030100000000\n030100000100\n", &exactly(1))), Some((1, 1)), "D6");
        assert_eq!(counts(&bare("", "050100FFFF00")), Some((0, 0)), "D7");
        assert_eq!(counts(&bare("030100000001010000\n", "050100FFFF01000001")), None, "D8");
        assert_eq!(counts(&bare("0401000000\n030200000001010000\n", &exactly(0))), Some((1, 1)), "D9");
    }

    #[test]
    fn d10_to_d12() {
        let two = |frames: &str, query: &str| format!("0101020102\n020100\n{frames}{query}\n");
        let wanted = "050100FFFF01000001";
        assert_eq!(counts(&two("0403000100\n0402000000\n", wanted)), Some((0, 0)), "D10, senior");
        assert_eq!(counts(&two("0403000000\n0402010000\n", wanted)), None, "D10, junior");
        let no_crew = "050200FFFF0000000000";
        assert_eq!(counts(&two("0403000100\n030600000000\n", no_crew)), None, "D11");
        let in_crew_0 = "050200FFFF0100000000000001";
        let d12 = "0401000000\n0402000000\n0403000000\n030200000000\n";
        assert_eq!(counts(&two(d12, in_crew_0)), None, "D12");
    }

    /// A book of one person, two crews with crew 1 the senior, attributes 0 and 1, values 0, 1 and 2.
    fn graded(frames: &str, query: &str) -> String {
        format!("010102020303\n020100\n{frames}{query}\n")
    }

    /// Grades are the values of attribute 0. Value 0 of attribute 1 is wanted, which needs grade 1 or any higher.
    #[test]
    fn ladders_that_add() {
        let wanted = "050100FFFF01010001";
        let lane = "030100010001050001\n";
        let count = |frames: &str| counts(&graded(&format!("{lane}{frames}"), wanted));
        assert_eq!(count(""), None, "no grade");
        assert_eq!(count("0401000000\n"), None, "a lower grade");
        assert_eq!(count("0401000001\n"), Some((1, 1)), "that grade");
        assert_eq!(count("0401000002\n"), Some((1, 1)), "a higher grade");
        assert_eq!(count("0402000002\n0403000000\n"), Some((1, 1)), "by a crew");
        assert_eq!(count("0402000002\n0403000100\n"), Some((1, 1)), "by a junior of the crew");
        assert_eq!(count("0402010002\n0403000000\n"), None, "by a senior of the crew");
        assert_eq!(count("030100000200\n"), Some((2, 2)), "the highest grade added first");
        assert_eq!(count("030100000000\n"), None, "the lowest alone can be added");
        assert_eq!(count("0402000002\n030500010000\n"), Some((2, 2)), "assigned first");
        assert_eq!(count("030300000200\n030500010000\n").map(|(shortest, _)| shortest), Some(3), "a crew's first");
        // Joining crew 1 needs the grade that its junior holds.
        assert_eq!(count("0402000002\n030500010001050001\n"), None, "assigned by what the crew would bring");
        // A crew's own ladder: crew 1 may be given grade 1 through the grade 2 of its junior, and so the person.
        let text = graded("030300000101050002\n0402000002\n0403000100\n", "050100FFFF01000002");
        assert_eq!(counts(&text).map(|(shortest, _)| shortest), Some(1), "by a junior's grade");
        assert_eq!(counts(&text.replace("0402000002", "0402000000")), None, "by a lower one");
        // 02 in its place asks for that grade alone.
        let lane = lane.replace("050001", "020001");
        assert_eq!(counts(&graded(&format!("{lane}0401000002\n"), wanted)), None, "kind 02");
        assert_eq!(counts(&graded(&format!("{lane}0401000001\n"), wanted)), Some((1, 1)), "kind 02");
    }

    /// "exactly": no grade and no crew is left.
    #[test]
    fn ladders_that_delete() {
        let none = "050200FFFF0100000000000000";
        let count = |frames: &str| counts(&graded(frames, none));
        // To delete grade w needs grade v or any higher, and w alone is held: its own fact serves from v on.
        for v in 0..3 {
            for w in 0..3 {
                let frames = format!("04010000{w:02X}\n03020000{w:02X}010500{v:02X}\n");
                assert_eq!(count(&frames), (w >= v).then_some((1, 1)), "{v} {w}");
                let frames = format!("0403000000\n04020000{w:02X}\n030600000001 0500{v:02X}\n").replace(' ', "");
                assert_eq!(count(&frames), (w >= v).then_some((1, 1)), "removed, {v} {w}");
            }
        }
        // As D5: 0 goes while 2 is there.
        let both = "0401000000\n0401000002\n";
        assert_eq!(count(&format!("{both}030200000001050001\n030200000200\n")), Some((2, 2)));
        // As D3: 2 goes while 0 is there, and 0 while 1 or higher is. With 0 or higher, 0 goes by itself.
        assert_eq!(count(&format!("{both}030200000001050001\n030200000201020000\n")), None);
        assert_eq!(count(&format!("{both}030200000001050000\n030200000201020000\n")), Some((2, 2)));
        // In both crews, one of which holds grade 2: whichever is left last is left by its own grade.
        let frames = "0402000002\n0403000000\n0403000100\n030600000001050001\n030600010001050002\n";
        assert_eq!(count(frames), Some((2, 2)), "crew 0 holds it, and crew 1 by its junior");
        assert_eq!(count(&frames.replace("0402000002", "0402010002")), Some((2, 2)), "crew 1 alone holds it");
        assert_eq!(count(&frames.replace("0402000002", "0402010001")), None, "leaving crew 1 needs grade 2");
    }

    /// A grade is had for a while: it gives a value that stays, and goes by its own fact.
    #[test]
    fn a_ladder_on_a_detour() {
        let rules = "030100000200\n030100010001050001\n";
        let exact = "050200FFFF0200000001000100000000";
        assert_eq!(counts(&graded(rules, exact)), None);
        assert_eq!(counts(&graded(&format!("{rules}030200000201050001\n"), exact)), Some((3, 3)));
        assert_eq!(counts(&graded(&format!("{rules}030200000201050100\n"), exact)), Some((3, 3)));
        assert_eq!(counts(&graded(&format!("{rules}030200000201050101\n"), exact)), None);
    }

    /// Without crews the term is legal as well, in rules about crews too.
    #[test]
    fn a_ladder_without_crews() {
        let rules = "030100000001050001\n030300000001050001\n030400000001050001\n";
        let text = format!("0101000103\n{rules}0401000002\n050100FFFF01000001\n");
        assert_eq!(counts(&text), Some((1, 1)));
        assert_eq!(counts(&text.replace("0401000002\n", "")), None);
    }

    /// One person, two values, role 0, mode 03: which values are wanted, and the rules as "v if ...".
    #[test]
    fn books_that_only_grow() {
        let wanted = |set: u16| format!("05030000010100{set:04X}00000000");
        let zero_if_not_1 = "030100000001810001\n";
        let one = "030100000100\n";
        let one_if_not_0 = "030100000101810000\n";
        let grown = |frames: &[&str], set: u16| counts(&bare(&frames.concat(), &wanted(set)));
        assert_eq!(grown(&[zero_if_not_1, one], 3), Some((2, 2)));
        assert_eq!(grown(&[one, zero_if_not_1], 3), Some((2, 2)));
        assert_eq!(grown(&[zero_if_not_1, one_if_not_0], 3), None, "each bars the other");
        assert_eq!(grown(&[zero_if_not_1, one_if_not_0], 1), Some((1, 1)));
        assert_eq!(grown(&[zero_if_not_1, one_if_not_0], 2), Some((1, 1)));
        assert_eq!(grown(&[one_if_not_0, "0401000000\n"], 3), None, "what it bars is there at the start");
        assert_eq!(grown(&[zero_if_not_1, one, "0401000001\n"], 2), Some((0, 0)));
        assert_eq!(grown(&["030100000001810000\n"], 1), Some((1, 1)), "it bars its own fact");
        assert_eq!(grown(&["030100000001810000\n", "0401000000\n"], 1), Some((0, 0)));
        assert_eq!(grown(&["030100000002010001810001\n", one], 1), None, "it asks for what it bars");
        assert_eq!(grown(&["030100000002010001810001\n", one], 2), Some((1, 1)));
        assert_eq!(grown(&["030100000002010000810001\n"], 1), None, "it asks for its own fact");
        assert_eq!(grown(&[zero_if_not_1, one], 1), Some((1, 1)), "nobody has to add 1");
        assert_eq!(grown(&["030101000001810001\n", one], 1), None, "the rule of another role");
        assert_eq!(grown(&[zero_if_not_1, "0401000000\n"], 1), Some((0, 0)));
        assert_eq!(grown(&[zero_if_not_1], 0), Some((0, 0)));
        assert_eq!(grown(&[zero_if_not_1], 2), None, "no rule for 1");
    }

    /// "may join customs if not in returns": crew 1 unless in crew 0; a person inherits nothing that counts.
    #[test]
    fn customs_and_returns() {
        let joining = |frames: &str, query: &str| counts(&format!("0101020102\n{frames}{query}\n"));
        let (customs, returns) = ("030500010001830000\n", "030500000000\n");
        let (both, first) = ("05030000010000000003", "05030000010000000002");
        assert_eq!(joining(&format!("{customs}{returns}"), both), Some((2, 2)));
        assert_eq!(joining(&format!("{customs}{returns}0403000000\n"), both), None);
        assert_eq!(joining(&format!("{customs}{returns}0403000000\n0403000100\n"), both), Some((0, 0)));
        assert_eq!(joining(&format!("{customs}{returns}0403000000\n"), first), None);
        // In crew 1, its senior, the person is not directly in crew 0; and crew 0's value is not directly the person's.
        assert_eq!(joining(&format!("020100\n{customs}{returns}0403000100\n"), both), Some((1, 1)));
        assert_eq!(joining(&format!("{customs}0402010000\n"), "05030000010100000100000002"), None);
        // Crew 0 if 0; 0; 1 if not 0; crew 1 if 1 and not in crew 0. With crew 0 if 0 and not 1, value 1 would have to
        // come before 0 and after crew 0.
        let graded = "030500000001010000\n030100000000\n030100000101810000\n030500010002010001830000\n";
        assert_eq!(joining(graded, both), Some((4, 4)));
        assert_eq!(joining(&graded.replace("030500000001010000", "030500000002010000810001"), both), None);
    }

    #[test]
    fn the_printed_output() {
        assert_eq!(printed(D1.as_bytes()), "810002\n0100000001\n0501000000\n");
        assert_eq!(printed(b""), "8F030001\n");
        assert_eq!(printed(bare("", "050100FFFF00").as_bytes()), "810000\n");
        assert_eq!(printed(bare("", "050100FFFF01000001").as_bytes()), "80\n");
        let not = bare("030100000001810001\n030100000100\n", "05030000010100000300000000");
        assert_eq!(printed(not.as_bytes()), "810002\n0100000000\n0100000001\n");
        assert_eq!(printed(not.replace("050300", "050100").replace("0300000000", "03").as_bytes()), "8F110004\n");
        assert_eq!(printed(not.replace("030100000100", "030200000100").as_bytes()), "8F100004\n");
    }

    #[test]
    fn the_tables_example() {
        // F = (1 + 0) × (2 + 2) + 0 = 4, and the same of 3 + 1, of 1 + 3 and of 4.
        for head in ["010100020202", "010100020301", "010100020103", "0101000104"] {
            let book = format!("{head}\n050100FFFF00\n");
            assert_eq!(plan(book.as_bytes(), &mut [0; 39]), Err(Refusal::Buffer), "{head}");
            assert_eq!(plan(book.as_bytes(), &mut [0; 40]), Ok(Answer::Plan(0)), "{head}");
        }
        assert_eq!(plan(b"", &mut []).map_err(|refusal| refusal.number()), Err(3));
        assert_eq!(Refusal::Buffer.number(), 10);
    }

    /// "F becomes (1 + G) × the sum of the counts, plus G.": ten bytes for each fact, and a byte less is 10.
    #[test]
    fn a_buffer_by_the_sum_of_the_counts() {
        // The shift has three values and the lane sixteen; two crews.
        let sums =
            [("01010202 0310", 3 * 19 + 2), ("01010203 031001", 3 * 20 + 2), ("01012008 10101010101010 10", 4_256)];
        for (head, facts) in sums {
            let book = format!("{}\n050100FFFF00\n", head.replace(' ', ""));
            assert_eq!(plan(book.as_bytes(), &mut vec![0; 10 * facts - 1]), Err(Refusal::Buffer), "{head}");
            assert_eq!(plan(book.as_bytes(), &mut vec![0; 10 * facts]), Ok(Answer::Plan(0)), "{head}");
        }
    }

    /// "what a sorter can reach is judged within these ranges": each attribute's highest value is within reach and is
    /// asked for by mode 02, beside neighbours of other counts.
    #[test]
    fn each_attribute_within_its_own_range() {
        for (a, others) in [(0, [1, 2]), (1, [0, 2]), (2, [0, 1])] {
            let own = [2, 4, 1];
            let highest = own[a] - 1;
            let head = "01010003020401";
            let rule = format!("0301000{a}{highest:02X}00\n");
            let exact = |set: u16| {
                let mut sets = [0; 3];
                sets[a] = set;
                let named: String = (0..).zip(sets).map(|(a, set)| format!("{a:02X}{set:04X}")).collect();
                format!("{head}\n{rule}050200FFFF03{named}00000000\n")
            };
            assert_eq!(counts(&exact(1 << highest)), Some((1, 1)), "attribute {a}");
            assert_eq!(counts(&exact(0)), Some((0, 0)), "attribute {a}");
            if highest > 0 {
                assert_eq!(counts(&exact(1)), None, "attribute {a}");
            }
            // A ladder term about it is met by its highest value, and by no value of the others.
            let lane = others[0];
            let ladder = format!("0301000{lane}000105{a:02X}00\n");
            let wanted = format!("050100FFFF01{lane:02X}0001");
            assert_eq!(counts(&format!("{head}\n{ladder}{wanted}\n")), None, "attribute {a}");
            assert_eq!(counts(&format!("{head}\n{rule}{ladder}{wanted}\n")), Some((2, 2)), "attribute {a}");
            let neighbours: String = others.iter().map(|&o| format!("0401000{o}{:02X}\n", own[o] - 1)).collect();
            if own[lane] > 1 {
                assert_eq!(counts(&format!("{head}\n{ladder}{neighbours}{wanted}\n")), None, "attribute {a}");
            }
        }
    }

    /// A value must go again by mode 02, at every place of its own range.
    #[test]
    fn each_value_goes_again() {
        for (a, count) in [(0, 2), (1, 4), (2, 1)] {
            for v in 0..count {
                // Its own ladder term is met while it is there.
                let rules = format!("0301000{a}{v:02X}00\n0302000{a}{v:02X}0105{a:02X}{v:02X}\n");
                let fact = format!("0401000{a}{v:02X}\n");
                let none = "050200FFFF0300000001000002000000000000\n";
                let shortest = |frames: &str| counts(&format!("01010003020401\n{frames}{none}")).map(|(n, _)| n);
                assert_eq!(shortest(&rules), Some(0), "{a} {v}");
                assert_eq!(shortest(&format!("{rules}{fact}")), Some(1), "{a} {v}");
                assert_eq!(shortest(&fact), None, "{a} {v}");
            }
        }
    }

    /// "a sorter was lent to the returns crew by one lead, a second lead raised her grade, and that grade let a third
    /// give her lane control"
    #[test]
    fn the_pilot_depot() {
        let pilot = "010101020202\n0402000000\n030500000000\n030101000101020000\n030102010001010001\n0501000007010100\
                     01\n";
        assert_eq!(counts(pilot), Some((3, 3)));
        assert_eq!(counts(&pilot.replace("0501000007", "0501000003")), None);
    }
}
