//! Each refusal of the table: its number, its line or its rule and term, its words; their order; and buffers that keep
//! their bytes.

mod lent;

use bixorgun::bytes;
use bixorgun::{Book, Judgement, Person, Refusal, LEDGER_SIZE, PAGE_SIZE};
use lent::{kept, pattern};

const GOOD: &[u8] = b"0101010102\n030100000000\n050100FFFF00\n";

/// The words of each refusal, 1 to 17: those of the specification's table, of 4 with the A of frame 01, of 7 with term 83,
/// of 10 with the page's table, and a lead's for 13 and for 15, here of rule 3 and its term 2.
const WORDS: [&str; 17] = [
    "over 65,536 characters",
    "empty line, odd digits, another character, last line unended",
    "first frame not 01, a later 01, kind not 01-05, a frame after 05, book ends without 05 (line after the last)",
    "any length but the one that the kind, with its A, n or q, gives",
    "a field outside its range, n over 8, q over 8, a set bit outside the sizes",
    "j not smaller than s",
    "term 03, 04 or 83 in ops 01-04",
    "the 513th rule",
    "query attributes not rising",
    "plan buffer under 10 × F; page table not 1,024 bytes",
    "ledger not 1,792 bytes or a bit outside the sizes",
    "request not five bytes or field out of range; no such person to show",
    "no rule of the book matches the request's op, role, a and v",
    "plan length no multiple of five",
    "rule 3 of the book matches the request, but its term 2 does not hold",
    "a \"not\" term, 81 or 83, in a book with an op but 01, 03 and 05, two rules for an op, a and v, or a term but 01, 03, \
     81 and 83",
    "mode 03 without a \"not\" term, 81 or 83, or another mode with one; page of a book with one",
];

fn good_line(line: &str) -> Vec<u8> {
    format!("0101010102\n{line}\n").into_bytes()
}

/// A rule with a "not" term: value 0 for who does not directly hold value 1. And queries of the three modes for nothing.
const NOT: &str = "030100000001810001\n";
const AT_LEAST: &str = "050100FFFF00\n";
const EXACTLY: &str = "050200FFFF0000000000\n";
const DIRECTLY: &str = "050300FFFF0000000000\n";

/// A book of two values and one crew, with these rules and this query.
fn headed(rules: &str, query: &str) -> Vec<u8> {
    format!("0101010102\n{rules}{query}").into_bytes()
}

/// Books with a "not" term that go beyond what they may have: an op, a rule twice, a second role, and a term of each kind,
/// in the rule of the "not" term or in another, before it or behind it.
fn beyond_not() -> Vec<String> {
    let mut books: Vec<String> = ["030200000100\n", "030400000000\n", "030600000000\n", "030101000000\n", NOT]
        .into_iter()
        .flat_map(|other| [format!("{NOT}{other}"), format!("{other}{NOT}")])
        .collect();
    books.extend(["020000", "050000"].map(|term| format!("030100000002{term}810001\n")));
    books.extend(["020000", "050000", "040000"].map(|term| format!("{NOT}030500000001{term}\n")));
    books.extend(["02", "04", "06"].map(|op| format!("03{op}00000001810000\n")));
    books.push("030600000001830000\n".to_owned());
    books.push(format!("{NOT}03030E000000\n03030F000000\n"));
    books
}

/// The line of a book's query, which is its last.
fn last_line(text: &[u8]) -> usize {
    text.iter().filter(|&&character| character == b'\n').count()
}

/// What 16 and 17 refuse, by all roles and by none: 16 comes first.
fn wrong_books() -> Vec<(Vec<u8>, Refusal)> {
    let mut books = Vec::new();
    for roles in ["FFFF", "0000"] {
        let asked = |rules: &str, query: &str| headed(rules, &query.replace("FFFF", roles));
        for rules in beyond_not() {
            books.extend([AT_LEAST, EXACTLY, DIRECTLY].map(|query| {
                let text = asked(&rules, query);
                let line = last_line(&text);
                (text, Refusal::BeyondNot { line })
            }));
        }
    }
    for roles in ["FFFF", "0000"] {
        let asked = |rules: &str, query: &str| headed(rules, &query.replace("FFFF", roles));
        // Without a "not" term 17 falls, whatever else only a book with one may not have.
        let plain = ["", "030100000000\n", "030200000002020000050001\n030600000001040000\n030600000001040000\n"];
        let wrong = plain.map(|rules| asked(rules, DIRECTLY));
        let with_not = [NOT, "030500000001830000\n0402000000\n", "0401000001\n030300000001810000\n"];
        let other = with_not.iter().flat_map(|rules| [AT_LEAST, EXACTLY].map(|query| asked(rules, query)));
        books.extend(wrong.into_iter().chain(other).map(|text| {
            let line = last_line(&text);
            (text, Refusal::WrongMode { line })
        }));
    }
    books
}

/// The table's examples of 1 to 9, each with its line, what ladder terms, kind 05, and "not" terms, 81 and 83, may have
/// wrong, and what 16 and 17 refuse.
fn bad_books() -> Vec<(Vec<u8>, Refusal)> {
    let mut rules = b"0101010102\n".to_vec();
    rules.extend(b"030100000000\n".repeat(513));
    let mut just_rules = b"0101010102\n".to_vec();
    just_rules.extend(b"030100000000\n".repeat(512));
    just_rules.extend(b"050100FFFF00\n");
    assert!(Book::new(&just_rules).open().is_ok());
    let mut books = vec![
        (vec![b'0'; 65_537], Refusal::BookTooLong),
        (vec![b'0'; 65_536], Refusal::BadLine { line: 1 }),
        (good_line("03 1"), Refusal::BadLine { line: 2 }),
        (good_line(""), Refusal::BadLine { line: 2 }),
        (GOOD[..GOOD.len() - 1].to_vec(), Refusal::BadLine { line: 3 }),
        (Vec::new(), Refusal::BadFrame { line: 1 }),
        (b"0101010102\n".to_vec(), Refusal::BadFrame { line: 2 }),
        (good_line("0200"), Refusal::BadLength { line: 2 }),
        (b"0101010202\n".to_vec(), Refusal::BadLength { line: 1 }),
        (b"0100010102\n".to_vec(), Refusal::BadField { line: 1 }),
        // A ladder term without such an attribute, without such a value, and before 7; the kind behind it.
        (good_line("030100000001050100"), Refusal::BadField { line: 2 }),
        (good_line("030300000001050002"), Refusal::BadField { line: 2 }),
        (good_line("030100000002030000050002"), Refusal::BadField { line: 2 }),
        (good_line("030500000001060000"), Refusal::BadField { line: 2 }),
        // The same of "not" terms, a crew and a v that are not there, and the kinds around them.
        (good_line("030100000001810100"), Refusal::BadField { line: 2 }),
        (good_line("030300000001810002"), Refusal::BadField { line: 2 }),
        (good_line("030500000001830100"), Refusal::BadField { line: 2 }),
        (good_line("030500000001830001"), Refusal::BadField { line: 2 }),
        (good_line("030100000002830000810002"), Refusal::BadField { line: 2 }),
        (good_line("030500000001800000"), Refusal::BadField { line: 2 }),
        (good_line("030500000001820000"), Refusal::BadField { line: 2 }),
        (good_line("030500000001840000"), Refusal::BadField { line: 2 }),
        (good_line("030500000001850000"), Refusal::BadField { line: 2 }),
        (good_line("020000"), Refusal::BadEdge { line: 2 }),
        (good_line("030100000001030000"), Refusal::BadTerm { line: 2 }),
        (good_line("030400000002050001040000"), Refusal::BadTerm { line: 2 }),
        (good_line("030100000001830000"), Refusal::BadTerm { line: 2 }),
        (good_line("030400000002810001830000"), Refusal::BadTerm { line: 2 }),
        (rules, Refusal::TooManyRules { line: 514 }),
        (good_line("050100FFFF02000001000001"), Refusal::NotRising { line: 2 }),
    ];
    books.extend(wrong_books());
    books
}

/// All six operations give the book's refusal, 1 to 9, 16 or 17, before anything else, and write nothing.
#[test]
fn one_to_nine_sixteen_and_seventeen() {
    let mut numbers = Vec::new();
    for (text, refusal) in bad_books() {
        let shown = String::from_utf8_lossy(&text[..text.len().min(60)]).into_owned();
        for length in [0, 7, LEDGER_SIZE, 42_560] {
            let before = pattern(length);
            assert_eq!(kept(&before, |ledger| bytes::open(&text, ledger).err()), refusal, "{shown}");
            assert_eq!(kept(&before, |ledger| bytes::request(&text, ledger, &[7]).err()), refusal, "{shown}");
            assert_eq!(
                kept(&before, |view| bytes::show_into(&text, &before, Person(255), view).err()),
                refusal,
                "{shown}"
            );
            assert_eq!(kept(&before, |out| bytes::plan_into(&text, out).err()), refusal, "{shown}");
            assert_eq!(bytes::replay(&text, &before), Err(refusal), "{shown}");
        }
        // A table of a page's length and others, which an accepted book gets 10 for.
        for length in [0, PAGE_SIZE - 1, PAGE_SIZE, PAGE_SIZE + 1] {
            for before in [vec![0; length], vec![0xFF; length], pattern(length)] {
                assert_eq!(kept(&before, |table| bytes::page(&text, table).err()), refusal, "{shown}");
            }
        }
        let book = Book::new(&text);
        assert_eq!(book.open(), Err(refusal));
        assert_eq!(book.plan(), Err(refusal));
        assert_eq!(book.replay([]), Err(refusal));
        assert_eq!(book.page(), Err(refusal));
        numbers.push(refusal.number());
    }
    numbers.dedup();
    assert_eq!(numbers, [1, 2, 3, 4, 5, 6, 7, 8, 9, 16, 17]);
}

/// A rule of every op with one term of every kind, about value 1 of attribute 0: 01, 02, 05 and 81 are good in every op. So
/// are 03, 04 and 83, about crew 0, in ops 05 and 06, and get 7 in the others. Without crews the ops 01 to 04 are left, and
/// 03, 04 and 83 name no crew. Where the line is good, mode 03 wants 81 or 83, and these the ops 01, 03 and 05.
#[test]
fn kinds_of_terms() {
    let opened = |text: &str| Book::new(text.as_bytes()).open().map(|_| ());
    for crews in 0..=1 {
        for op in 1..=6 {
            for kind in 0..=255 {
                let v = u8::from(!matches!(kind, 3 | 4 | 0x83));
                let rule = format!("03{op:02X}00000001{kind:02X}00{v:02X}");
                let good = match (crews, op, kind) {
                    (_, 1..=4, 1 | 2 | 5 | 0x81) | (1, 5..=6, 1..=5 | 0x81 | 0x83) => Ok(()),
                    (1, 1..=4, 3 | 4 | 0x83) => Err(Refusal::BadTerm { line: 2 }),
                    _ => Err(Refusal::BadField { line: 2 }),
                };
                for query in [AT_LEAST, EXACTLY, DIRECTLY] {
                    let text = format!("0101{crews:02X}0102\n{rule}\n{query}");
                    let has_not = matches!(kind, 0x81 | 0x83);
                    let expected = good.and(match (has_not, op % 2) {
                        (true, 0) => Err(Refusal::BeyondNot { line: 3 }),
                        _ if has_not == (query == DIRECTLY) => Ok(()),
                        _ => Err(Refusal::WrongMode { line: 3 }),
                    });
                    assert_eq!(opened(&text), expected, "op {op}, kind {kind}, {query}");
                }
            }
        }
    }
}

/// "both only where no line has any of 1-9": a bad line anywhere, before what 16 or 17 is for or behind it, comes first,
/// and so does one character too many.
#[test]
fn sixteen_and_seventeen_come_behind_bad_lines() {
    let bad = [
        ("03 1", 2),
        ("0101010102", 3),
        ("06", 3),
        ("0200", 4),
        ("0401000002", 5),
        ("030500000001830100", 5),
        ("020000", 6),
        ("030100000001830000", 7),
        ("030300000001030000", 7),
    ];
    let refused = |text: &[u8]| Book::new(text).open().expect_err("a refusal");
    for (whole, refusal) in wrong_books() {
        assert_eq!(refused(&whole), refusal);
        let lines: Vec<&[u8]> = whole.split_inclusive(|&character| character == b'\n').collect();
        for (line, number) in bad {
            // In front of each line but the first; behind the query any frame is 3.
            for at in 1..lines.len() {
                let text = [&lines[..at].concat(), line.as_bytes(), b"\n", &lines[at..].concat()].concat();
                let told = refused(&text);
                assert_eq!((told.number(), told.line()), (number, Some(at + 1)), "{line} at {at}");
            }
            let behind = refused(&[&whole[..], line.as_bytes(), b"\n"].concat());
            let number = if number == 2 { 2 } else { 3 };
            assert_eq!((behind.number(), behind.line()), (number, Some(lines.len() + 1)), "{line} behind the query");
        }
        // The query's own line: unended, too short, a person that is not there; and no query at all.
        let (front, query) = (lines[..lines.len() - 1].concat(), lines[lines.len() - 1]);
        let told = |query: &[u8]| refused(&[&front[..], query].concat());
        let line = lines.len();
        assert_eq!(told(&query[..query.len() - 1]), Refusal::BadLine { line });
        assert_eq!(told(&[&query[..query.len() - 3], b"\n"].concat()), Refusal::BadLength { line });
        assert_eq!(told(&[&query[..4], b"01", &query[6..]].concat()), Refusal::BadField { line });
        assert_eq!(told(b""), Refusal::BadFrame { line });
        // 65,537 characters, and just the 65,536 that a book may have: facts between the first line and the others.
        let mut room = 65_536 - whole.len();
        let edges = (0..11).find(|edges| (room - 7 * edges) % 11 == 0).expect("7 and 11 have no common divisor");
        room -= 7 * edges;
        let filling = [b"020100\n".repeat(edges), b"0401000000\n".repeat(room / 11)].concat();
        let two_crews = b"0101020102\n";
        let longest = [two_crews, &filling[..], &lines[1..].concat()].concat();
        let told = refused(&longest);
        assert_eq!((longest.len(), told.number()), (65_536, refusal.number()));
        assert_eq!(told.line(), Some(lines.len() + edges + room / 11));
        assert_eq!(refused(&[&longest[..], b"\n"].concat()), Refusal::BookTooLong);
    }
}

/// "The page of Wish 5 refuses every book with a "not" term by 17", before 10; what other operations answer stays.
#[test]
fn a_book_with_not_has_no_page() {
    let others = ["", "030500000001830000\n", "030300000001810000\n0403000000\n", "0401000001\n030100000100\n"];
    for rules in others.map(|other| format!("{NOT}{other}")) {
        let text = headed(&rules, DIRECTLY);
        let refusal = Refusal::WrongMode { line: last_line(&text) };
        for length in [0, 3, PAGE_SIZE - 1, PAGE_SIZE, PAGE_SIZE + 1] {
            for before in [vec![0; length], vec![0xFF; length], pattern(length)] {
                assert_eq!(kept(&before, |table| bytes::page(&text, table).err()), refusal, "{length} bytes");
            }
        }
        assert_eq!(Book::new(&text).page(), Err(refusal));
        assert_eq!(Book::new(&text).replay([]), Ok(Judgement::Reaches));
        // The other operations refuse this book by their own alone.
        assert_eq!(kept(&pattern(49), |out| bytes::plan_into(&text, out).err()), Refusal::ShortPlanBuffer);
        assert_eq!(kept(&pattern(7), |ledger| bytes::open(&text, ledger).err()), Refusal::BadLedger);
        assert_eq!(bytes::replay(&text, &[1; 7]), Err(Refusal::BadPlanLength));
        let ledger = opened(&text);
        let asked = |request: &[u8]| kept(&ledger, |ledger| bytes::request(&text, ledger, request).err());
        assert_eq!(asked(&[1, 0, 0, 0]), Refusal::BadRequest);
        assert_eq!(asked(&[2, 0, 0, 0, 0]), Refusal::NoRule);
        assert_eq!(bytes::show(&text, &ledger, Person(1)), Err(Refusal::BadRequest));
        assert!(bytes::show(&text, &ledger, Person(0)).is_ok());
    }
}

#[test]
fn ten() {
    let need = bixorgun::plan_size(1, 2);
    for length in 0..need {
        let before = pattern(length);
        assert_eq!(kept(&before, |out| bytes::plan_into(GOOD, out).err()), Refusal::ShortPlanBuffer);
    }
    assert!(bytes::plan_into(GOOD, &mut vec![0; need]).is_ok());
}

/// "A table of another length is refused under 10.", shorter and longer, also where nobody can act, where the book's own
/// query has no way, and where the book has all 64 persons. One of 1,024 bytes is written whole.
#[test]
fn ten_of_a_page() {
    let books: [(&[u8], u8); 4] = [
        (GOOD, 0b01),
        (b"0101010102\n030100000000\n050100000000\n", 0b00),
        (b"0101010102\n0401000001\n050200FFFF0100000000000000\n", 0b10),
        (b"014020081010101010101010\n0401000000\n050100FFFF00\n", 0b01),
    ];
    for (book, first) in books {
        for length in (0..=2 * PAGE_SIZE).filter(|&length| length != PAGE_SIZE) {
            let before = pattern(length);
            assert_eq!(kept(&before, |table| bytes::page(book, table).err()), Refusal::ShortPlanBuffer, "{length}");
        }
        let mut table = pattern(PAGE_SIZE);
        assert_eq!(bytes::page(book, &mut table), Ok(()));
        let (set, rest) = table.split_at(2);
        assert_eq!(set, [0, first]);
        assert!(rest.iter().all(|&byte| byte == 0));
    }
}

#[test]
fn eleven() {
    for length in [0, 1, 1_791, 1_793, 3_584] {
        let before = pattern(length);
        assert_eq!(kept(&before, |ledger| bytes::open(GOOD, ledger).err()), Refusal::BadLedger);
        assert_eq!(kept(&before, |ledger| bytes::request(GOOD, ledger, &[]).err()), Refusal::BadLedger);
        let view = pattern(20);
        let refusal = kept(&view, |view| bytes::show_into(GOOD, &before, Person(255), view).err());
        assert_eq!(refusal, Refusal::BadLedger);
    }
    // Every bit of a ledger by itself: five are within the sizes.
    let mut within = Vec::new();
    for at in 0..LEDGER_SIZE {
        for bit in 0..8 {
            let mut before = [0; LEDGER_SIZE];
            before[at] = 1 << bit;
            if bytes::show(GOOD, &before, Person(0)).is_ok() {
                within.push((at, bit));
                assert_eq!(bytes::request(GOOD, &mut before, &[1, 0, 0, 0, 0]), Ok(()));
                continue;
            }
            let refusal = kept(&before, |ledger| bytes::request(GOOD, ledger, &[1, 0, 0, 0, 0]).err());
            assert_eq!(refusal, Refusal::BadLedger, "bit {bit} of byte {at}");
            assert_eq!(bytes::show(GOOD, &before, Person(0)), Err(Refusal::BadLedger), "bit {bit} of byte {at}");
        }
    }
    assert_eq!(within, [(1, 0), (1, 1), (1_025, 0), (1_025, 1), (1_539, 0)]);
    // "by length alone, the bytes there are not read"
    let mut ledger = pattern(LEDGER_SIZE);
    assert_eq!(bytes::open(GOOD, &mut ledger), Ok(()));
    assert_eq!(ledger, vec![0; LEDGER_SIZE]);
}

#[test]
fn twelve() {
    let ledger = [0; LEDGER_SIZE];
    let asked = |request: &[u8]| kept(&ledger, |ledger| bytes::request(GOOD, ledger, request).err());
    for length in (0..12).filter(|&length| length != 5) {
        assert_eq!(asked(&vec![1; length]), Refusal::BadRequest);
    }
    for bad in [[0, 0, 0, 0, 0], [7, 0, 0, 0, 0], [1, 16, 0, 0, 0], [1, 0, 1, 0, 0], [1, 0, 0, 1, 0], [1, 0, 0, 0, 2]] {
        assert_eq!(asked(&bad), Refusal::BadRequest, "{bad:?}");
    }
    for bad in [[3, 0, 1, 0, 0], [5, 0, 0, 1, 0], [5, 0, 0, 0, 1], [6, 0, 1, 0, 0]] {
        assert_eq!(asked(&bad), Refusal::BadRequest, "{bad:?}");
    }
    for person in 1..=255 {
        let view = pattern(30);
        let refusal = kept(&view, |view| bytes::show_into(GOOD, &ledger, Person(person), view).err());
        assert_eq!(refusal, Refusal::BadRequest);
    }
}

/// A depot whose person 0 and crew 1 directly hold value 0 of attribute 0 and effectively hold 0 and 1, not 2. The
/// person is directly in crew 1 and effectively in 0 and 1, not 2. Nobody holds a value of attribute 1, which has two.
const SIZES: &str = "010203020302\n";
const FACTS: &str = "020100\n0402000001\n0402010000\n0401000000\n0403000100\n";
const QUERY: &str = "050100FFFF00\n";

/// Kinds of terms, with a term that holds of both and one that does not; 03 and 04 are good in ops 05 and 06 alone.
const ON_VALUES: [(&str, &str); 3] = [("010000", "010001"), ("020001", "020002"), ("050001", "050002")];
const ON_CREWS: [(&str, &str); 2] = [("030100", "030000"), ("040000", "040200")];

/// A term that holds of person 0, and one that does not.
const HELD: &str = "020001";
const UNMET: &str = "010002";

/// Role 0 adds value 0 of attribute 1 to person 0.
const ADD: [u8; 5] = [1, 0, 0, 1, 0];

/// A rule on the op, role, a and v of a request.
fn rule_for([op, role, _, a, v]: [u8; 5], terms: &[&str]) -> String {
    format!("03{op:02X}{role:02X}{a:02X}{v:02X}{:02X}{}\n", terms.len(), terms.concat())
}

/// The depot with these rules.
fn depot(rules: &str) -> Vec<u8> {
    [SIZES, FACTS, rules, QUERY].concat().into_bytes()
}

fn opened(book: &[u8]) -> Vec<u8> {
    let mut ledger = pattern(LEDGER_SIZE);
    bytes::open(book, &mut ledger).expect("opens");
    ledger
}

/// Makes a request in the starting facts, and sees that a refusal leaves the ledger as it was. The other operations
/// answer without 13 and 15: nothing refuses open, show and plan, and replay gives the request's place alone.
fn answered(book: &[u8], request: [u8; 5]) -> Result<(), Refusal> {
    let before = opened(book);
    assert!(bytes::show(book, &before, Person(0)).is_ok());
    assert!(bytes::plan_into(book, &mut vec![0; bixorgun::PLAN_MAX]).is_ok());
    let mut after = before.clone();
    let answer = bytes::request(book, &mut after, &request);
    let judgement = bytes::replay(book, &request).expect("judged");
    if answer.is_ok() {
        assert_eq!(judgement, Judgement::Reaches);
    } else {
        assert_eq!(judgement, Judgement::Stops(1));
        assert!(before == after, "{answer:?} leaves the ledger as it was");
    }
    answer
}

/// A rule has the request's op, role, a and v but for one of them, and no rule has all.
#[test]
fn thirteen() {
    assert_eq!(answered(&depot(""), ADD), Err(Refusal::NoRule));
    for terms in [&[][..], &[HELD], &[UNMET]] {
        for other in [[2, 0, 0, 1, 0], [3, 0, 0, 1, 0], [1, 1, 0, 1, 0], [1, 0, 0, 0, 0], [1, 0, 0, 1, 1]] {
            assert_eq!(answered(&depot(&rule_for(other, terms)), ADD), Err(Refusal::NoRule), "{other:?}");
        }
        // Of op 05 and 06 the crew.
        for [op, other] in [[5, 6], [6, 5]] {
            assert_eq!(answered(&depot(&rule_for([other, 0, 0, 2, 0], terms)), [op, 0, 0, 2, 0]), Err(Refusal::NoRule));
            assert_eq!(answered(&depot(&rule_for([op, 0, 0, 0, 0], terms)), [op, 0, 0, 2, 0]), Err(Refusal::NoRule));
        }
    }
}

/// One rule of 1 to 8 terms, any of which do not hold: the first of these is told; the request is done where all hold.
#[test]
fn fifteen_tells_the_first_unmet_term() {
    for n in 1..=8 {
        for unmet in 0..1_u32 << n {
            let terms: Vec<&str> = (0..n).map(|at| if unmet >> at & 1 == 1 { UNMET } else { HELD }).collect();
            let first = unmet.trailing_zeros() as u8 + 1;
            let expected = if unmet == 0 { Ok(()) } else { Err(Refusal::UnmetTerm { rule: 1, term: first }) };
            assert_eq!(answered(&depot(&rule_for(ADD, &terms)), ADD), expected, "{terms:?}");
        }
    }
}

/// Every kind of term in every op, on attribute 1 or crew 1. Behind a term of its kind that holds, one that does not is
/// term 2; of a person and a crew that hold nothing and are in nothing the first does not hold either.
#[test]
fn fifteen_in_every_op() {
    for op in 1..=6 {
        let [subject, other] = if matches!(op, 3 | 4) { [1, 2] } else { [0, 1] };
        let on_crews = ON_CREWS.iter().filter(|_| op >= 5);
        for &(held, unmet) in ON_VALUES.iter().chain(on_crews) {
            let told = |subject, terms: &[&str]| {
                let request = [op, 0, subject, 1, 0];
                answered(&depot(&rule_for(request, terms)), request)
            };
            assert_eq!(told(subject, &[held]), Ok(()), "{held} in op {op}");
            let second = Err(Refusal::UnmetTerm { rule: 1, term: 2 });
            assert_eq!(told(subject, &[held, unmet]), second, "{unmet} in op {op}");
            let first = Err(Refusal::UnmetTerm { rule: 1, term: 1 });
            assert_eq!(told(other, &[held, unmet]), first, "{held} in op {op}");
        }
    }
}

/// "Not" terms in the ops that may have them. The first holds of the subject, that behind it does not, and 15 tells it as
/// term 2; what the subject has through a crew or in one effectively does not count.
#[test]
fn fifteen_of_not_terms() {
    for op in [1, 3, 5] {
        let subject = u8::from(op == 3);
        let request = [op, 0, subject, 1, 0];
        let on_crews = [("830000", "830100"), ("830200", "830100")];
        let terms = [("810001", "810000"), ("810100", "810000"), ("810101", "810000")].into_iter();
        for (held, unmet) in terms.chain(on_crews.into_iter().filter(|_| op == 5)) {
            let told = |terms: &[&str]| {
                let book = [SIZES, FACTS, &rule_for(request, terms), DIRECTLY].concat().into_bytes();
                answered_twice(&book, request)
            };
            // The second time the own fact is there, and bars where a term names it.
            let again = if held == "810100" && op != 5 { Err(Refusal::UnmetTerm { rule: 1, term: 1 }) } else { Ok(()) };
            assert_eq!(told(&[held]), (Ok(()), again), "{held} in op {op}");
            let second = Err(Refusal::UnmetTerm { rule: 1, term: 2 });
            assert_eq!(told(&[held, unmet]), (second, second), "{unmet} in op {op}");
            assert_eq!(told(&["010000", unmet]), (second, second), "{unmet} in op {op}");
            let first = Err(Refusal::UnmetTerm { rule: 1, term: 1 });
            assert_eq!(told(&[unmet, held]), (first, first), "{unmet} in op {op}");
        }
    }
    // To join crew 2 one must not be in it: done once.
    let join = [5, 0, 0, 2, 0];
    let book = [SIZES, FACTS, &rule_for(join, &["830200"]), DIRECTLY].concat().into_bytes();
    assert_eq!(answered_twice(&book, join), (Ok(()), Err(Refusal::UnmetTerm { rule: 1, term: 1 })));
}

/// Makes a request in the starting facts, and then once more in the ledger that it left.
fn answered_twice(book: &[u8], request: [u8; 5]) -> (Result<(), Refusal>, Result<(), Refusal>) {
    let first = answered(book, request);
    let mut ledger = opened(book);
    let _ = bytes::request(book, &mut ledger, &request);
    let before = ledger.clone();
    let second = bytes::request(book, &mut ledger, &request);
    assert!(ledger == before, "the second time nothing changes");
    (first, second)
}

/// Four rules, each of which has the request's op, role, a and v or differs in one of them, with other lines between
/// them. Rule i has its first unmet term behind i - 1 others, so the term that is told is of the rule that is told.
#[test]
fn fifteen_tells_the_first_matching_rule() {
    let kinds = [ADD, [2, 0, 0, 1, 0], [1, 1, 0, 1, 0], [1, 0, 0, 0, 0], [1, 0, 0, 1, 1]];
    let unmet = [&[UNMET][..], &[HELD, UNMET], &[HELD, HELD, UNMET], &[HELD, HELD, HELD, UNMET]];
    for code in 0..625 {
        let drawn = [code % 5, code / 5 % 5, code / 25 % 5, code / 125];
        let rules: String = (0..4).map(|at| rule_for(kinds[drawn[at]], unmet[at]) + "020201\n0401010000\n").collect();
        let expected = match drawn.iter().position(|&kind| kind == 0) {
            Some(at) => Refusal::UnmetTerm { rule: at as u16 + 1, term: at as u8 + 1 },
            None => Refusal::NoRule,
        };
        assert_eq!(answered(&depot(&rules), ADD), Err(expected), "{drawn:?}");
        // A matching rule whose terms hold permits, wherever it stands.
        assert_eq!(answered(&depot(&(rule_for(ADD, &[HELD]) + &rules)), ADD), Ok(()));
        assert_eq!(answered(&depot(&(rules + &rule_for(ADD, &[]))), ADD), Ok(()));
    }
}

/// Among 512 rules, and with repeats, which count.
#[test]
fn fifteen_among_many_rules() {
    let other = rule_for([1, 1, 0, 1, 0], &[]);
    for rule in [1, 2, 255, 256, 257, 511, 512] {
        for term in [1, 8] {
            let mut terms = [HELD; 8];
            terms[usize::from(term) - 1] = UNMET;
            let before = other.repeat(usize::from(rule) - 1);
            let behind = other.repeat(512 - usize::from(rule));
            let book = depot(&[before.clone(), rule_for(ADD, &terms), behind].concat());
            assert_eq!(answered(&book, ADD), Err(Refusal::UnmetTerm { rule, term }));
            // From there on the same rule.
            let book = depot(&[before, rule_for(ADD, &terms).repeat(513 - usize::from(rule))].concat());
            assert_eq!(answered(&book, ADD), Err(Refusal::UnmetTerm { rule, term }));
        }
    }
    let same = rule_for(ADD, &[UNMET]).repeat(511);
    assert_eq!(answered(&depot(&[same.clone(), rule_for(ADD, &[HELD])].concat()), ADD), Ok(()));
    assert_eq!(answered(&depot(&[same, other].concat()), ADD), Err(Refusal::UnmetTerm { rule: 1, term: 1 }));
}

/// Terms are judged in the ledger as it stands before the request, and in no other.
#[test]
fn fifteen_is_of_the_ledger_before_the_request() {
    // To add value 0 of attribute 1 it must be held, and so must value 1 of it; anybody gets and loses both by role 1.
    let first = rule_for(ADD, &["010100", "010101"]);
    let others: String = [[1, 1, 0, 1, 0], [1, 1, 0, 1, 1], [2, 1, 0, 1, 0]].map(|five| rule_for(five, &[])).concat();
    let book = depot(&(others + &first));
    let mut ledger = opened(&book);
    let mut ask = |request: [u8; 5]| bytes::request(&book, &mut ledger, &request);
    assert_eq!(ask(ADD), Err(Refusal::UnmetTerm { rule: 4, term: 1 }));
    assert_eq!(ask([1, 1, 0, 1, 0]), Ok(()));
    assert_eq!(ask(ADD), Err(Refusal::UnmetTerm { rule: 4, term: 2 }));
    assert_eq!(ask([1, 1, 0, 1, 1]), Ok(()));
    assert_eq!(ask(ADD), Ok(()));
    assert_eq!(ask([2, 1, 0, 1, 0]), Ok(()));
    assert_eq!(ask(ADD), Err(Refusal::UnmetTerm { rule: 4, term: 1 }));
    assert_eq!(ask([2, 1, 0, 1, 1]), Err(Refusal::NoRule));
    // The other person's facts are not the subject's.
    assert_eq!(ask([1, 0, 1, 1, 0]), Err(Refusal::UnmetTerm { rule: 4, term: 1 }));
    // Replay starts from the book's facts, goes on where a request is permitted, and says only which is the first not.
    let list = |requests: &[[u8; 5]]| bytes::replay(&book, &requests.concat());
    assert_eq!(list(&[[1, 1, 0, 1, 0], ADD]), Ok(Judgement::Stops(2)));
    assert_eq!(list(&[[1, 1, 0, 1, 0], [1, 1, 0, 1, 1], ADD]), Ok(Judgement::Reaches));
    assert_eq!(list(&[[1, 1, 0, 1, 0], [1, 1, 0, 1, 1], ADD, [2, 1, 0, 1, 1]]), Ok(Judgement::Stops(4)));
}

/// 1-9, then 11, then 12, and only then 13 or 15; a request heeds no role of the query.
#[test]
fn thirteen_and_fifteen_come_last() {
    let unmet = Refusal::UnmetTerm { rule: 1, term: 2 };
    for (rules, last) in [(String::new(), Refusal::NoRule), (rule_for(ADD, &[HELD, UNMET]), unmet)] {
        let book = depot(&rules);
        let good = opened(&book);
        let told = |book: &[u8], ledger: &[u8], request: &[u8]| {
            kept(ledger, |ledger| bytes::request(book, ledger, request).err())
        };
        assert_eq!(told(&book, &good, &ADD), last);
        let nobody = [SIZES, FACTS, &rules, "050100000000\n"].concat();
        assert_eq!(told(nobody.as_bytes(), &good, &ADD), last);
        assert_eq!(bytes::replay(nobody.as_bytes(), &ADD), Ok(Judgement::Stops(1)));

        // 12: not five bytes, or a subject or a value that is not there.
        let ill_formed =
            [&[][..], &ADD[..4], &[1, 0, 0, 1, 0, 0], &[1, 0, 2, 1, 0], &[1, 0, 255, 1, 0], &[1, 0, 0, 1, 2]];
        for request in ill_formed {
            assert_eq!(told(&book, &good, request), Refusal::BadRequest, "{request:?}");
        }
        // 11: another length, or value 3 of person 0's attribute 0; before 12 too.
        let mut outside = good.clone();
        outside[1] |= 0b1000;
        for ledger in [&[][..], &good[1..], &[&good[..], &[0]].concat(), &outside] {
            for request in ill_formed.into_iter().chain([&ADD[..]]) {
                assert_eq!(told(&book, ledger, request), Refusal::BadLedger);
            }
        }
        // 1-9, here 4 in the line of the query, before all.
        let bad = [SIZES, FACTS, &rules, "050100FFFF\n"].concat();
        let line = bad.lines().count();
        for ledger in [&good, &outside] {
            for request in ill_formed.into_iter().chain([&ADD[..]]) {
                assert_eq!(told(bad.as_bytes(), ledger, request), Refusal::BadLength { line });
            }
        }
    }
}

#[test]
fn fourteen() {
    for length in (0..40).filter(|length| length % 5 != 0) {
        assert_eq!(bytes::replay(GOOD, &pattern(length)), Err(Refusal::BadPlanLength));
    }
}

#[test]
fn numbers_lines_and_words() {
    let lines = bad_books().into_iter().map(|(_, refusal)| refusal);
    let rest = [
        Refusal::ShortPlanBuffer,
        Refusal::BadLedger,
        Refusal::BadRequest,
        Refusal::NoRule,
        Refusal::BadPlanLength,
        Refusal::UnmetTerm { rule: 3, term: 2 },
    ];
    let mut seen = [false; 17];
    for refusal in lines.chain(rest) {
        let number = refusal.number();
        let words = WORDS[usize::from(number) - 1];
        let text = match refusal.line() {
            Some(line @ 1..) => format!("refusal {number} on line {line}: {words}"),
            _ => format!("refusal {number}: {words}"),
        };
        assert_eq!(refusal.to_string(), text);
        assert_eq!(refusal.line().is_some(), !(10..=15).contains(&number));
        let error: Box<dyn std::error::Error + Send + Sync> = refusal.into();
        assert_eq!(error.downcast_ref(), Some(&refusal));
        seen[usize::from(number) - 1] = true;
    }
    assert_eq!(seen, [true; 17]);
    assert_eq!(Refusal::BookTooLong.line(), Some(0));
}
