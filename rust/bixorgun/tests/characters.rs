//! The characters of a book: which of the 256 byte values are digits, and the value of each digit. Every byte value is
//! put at every place of a few books. The answers are compared with those of `reference`, which reads digits by ranges,
//! and with what the specification and the printed table of Base 16 say.

use std::collections::BTreeSet;
use std::ops::RangeInclusive;

use bixorgun::bytes::{self, Planned};
use bixorgun::{Book, Ledger, Person, Refusal, LEDGER_SIZE, PLAN_MAX, REQUEST_SIZE, VIEW_SIZE};
use reference::ledger::Request;
use reference::plan::{closure, demand};
use reference::{book, ledger};

/// "Table 5: The Base 16 Alphabet" of RFC 4648: value and encoding.
const TABLE: [(u8, u8); 16] = [
    (0, b'0'),
    (1, b'1'),
    (2, b'2'),
    (3, b'3'),
    (4, b'4'),
    (5, b'5'),
    (6, b'6'),
    (7, b'7'),
    (8, b'8'),
    (9, b'9'),
    (10, b'A'),
    (11, b'B'),
    (12, b'C'),
    (13, b'D'),
    (14, b'E'),
    (15, b'F'),
];

const LINE_END: u8 = 0x0A;

/// Whether the table has a character.
fn is_digit(character: u8) -> bool {
    TABLE.iter().any(|&(_, encoding)| encoding == character)
}

/// The two digits of a byte, by the table.
fn two(byte: u8) -> String {
    let encoding = |digit| TABLE.iter().find(|&&(value, _)| value == digit).expect("one of the sixteen").1;
    [byte / 16, byte % 16].map(|digit| char::from(encoding(digit))).iter().collect()
}

/// The sets of so many bytes that are 00 but for one, which is the byte given: digits and number of each.
fn sets(bytes: u32, byte: u8) -> impl Iterator<Item = (String, u32)> {
    (0..bytes).map(move |at| {
        let set = u32::from(byte) << (8 * (bytes - 1 - at));
        ((0..bytes).map(|other| two(if other == at { byte } else { 0 })).collect(), set)
    })
}

/// The requests of an accepted book's plan; nothing where there is no way.
fn planned(text: &str) -> Option<Vec<[u8; REQUEST_SIZE]>> {
    let answer = Book::new(text).plan().unwrap_or_else(|refusal| panic!("{refusal}: {text}"));
    answer.plan().map(|plan| plan.iter().map(|request| request.to_bytes()).collect())
}

/// What is seen of a book: a refusal's number and line, no way, or a plan.
#[derive(Clone, Copy, Debug, PartialEq, Eq, PartialOrd, Ord)]
enum Seen {
    Refused(u8, usize),
    NoWay,
    Plan,
}

impl Seen {
    fn number(&self) -> Option<u8> {
        match *self {
            Seen::Refused(number, _) => Some(number),
            _ => None,
        }
    }
}

/// The library and the second implementation read and plan some characters. Their refusals are the same, or else their
/// starting facts and whether there is a way. Which plan is given is left open: by the second implementation the
/// library's is one.
fn compared(text: &[u8], out: &mut [u8]) -> Seen {
    let shown = text.escape_ascii();
    let refused = |refusal: Refusal| Seen::Refused(refusal.number(), refusal.line().unwrap_or(0));
    let mut facts = [0; LEDGER_SIZE];
    let opened = bytes::open(text, &mut facts).map_err(refused);
    let answer = bytes::plan_into(text, out).map_err(refused);
    let book = match book::read(text) {
        Err(refusal) => {
            let seen = Seen::Refused(refusal.number(), refusal.line);
            assert_eq!((opened, answer), (Err(seen), Err(seen)), "{shown}");
            return seen;
        }
        Ok(book) => book,
    };
    assert_eq!(opened, Ok(()), "{shown}");
    assert!(facts == ledger::Ledger::start(&book).to_bytes(), "the starting facts of {shown}");
    match (answer, closure::plan(&book)) {
        (Ok(Planned::NoWay), None) => Seen::NoWay,
        (Ok(Planned::Plan(count)), Some(_)) => {
            let fives = out[..REQUEST_SIZE * count].chunks(REQUEST_SIZE);
            let requests: Option<Vec<_>> = fives.map(|five| Request::from_bytes(&book.sizes, five)).collect();
            assert_eq!(requests.map(|requests| demand::check(&book, &requests)), Some(Ok(())), "{shown}");
            Seen::Plan
        }
        (answer, plan) => panic!("{answer:?}, and by the reference {plan:?}: {shown}"),
    }
}

/// The refusal that is due by the specification where a byte takes the place of one character; nothing where a digit
/// takes a digit's, or a line end its own. It serves books that are good up to the last line, on which neither 2 nor 3
/// falls, and of whose lines no part in front has a frame's length.
fn due(book: &[u8], place: usize, byte: u8) -> Option<Seen> {
    let before = &book[..place];
    let line = 1 + before.iter().filter(|&&character| character == LINE_END).count();
    let digits = before.iter().rev().take_while(|&&character| character != LINE_END).count();
    let number = match (book[place], byte) {
        (LINE_END, LINE_END) => return None,
        // Another character, or odd digits: one joins those of the next line. The last line is unended.
        (LINE_END, _) => 2,
        // Two lines, of which the first is empty, has odd digits or is too short.
        (_, LINE_END) if digits == 0 || digits % 2 == 1 => 2,
        (_, LINE_END) => 4,
        (_, byte) if is_digit(byte) => return None,
        _ => 2,
    };
    Some(Seen::Refused(number, line))
}

/// Puts every byte value at every place of a book; the answers, each once.
fn tried(book: &[u8]) -> BTreeSet<Seen> {
    let (mut out, mut seen) = (vec![0; PLAN_MAX], BTreeSet::new());
    let mut text = book.to_vec();
    for place in 0..book.len() {
        for byte in 0..=255 {
            text[place] = byte;
            let answer = compared(&text, &mut out);
            match due(book, place, byte) {
                Some(refused) => assert_eq!(answer, refused, "byte {byte:02X} at place {place}"),
                None => assert!(!matches!(answer, Seen::Refused(2, _)), "byte {byte:02X} at place {place}"),
            }
            seen.insert(answer);
        }
        text[place] = book[place];
    }
    seen
}

/// An edge, facts, rules with terms, and a query by roles: the first two examples of docs/BOOK.md, in modes 01 and 02, a
/// depot of sixteen persons, crews and values, where most numbers may have any low digit, and one with "not" terms, in
/// mode 03. With 8 as its high digit a term 01 becomes a "not" term, and with 3 as its low one mode 02 becomes mode 03.
#[test]
fn every_byte_at_every_place() {
    let at_least = "010202020310\n020100\n0401000000\n0402000001\n030501010001010000\n030102000201020001\n\
                    030103010002010002020001\n050100000E01010001\n";
    let exactly = "0102020103\n020100\n0403000100\n0401000002\n0402000000\n030302000101010000\n030202000201020001\n\
                   030601010001030100\n05020000060100000000000000\n";
    let sixteen = "011010081010101010101010\n020F0E\n04010B070C\n04020E0309\n03050A0F000101070C\n03010D060B01020309\n\
                   05010B240001060800\n";
    let directly = "010202020302\n020100\n0401000000\n0403010000\n030500010002010001830000\n030500000001030100\n\
                    030100000102010000810100\n030302010001810001\n05030000010100000200000003\n";
    let books = [
        (at_least, &[2, 3, 4, 5, 6, 16][..]),
        (exactly, &[2, 3, 4, 5, 6, 7, 16, 17]),
        (sixteen, &[2, 3, 4, 5, 6, 16]),
        (directly, &[2, 3, 4, 5, 6, 7, 16, 17]),
    ];
    for (book, refusals) in books {
        let seen = tried(book.as_bytes());
        assert!(seen.contains(&Seen::Plan) && seen.contains(&Seen::NoWay));
        let numbers: BTreeSet<u8> = seen.iter().filter_map(Seen::number).collect();
        assert!(numbers.iter().eq(refusals), "{numbers:?}");
    }
}

/// Lines of 63 to 67 bytes. A line of over 64, which is 128 characters, is never good, and is read in another way.
#[test]
fn every_byte_at_every_place_of_a_long_line() {
    let terms = |n: usize| "010000".repeat(n);
    let named = |q: usize| "000001".repeat(q);
    let lines = [
        (126, 5, format!("030100000013{}", terms(19))),
        (128, 5, format!("050200FFFF12{}00000000", named(18))),
        (130, 4, format!("030100000014{}0100", terms(19))),
        (132, 5, format!("030100000014{}", terms(20))),
        (134, 5, format!("050200FFFF13{}00000000", named(19))),
    ];
    let counts = |n: usize| "01".repeat(n);
    let first_lines = [
        (126, 5, format!("0101013B{}", counts(59))),
        (128, 5, format!("0101013C{}", counts(60))),
        (130, 4, format!("0101013E{}", counts(61))),
        (130, 5, format!("0101013D{}", counts(61))),
    ];
    let second = lines.into_iter().map(|line| ("0101010102\n", 2, line));
    let first = first_lines.into_iter().map(|line| ("", 1, line));
    for (before, at, (digits, number, line)) in second.chain(first) {
        assert_eq!(line.len(), digits);
        let seen = tried(format!("{before}{line}\n").as_bytes());
        assert!(seen.contains(&Seen::Refused(number, at)));
        assert!(seen.iter().all(|answer| answer.number().is_some()));
    }
}

/// "Roles may be any two bytes": each of the four places takes every digit and nothing else, in every operation.
#[test]
fn sixteen_digits_in_the_roles() {
    let book = b"0101000102\n0401000001\n050100000000\n";
    let roles = book.len() - 7..book.len() - 3;
    let (mut ledger, mut view, mut out) = ([0; LEDGER_SIZE], [0; VIEW_SIZE], vec![0; PLAN_MAX]);
    bytes::open(book, &mut ledger).expect("opens");
    for (k, place) in roles.enumerate() {
        let mut digits = 0;
        for byte in 0..=255 {
            let mut text = book.to_vec();
            text[place] = byte;
            let answers = [
                bytes::open(&text, &mut ledger).err(),
                bytes::request(&text, &mut ledger, &[1, 0, 0, 0, 0]).err(),
                bytes::show_into(&text, &ledger, Person(0), &mut view).err(),
                bytes::plan_into(&text, &mut out).err(),
                bytes::replay(&text, &[]).err(),
            ];
            let accepted = [None, Some(Refusal::NoRule), None, None, None];
            digits += usize::from(answers == accepted);
            let expected = match byte {
                // The line ends behind `050100` and so many digits of the roles: too short, or odd.
                LINE_END if k % 2 == 0 => [Some(Refusal::BadLength { line: 3 }); 5],
                byte if is_digit(byte) => accepted,
                _ => [Some(Refusal::BadLine { line: 3 }); 5],
            };
            assert_eq!(answers, expected, "byte {byte:02X} at place {k} of the roles");
        }
        assert_eq!(digits, 16);
    }
}

/// "Sets are big-endian, weight 2^v for number v". One rule, of role r, adds the value that is wanted: there is a way
/// exactly where r is one of the query's roles, and it is this one request.
#[test]
fn values_of_digits_in_the_roles() {
    for (roles, set) in (0..=255).flat_map(|byte| sets(2, byte)) {
        for role in 0..16 {
            let text = format!("0101000101\n0301{}000000\n050100{roles}01000001\n", two(role));
            let way = (set >> role & 1 == 1).then(|| vec![[1, role, 0, 0, 0]]);
            assert_eq!(planned(&text), way, "roles {roles}, role {role}");
        }
    }
}

/// In these books each member of a set may be added and none deleted, so the plan adds those of the set that mode 02
/// wants, and no others.
fn adds_what_is_wanted(bytes: u32, book: impl Fn(&str) -> String, request: impl Fn(u8) -> [u8; REQUEST_SIZE]) {
    for (wanted, set) in (0..=255).flat_map(|byte| sets(bytes, byte)) {
        let mut plan = planned(&book(&wanted)).expect("a way");
        plan.sort_unstable();
        let members = (0..32).filter(|member| set >> member & 1 == 1);
        assert!(members.map(&request).eq(plan), "{wanted} is wanted");
    }
}

#[test]
fn values_of_digits_in_a_set() {
    let rules: String = (0..16).map(|v| format!("03010000{}00\n", two(v))).collect();
    adds_what_is_wanted(2, |set| format!("0101000110\n{rules}05020000010100{set}00000000\n"), |v| [1, 0, 0, 0, v]);
}

#[test]
fn values_of_digits_in_the_crews() {
    let rules: String = (0..32).map(|c| format!("030500{}0000\n", two(c))).collect();
    adds_what_is_wanted(4, |crews| format!("0101200101\n{rules}050200000100{crews}\n"), |c| [5, 0, 0, c, 0]);
}

/// Fields of one byte: each takes the values of its range, and 5 falls on all others.
#[test]
fn values_of_digits_in_a_field() {
    // The lines around the field, its range, and the line that is refused.
    let fields: [(&str, &str, RangeInclusive<u8>, usize); 8] = [
        ("01", "000101\n050100000000\n", 1..=64, 1),
        ("0101", "0101\n050100000000\n", 0..=32, 1),
        ("01010001", "\n050100000000\n", 1..=16, 1),
        ("010100020D", "\n050100000000\n", 1..=16, 1),
        ("014020020D10\n0301", "000000\n050100000000\n", 0..=15, 2),
        ("014020020D10\n03010001", "00\n050100000000\n", 0..=15, 2),
        ("014020020D10\n030500", "0000\n050100000000\n", 0..=31, 2),
        ("014020020D10\n0501", "000000\n", 0..=63, 2),
    ];
    for (before, behind, range, line) in fields {
        for byte in 0..=255 {
            let text = format!("{before}{}{behind}", two(byte));
            let expected = if range.contains(&byte) { Ok(()) } else { Err(Refusal::BadField { line }) };
            assert_eq!(Book::new(&text).open().map(|_| ()), expected, "{text}");
        }
    }
}

/// The number of attributes gives the length of its line, over 128 characters from 61 on. 5 falls on 0 and on those
/// over 8, and 4 on a line with a count more or one less.
#[test]
fn values_of_digits_in_the_attributes() {
    let opened = |text: String| Book::new(&text).open().map(|_| ());
    for n in 0..=255 {
        let headed = |counts: usize| format!("010100{}{}\n050100000000\n", two(n), "01".repeat(counts));
        let expected = if (1..=8).contains(&n) { Ok(()) } else { Err(Refusal::BadField { line: 1 }) };
        assert_eq!(opened(headed(n.into())), expected, "{n} attributes");
        for counts in [usize::from(n) + 1].into_iter().chain(usize::from(n).checked_sub(1)) {
            assert_eq!(opened(headed(counts)), Err(Refusal::BadLength { line: 1 }), "{n} attributes, {counts} counts");
        }
    }
}

/// A rule of n terms, 20 to 255, is a line of over 128 characters. 5 falls on it, and 4 on one with a term more.
#[test]
fn values_of_digits_in_a_long_line() {
    for n in 20..=255 {
        let rule = format!("0101010102\n0301000000{}{}", two(n), "010000".repeat(n.into()));
        let opened = |text: String| Book::new(&text).open().map(|_| ());
        assert_eq!(opened(format!("{rule}\n")), Err(Refusal::BadField { line: 2 }), "{n} terms");
        assert_eq!(opened(format!("{rule}010000\n")), Err(Refusal::BadLength { line: 2 }), "{n} terms and one");
    }
}

/// "Person p's attribute a is a two-byte set at 16·p + 2·a, crew c's at 1,024 + 16·c + 2·a": the ledger of one fact.
#[test]
fn values_of_digits_in_a_fact() {
    for (k, first, subjects) in [(1, 0, 64), (2, 1_024, 32)] {
        for byte in 0..=255 {
            for [s, a, v] in [[byte, 0, 0], [0, byte, 0], [0, 0, byte]] {
                let sizes = "014020081010101010101010";
                let text = format!("{sizes}\n04{}{}{}{}\n050100000000\n", two(k), two(s), two(a), two(v));
                let ledger = Book::new(&text).open().map(Ledger::into_bytes);
                let expected = if s < subjects && a < 8 && v < 16 {
                    let mut ledger = [0; LEDGER_SIZE];
                    let at = first + 16 * usize::from(s) + 2 * usize::from(a);
                    ledger[at..at + 2].copy_from_slice(&(1_u16 << v).to_be_bytes());
                    Ok(ledger)
                } else {
                    Err(Refusal::BadField { line: 2 })
                };
                assert!(ledger == expected, "{text}");
            }
        }
    }
}
