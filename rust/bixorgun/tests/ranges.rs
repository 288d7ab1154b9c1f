//! Each attribute has its own range: "All value fields, query sets and ledger bits are bounded by their own attribute's
//! count." Attributes of different counts stand beside each other, so that most numbers are in range for one and out of
//! range for its neighbour.

mod lent;

use bixorgun::bytes::{self, Planned};
use bixorgun::{
    plan_size, Attr, Book, Crew, Judgement, Ledger, Person, Refusal, LEDGER_SIZE, PAGE_SIZE, PLAN_MAX, VIEW_SIZE,
};
use lent::{kept, pattern};

/// The counts of books of 2, 3 and 8 attributes; no two neighbours have the same.
const COUNTS: [&[u8]; 4] = [&[3, 16], &[16, 3], &[1, 2, 15], &[3, 16, 1, 7, 2, 12, 5, 9]];

const PERSONS: u8 = 2;
const CREWS: u8 = 2;

fn hex(bytes: &[u8]) -> String {
    bytes.iter().map(|byte| format!("{byte:02X}")).collect()
}

/// A query for nothing, and that of mode 03, which a book with a "not" term has.
const QUERY: &str = "050100FFFF00\n";
const NOT_QUERY: &str = "050300FFFF0000000000\n";

/// A book's first line, of so many persons and crews and these counts.
fn sizes(persons: u8, crews: u8, counts: &[u8]) -> String {
    format!("{}{}\n", hex(&[1, persons, crews, counts.len() as u8]), hex(counts))
}

/// A book of two persons, two crews and these counts.
fn small(counts: &[u8], lines: &str, query: &str) -> String {
    [&sizes(PERSONS, CREWS, counts), lines, query].concat()
}

/// How many values an attribute has; none where the book has no such attribute.
fn count_of(counts: &[u8], a: u8) -> u8 {
    counts.get(usize::from(a)).copied().unwrap_or(0)
}

/// Each attribute with each of its own values.
fn values(counts: &'static [u8]) -> impl Iterator<Item = [u8; 2]> {
    (0..).zip(counts).flat_map(|(a, &count)| (0..count).map(move |v| [a, v]))
}

/// Every attribute and value up to one beyond the largest, and the largest byte.
fn numbers() -> impl Iterator<Item = [u8; 2]> {
    (0..=8).chain([255]).flat_map(|a| (0..=16).chain([255]).map(move |v| [a, v]))
}

/// What all six operations say of a book: its refusal, and what they were lent is as it was; or none of 1 to 9, 16 and 17,
/// but for the page of a book of mode 03, which is 17.
fn judged(text: &str) -> Result<(), Refusal> {
    let (book, any) = (text.as_bytes(), [1, 0, 0, 0, 0]);
    let opened = Book::new(text).open();
    let mut ledger = opened.clone().map_or([0; LEDGER_SIZE], Ledger::into_bytes);
    let Err(refusal) = opened else {
        assert!(matches!(
            bytes::request(book, &mut ledger, &any),
            Ok(()) | Err(Refusal::NoRule | Refusal::UnmetTerm { .. })
        ));
        assert!(bytes::show(book, &ledger, Person(0)).is_ok(), "{text}");
        assert!(Book::new(text).plan().is_ok() && bytes::replay(book, &any).is_ok(), "{text}");
        let line = text.lines().count();
        let of_page = if text.contains("\n0503") { Err(Refusal::WrongMode { line }) } else { Ok(()) };
        assert_eq!(bytes::page(book, &mut pattern(PAGE_SIZE)), of_page, "{text}");
        return Ok(());
    };
    let refusals = [
        kept(&pattern(LEDGER_SIZE), |lent| bytes::open(book, lent).err()),
        kept(&pattern(LEDGER_SIZE), |lent| bytes::request(book, lent, &any).err()),
        kept(&ledger, |lent| bytes::request(book, lent, &any).err()),
        kept(&pattern(VIEW_SIZE), |lent| bytes::show_into(book, &ledger, Person(0), lent).err()),
        kept(&pattern(PLAN_MAX), |lent| bytes::plan_into(book, lent).err()),
        kept(&pattern(PAGE_SIZE), |lent| bytes::page(book, lent).err()),
    ];
    assert_eq!(refusals, [refusal; 6], "{text}");
    assert_eq!(bytes::replay(book, &any), Err(refusal), "{text}");
    Err(refusal)
}

/// Tries a frame with every attribute and value in the second line: 5 falls exactly where the value is not below the
/// attribute's own count.
fn try_values(query: &str, frame: impl Fn([u8; 2]) -> Vec<u8>) {
    for counts in COUNTS {
        for [a, v] in numbers() {
            let text = small(counts, &(hex(&frame([a, v])) + "\n"), query);
            let expected = if v < count_of(counts, a) { Ok(()) } else { Err(Refusal::BadField { line: 2 }) };
            assert_eq!(judged(&text), expected, "{text}");
        }
    }
}

#[test]
fn values_of_rules() {
    for op in 1..=4 {
        try_values(QUERY, |[a, v]| vec![3, op, 0, a, v, 0]);
    }
}

/// Of each kind in every op that may have it, of kind 05 in each of a rule's eight places, and of kind 81 in the last.
#[test]
fn values_of_terms() {
    for (op, kind) in (1..=6).flat_map(|op| [1, 2, 5].map(|kind| (op, kind))) {
        try_values(QUERY, |[a, v]| vec![3, op, 0, 0, 0, 1, kind, a, v]);
    }
    for op in [1, 3, 5] {
        try_values(NOT_QUERY, |[a, v]| vec![3, op, 0, 0, 0, 1, 0x81, a, v]);
    }
    for (place, kind, query) in (0..8).map(|place| (place, 5, QUERY)).chain([(7, 0x81, NOT_QUERY)]) {
        try_values(query, |[a, v]| {
            let mut terms = [[kind, 1, 1]; 8];
            terms[place] = [kind, a, v];
            [&[3, 1, 0, 0, 0, 8][..], terms.as_flattened()].concat()
        });
    }
}

#[test]
fn values_of_starting_facts() {
    for k in [1, 2] {
        try_values(QUERY, |[a, v]| vec![4, k, 1, a, v]);
    }
}

/// Each number alone and beside the lowest, all below every number, in each mode, named alone and as the second of two
/// attributes. An attribute that is not there is 5 with any set.
#[test]
fn sets_of_queries() {
    let ones = (0..16).flat_map(|v| [1_u32 << v, 1 << v | 1]);
    let sets: Vec<u16> = ones.chain((0..=16).map(|n| (1 << n) - 1)).map(|set| set as u16).collect();
    for counts in COUNTS {
        for (a, &set) in (0..=8).flat_map(|a| sets.iter().map(move |set| (a, set))) {
            let is_good = a < counts.len() as u8 && u32::from(set) < 1 << count_of(counts, a);
            let [high, low] = set.to_be_bytes();
            let not = "030100000001810000\n";
            for (mode, crews, rules) in [(1, &[][..], ""), (2, &[0, 0, 0, 3], ""), (3, &[0, 0, 0, 3], not)] {
                let alone = [&[5, mode, 0, 255, 255, 1, a, high, low][..], crews].concat();
                let whole = (1_u32 << counts[0]) - 1;
                let first = [0, (whole >> 8) as u8, whole as u8];
                let second = [&[5, mode, 0, 255, 255, 2][..], &first, &[a, high, low], crews].concat();
                for query in [Some(alone), (a > 0).then_some(second)].into_iter().flatten() {
                    let text = small(counts, rules, &(hex(&query) + "\n"));
                    let line = text.lines().count();
                    let expected = if is_good { Ok(()) } else { Err(Refusal::BadField { line }) };
                    assert_eq!(judged(&text), expected, "{text}");
                }
            }
        }
    }
}

/// Of a request whose value is in range the book has no rule; 12 falls on every other one, and replay stops at either.
#[test]
fn values_of_requests() {
    let ledger = [0; LEDGER_SIZE];
    for counts in COUNTS {
        let text = small(counts, "", QUERY);
        for (op, [a, v]) in (1..=4).flat_map(|op| numbers().map(move |both| (op, both))) {
            let request = [op, 0, 1, a, v];
            let refusal = kept(&ledger, |ledger| bytes::request(text.as_bytes(), ledger, &request).err());
            let expected = if v < count_of(counts, a) { Refusal::NoRule } else { Refusal::BadRequest };
            assert_eq!(refusal, expected, "{request:?} of {text}");
            assert_eq!(bytes::replay(text.as_bytes(), &request), Ok(Judgement::Stops(1)));
        }
    }
}

/// The bits within the sizes, by the ledger's places: the sets of persons at 16·p + 2·a and of crews at 1,024 + 16·c +
/// 2·a, both up to the attribute's count, and the crews of persons at 1,536 + 4·p; big-endian.
fn within(counts: &[u8]) -> Vec<(usize, u8)> {
    let mut bits = Vec::new();
    let mut put = |set: usize, last: usize, number: u8| bits.push((set + last - usize::from(number) / 8, number % 8));
    for (first, subjects) in [(0, PERSONS), (1_024, CREWS)] {
        for (s, (a, &count)) in (0..subjects).flat_map(|s| counts.iter().enumerate().map(move |each| (s, each))) {
            (0..count).for_each(|v| put(first + 16 * usize::from(s) + 2 * a, 1, v));
        }
    }
    for p in 0..PERSONS {
        (0..CREWS).for_each(|c| put(1_536 + 4 * usize::from(p), 3, c));
    }
    bits
}

/// Every bit of a ledger by itself: 11 falls on request and show exactly where it is outside.
#[test]
fn bits_of_ledgers() {
    for counts in COUNTS {
        let text = small(counts, "030100000000\n", QUERY);
        let (book, within, request) = (text.as_bytes(), within(counts), [1, 0, 1, 0, 0]);
        let mut inside = 0;
        for (at, bit) in (0..LEDGER_SIZE).flat_map(|at| (0..8).map(move |bit| (at, bit))) {
            let mut ledger = [0; LEDGER_SIZE];
            ledger[at] = 1 << bit;
            if within.contains(&(at, bit)) {
                inside += 1;
                assert!(bytes::show(book, &ledger, Person(0)).is_ok(), "bit {bit} of byte {at}, {text}");
                assert_eq!(bytes::request(book, &mut ledger, &request), Ok(()), "bit {bit} of byte {at}, {text}");
                continue;
            }
            let shown = kept(&pattern(VIEW_SIZE), |view| bytes::show_into(book, &ledger, Person(0), view).err());
            let asked = kept(&ledger, |ledger| bytes::request(book, ledger, &request).err());
            assert_eq!([shown, asked], [Refusal::BadLedger; 2], "bit {bit} of byte {at}, {text}");
        }
        let values: u32 = counts.iter().map(|&count| u32::from(count)).sum();
        assert_eq!(inside, u32::from(PERSONS + CREWS) * values + u32::from(PERSONS * CREWS));
    }
}

/// A person who holds all that there is, directly or by the junior of a crew, is shown each attribute's own values, and
/// none of an attribute that the book lacks.
#[test]
fn sets_of_show() {
    for counts in COUNTS {
        let facts = |k: u8| -> String { values(counts).map(|[a, v]| hex(&[4, k, 0, a, v]) + "\n").collect() };
        for lines in [facts(1), format!("020100\n0403000100\n{}", facts(2))] {
            let text = small(counts, &lines, QUERY);
            let book = Book::new(&text);
            let view = book.open().expect("opens").show(&book, Person(0)).expect("shown");
            for a in 0..8 {
                let own = (1_u32 << count_of(counts, a)) - 1;
                assert_eq!(u32::from(view.values(Attr(a)).bits()), own, "attribute {a}, {text}");
            }
            assert_eq!(view.crews().contains(Crew(0)), lines.starts_with("02"));
        }
    }
}

/// The page of a book, over bytes that are not a page's.
fn page(text: &str) -> [u8; PAGE_SIZE] {
    let mut table = [0xA5; PAGE_SIZE];
    assert_eq!(bytes::page(text.as_bytes(), &mut table), Ok(()), "{text}");
    table
}

/// The page on which so many persons, from 0 on, have such a set of each attribute: two bytes at 16·p + 2·a,
/// big-endian.
fn paged(persons: u8, set: impl Fn(u8) -> u32) -> [u8; PAGE_SIZE] {
    let mut table = [0; PAGE_SIZE];
    for (p, a) in (0..persons).flat_map(|p| (0..8).map(move |a| (p, a))) {
        let [.., high, low] = set(a).to_be_bytes();
        table[16 * usize::from(p) + 2 * usize::from(a)..][..2].copy_from_slice(&[high, low]);
    }
    table
}

/// Person 0 is in crew 1, the senior of crew 0. All that there is, and then each value alone, is held by person 0, held
/// by crew 0, may be added to anybody, or to a crew: the page has each attribute's own values, and not a bit beyond.
#[test]
fn sets_of_pages() {
    let ways: [(&[u8], u8); 4] = [(&[4, 1, 0], 1), (&[4, 2, 0], 1), (&[3, 1, 0], PERSONS), (&[3, 3, 0], 1)];
    for (counts, (front, persons)) in COUNTS.into_iter().flat_map(|counts| ways.map(|way| (counts, way))) {
        let line = |[a, v]: [u8; 2]| hex(&[front, &[a, v]].concat()) + if front[0] == 3 { "00\n" } else { "\n" };
        let text = |lines: String| small(counts, &format!("020100\n0403000100\n{lines}"), QUERY);
        let all = text(values(counts).map(line).collect());
        assert_eq!(page(&all), paged(persons, |a| (1 << count_of(counts, a)) - 1), "{all}");
        for [a, v] in values(counts) {
            let alone = text(line([a, v]));
            assert_eq!(page(&alone), paged(persons, |b| u32::from(a == b) << v), "{alone}");
        }
    }
}

/// "holds when the subject effectively holds v or any higher value of a": up to the attribute's own highest, held
/// directly or by crew 1. A value of a neighbour is none of a. To be assigned to crew 0 the person needs the term alone.
#[test]
fn ladders_reach_the_own_count() {
    for counts in COUNTS {
        for ([a, v], [b, w]) in values(counts).flat_map(|term| values(counts).map(move |held| (term, held))) {
            let rule = hex(&[3, 5, 0, 0, 0, 1, 5, a, v]);
            let (direct, by_crew) = (hex(&[4, 1, 0, b, w]), hex(&[4, 2, 1, b, w]) + "\n0403000100");
            for (held, crews) in [(direct, 1), (by_crew, 3)] {
                let text = small(counts, &format!("{held}\n{rule}\n"), &format!("050200FFFF00{crews:08X}\n"));
                let is_met = b == a && w >= v;
                let mut ledger = Book::new(&text).open().expect("opens").into_bytes();
                let asked = bytes::request(text.as_bytes(), &mut ledger, &[5, 0, 0, 0, 0]);
                let expected = if is_met { Ok(()) } else { Err(Refusal::UnmetTerm { rule: 1, term: 1 }) };
                assert_eq!(asked, expected, "{text}");
                let planned = bytes::plan_into(text.as_bytes(), &mut vec![0; PLAN_MAX]);
                assert_eq!(planned, Ok(if is_met { Planned::Plan(1) } else { Planned::NoWay }), "{text}");
            }
        }
    }
}

/// "F becomes (1 + G) × the sum of the counts, plus G": a buffer of 10 × F bytes is long enough, and one of a byte less
/// is not.
#[test]
fn the_plans_buffer() {
    let others: [&[u8]; 5] = [&[1], &[16], &[1; 8], &[16; 8], &[1, 2, 4, 6, 8, 10, 13, 16]];
    for (counts, crews) in COUNTS.into_iter().chain(others).flat_map(|counts| [0, 1, 5, 32].map(|g| (counts, g))) {
        let values: usize = counts.iter().map(|&count| usize::from(count)).sum();
        let facts = (1 + usize::from(crews)) * values + usize::from(crews);
        assert_eq!(plan_size(crews.into(), values), 10 * facts);
        // The same with a "not" term.
        let queries = [
            ("", QUERY, Planned::Plan(0)),
            ("", "050100FFFF01000001\n", Planned::NoWay),
            ("030100000001810000\n", NOT_QUERY, Planned::Plan(0)),
            ("030100000001810000\n", "05030000000100000100000000\n", Planned::NoWay),
        ];
        for (rules, query, planned) in queries {
            let text = sizes(64, crews, counts) + rules + query;
            let short = kept(&pattern(10 * facts - 1), |out| bytes::plan_into(text.as_bytes(), out).err());
            assert_eq!(short, Refusal::ShortPlanBuffer, "{text}");
            for length in [10 * facts, 10 * facts + 1, PLAN_MAX] {
                let mut out = pattern(length);
                assert_eq!(bytes::plan_into(text.as_bytes(), &mut out), Ok(planned), "{length} bytes, {text}");
                assert!(out == pattern(length));
            }
        }
    }
    assert_eq!(plan_size(32, 128), PLAN_MAX);
}

/// A book of a first line and a query.
fn headed(first: &[u8]) -> String {
    format!("{}\n{QUERY}", hex(first))
}

/// "Refusal 4 judges frame 01 by its A": the A that is written, whatever it is, and before 5. A line of over 64 bytes,
/// from A = 61 on, is read in another way.
#[test]
fn the_length_of_the_first_line() {
    let (wrong, outside) = (Err(Refusal::BadLength { line: 1 }), Err(Refusal::BadField { line: 1 }));
    for attrs in 0..=255_u8 {
        let due = usize::from(attrs);
        for given in (due.saturating_sub(2)..=due + 2).chain([0, 1, 2, 8, 9, 60, 61, 255]) {
            for ([persons, crews], count) in
                [[1, 0], [64, 32], [0, 0], [1, 33]].iter().flat_map(|both| [1, 16, 0, 17].map(|count| (both, count)))
            {
                let ranges = [(1, 64, *persons), (0, 32, *crews), (1, 8, attrs), (1, 16, count)];
                let is_good = ranges.iter().all(|(least, most, field)| (least..=most).contains(&field));
                let expected = match (given == due, is_good) {
                    (false, _) => wrong,
                    (true, true) => Ok(()),
                    (true, false) => outside,
                };
                let text = headed(&[&[1, *persons, *crews, attrs][..], &vec![count; given]].concat());
                assert_eq!(Book::new(&text).open().map(|_| ()), expected, "{text}");
            }
        }
    }
    // Too short to have its A; without counts; with too few, enough and too many of them.
    for (first, expected) in [
        (&[1][..], wrong),
        (&[1, 1], wrong),
        (&[1, 1, 1], wrong),
        (&[1, 0, 255], wrong),
        (&[1, 1, 1, 0], outside),
        (&[1, 1, 1, 0, 1], wrong),
        (&[1, 1, 1, 1], wrong),
        (&[1, 1, 1, 2, 3], wrong),
        (&[1, 1, 1, 2, 3, 16], Ok(())),
        (&[1, 1, 1, 2, 3, 16, 16], wrong),
        (&[1, 1, 1, 8, 3, 16, 1, 7, 2, 12, 5, 9], Ok(())),
        (&[1, 1, 1, 9, 3, 16, 1, 7, 2, 12, 5, 9], wrong),
        (&[1, 1, 1, 9, 3, 16, 1, 7, 2, 12, 5, 9, 9], outside),
    ] {
        assert_eq!(judged(&headed(first)), expected, "{first:?}");
    }
    for (attrs, given, expected) in [(60, 60, outside), (60, 61, wrong), (61, 61, outside), (61, 60, wrong)] {
        assert_eq!(judged(&headed(&[&[1, 1, 1, attrs][..], &vec![1; given]].concat())), expected, "{attrs}, {given}");
    }
    assert_eq!(judged(&headed(&[&[1, 1, 1, 255][..], &[1; 255]].concat())), outside);
    assert_eq!(judged(&headed(&[&[1, 1, 1, 255][..], &[1; 254]].concat())), wrong);
    // A later 01 is refused by 3, whatever its length.
    for later in ["01\n", "0101010102\n", "01010101\n", "010101020310\n"] {
        assert_eq!(judged(&small(COUNTS[0], later, QUERY)), Err(Refusal::BadFrame { line: 2 }));
    }
}

/// "one count of 1-16 for each attribute": every byte at the place of each, beside good ones.
#[test]
fn the_counts_of_the_first_line() {
    let mut good = 0;
    for attrs in 1..=8 {
        for (place, count) in (0..attrs).flat_map(|place| (0..=255).map(move |count| (place, count))) {
            let mut counts = COUNTS[3][..attrs].to_vec();
            counts[place] = count;
            let expected = if (1..=16).contains(&count) { Ok(()) } else { Err(Refusal::BadField { line: 1 }) };
            assert_eq!(judged(&small(&counts, "", QUERY)), expected, "{counts:?}");
            good += usize::from(expected.is_ok());
        }
    }
    assert_eq!(good, 36 * 16);
}
