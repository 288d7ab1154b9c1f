//! The front end's reading of hexadecimal books against the library's: the same number and line for every refused book, and
//! the same books accepted. Each reason has its column and its words.

use bixorgun::{bytes, Refusal, LEDGER_SIZE, PAGE_SIZE};
use depot::fault::Fault;
use depot::hex;
use depot::model::{Depot, Fact, Mode, Question, Rule, Statement};
use reference::gen::{self, Limit, Rng};

mod books;

use books::{drawn, stored};

/// The refusals of a book.
const OF_BOOKS: [u8; 11] = [1, 2, 3, 4, 5, 6, 7, 8, 9, 16, 17];

fn library(book: &[u8]) -> Result<(), Refusal> {
    bytes::open(book, &mut [0; LEDGER_SIZE])
}

/// Both readings of a book compared; the number of its refusal, 0 where it is accepted.
fn compare(book: &[u8], of: &str) -> u8 {
    let told = library(book);
    match (hex::read(book), &told) {
        (Ok(depot), Ok(())) => {
            if depot.has_not() {
                no_page(book, 17, of);
            }
            assert_eq!(String::from_utf8_lossy(&written(&depot)), String::from_utf8_lossy(book), "{of}");
            0
        }
        (Err(own), Err(refusal)) => {
            assert_eq!((own.number, Some(own.line)), (refusal.number(), refusal.line()), "{of}: {own:?}");
            assert_eq!(own.fault, hex::explain(book, refusal), "{of}");
            within(book, &own.fault, own.number, own.line, of);
            no_page(book, own.number, of);
            own.number
        }
        (own, _) => panic!("{of}: {own:?}, but the library says {told:?}"),
    }
}

/// The page is refused by this number too, and not for the number's sake alone.
fn no_page(book: &[u8], number: u8, of: &str) {
    let refusal = bytes::page(book, &mut [0; PAGE_SIZE]).expect_err(of);
    let fault = hex::explain_page(book, &refusal);
    assert_eq!((refusal.number(), refusal.line()), (number, Some(fault.line)), "{of}");
    assert!(fault.refusal == Some(number) && !refusal.to_string().ends_with(&fault.text), "{of}: {fault:?}");
}

/// The fault stands in its line or right behind it, and says something.
fn within(book: &[u8], fault: &Fault, number: u8, line: usize, of: &str) {
    assert_eq!((fault.line, fault.refusal), (line, Some(number)), "{of}: {fault:?}");
    assert!(!fault.text.is_empty() && !fault.text.contains('\n') && !fault.help.contains('\n'), "{of}: {fault:?}");
    if matches!(number, 1 | 16) {
        assert_eq!((fault.column, fault.width), (0, 0), "{of}: {fault:?}");
        return;
    }
    let text = book.split(|&character| character == b'\n').nth(line - 1).unwrap_or_else(|| panic!("{of}: {fault:?}"));
    let (column, width) = (fault.column, fault.width);
    assert!(column >= 1 && width >= 1 && column <= text.len() + 1, "{of}: {fault:?}");
    assert!(column + width <= text.len() + 1 || (column, width) == (text.len() + 1, 1), "{of}: {fault:?}");
}

/// A book of what was read of it: a second way from the model to the bytes, so that nothing is lost in reading.
fn written(depot: &Depot) -> Vec<u8> {
    let mut first = vec![1, depot.persons.len() as u8, depot.crews.len() as u8, depot.attributes.len() as u8];
    first.extend(depot.attributes.iter().map(|attribute| attribute.values.len() as u8));
    let mut frames = vec![first];
    for (place, said) in depot.statements.iter().enumerate() {
        assert_eq!(said.line, place + 2);
        frames.push(frame(&said.what));
    }
    let question = depot.question.as_ref().expect("a question");
    assert_eq!(question.line, depot.statements.len() + 2);
    frames.push(query(&question.what));
    let lines = frames.iter().map(|frame| frame.iter().map(|byte| format!("{byte:02X}")).collect::<String>() + "\n");
    lines.collect::<String>().into_bytes()
}

fn frame(statement: &Statement) -> Vec<u8> {
    match statement {
        Statement::Over { senior, junior } => vec![2, *senior, *junior],
        Statement::Rule(Rule { op, lead, a, v, terms }) => {
            let front = [3, *op as u8, *lead, *a, *v, terms.len() as u8];
            front.into_iter().chain(terms.iter().flat_map(|term| [term.kind as u8, term.a, term.v])).collect()
        }
        Statement::Fact(Fact::PersonHas { person, attribute, value }) => vec![4, 1, *person, *attribute, *value],
        Statement::Fact(Fact::CrewHas { crew, attribute, value }) => vec![4, 2, *crew, *attribute, *value],
        Statement::Fact(Fact::PersonIn { person, crew }) => vec![4, 3, *person, *crew, 0],
    }
}

fn query(question: &Question) -> Vec<u8> {
    let Question { mode, person, leads, wants, crews } = question;
    let mut frame = vec![5, *mode as u8, *person];
    frame.extend(leads.to_be_bytes());
    frame.push(wants.len() as u8);
    frame.extend(wants.iter().flat_map(|(attribute, set)| [*attribute, set.to_be_bytes()[0], set.to_be_bytes()[1]]));
    if *mode != Mode::AtLeast {
        frame.extend(crews.to_be_bytes());
    }
    frame
}

#[test]
fn stored_books() {
    let books = stored();
    let mut counts = [0; 18];
    for (name, book) in &books {
        counts[usize::from(compare(book, name))] += 1;
    }
    println!("{} stored books, by refusals: {counts:?}", books.len());
    assert!(books.len() >= 660 && counts[0] > 200);
    assert!(OF_BOOKS.iter().all(|&number| counts[usize::from(number)] > 0), "{counts:?}");
}

/// A book damaged in one of many ways; some are good.
fn damaged(rng: &mut Rng) -> Vec<u8> {
    let mut draft = drawn(rng);
    let kind = rng.below(100);
    let damaged = match kind {
        0..=43 => gen::damaged_book(rng, OF_BOOKS[kind % OF_BOOKS.len()], &draft),
        44..=51 => gen::neighbours_book(rng, &draft),
        52..=57 => {
            let bad = if kind < 55 { gen::bad_counts } else { gen::bad_sizes };
            draft.frames[0] = bad(rng, &draft.sizes);
            None
        }
        58..=65 if draft.has_not() => {
            let limit = rng.pick(&Limit::ALL);
            gen::break_limit(rng, &mut draft, limit);
            None
        }
        66..=69 => {
            gen::wrong_mode(rng, &mut draft);
            None
        }
        70..=81 => Some((gen::bent_book(rng, &draft.text()), 0)),
        _ => None,
    };
    let mut text = damaged.map_or_else(|| draft.text(), |(text, _)| text);
    // On a book that is damaged already too: which of two faults comes first is told as well.
    if kind >= 82 || rng.percent(15) {
        gen::noise(rng, &mut text);
    }
    text
}

#[test]
fn damaged_books() {
    let mut counts = [0; 18];
    let mut refused = 0;
    for seed in 0x0DE9_0700_0000_u64.. {
        if refused == 20_000 {
            break;
        }
        let book = damaged(&mut Rng::new(seed));
        let of = format!("seed {seed:#X}, {}", String::from_utf8_lossy(&book[..book.len().min(2_000)]));
        let number = compare(&book, &of);
        counts[usize::from(number)] += 1;
        refused += usize::from(number > 0);
    }
    println!("20,000 damaged books that are refused, and those that are still good: {counts:?}");
    assert!(counts[0] >= 500, "{counts:?}");
    assert!(OF_BOOKS.iter().all(|&number| counts[usize::from(number)] >= 50), "{counts:?}");
}

/// The first example of the page on books.
const EXAMPLE: [&str; 8] = [
    "010202020310\n",
    "020100\n",
    "0401000000\n",
    "0402000001\n",
    "030501010001010000\n",
    "030102000201020001\n",
    "030103010002010002020001\n",
    "050100000E01010001\n",
];

/// A depot that only grows, of the same page.
const GROWING: [&str; 5] =
    ["0101020101\n", "030500010002830000810000\n", "030101000000\n", "030502000001010000\n", "05030000070000000003\n"];

/// A book with one line replaced.
fn replaced(book: &[&str], line: usize, becomes: &(impl AsRef<[u8]> + ?Sized)) -> Vec<u8> {
    let lines = book.iter().enumerate();
    lines.map(|(at, text)| if at + 1 == line { becomes.as_ref() } else { text.as_bytes() }).collect::<Vec<_>>().concat()
}

/// A line of the first example, what it becomes (with the escapes of the page on books), and of the refusal the number, line,
/// column, width and words.
const REASONS: &str = r#"
8 | 050100000e01010001\n | 2 8:10+1 | lower case, but the digits of a book are 0 to 9 and A to F
1 | 010202020310\r\n | 2 1:13+1 | the line ends with 0D 0A, as Windows writes it; a book's lines end with 0A alone
1 | 010202020310\r | 2 1:13+1 | a 0D, with which old Macs ended a line; a book's lines end with 0A alone
8 | 050100000E01010001\n\n | 2 9:1+1 | an empty line, but each line of a book is a frame
1 | \xEF\xBB\xBF010202020310\n | 2 1:1+3 | a BOM (EF BB BF), which an editor wrote there; a book has digits alone
8 | 050100000E01010001 | 2 8:19+1 | the last line has no end, but each line of a book ends with 0A
2 | 02 01 00\n | 2 2:3+1 | a blank, but a book has digits alone
2 | \t\xC2\xA0 020100\n | 2 2:1+4 | 3 blanks, but a book has digits alone
2 | # crews\n | 2 2:1+7 | a comment, but a book has digits alone
2 | 020100// the crews\r\n | 2 2:7+12 | a comment, but a book has digits alone
2 | \n | 2 2:1+1 | an empty line, but each line of a book is a frame
2 | 02010\n | 2 2:5+1 | 5 digits, an odd number, but a byte has two
2 | 0x0201\n | 2 2:2+1 | `x` is no digit: there are 0 to 9 and A to F
2 | 0201\x000\n | 2 2:5+1 | the byte 00 is no digit: there are 0 to 9 and A to F
8 | 050100000fEeD1010001 | 2 8:10+1 | lower case, but the digits of a book are 0 to 9 and A to F
1 | 020100\n | 3 1:1+2 | the first frame is 02, but a book begins with its sizes, a frame 01
2 | 010202020310\n | 3 2:1+2 | a second frame 01, but a book gives its sizes once, in line 1
2 | 060100\n | 3 2:1+2 | frame kind 06: there are 01 to 05
8 | 050100000E01010001\n020100\n | 3 9:1+2 | a frame behind the query (line 8), but the query is a book's last line
8 | 020100\n | 3 9:1+1 | the book ends without a query
1 | 0102\n | 4 1:5+1 | a frame 01 has 4 bytes or more, and this line has 2
1 | 0102020203\n | 4 1:7+2 | A is 02 and one count follows
1 | 01020202031003\n | 4 1:7+2 | A is 02 and 3 counts follow
2 | 0201\n | 4 2:5+1 | a frame 02 has 3 bytes, and this line has 2
3 | 04010000000102\n | 4 3:11+4 | a frame 04 has 5 bytes, and this line has 7
5 | 0305010100\n | 4 5:11+1 | a frame 03 has 6 bytes or more, and this line has 5
7 | 030103010002\n | 4 7:11+2 | n is 02 and no term follows
7 | 030103010002010002\n | 4 7:11+2 | n is 02 and one term follows
7 | 0301030100020100020200\n | 4 7:23+1 | n is 02, which makes 12 bytes, and this line has 11
8 | 050100000E0101000100000000\n | 4 8:19+8 | a set of crews behind in mode 01: modes 02 and 03 alone have it
8 | 050200000E01010001\n | 4 8:19+1 | no set of crews behind, but mode 02 has one, four bytes
8 | 050100000E03000001010001\n | 4 8:11+2 | q is 03 and 2 attributes with their sets follow
8 | 050100000E010100\n | 4 8:17+1 | q is 01, which makes 9 bytes, and this line has 8
8 | 05010000\n | 4 8:9+1 | a frame 05 has 6 bytes or more, and this line has 4
1 | 014102020310\n | 5 1:3+2 | P is 41, 65 persons; a book has 1 to 64 (01 to 40)
1 | 010221020310\n | 5 1:5+2 | G is 21, 33 crews; a book has 0 to 32 (00 to 20)
1 | 01020200\n | 5 1:7+2 | A is 00, 0 attributes; a book has 1 to 8 (01 to 08)
1 | 010202020311\n | 5 1:11+2 | the count of attribute 01 is 11, 17 values; an attribute has 1 to 16 (01 to 10)
2 | 020200\n | 5 2:3+2 | crew 02, but this book has 2 crews, 00 and 01 (line 1: G is 02)
3 | 0401020000\n | 5 3:5+2 | person 02, but this book has 2 persons, 00 and 01 (line 1: P is 02)
3 | 0401000003\n | 5 3:9+2 | value 03, but attribute 00 has 3 values, 00 to 02 (line 1: its count is 03)
3 | 0401000200\n | 5 3:7+2 | attribute 02, but this book has 2 attributes, 00 and 01 (line 1: A is 02)
3 | 0403000001\n | 5 3:9+2 | v is 01, but in fact 03 a is a crew and v is 00
3 | 0404000000\n | 5 3:3+2 | k 04: there are 01, 02 and 03
5 | 030501010101010000\n | 5 5:9+2 | v is 01, but in op 05 a is a crew and v is 00
5 | 030701010001010000\n | 5 5:3+2 | op 07: there are 01 to 06
5 | 030510010001010000\n | 5 5:5+2 | role 10: there are 00 to 0F
5 | 030501010001830001\n | 5 5:17+2 | v is 01, but in term 83 a is a crew and v is 00
6 | 030102000201060001\n | 5 6:13+2 | term kind 06: there are 01 to 05, 81 and 83
6 | 030102000201050003\n | 5 6:17+2 | value 03, but attribute 00 has 3 values, 00 to 02 (line 1: its count is 03)
6 | 030102000209010000010000010000010000010000010000010000010000010000\n | 5 6:11+2 | n is 09, 9 terms; a rule has at most 8
6 | 030102000202030000010500\n | 5 6:21+2 | attribute 05, but this book has 2 attributes, 00 and 01 (line 1: A is 02)
8 | 050400000E01010001\n | 5 8:3+2 | mode 04: there are 01, 02 and 03
8 | 050100000E01000008\n | 5 8:15+4 | the set 0008 has value 03, but attribute 00 has 3 values, 00 to 02 (line 1: its count is 03)
8 | 050100000E01008010\n | 5 8:15+4 | the set 8010 has values 04 and 0F, but attribute 00 has 3 values, 00 to 02 (line 1: its count is 03)
8 | 050200000E0080000006\n | 5 8:13+8 | the set 80000006 has crews 02 and 1F, but this book has 2 crews, 00 and 01 (line 1: G is 02)
8 | 050100000E09000001000001000001000001000001000001000001000001000001\n | 5 8:11+2 | q is 09, 9 attributes; a query names at most 8
2 | 020001\n | 6 2:5+2 | the junior 01 is above the senior 00: the junior is the smaller number
2 | 020101\n | 6 2:5+2 | crew 01 over itself: the junior is the smaller number
6 | 030102000201040000\n | 7 6:13+2 | term 04 in op 01: terms on crews (03, 04 and 83) stand in ops 05 and 06 alone
6 | 030102000202010000830000\n | 7 6:19+2 | term 83 in op 01: terms on crews (03, 04 and 83) stand in ops 05 and 06 alone
8 | 050100000E02010001000001\n | 9 8:19+2 | attribute 01 before 00: the query's attributes rise
8 | 050100000E02010001010001\n | 9 8:19+2 | attribute 01 twice: the query's attributes rise, each named once
5 | 030501010001830000\n | 16 8:0+0 | the rule of line 6 asks what is effective (term 020001), but a book with a "not" (line 5: term 830000) asks what is direct alone
8 | 050300000E0101000100000000\n | 17 8:3+2 | mode 03, but no rule of this book has a "not" (term 81 or 83)
5 | 030501010001830100\n030602000000\n | 16 9:0+0 | the rule of line 6 removes (op 06), but a book with a "not" (line 5: term 830100) only grows
"#;

/// The same on the depot that only grows.
const LIMITS: &str = r#"
3 | 030101000000\n030102000000\n | 16 6:0+0 | lines 3 and 4 are two rules for op 01, a 00 and v 00, but a book with a "not" (line 2: term 830000) has one at most
3 | 030201000000\n | 16 5:0+0 | the rule of line 3 deletes (op 02), but a book with a "not" (line 2: term 830000) only grows
4 | 030502000001020000\n | 16 5:0+0 | the rule of line 4 asks what is effective (term 020000), but a book with a "not" (line 2: term 830000) asks what is direct alone
5 | 050100000700\n | 17 5:3+2 | mode 01, but a book with a "not" (line 2: term 830000) is asked in 03
5 | 05020000070000000003\n | 17 5:3+2 | mode 02, but a book with a "not" (line 2: term 830000) is asked in 03
"#;

/// A text with `\n`, `\r`, `\t` and `\xNN` for the bytes that they mean.
fn unescaped(text: &str) -> Vec<u8> {
    let mut parts = text.split('\\');
    let mut bytes = parts.next().unwrap_or_default().as_bytes().to_vec();
    for part in parts {
        let (sign, rest) = match part.split_at(1) {
            ("n", rest) => (b'\n', rest),
            ("r", rest) => (b'\r', rest),
            ("t", rest) => (b'\t', rest),
            ("x", rest) => (u8::from_str_radix(&rest[..2], 16).expect("two digits"), &rest[2..]),
            other => panic!("{other:?}"),
        };
        bytes.push(sign);
        bytes.extend(rest.as_bytes());
    }
    bytes
}

/// Each row of a table; how many there are.
fn rows(book: &[&str], table: &str) -> usize {
    let rows: Vec<&str> = table.lines().filter(|row| !row.is_empty()).collect();
    for row in &rows {
        let [line, becomes, place, text] = row.splitn(4, " | ").collect::<Vec<_>>()[..] else { panic!("{row}") };
        let book = replaced(book, line.parse().expect("a line"), &unescaped(becomes));
        let number = compare(&book, row);
        let Fault { line, column, width, text: own, .. } = hex::read(&book).expect_err(row).fault;
        assert_eq!((format!("{number} {line}:{column}+{width}").as_str(), own.as_str()), (place, text), "{row}");
    }
    rows.len()
}

#[test]
fn each_reason() {
    assert_eq!(rows(&EXAMPLE, REASONS) + rows(&GROWING, LIMITS), 71);
}

/// The number, line, column, width, text and help of a book's refusal.
fn told(book: &[u8]) -> (u8, usize, usize, usize, String, String) {
    let refusal = library(book).expect_err("refused");
    let Fault { line, column, width, text, help, refusal } = hex::explain(book, &refusal);
    (refusal.expect("a number"), line, column, width, text, help)
}

/// Refusals of many lines, and of none.
#[test]
fn whole_books() {
    let edges = replaced(&EXAMPLE, 2, &"020100\n".repeat(9_400));
    let (number, line, column, width, text, help) = told(&edges);
    assert_eq!((number, line, column, width), (1, 0, 0, 0));
    assert_eq!(text, "65,917 characters, but a book has at most 65,536, line ends counted");
    assert!(help.starts_with("leave out what plan does not need"));

    let million = vec![b'A'; 1 << 20];
    assert_eq!(told(&million).4, "1,048,576 characters, but a book has at most 65,536, line ends counted");

    let spaced = replaced(&EXAMPLE, 2, &"02 01 00\n".repeat(9_000));
    let (number, _, _, _, _, help) = told(&spaced);
    assert_eq!((number, help.as_str()), (1, "`depot tidy FILE` puts that right"));

    let rules = replaced(&EXAMPLE, 5, &"030501010000\n".repeat(513));
    let (number, line, column, width, text, _) = told(&rules);
    assert_eq!((number, line, column, width), (8, 517, 1, 12));
    assert_eq!(text, "the 513th rule: a book has at most 512");

    let (number, line, column, _, text, _) = told(b"");
    assert_eq!((number, line, column), (3, 1, 1));
    assert_eq!(text, "the book is empty");

    let wide: Vec<u8> = [0xFE, 0xFF].into_iter().chain(b"0102".iter().flat_map(|c| [0, *c])).collect();
    let (number, line, column, width, text, help) = told(&wide);
    assert_eq!((number, line, column, width), (2, 1, 1, 2));
    assert_eq!(text, "a BOM of UTF-16 (FE FF), two bytes for each character; a book has one");
    assert_eq!(help, "`depot tidy FILE` puts that right");

    let none = b"0101000101\n0402000000\n050100000000\n";
    assert_eq!(told(none).4, "crew 00, but this book has no crews (line 1: G is 00)");
    let one = b"0101010101\n0402010000\n050100000000\n";
    assert_eq!(told(one).4, "crew 01, but this book has 1 crew, 00 (line 1: G is 01)");
}

#[test]
fn what_to_do() {
    let rows = [
        (8, "050100000e01010001\n", "`depot tidy FILE` puts that right"),
        (2, "02010\n", ""),
        (1, "0102020203\n", "one count for all attributes is an old book's: write 0303 behind A"),
        (2, "020001\n", "number juniors first"),
        (6, "030102000201040000\n", "ask for a value that the crew holds (term 02 or 05)"),
        (6, "030102000201830000\n", "ask for a value that is not held (term 81)"),
        (8, "050200000E01010001\n", "for no crew write 00000000 behind"),
        (8, "050300000E0101000100000000\n", "ask in mode 01 or 02"),
    ];
    for (line, becomes, help) in rows {
        assert_eq!(told(&replaced(&EXAMPLE, line, becomes)).5, help, "{becomes:?}");
    }
    assert_eq!(told(&replaced(&GROWING, 5, "050100000700\n")).5, "ask in mode 03");
}

/// Where the two readings differ, or the refusal is none of a book, the library's words stand alone.
#[test]
fn bare_refusals() {
    let good = EXAMPLE.concat();
    let bad = replaced(&EXAMPLE, 2, "020001\n");
    let bare = |text: &str, line, number| Fault {
        line,
        column: 0,
        width: 0,
        text: text.into(),
        help: String::new(),
        refusal: Some(number),
    };
    for explain in [hex::explain, hex::explain_page] {
        let edge = explain(good.as_bytes(), &Refusal::BadEdge { line: 2 });
        assert_eq!(edge, bare("j not smaller than s", 2, 6));
        let other_line = explain(&bad, &Refusal::BadEdge { line: 3 });
        assert_eq!(other_line, bare("j not smaller than s", 3, 6));
        let other_number = explain(&bad, &Refusal::BadField { line: 2 });
        assert_eq!((other_number.line, other_number.column, other_number.refusal), (2, 0, Some(5)));
        assert_eq!(explain(&bad, &Refusal::BadPlanLength), bare("plan length no multiple of five", 0, 14));
        assert_eq!(explain(&bad, &Refusal::BadEdge { line: 2 }).column, 5);
    }
}

#[test]
fn pages() {
    let page = |book: &[u8]| {
        let refusal = bytes::page(book, &mut [0; PAGE_SIZE]).expect_err("refused");
        hex::explain_page(book, &refusal)
    };
    for query in [GROWING[4], "050100000700\n", "05020000070000000003\n"] {
        let fault = page(&replaced(&GROWING, 5, query));
        assert_eq!((fault.line, fault.column, fault.refusal), (5, 0, Some(17)), "{query}");
        assert_eq!(fault.text, "a book with a \"not\" (line 2: term 830000) has no page");
        assert_eq!(fault.help, "ask `depot plan` for each person");
    }
    let without = page(&replaced(&EXAMPLE, 8, "050300000E0101000100000000\n"));
    assert_eq!(without.text, "mode 03, but no rule of this book has a \"not\" (term 81 or 83)");
    let beyond = page(&replaced(&GROWING, 3, "030201000000\n"));
    assert_eq!((beyond.line, beyond.refusal), (5, Some(16)));
    assert!(beyond.text.starts_with("the rule of line 3 deletes"));
    let bad = page(&replaced(&GROWING, 3, "03020100000\n"));
    assert_eq!((bad.line, bad.column, bad.refusal), (3, 11, Some(2)));
}

#[test]
fn names_by_number() {
    let depot = hex::read(EXAMPLE.concat().as_bytes()).expect("a good book");
    assert_eq!(depot.persons, ["person-0", "person-1"]);
    assert_eq!(depot.crews, ["crew-0", "crew-1"]);
    assert_eq!(depot.leads, ["lead-0", "lead-1", "lead-2", "lead-3"]);
    assert_eq!(depot.attributes[0].name, "attribute-0");
    assert_eq!(depot.attributes[1].values[15], "value-15");
    assert_eq!(depot.question.as_ref().map(|said| said.line), Some(8));

    let nobody = hex::read(b"0101000101\n050100000000\n").expect("a good book");
    assert!(nobody.leads.is_empty() && nobody.crews.is_empty());
    let all = hex::read(b"0101000101\n050100800000\n").expect("a good book");
    assert_eq!(all.leads.len(), 16);
}

/// Any bytes are read, and refused as the library does.
#[test]
fn no_book() {
    let mut rng = Rng::new(0x0DE9_0800_0000);
    for _ in 0..2_000 {
        let length = rng.below(200);
        let any: Vec<u8> = (0..length).map(|_| rng.byte(0, 255)).collect();
        compare(&any, &format!("{any:?}"));
        let signs: Vec<u8> =
            (0..length).map(|_| rng.pick(b"0123456789ABCDEF\n\n\r \x00#/;a\xC2\xA0\xEF\xBB\xBF")).collect();
        compare(&signs, &format!("{signs:?}"));
        let behind = [EXAMPLE.concat().as_bytes(), &signs].concat();
        compare(&behind, &format!("{behind:?}"));
    }
    for many in [b'A', b'\n', b'\r', b'0', 0, 0xFF] {
        for count in [0, 1, 2, 65_536, 65_537, 1 << 20] {
            compare(&vec![many; count], &format!("{count} times {many}"));
        }
    }
}
