//! What an editor does to a hexadecimal book, and the book put right again.

use bixorgun::Book;
use depot::tidy::tidy;
use reference::gen::Rng;

mod books;

use books::stored;

const BOOK: &[u8] = b"0101010102\n030100000100\n03050A000001010001\n0402000000\n050100000301000001\n";

/// A disfigured book is put right, and each kind of change is told.
fn changed(bytes: &[u8], book: &[u8], changes: &[&str]) {
    let tidied = tidy(bytes);
    let text = String::from_utf8_lossy(bytes);
    assert_eq!(String::from_utf8_lossy(&tidied.book), String::from_utf8_lossy(book), "{text:?}");
    assert_eq!(tidied.changes, changes, "{text:?}");
    again(&tidied.book);
}

/// What was tidied stays as it is.
fn again(book: &[u8]) {
    let tidied = tidy(book);
    assert_eq!((String::from_utf8_lossy(&tidied.book), &tidied.changes[..]), (String::from_utf8_lossy(book), &[][..]));
    assert_eq!(tidied.book, book);
}

/// The book with some text replaced throughout.
fn with(from: &str, to: &str) -> Vec<u8> {
    let book = std::str::from_utf8(BOOK).expect("digits");
    assert!(book.contains(from));
    book.replace(from, to).into_bytes()
}

#[test]
fn nothing_to_do() {
    assert!(Book::new(BOOK).open().is_ok());
    changed(BOOK, BOOK, &[]);
    changed(b"", b"", &[]);
}

#[test]
fn each_kind() {
    changed(&[b"\xEF\xBB\xBF", BOOK].concat(), BOOK, &["BOM taken out in 1 line (1)"]);
    changed(&with("0A", "0a"), BOOK, &["lower case in 1 line (3)"]);
    changed(&with("\n", "\r\n"), BOOK, &["5 lines ended with CR LF (1, 2, 3, 4 and 5)"]);
    changed(&with("\n", "\r"), BOOK, &["5 lines ended with CR alone (1, 2, 3, 4 and 5)"]);
    changed(&with("0402000000", "04 02 00\t00\u{A0}00\x0C"), BOOK, &["5 blanks taken out in 1 line (4)"]);
    changed(&with("0402", "0402 "), BOOK, &["1 blank taken out in 1 line (4)"]);
    changed(&with("0000\n", "0000# crew\n"), BOOK, &["comments taken out in 1 line (4)"]);
    changed(&with("0402000000\n", "// crews\n0402000000;00\n"), BOOK, &["comments taken out in 2 lines (4 and 5)"]);
    changed(&with("0402", "\n \t\n0402"), BOOK, &["2 empty lines taken out (4 and 5)"]);
    changed(&BOOK[..BOOK.len() - 1], BOOK, &["the last line had no end (5)"]);
    let many = b"aa\nbb\ncc\ndd\nee\nff\n00\nAa\n";
    changed(many, b"AA\nBB\nCC\nDD\nEE\nFF\n00\nAA\n", &["lower case in 7 lines (1, 2, 3, 4 and 3 more)"]);
    changed(&many[..9], b"AA\nBB\nCC\n", &["lower case in 3 lines (1, 2 and 3)"]);
}

/// UTF-16 as some editors save it: the one byte order and the other.
#[test]
fn two_bytes_a_character() {
    let text = format!("{} # Schl\u{FC}ssel \u{1F511}\n", "0101000101");
    let units = || text.encode_utf16();
    let low: Vec<u8> = [0xFF, 0xFE].into_iter().chain(units().flat_map(u16::to_le_bytes)).collect();
    let high: Vec<u8> = [0xFE, 0xFF].into_iter().chain(units().flat_map(u16::to_be_bytes)).collect();
    let others = ["1 blank taken out in 1 line (1)", "comments taken out in 1 line (1)"];
    for (bytes, mark) in [(low, "FF FE"), (high, "FE FF")] {
        let mark = format!("UTF-16 ({mark}) made one byte a character");
        changed(&bytes, b"0101000101\n", &[&[mark.as_str()][..], &others].concat());
    }
    // Half a character, and half of a pair: no UTF-16, and left alone.
    for bytes in [&b"\xFF\xFE0\x001\x00\n"[..], b"\xFF\xFE0\x00\x00\xD8\n\x00"] {
        let tidied = tidy(bytes);
        assert!(tidied.book.starts_with(b"\xFF\xFE"), "{tidied:?}");
        again(&tidied.book);
    }
}

#[test]
fn all_at_once() {
    let bytes = b"\xEF\xBB\xBF# my depot\r\n\r\n01 01 01 01 02\r\n0301 0000 0100\r03050a000001010001 ; assign\n\n0402000000\n050100000301000001";
    changed(
        bytes,
        BOOK,
        &[
            "BOM taken out in 1 line (1)",
            "lower case in 1 line (5)",
            "7 blanks taken out in 3 lines (3, 4 and 5)",
            "comments taken out in 2 lines (1 and 5)",
            "3 lines ended with CR LF (1, 2 and 3)",
            "1 line ended with CR alone (4)",
            "2 empty lines taken out (2 and 6)",
            "the last line had no end (8)",
        ],
    );
}

/// What cannot be put right stays, for the library to refuse.
#[test]
fn left_alone() {
    changed(b"0x02\n", b"0x02\n", &[]);
    changed(b"02010\n", b"02010\n", &[]);
    changed(b"02/01\n", b"02/01\n", &[]);
    changed(b"02\x00\xFF\xC2\x0B\n", b"02\x00\xFF\xC2\x0B\n", &[]);
    changed(
        b" \r\n# no book",
        b"",
        &["comments taken out in 1 line (2)", "1 line ended with CR LF (1)", "1 empty line taken out (1)"],
    );
    // What is left when something is taken out of the middle of a sign is the sign, and goes as well.
    changed(b"01/ /02\n", b"01\n", &["1 blank taken out in 1 line (1)", "comments taken out in 1 line (1)"]);
}

/// The stored books that need nothing, but for those with bytes that are no text.
fn untouched() -> Vec<Vec<u8>> {
    let books = stored().into_iter().map(|(_, book)| book);
    books.filter(|book| book.is_ascii() && tidy(book).changes.is_empty()).collect()
}

/// A book as editors leave it.
fn disfigured(rng: &mut Rng, book: &[u8]) -> Vec<u8> {
    let ends: &[&str] = rng.pick(&[&["\n"][..], &["\r\n"], &["\r"], &["\n", "\r\n"], &["\n", "\r"]]);
    let (lower, blank, comment) = (rng.pick(&[0, 50, 100]), rng.pick(&[0, 5, 30]), rng.pick(&[0, 20]));
    let mut text = String::new();
    if rng.percent(30) {
        text.push('\u{FEFF}');
    }
    for line in book.split_inclusive(|&character| character == b'\n') {
        while rng.percent(comment / 2) {
            let other = rng.pick(&["", "# crews", " // who may?", "\t", ";", "\u{A0}", "# 0200"]);
            text.push_str(other);
            text.push_str(rng.pick(ends));
        }
        for &character in &line[..line.len() - 1] {
            if rng.percent(blank) {
                text.push(rng.pick(&[' ', '\t', '\x0C', '\u{A0}']));
            }
            let character = char::from(character);
            let lower = matches!(character, 'A'..='F') && rng.percent(lower);
            text.push(if lower { character.to_ascii_lowercase() } else { character });
        }
        if rng.percent(comment) {
            text.push_str(rng.pick(&["# a", "  // b \u{E9}", ";", "//", "#//;#", " \t# 00"]));
        }
        text.push_str(rng.pick(ends));
    }
    if rng.percent(30) {
        let end = text.trim_end_matches(['\r', '\n']).len();
        text.truncate(end);
    }
    if !text.starts_with('\u{FEFF}') || rng.percent(50) {
        return text.into_bytes();
    }
    let unit = if rng.percent(50) { u16::to_le_bytes } else { u16::to_be_bytes };
    text.encode_utf16().flat_map(unit).collect()
}

#[test]
fn disfigured_books() {
    let books = untouched();
    assert!(books.len() > 500, "{}", books.len());
    let small: Vec<&Vec<u8>> = books.iter().filter(|book| book.len() < 5_000).collect();
    let mut touched = 0;
    for seed in 0x0DE9_0900_0000..0x0DE9_0900_0000 + 2_000_u64 {
        let mut rng = Rng::new(seed);
        let book = rng.pick(&small);
        let bytes = disfigured(&mut rng, book);
        let tidied = tidy(&bytes);
        assert_eq!(String::from_utf8_lossy(&tidied.book), String::from_utf8_lossy(book), "seed {seed:#X}");
        assert_eq!(tidied.changes.is_empty(), bytes == **book, "seed {seed:#X}: {:?}", tidied.changes);
        touched += usize::from(bytes != **book);
        again(&tidied.book);
    }
    println!("{} stored books, {touched} of 2,000 disfigured", small.len());
    assert!(touched > 1_500);
}

/// Any bytes are tidied once and for all, and told where they are not the same.
#[test]
fn any_bytes() {
    let mut rng = Rng::new(0x0DE9_0A00_0000);
    for _ in 0..20_000 {
        let length = rng.below(40);
        let signs = rng.percent(80);
        let mut bytes: Vec<u8> =
            if rng.percent(20) { rng.pick(&[b"\xFF\xFE", b"\xFE\xFF"]).to_vec() } else { Vec::new() };
        bytes.extend((0..length).map(|_| {
            if signs {
                rng.pick(b"019AFaf\n\r \t/#;\x00\xC2\xA0\xEF\xBB\xBF\xFF\xFE")
            } else {
                rng.byte(0, 255)
            }
        }));
        let tidied = tidy(&bytes);
        assert_eq!(tidied.changes.is_empty(), tidied.book == bytes, "{bytes:?}: {tidied:?}");
        again(&tidied.book);
    }
    for many in [b'a', b'\n', b'\r', b' ', b'/', 0xC2] {
        again(&tidy(&vec![many; 1 << 20]).book);
    }
}
