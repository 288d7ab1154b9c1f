//! The characters of a line: refusal 2.

use super::{Bad, TIDY};
use crate::tidy::{BLANKS, BOM, COMMENTS};

/// The bytes of a line, one at least.
pub(super) fn bytes(text: &[u8], ended: bool) -> Result<Vec<u8>, Bad> {
    if let Some(at) = text.iter().position(|&character| digit(character).is_none()) {
        return Err(another(text, at, ended));
    }
    if text.is_empty() {
        return Err(Bad::characters(2, 0, 1, "an empty line, but each line of a book is a frame").help(TIDY));
    }
    if text.len() % 2 == 1 {
        let why = format!("{} digits, an odd number, but a byte has two", text.len());
        return Err(Bad::characters(2, text.len() - 1, 1, why));
    }
    if !ended {
        let why = "the last line has no end, but each line of a book ends with 0A";
        return Err(Bad::characters(2, text.len(), 1, why).help(TIDY));
    }
    Ok(text.chunks_exact(2).map(|two| two.iter().fold(0, |byte, &d| byte << 4 | digit(d).unwrap_or(0))).collect())
}

/// The value of a digit.
fn digit(character: u8) -> Option<u8> {
    match character {
        b'0'..=b'9' => Some(character - b'0'),
        b'A'..=b'F' => Some(character - b'A' + 10),
        _ => None,
    }
}

/// About the first character that is no digit.
fn another(text: &[u8], at: usize, ended: bool) -> Bad {
    let from = &text[at..];
    if let Some(bad) = ending(from, at, ended).or_else(|| coded(from, at)).or_else(|| blank(from, at)) {
        return bad.help(TIDY);
    }
    if COMMENTS.iter().any(|sign| from.starts_with(sign)) {
        let width = from.strip_suffix(b"\r").unwrap_or(from).len();
        return Bad::characters(2, at, width, "a comment, but a book has digits alone").help(TIDY);
    }
    let lower = from.iter().take_while(|character| matches!(character, b'a'..=b'f')).count();
    if lower > 0 {
        return Bad::characters(2, at, lower, "lower case, but the digits of a book are 0 to 9 and A to F").help(TIDY);
    }
    let what = match from[0] {
        graphic @ b'!'..=b'~' => format!("`{}`", char::from(graphic)),
        byte => format!("the byte {byte:02X}"),
    };
    Bad::characters(2, at, 1, format!("{what} is no digit: there are 0 to 9 and A to F"))
}

/// A line end of another system.
fn ending(from: &[u8], at: usize, ended: bool) -> Option<Bad> {
    let text = match from {
        [b'\r'] if ended => "the line ends with 0D 0A, as Windows writes it; a book's lines end with 0A alone",
        [b'\r', ..] => "a 0D, with which old Macs ended a line; a book's lines end with 0A alone",
        _ => return None,
    };
    Some(Bad::characters(2, at, 1, text))
}

/// The mark of a character code that some editors write before the first character.
fn coded(from: &[u8], at: usize) -> Option<Bad> {
    if from.starts_with(BOM) {
        let text = "a BOM (EF BB BF), which an editor wrote there; a book has digits alone";
        return Some(Bad::characters(2, at, BOM.len(), text));
    }
    match from {
        [0xFF, 0xFE, ..] | [0xFE, 0xFF, ..] if at == 0 => {
            let text = format!(
                "a BOM of UTF-16 ({:02X} {:02X}), two bytes for each character; a book has one",
                from[0], from[1]
            );
            Some(Bad::characters(2, at, 2, text))
        }
        _ => None,
    }
}

/// Blanks, as many as stand there.
fn blank(from: &[u8], at: usize) -> Option<Bad> {
    let (mut count, mut width) = (0, 0);
    while let Some(blank) = BLANKS.iter().find(|blank| from[width..].starts_with(blank)) {
        count += 1;
        width += blank.len();
    }
    let text = match count {
        0 => return None,
        1 => "a blank, but a book has digits alone".into(),
        _ => format!("{count} blanks, but a book has digits alone"),
    };
    Some(Bad::characters(2, at, width, text))
}
