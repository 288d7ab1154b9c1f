//! A hexadecimal book put right that an editor has disfigured.

use crate::say::{counted, listed};

/// What stands between digits and says nothing: space, tab, form feed and the non-breaking space.
pub(crate) const BLANKS: [&[u8]; 4] = [b" ", b"\t", b"\x0C", b"\xC2\xA0"];
/// What begins a comment, which goes on to the line's end.
pub(crate) const COMMENTS: [&[u8]; 3] = [b"#", b";", b"//"];
/// The mark of UTF-8 that some editors write before the first character.
pub(crate) const BOM: &[u8] = b"\xEF\xBB\xBF";

/// How many lines are named of each kind of change.
const NAMED: usize = 5;

/// A book put right, and what was done to it.
#[derive(Clone, Debug, PartialEq, Eq)]
pub struct Tidied {
    /// The book's characters.
    pub book: Vec<u8>,
    /// In words, one for each kind of change, with lines as the original counts them. None where the book was right.
    pub changes: Vec<String>,
}

/// Puts right what an editor does to a book: UTF-16 or a BOM, lower case, blanks, comments, other line ends, empty
/// lines, and a last line without end.
///
/// All else is left as it is, and the library refuses it. What comes out is not changed by doing it again.
pub fn tidy(bytes: &[u8]) -> Tidied {
    let decoded = utf_16(bytes);
    let mut seen = Seen::default();
    let mut book = Vec::with_capacity(bytes.len());
    let mut rest = decoded.as_deref().unwrap_or(bytes);
    let mut number = 0;
    while !rest.is_empty() {
        number += 1;
        let (text, end, behind) = cut(rest);
        seen.end(number, end);
        let line = seen.line(number, text);
        if !line.is_empty() {
            book.extend(line);
            book.push(b'\n');
            if end == End::None {
                seen.unended.push(number);
            }
        }
        rest = behind;
    }
    if utf_16(&book).is_some() {
        // No book, but bytes of which a second tidying would make something else.
        return Tidied { book: bytes.to_vec(), changes: Vec::new() };
    }
    let mark = decoded.map(|_| format!("UTF-16 ({:02X} {:02X}) made one byte a character", bytes[0], bytes[1]));
    Tidied { book, changes: mark.into_iter().chain(seen.told()).collect() }
}

/// The characters of a file that says by a BOM that it is UTF-16, as UTF-8; nothing where it is not.
fn utf_16(bytes: &[u8]) -> Option<Vec<u8>> {
    let unit: fn([u8; 2]) -> u16 = match bytes {
        [0xFF, 0xFE, ..] => u16::from_le_bytes,
        [0xFE, 0xFF, ..] => u16::from_be_bytes,
        _ => return None,
    };
    if bytes.len() % 2 == 1 {
        return None;
    }
    let units: Vec<u16> = bytes[2..].chunks_exact(2).map(|two| unit([two[0], two[1]])).collect();
    String::from_utf16(&units).ok().map(String::into_bytes)
}

/// How a line ends.
#[derive(Clone, Copy, PartialEq, Eq)]
enum End {
    Right,
    CrLf,
    Cr,
    None,
}

/// The first line, its end, and what stands behind.
fn cut(rest: &[u8]) -> (&[u8], End, &[u8]) {
    let Some(at) = rest.iter().position(|character| matches!(character, b'\n' | b'\r')) else {
        return (rest, End::None, &[]);
    };
    let (end, length) = match &rest[at..] {
        [b'\r', b'\n', ..] => (End::CrLf, 2),
        [b'\r', ..] => (End::Cr, 1),
        _ => (End::Right, 1),
    };
    (&rest[..at], end, &rest[at + length..])
}

/// The lines in which something was seen, rising.
#[derive(Default)]
struct Seen {
    marks: Vec<usize>,
    lower: Vec<usize>,
    blanks: usize,
    blank: Vec<usize>,
    comments: Vec<usize>,
    cr_lf: Vec<usize>,
    cr: Vec<usize>,
    empty: Vec<usize>,
    unended: Vec<usize>,
}

impl Seen {
    fn end(&mut self, number: usize, end: End) {
        match end {
            End::CrLf => self.cr_lf.push(number),
            End::Cr => self.cr.push(number),
            End::Right | End::None => {}
        }
    }

    /// A line's characters, put right.
    ///
    /// A sign of several bytes is looked for at the end of what is left so far, and not in the line as it stands: what
    /// is taken out of its middle then leaves no such sign to a second tidying.
    fn line(&mut self, number: usize, text: &[u8]) -> Vec<u8> {
        let mut line = Vec::with_capacity(text.len());
        let (mut lower, mut marks, mut blanks, mut comment) = (false, false, 0, false);
        for &character in text {
            let digit = matches!(character, b'a'..=b'f');
            lower |= digit;
            line.push(if digit { character.to_ascii_uppercase() } else { character });
            if BLANKS.iter().any(|blank| taken(&mut line, blank)) {
                blanks += 1;
            } else if taken(&mut line, BOM) {
                marks = true;
            } else if COMMENTS.iter().any(|sign| taken(&mut line, sign)) {
                comment = true;
                break;
            }
        }
        // Of a line of which nothing is left it is enough to say one thing.
        let left = !line.is_empty();
        for (lines, here) in [
            (&mut self.marks, marks),
            (&mut self.lower, lower),
            (&mut self.comments, comment),
            (&mut self.blank, left && blanks > 0),
            (&mut self.empty, !left && !comment),
        ] {
            if here {
                lines.push(number);
            }
        }
        self.blanks += if left { blanks } else { 0 };
        line
    }

    /// What was seen, in words.
    fn told(&self) -> Vec<String> {
        let lines = |lines: &[usize]| counted(lines.len(), "line");
        let kinds = [
            (&self.marks, format!("BOM taken out in {}", lines(&self.marks))),
            (&self.lower, format!("lower case in {}", lines(&self.lower))),
            (&self.blank, format!("{} taken out in {}", counted(self.blanks, "blank"), lines(&self.blank))),
            (&self.comments, format!("comments taken out in {}", lines(&self.comments))),
            (&self.cr_lf, format!("{} ended with CR LF", lines(&self.cr_lf))),
            (&self.cr, format!("{} ended with CR alone", lines(&self.cr))),
            (&self.empty, format!("{} taken out", counted(self.empty.len(), "empty line"))),
            (&self.unended, "the last line had no end".to_string()),
        ];
        let seen = kinds.into_iter().filter(|(lines, _)| !lines.is_empty());
        seen.map(|(lines, what)| format!("{what} ({})", first_few(lines))).collect()
    }
}

/// `2, 3 and 5`, and of many lines the first ones and how many more there are.
fn first_few(lines: &[usize]) -> String {
    let named = if lines.len() > NAMED { NAMED - 1 } else { lines.len() };
    let more = (named < lines.len()).then(|| format!("{} more", lines.len() - named));
    listed(lines[..named].iter().map(usize::to_string).chain(more), "")
}

/// Takes a sign from the end of a line, where it stands there.
fn taken(line: &mut Vec<u8>, sign: &[u8]) -> bool {
    let there = line.ends_with(sign);
    if there {
        line.truncate(line.len() - sign.len());
    }
    there
}
