//! A file's text as lines of words, each word with its place.

use crate::fault::Fault;

/// A word of a line.
#[derive(Clone, Copy, Debug, PartialEq, Eq)]
pub struct Word<'a> {
    /// Its characters.
    pub text: &'a str,
    /// Where it begins, counted from 1 in characters.
    pub column: usize,
}

impl Word<'_> {
    /// Its length in characters.
    pub fn width(&self) -> usize {
        self.text.chars().count()
    }
}

/// A line that has words.
#[derive(Clone, Debug, PartialEq, Eq)]
pub struct Line<'a> {
    /// Counted from 1.
    pub number: usize,
    /// At least one.
    pub words: Vec<Word<'a>>,
    /// The column behind the last word.
    pub end: usize,
    /// Whether a word of it is bad: then it is no good statement, and its fault has been told.
    pub bad: bool,
}

/// The text of a file, without the mark that some editors put first.
pub fn text_of(bytes: &[u8]) -> Result<&str, Fault> {
    if bytes.starts_with(&[0xFF, 0xFE]) || bytes.starts_with(&[0xFE, 0xFF]) {
        return Err(Fault::of_file("the file is UTF-16").with_help("save it as UTF-8"));
    }
    let text = std::str::from_utf8(bytes).map_err(|error| {
        let good = String::from_utf8_lossy(&bytes[..error.valid_up_to()]);
        let (line, column) = place_behind(&good);
        let byte = bytes[error.valid_up_to()];
        Fault::at(line, column, 1, format!("the byte {byte:02X} is no UTF-8 text")).with_help("save it as UTF-8")
    })?;
    let text = text.strip_prefix('\u{FEFF}').unwrap_or(text);
    match text.char_indices().find(|(_, c)| c.is_control() && !matches!(c, '\t' | '\r' | '\n')) {
        None => Ok(text),
        Some((at, c)) => {
            let (line, column) = place_behind(&text[..at]);
            Err(Fault::at(line, column, 1, format!("the control character U+{:04X} is no text", u32::from(c))))
        }
    }
}

/// Line and column of what stands behind a text.
fn place_behind(text: &str) -> (usize, usize) {
    let ended = text.ends_with(['\n', '\r']);
    let last = if ended { "" } else { split(text).last().unwrap_or("") };
    (split(text).count() + usize::from(ended || text.is_empty()), last.chars().count() + 1)
}

/// The lines that have words: blanks and commas part them, `#` at a word's beginning ends the line. A `#` inside a word
/// is a fault, since it would cut a name.
pub fn lines<'a>(text: &'a str, faults: &mut Vec<Fault>) -> Vec<Line<'a>> {
    split(text).enumerate().filter_map(|(at, raw)| line(at + 1, raw, faults)).collect()
}

/// The lines of a text. They end with LF, CR LF or CR.
pub fn split(text: &str) -> impl Iterator<Item = &str> {
    let mut rest = text;
    std::iter::from_fn(move || {
        if rest.is_empty() {
            return None;
        }
        let end = rest.find(['\n', '\r']);
        let (line, behind) = rest.split_at(end.unwrap_or(rest.len()));
        rest = behind.strip_prefix("\r\n").or_else(|| behind.get(1..)).unwrap_or("");
        Some(line)
    })
}

fn line<'a>(number: usize, raw: &'a str, faults: &mut Vec<Fault>) -> Option<Line<'a>> {
    let mut words = words(raw);
    let before = faults.len();
    if let Some(at) = words.iter().position(|word| word.text.contains('#')) {
        let word = &mut words[at];
        let text = word.text.split('#').next().unwrap_or_default();
        let column = word.column + text.chars().count();
        let fault = Fault::at(number, column, 1, "`#` begins a comment, and here it stands in a word");
        faults.push(fault.with_help("put a blank before it, or leave it out of the name"));
        // Names before it are good, so that their uses are no faults as well.
        word.text = text;
        words.truncate(at + 1);
    }
    for word in &words {
        if let Some((at, c)) = word.text.chars().enumerate().find(|(_, c)| is_invisible(*c)) {
            let text = format!("the invisible character U+{:04X} stands in a word", u32::from(c));
            faults.push(Fault::at(number, word.column + at, 1, text).with_help("leave it out"));
        }
    }
    let last = words.last()?;
    let end = last.column + last.width();
    Some(Line { number, words, end, bad: faults.len() > before })
}

/// Characters that nobody sees, or that turn the direction of what stands behind: with them two names would look the same.
/// The joiners that some scripts need are none of these.
fn is_invisible(c: char) -> bool {
    let turns = matches!(c, '\u{200E}' | '\u{200F}' | '\u{202A}'..='\u{202E}' | '\u{2066}'..='\u{2069}');
    turns || matches!(c, '\u{00AD}' | '\u{200B}' | '\u{2060}' | '\u{FEFF}')
}

/// The words of one line, up to its comment.
pub fn words(raw: &str) -> Vec<Word<'_>> {
    let mut words = Vec::new();
    let mut open: Option<(usize, usize)> = None;
    for (column, (at, c)) in raw.char_indices().enumerate() {
        let part = c.is_whitespace() || c == ',';
        match open {
            None if c == '#' => return words,
            None if !part => open = Some((at, column + 1)),
            Some((from, column)) if part => {
                words.push(Word { text: &raw[from..at], column });
                open = None;
            }
            _ => {}
        }
    }
    words.extend(open.map(|(from, column)| Word { text: &raw[from..], column }));
    words
}
