//! What is wrong with a file, where, and how it is shown: the line, the word underlined, and what to do.

use std::fmt::Write as _;

use crate::paint::Paint;
use crate::source::split;

/// One thing that is wrong in a file.
#[derive(Clone, Debug, PartialEq, Eq)]
pub struct Fault {
    /// Counted from 1; 0 where it is the whole file.
    pub line: usize,
    /// Counted from 1, in characters; 0 where it is the whole line.
    pub column: usize,
    /// How many characters are meant, from the column on.
    pub width: usize,
    /// What is wrong, in words.
    pub text: String,
    /// What to do about it; empty where there is nothing to say.
    pub help: String,
    /// The number of the refusal that the book would get.
    pub refusal: Option<u8>,
}

/// A file has at most so many faults; the rest is not looked for.
pub const MOST_FAULTS: usize = 200;
/// How many faults of one file are shown.
const SHOWN: usize = 20;
/// How many characters of a long line are shown.
const EXCERPT: usize = 120;

impl Fault {
    /// A fault at a place.
    pub fn at(line: usize, column: usize, width: usize, text: impl Into<String>) -> Fault {
        Fault { line, column, width, text: text.into(), help: String::new(), refusal: None }
    }

    /// A fault of a whole file.
    pub fn of_file(text: impl Into<String>) -> Fault {
        Fault::at(0, 0, 0, text)
    }

    /// The fault, and what to do about it.
    #[must_use]
    pub fn with_help(mut self, help: impl Into<String>) -> Fault {
        self.help = help.into();
        self
    }

    /// The fault, and the refusal that the book would get.
    #[must_use]
    pub fn refused(mut self, number: u8) -> Fault {
        self.refusal = Some(number);
        self
    }

    /// What is wrong, with the refusal's number.
    pub fn message(&self) -> String {
        match self.refusal {
            Some(number) => format!("{} (refusal {number})", self.text),
            None => self.text.clone(),
        }
    }

    /// The fault as shown: place and message, then the line with the word underlined.
    pub fn show(&self, file: &str, source: &str, paint: Paint) -> String {
        let mut shown = String::from(file);
        if self.line > 0 {
            let _ = write!(shown, ":{}", self.line);
        }
        if self.column > 0 {
            let _ = write!(shown, ":{}", self.column);
        }
        let _ = writeln!(shown, ": {}", paint.bad(&self.message()));
        let help = |before: &str| if self.help.is_empty() { String::new() } else { format!("{before}{}", self.help) };
        match split(source).nth(self.line.wrapping_sub(1)) {
            Some(line) if self.column > 0 => {
                let (line, before, width) = excerpt(line, self.column, self.width);
                let _ = writeln!(shown, "  {line}\n  {before}{}{}", paint.bad(&"^".repeat(width)), help(" "));
            }
            _ if !self.help.is_empty() => {
                let _ = writeln!(shown, "  {}", self.help);
            }
            _ => {}
        }
        shown
    }
}

/// All faults of a file as shown, in their order; of very many the first.
pub fn show_all(faults: &[Fault], file: &str, source: &str, paint: Paint) -> String {
    let mut shown: String = faults.iter().take(SHOWN).map(|fault| fault.show(file, source, paint)).collect();
    if faults.len() > SHOWN {
        let least = if faults.len() == MOST_FAULTS { "at least " } else { "" };
        let _ = writeln!(shown, "{file}: {least}{} errors more", faults.len() - SHOWN);
    }
    shown
}

/// A line, or the part of a long one around the column; what stands before the column as blanks; the underline's width.
fn excerpt(line: &str, column: usize, width: usize) -> (String, String, usize) {
    let from = if line.chars().count() <= EXCERPT { 0 } else { (column - 1).saturating_sub(EXCERPT / 3) };
    let part: Vec<char> = line.chars().skip(from).take(EXCERPT).collect();
    let ends = line.chars().count() <= from + EXCERPT;
    let shown: String = part.iter().map(|c| if c.is_control() && *c != '\t' { '\u{FFFD}' } else { *c }).collect();
    let (left, right) = (if from > 0 { "…" } else { "" }, if ends { "" } else { "…" });
    let at = (column - 1 - from).min(part.len());
    let before: String =
        part[..at].iter().map(|c| if *c == '\t' { "\t".into() } else { " ".repeat(cells(*c)) }).collect();
    let under: usize = part[at..].iter().take(width).map(|c| cells(*c)).sum();
    (format!("{left}{shown}{right}"), format!("{}{before}", " ".repeat(left.chars().count())), under.max(1))
}

/// How many cells of a terminal a character takes.
pub fn cells(c: char) -> usize {
    match u32::from(c) {
        0x0300..=0x036F | 0x200B..=0x200F | 0xFE00..=0xFE0F => 0,
        0x1100..=0x115F | 0x2E80..=0xA4CF | 0xAC00..=0xD7A3 | 0xF900..=0xFAFF | 0xFE30..=0xFE6F => 2,
        0xFF00..=0xFF60 | 0xFFE0..=0xFFE6 | 0x1F300..=0x1FAFF | 0x20000..=0x3FFFD => 2,
        _ => 1,
    }
}

/// How many cells of a terminal a text takes.
pub fn width(text: &str) -> usize {
    text.chars().map(cells).sum()
}
