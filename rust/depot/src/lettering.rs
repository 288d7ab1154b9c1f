//! Letters on pictures and pages: how wide they are, how names are made harmless and shortened, what is escaped.

use std::borrow::Cow;

use crate::model::{Attribute, Depot};

/// Widths of the printable ASCII characters in hundredths of the letters' size, as in DejaVu Sans, which is wider than
/// most other fonts.
const ASCII: [u8; 95] = [
    32, 40, 46, 84, 64, 95, 78, 27, 39, 39, 50, 84, 32, 36, 32, 34, 64, 64, 64, 64, 64, 64, 64, 64, 64, 64, 34, 34, 84,
    84, 84, 53, 100, 68, 69, 70, 77, 63, 58, 77, 75, 29, 29, 66, 56, 86, 75, 79, 60, 79, 69, 63, 61, 73, 68, 99, 69,
    61, 69, 39, 34, 39, 84, 50, 50, 61, 63, 55, 63, 62, 35, 63, 63, 28, 28, 58, 28, 97, 63, 61, 63, 63, 41, 52, 39, 63,
    59, 82, 59, 59, 52, 64, 34, 64, 84,
];

/// Stands for what must not be shown.
const UNSHOWN: char = '\u{FFFD}';
/// Begin and end of a stretch whose direction does not reach out of it.
const ISOLATE: (char, char) = ('\u{2068}', '\u{2069}');

/// A character's width in hundredths of the letters' size.
fn advance(letter: char) -> usize {
    match letter as u32 {
        code @ 0x20..=0x7E => ASCII[(code - 0x20) as usize].into(),
        0x0300..=0x036F | 0x0483..=0x0489 | 0x0591..=0x05BD | 0x0610..=0x061A | 0x064B..=0x065F | 0x0670 => 0,
        0x1AB0..=0x1AFF | 0x1DC0..=0x1DFF | 0x200B..=0x200F | 0x202A..=0x202E | 0x2066..=0x2069 => 0,
        0x20D0..=0x20FF | 0xFE00..=0xFE0F | 0xFE20..=0xFE2F => 0,
        0x1100..=0x115F | 0x2E80..=0xA4CF | 0xAC00..=0xD7A3 | 0xF900..=0xFAFF | 0xFE30..=0xFE6F => 110,
        0xFF00..=0xFF60 | 0xFFE0..=0xFFE6 | 0x1F000..=0x1FAFF | 0x20000..=0x3FFFD => 110,
        0x2013 => 50,
        0x2014 | 0x2026 | 0xFFFD => 103,
        0x00A0..=0x024F => 66,
        _ => 76,
    }
}

/// How wide a text is, at most, in letters of this size.
pub(crate) fn width(text: &str, size: usize) -> usize {
    (text.chars().map(advance).sum::<usize>() * size).div_ceil(100)
}

/// A name no wider than this: cut, with … at its end, where it is.
pub(crate) fn short(name: &str, most: usize, size: usize) -> Cow<'_, str> {
    if width(name, size) <= most {
        return Cow::Borrowed(name);
    }
    let bare = name.trim_matches([ISOLATE.0, ISOLATE.1]);
    let room = (most * 100 / size).saturating_sub(advance('…'));
    let mut used = 0;
    let fits = |letter: &char| {
        used += advance(*letter);
        used <= room
    };
    let mut cut: String = bare.chars().take_while(fits).collect();
    cut.push('…');
    Cow::Owned(if bare.len() < name.len() { isolated(&cut) } else { cut })
}

fn isolated(name: &str) -> String {
    format!("{}{name}{}", ISOLATE.0, ISOLATE.1)
}

/// Whether a character turns the writing to the left.
fn turns(letter: char) -> bool {
    matches!(letter as u32, 0x0590..=0x08FF | 0xFB1D..=0xFDFF | 0xFE70..=0xFEFF | 0x10800..=0x10FFF | 0x1E800..=0x1EFFF)
}

/// Whether a character has no place on a page: a control, or one that only turns the direction of others.
fn harmful(letter: char) -> bool {
    let code = letter as u32;
    letter.is_control()
        || code & 0xFFFE == 0xFFFE
        || matches!(code, 0x061C | 0x200E | 0x200F | 0x2028..=0x202E | 0x2066..=0x2069 | 0xFDD0..=0xFDEF)
}

/// A text without controls.
pub(crate) fn clean(text: &str) -> String {
    text.chars().map(|letter| if harmful(letter) { UNSHOWN } else { letter }).collect()
}

/// A name without controls, whose direction does not reach out of it.
fn dressed_name(name: &str) -> String {
    let name = clean(name);
    if name.chars().any(turns) {
        isolated(&name)
    } else {
        name
    }
}

/// The names of a depot, fit for a page; without its statements and questions.
pub(crate) fn dressed(depot: &Depot) -> Depot {
    let all = |names: &[String]| names.iter().map(|name| dressed_name(name)).collect();
    let attribute = |a: &Attribute| Attribute { name: dressed_name(&a.name), values: all(&a.values) };
    Depot {
        persons: all(&depot.persons),
        crews: all(&depot.crews),
        attributes: depot.attributes.iter().map(attribute).collect(),
        leads: all(&depot.leads),
        ..Depot::default()
    }
}

/// Puts a text behind `out`, with what XML and HTML set apart escaped.
pub(crate) fn escape(out: &mut String, text: &str) {
    for letter in text.chars() {
        match letter {
            '&' => out.push_str("&amp;"),
            '<' => out.push_str("&lt;"),
            '>' => out.push_str("&gt;"),
            '"' => out.push_str("&quot;"),
            '\'' => out.push_str("&#39;"),
            letter if letter.is_control() || letter as u32 & 0xFFFE == 0xFFFE => out.push(UNSHOWN),
            letter => out.push(letter),
        }
    }
}

/// A text, escaped.
pub(crate) fn escaped(text: &str) -> String {
    let mut out = String::with_capacity(text.len() + 8);
    escape(&mut out, text);
    out
}

/// Part of a phrase: words with their blanks, or a name that may be shortened.
pub(crate) enum Piece {
    /// As it stands.
    Word(&'static str),
    /// A name.
    Name(String),
}

/// A phrase with its names cut to `most` each, if any.
pub(crate) fn phrase(pieces: &[Piece], most: Option<usize>, size: usize) -> String {
    let mut text = String::new();
    for piece in pieces {
        match (piece, most) {
            (Piece::Word(word), _) => text.push_str(word),
            (Piece::Name(name), None) => text.push_str(name),
            (Piece::Name(name), Some(most)) => text.push_str(&short(name, most, size)),
        }
    }
    text
}

/// How far names are shortened, step by step, until a phrase fits.
pub(crate) const STEPS: [Option<usize>; 6] = [None, Some(160), Some(120), Some(90), Some(68), Some(50)];

/// A phrase that fits in `most`, as well as shorter names make it fit.
pub(crate) fn fitted(pieces: &[Piece], most: usize, size: usize) -> String {
    let mut text = String::new();
    for step in STEPS {
        text = phrase(pieces, step, size);
        if width(&text, size) <= most {
            break;
        }
    }
    text
}

/// A text over as many lines as asked for, or fewer, broken at blanks so that the widest is as narrow as can be.
pub(crate) fn wrapped(text: &str, lines: usize, size: usize) -> Vec<String> {
    let words: Vec<&str> = text.split(' ').collect();
    let mut best = vec![text.to_string()];
    let mut least = width(text, size);
    let mut consider = |breaks: &[usize]| {
        let ends = breaks.iter().copied().chain([words.len()]);
        let mut start = 0;
        let lines: Vec<String> = ends.map(|end| words[std::mem::replace(&mut start, end)..end].join(" ")).collect();
        let widest = lines.iter().map(|line| width(line, size)).max().unwrap_or(0);
        if widest < least {
            (best, least) = (lines, widest);
        }
    };
    for first in 1..if lines > 1 { words.len() } else { 0 } {
        consider(&[first]);
        for second in first + 1..if lines > 2 { words.len() } else { 0 } {
            consider(&[first, second]);
        }
    }
    best
}
