//! A reader's place in a line, and the faults that fall there.

use crate::fault::Fault;
use crate::names::JOINTS;
use crate::source::Line;

/// A place in a line of words.
pub struct Cursor<'a> {
    line: &'a Line<'a>,
    /// The word that comes next.
    pub at: usize,
}

/// Words up to this length get a "did you mean".
const LONGEST_GUESS: usize = 64;
/// So many names are listed where none is near.
const LISTED: usize = 12;

impl<'a> Cursor<'a> {
    /// The line's beginning.
    pub fn new(line: &'a Line<'a>) -> Cursor<'a> {
        Cursor { line, at: 0 }
    }

    /// The line's number.
    pub fn number(&self) -> usize {
        self.line.number
    }

    /// The next word.
    pub fn peek(&self) -> Option<&'a str> {
        self.word(self.at)
    }

    /// A word of the line.
    pub fn word(&self, at: usize) -> Option<&'a str> {
        self.line.words.get(at).map(|word| word.text)
    }

    /// Passes the next word if it is this one.
    pub fn eat(&mut self, word: &str) -> bool {
        self.eat_all(&[word])
    }

    /// Whether the next words are these.
    pub fn sees(&self, words: &[&str]) -> bool {
        let here = self.line.words[self.at..].iter().take(words.len()).map(|word| word.text);
        here.eq(words.iter().copied())
    }

    /// Passes the next words if they are these.
    pub fn eat_all(&mut self, words: &[&str]) -> bool {
        let hit = self.sees(words);
        self.at += if hit { words.len() } else { 0 };
        hit
    }

    /// A fault at the next word, or behind the last.
    pub fn fault(&self, text: impl Into<String>) -> Fault {
        self.fault_at(self.at, text)
    }

    /// A fault at a word of the line, or behind the last.
    pub fn fault_at(&self, at: usize, text: impl Into<String>) -> Fault {
        let (column, width) = self.place(at);
        Fault::at(self.line.number, column, width, text)
    }

    /// Column and width of a word of the line, or of what is missing behind the last.
    pub fn place(&self, at: usize) -> (usize, usize) {
        self.line.words.get(at).map_or((self.line.end + 1, 1), |word| (word.column, word.width()))
    }

    /// Passes one of some words, which has to come next.
    pub fn expect(&mut self, words: &[&'static str]) -> Result<&'static str, Fault> {
        let wanted = words.iter().map(|word| format!("`{word}`")).collect::<Vec<_>>().join(" or ");
        match self.peek() {
            None => Err(self.fault(format!("{wanted} is missing here"))),
            Some(found) => match words.iter().find(|word| **word == found) {
                Some(word) => {
                    self.at += 1;
                    Ok(word)
                }
                None => {
                    let fault = self.fault(format!("`{}` where {wanted} is expected", cut(found)));
                    Err(fault.with_help(near_by(found, words.iter().copied(), 1).unwrap_or_default()))
                }
            },
        }
    }

    /// Passes a name, which has to be one of some; gives its number. `what` is what it names.
    pub fn name(&mut self, what: &str, names: &[String]) -> Result<u8, Fault> {
        // Before a word that joins others a name is missing. `nothing` and `nobody` stand where a name could.
        let joint = |word: &&str| JOINTS.contains(word) && !matches!(*word, "nothing" | "nobody");
        let Some(found) = self.peek().filter(|word| !joint(word)) else {
            return Err(self.fault(format!("the name of {} is missing here", a(what))).with_help(known(names)));
        };
        match names.iter().position(|name| name == found) {
            // Names past the 256th are not kept.
            Some(number) => {
                self.at += 1;
                Ok(number as u8)
            }
            None => {
                let help = near(found, names.iter().map(String::as_str));
                let help = help.unwrap_or_else(|| known(names));
                Err(self.fault(format!("no {what} is called `{}`", cut(found))).with_help(help))
            }
        }
    }

    /// The line has to end here.
    pub fn end(&self) -> Result<(), Fault> {
        self.peek().map_or(Ok(()), |word| Err(self.fault(format!("`{}` is too much here", cut(word)))))
    }
}

/// A word as it is told: of a very long one the beginning.
pub fn cut(word: &str) -> String {
    match word.char_indices().nth(LONGEST_GUESS) {
        Some((end, _)) => format!("{}…", &word[..end]),
        None => word.into(),
    }
}

/// `a person`, `an attribute`.
pub fn a(what: &str) -> String {
    format!("{} {what}", if what.starts_with('a') { "an" } else { "a" })
}

/// The names that there are.
pub fn known(names: &[String]) -> String {
    match names.len() {
        0 => "none is named yet".into(),
        1..=LISTED => format!("known: {}", names.join(", ")),
        many => format!("known: {} and {} more", names[..LISTED].join(", "), many - LISTED),
    }
}

/// "did you mean", where a name is near.
pub fn near<'n>(word: &str, names: impl Iterator<Item = &'n str>) -> Option<String> {
    let length = word.chars().count();
    if length > LONGEST_GUESS {
        return None;
    }
    // More than half of a short word is no slip.
    let most = match length {
        0 | 1 => 0,
        2 | 3 => 1,
        _ => 2,
    };
    near_by(word, names, most)
}

/// The same, for a word that is so far from the name at most.
fn near_by<'n>(word: &str, names: impl Iterator<Item = &'n str>, most: usize) -> Option<String> {
    if word.chars().count() > LONGEST_GUESS {
        return None;
    }
    let near =
        names.map(|name| (distance(word, name), name)).filter(|(far, _)| *far <= most).min_by_key(|(far, _)| *far);
    near.map(|(_, name)| format!("did you mean `{name}`?"))
}

/// How many characters to put in, take out or change; none where only the case differs.
fn distance(a: &str, b: &str) -> usize {
    if a.to_lowercase() == b.to_lowercase() {
        return 0;
    }
    let b: Vec<char> = b.chars().collect();
    let mut row: Vec<usize> = (0..=b.len()).collect();
    for (i, x) in a.chars().enumerate() {
        let mut diagonal = row[0];
        row[0] = i + 1;
        for (j, y) in b.iter().enumerate() {
            let above = row[j + 1];
            row[j + 1] = (diagonal + usize::from(x != *y)).min(above + 1).min(row[j] + 1);
            diagonal = above;
        }
    }
    row[b.len()]
}
