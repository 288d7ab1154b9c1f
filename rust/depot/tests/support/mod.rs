//! What the tests share: JSON read back, strictly; a source of chance; digits to bytes; a folder of a test's own.

#![allow(dead_code)] // Each test file uses its part.

use std::fs;
use std::path::PathBuf;

/// The pilot depot, as it is stored.
pub const PILOT: &str = include_str!("../../../../examples/depots/pilot.depot");

/// Its book, by hand from docs/BOOK.md.
pub const PILOT_BOOK: &[&str] = &[
    "01 01 01 02 02 01",
    "04 02 00 00 00",
    "03 05 00 00 00 00",
    "03 01 01 00 01 01 02 00 00",
    "03 01 02 01 00 01 01 00 01",
    "05 01 00 0007 01 01 0001",
];

/// A value of JSON, as it was read.
#[derive(Clone, Debug, PartialEq)]
pub enum Json {
    /// `null`.
    Null,
    /// `true`, `false`.
    Bool(bool),
    /// A number.
    Number(f64),
    /// A string.
    Text(String),
    /// An array.
    List(Vec<Json>),
    /// An object; its keys differ.
    Object(Vec<(String, Json)>),
}

impl Json {
    /// Reads a text that is one value and nothing else; says at which character it goes wrong.
    pub fn read(text: &str) -> Result<Json, String> {
        let mut reader = JsonReader { text: text.chars().collect(), at: 0 };
        reader.blanks();
        let value = reader.value(0)?;
        reader.blanks();
        if reader.at < reader.text.len() {
            return reader.bad("the end is expected");
        }
        Ok(value)
    }

    /// The value of a key; panics where there is none.
    pub fn get(&self, key: &str) -> &Json {
        self.find(key).unwrap_or_else(|| panic!("no key `{key}` in {self:?}"))
    }

    /// The value of a key, if there is one.
    pub fn find(&self, key: &str) -> Option<&Json> {
        match self {
            Json::Object(members) => members.iter().find(|(name, _)| name == key).map(|(_, value)| value),
            other => panic!("{other:?} is no object"),
        }
    }

    /// The string of a key, where this is an object.
    pub fn find_text(&self, key: &str) -> Option<String> {
        match self {
            Json::Object(_) => self.find(key).map(|value| value.text().to_string()),
            _ => None,
        }
    }

    /// The keys of an object, in their order.
    pub fn keys(&self) -> Vec<&str> {
        match self {
            Json::Object(members) => members.iter().map(|(name, _)| name.as_str()).collect(),
            other => panic!("{other:?} is no object"),
        }
    }

    /// A string.
    pub fn text(&self) -> &str {
        match self {
            Json::Text(text) => text,
            other => panic!("{other:?} is no string"),
        }
    }

    /// A whole number.
    pub fn number(&self) -> usize {
        match self {
            Json::Number(number) if number.fract() == 0.0 && *number >= 0.0 => *number as usize,
            other => panic!("{other:?} is no whole number"),
        }
    }

    /// An array.
    pub fn list(&self) -> &[Json] {
        match self {
            Json::List(items) => items,
            other => panic!("{other:?} is no array"),
        }
    }
}

struct JsonReader {
    text: Vec<char>,
    at: usize,
}

impl JsonReader {
    fn bad<T>(&self, why: &str) -> Result<T, String> {
        Err(format!("character {}: {why}", self.at + 1))
    }

    fn peek(&self) -> Option<char> {
        self.text.get(self.at).copied()
    }

    fn next(&mut self) -> Option<char> {
        let c = self.peek();
        self.at += usize::from(c.is_some());
        c
    }

    fn eat(&mut self, wanted: char) -> bool {
        let hit = self.peek() == Some(wanted);
        self.at += usize::from(hit);
        hit
    }

    fn blanks(&mut self) {
        while matches!(self.peek(), Some(' ' | '\t' | '\n' | '\r')) {
            self.at += 1;
        }
    }

    fn value(&mut self, depth: usize) -> Result<Json, String> {
        if depth > 64 {
            return self.bad("too deep");
        }
        match self.peek() {
            Some('{') => self.object(depth),
            Some('[') => self.list(depth),
            Some('"') => self.string().map(Json::Text),
            Some('-' | '0'..='9') => self.number(),
            _ => {
                for (word, value) in [("null", Json::Null), ("true", Json::Bool(true)), ("false", Json::Bool(false))] {
                    if self.text[self.at..].iter().copied().take(word.len()).eq(word.chars()) {
                        self.at += word.len();
                        return Ok(value);
                    }
                }
                self.bad("a value is expected")
            }
        }
    }

    fn object(&mut self, depth: usize) -> Result<Json, String> {
        self.at += 1;
        let mut members: Vec<(String, Json)> = Vec::new();
        self.blanks();
        if self.eat('}') {
            return Ok(Json::Object(members));
        }
        loop {
            self.blanks();
            if self.peek() != Some('"') {
                return self.bad("a key is expected");
            }
            let key = self.string()?;
            if members.iter().any(|(name, _)| *name == key) {
                return self.bad("a key twice");
            }
            self.blanks();
            if !self.eat(':') {
                return self.bad("`:` is expected");
            }
            self.blanks();
            members.push((key, self.value(depth + 1)?));
            self.blanks();
            if self.eat('}') {
                return Ok(Json::Object(members));
            }
            if !self.eat(',') {
                return self.bad("`,` or `}` is expected");
            }
        }
    }

    fn list(&mut self, depth: usize) -> Result<Json, String> {
        self.at += 1;
        let mut items = Vec::new();
        self.blanks();
        if self.eat(']') {
            return Ok(Json::List(items));
        }
        loop {
            self.blanks();
            items.push(self.value(depth + 1)?);
            self.blanks();
            if self.eat(']') {
                return Ok(Json::List(items));
            }
            if !self.eat(',') {
                return self.bad("`,` or `]` is expected");
            }
        }
    }

    fn string(&mut self) -> Result<String, String> {
        self.at += 1;
        let mut text = String::new();
        loop {
            match self.next() {
                None => return self.bad("the string does not end"),
                Some('"') => return Ok(text),
                Some(c) if u32::from(c) < 0x20 => return self.bad("a control character in a string"),
                Some('\\') => text.push(self.escaped()?),
                Some(c) => text.push(c),
            }
        }
    }

    fn escaped(&mut self) -> Result<char, String> {
        let c = match self.next() {
            Some(c @ ('"' | '\\' | '/')) => c,
            Some('b') => '\u{8}',
            Some('f') => '\u{C}',
            Some('n') => '\n',
            Some('r') => '\r',
            Some('t') => '\t',
            Some('u') => return self.unit_pair(),
            _ => return self.bad("no such escape"),
        };
        Ok(c)
    }

    /// One or two units of UTF-16 behind `\u`.
    fn unit_pair(&mut self) -> Result<char, String> {
        let mut units = vec![self.unit()?];
        if (0xD800..0xDC00).contains(&units[0]) {
            if !(self.eat('\\') && self.eat('u')) {
                return self.bad("half a pair");
            }
            units.push(self.unit()?);
        }
        match char::decode_utf16(units).next() {
            Some(Ok(c)) => Ok(c),
            _ => self.bad("half a pair"),
        }
    }

    fn unit(&mut self) -> Result<u16, String> {
        let mut unit = 0;
        for _ in 0..4 {
            match self.next().and_then(|c| c.to_digit(16)) {
                Some(digit) => unit = unit * 16 + digit as u16,
                None => return self.bad("four digits are expected"),
            }
        }
        Ok(unit)
    }

    fn digits(&mut self) -> Result<(), String> {
        let from = self.at;
        while matches!(self.peek(), Some('0'..='9')) {
            self.at += 1;
        }
        if self.at == from {
            return self.bad("a digit is expected");
        }
        Ok(())
    }

    fn number(&mut self) -> Result<Json, String> {
        let from = self.at;
        self.eat('-');
        if !self.eat('0') {
            self.digits()?;
        }
        if self.eat('.') {
            self.digits()?;
        }
        if self.eat('e') || self.eat('E') {
            let _ = self.eat('+') || self.eat('-');
            self.digits()?;
        }
        let text: String = self.text[from..self.at].iter().collect();
        text.parse().map(Json::Number).map_err(|error| format!("{text}: {error}"))
    }
}

/// A source of chance with a fixed beginning.
pub struct Chance(u64);

impl Chance {
    /// From a number that is not 0.
    pub fn new(seed: u64) -> Chance {
        Chance(seed.max(1))
    }

    /// Any number.
    pub fn any(&mut self) -> u64 {
        self.0 ^= self.0 << 13;
        self.0 ^= self.0 >> 7;
        self.0 ^= self.0 << 17;
        self.0.wrapping_mul(0x2545_F491_4F6C_DD1D)
    }

    /// A number below another, which is not 0.
    pub fn below(&mut self, end: usize) -> usize {
        ((self.any() >> 33) % end as u64) as usize
    }

    /// One of some.
    pub fn of<'a, T>(&mut self, some: &'a [T]) -> &'a T {
        &some[self.below(some.len())]
    }
}

/// Lines of digits, in which blanks part the fields, as a book's characters.
pub fn book(lines: &[&str]) -> String {
    lines.iter().map(|line| line.replace(' ', "") + "\n").collect()
}

/// A folder of a test's own, taken away at its end.
pub struct Folder(pub PathBuf);

impl Folder {
    /// A new one.
    pub fn new(name: &str) -> Folder {
        let path = std::env::temp_dir().join(format!("depot-{name}-{}", std::process::id()));
        let _ = fs::remove_dir_all(&path);
        fs::create_dir_all(&path).expect("a folder can be made");
        Folder(path)
    }

    /// Writes a file.
    pub fn put(&self, name: &str, bytes: impl AsRef<[u8]>) {
        fs::write(self.0.join(name), bytes).expect("a file can be written");
    }

    /// Reads a file.
    pub fn get(&self, name: &str) -> Vec<u8> {
        fs::read(self.0.join(name)).unwrap_or_else(|error| panic!("{name}: {error}"))
    }

    /// The names of all files, sorted.
    pub fn list(&self) -> Vec<String> {
        let entries = fs::read_dir(&self.0).expect("the folder can be read");
        let mut names: Vec<String> =
            entries.map(|entry| entry.expect("an entry").file_name().to_string_lossy().into_owned()).collect();
        names.sort();
        names
    }
}

impl Drop for Folder {
    fn drop(&mut self) {
        let _ = fs::remove_dir_all(&self.0);
    }
}
