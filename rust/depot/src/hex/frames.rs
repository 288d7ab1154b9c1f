//! The frames, one function for each kind: refusals 4 to 7 and 9.
//!
//! Each first sees to the frame's length (4), then to its fields from left to right (5), and then to what fields that
//! are good each by itself say together (6, 7, 9).

use super::Bad;
use crate::model::{
    members, Fact, Kind, Mode, Op, Question, Rule, Statement, Term, MOST_ATTRIBUTES, MOST_CREWS, MOST_LEADS,
    MOST_PERSONS, MOST_TERMS, MOST_VALUES,
};
use crate::say::{counted, listed};

/// The sizes of a book.
pub(super) struct Sizes {
    pub(super) persons: u8,
    pub(super) crews: u8,
    /// Of each attribute how many values it has.
    pub(super) counts: Vec<u8>,
}

/// The kind, P, G and A.
const SIZES_FRONT: usize = 4;
/// The kind, op, role, a, v and n.
const RULE_FRONT: usize = 6;
/// The kind, mode, person, two bytes of roles, and q.
const QUERY_FRONT: usize = 6;
/// A term: kind, a and v. What a query asks of an attribute: the attribute and two bytes of a set.
const PART: usize = 3;
/// A query's set of crews.
const CREWS: usize = 4;

/// 01: P G A, then A counts.
pub(super) fn sizes(frame: &[u8]) -> Result<Sizes, Bad> {
    let [_, persons, crews, attributes, counts @ ..] = frame else {
        return Err(too_short(frame, SIZES_FRONT));
    };
    if counts.len() != usize::from(*attributes) {
        return Err(other_count(*attributes, counts));
    }
    size(frame, 1, "P", "person", 1..=MOST_PERSONS)?;
    size(frame, 2, "G", "crew", 0..=MOST_CREWS)?;
    size(frame, 3, "A", "attribute", 1..=MOST_ATTRIBUTES)?;
    for (attribute, &count) in counts.iter().enumerate() {
        if !(1..=MOST_VALUES).contains(&count.into()) {
            let many = counted(count.into(), "value");
            let text = format!(
                "the count of attribute {attribute:02X} is {count:02X}, {many}; an attribute has 1 to 16 (01 to 10)"
            );
            return Err(Bad::bytes(5, SIZES_FRONT + attribute, 1, text));
        }
    }
    Ok(Sizes { persons: *persons, crews: *crews, counts: counts.to_vec() })
}

/// Other counts than A says.
fn other_count(attributes: u8, counts: &[u8]) -> Bad {
    let text = format!("A is {attributes:02X} and {}", following(counts.len(), "count", "counts"));
    let bad = Bad::bytes(4, 3, 1, text);
    match counts {
        [count] if (2..=MOST_ATTRIBUTES).contains(&attributes.into()) => {
            let all = format!("{count:02X}").repeat(attributes.into());
            bad.help(format!("one count for all attributes is an old book's: write {all} behind A"))
        }
        _ => bad.help("one count follows for each attribute"),
    }
}

/// A size within its limits.
fn size(frame: &[u8], at: usize, letter: &str, what: &str, limits: std::ops::RangeInclusive<usize>) -> Result<(), Bad> {
    let size = usize::from(frame[at]);
    if limits.contains(&size) {
        return Ok(());
    }
    let (least, most) = limits.into_inner();
    let many = counted(size, what);
    let text = format!("{letter} is {size:02X}, {many}; a book has {least} to {most} ({least:02X} to {most:02X})");
    Err(Bad::bytes(5, at, 1, text))
}

/// 02: s j.
pub(super) fn edge(frame: &[u8], sizes: &Sizes) -> Result<Statement, Bad> {
    fixed_length(frame, 3)?;
    let senior = sizes.crew(frame, 1)?;
    let junior = sizes.crew(frame, 2)?;
    if junior >= senior {
        let text = if junior == senior {
            format!("crew {junior:02X} over itself: the junior is the smaller number")
        } else {
            format!("the junior {junior:02X} is above the senior {senior:02X}: the junior is the smaller number")
        };
        return Err(Bad::bytes(6, 2, 1, text).help("number juniors first"));
    }
    Ok(Statement::Over { senior, junior })
}

/// 03: op role a v n, then n terms.
pub(super) fn rule(frame: &[u8], sizes: &Sizes) -> Result<Rule, Bad> {
    rule_length(frame)?;
    let op = Op::of(frame[1]).ok_or_else(|| none_such(frame, 1, "op", "01 to 06"))?;
    let lead = frame[2];
    if usize::from(lead) >= MOST_LEADS {
        return Err(none_such(frame, 2, "role", "00 to 0F"));
    }
    let [a, v] = sizes.subject(frame, 3, op.names_crew(), || format!("op {:02X}", frame[1]))?;
    if usize::from(frame[5]) > MOST_TERMS {
        let text = format!("n is {:02X}, {} terms; a rule has at most {MOST_TERMS}", frame[5], frame[5]);
        return Err(Bad::bytes(5, 5, 1, text));
    }
    let places = (RULE_FRONT..frame.len()).step_by(PART);
    let terms = places.map(|at| term(frame, at, sizes)).collect::<Result<Vec<Term>, Bad>>()?;
    // 5 of a later term comes before 7 of an earlier one, so all terms are read by now.
    if let Some(place) = terms.iter().position(|term| term.kind.names_crew()).filter(|_| !op.names_crew()) {
        return Err(term_on_crew(frame, RULE_FRONT + PART * place));
    }
    Ok(Rule { op, lead, a, v, terms })
}

fn rule_length(frame: &[u8]) -> Result<(), Bad> {
    let Some(&n) = frame.get(RULE_FRONT - 1) else {
        return Err(too_short(frame, RULE_FRONT));
    };
    parts_length(frame, n, 0, |terms| format!("n is {n:02X} and {}", following(terms, "term", "terms")))
}

/// One term: kind, a and v.
fn term(frame: &[u8], at: usize, sizes: &Sizes) -> Result<Term, Bad> {
    let kind = Kind::of(frame[at]).ok_or_else(|| none_such(frame, at, "term kind", "01 to 05, 81 and 83"))?;
    let [a, v] = sizes.subject(frame, at + 1, kind.names_crew(), || format!("term {:02X}", frame[at]))?;
    Ok(Term { kind, a, v })
}

fn term_on_crew(frame: &[u8], at: usize) -> Bad {
    let (kind, op) = (frame[at], frame[1]);
    let text = format!("term {kind:02X} in op {op:02X}: terms on crews (03, 04 and 83) stand in ops 05 and 06 alone");
    Bad::bytes(7, at, 1, text).help(if kind == 0x83 {
        "ask for a value that is not held (term 81)"
    } else {
        "ask for a value that the crew holds (term 02 or 05)"
    })
}

/// 04: k s a v.
pub(super) fn fact(frame: &[u8], sizes: &Sizes) -> Result<Fact, Bad> {
    fixed_length(frame, 5)?;
    match frame[1] {
        1 => {
            let person = sizes.person(frame, 2)?;
            let [attribute, value] = sizes.pair(frame, 3)?;
            Ok(Fact::PersonHas { person, attribute, value })
        }
        2 => {
            let crew = sizes.crew(frame, 2)?;
            let [attribute, value] = sizes.pair(frame, 3)?;
            Ok(Fact::CrewHas { crew, attribute, value })
        }
        3 => {
            let person = sizes.person(frame, 2)?;
            let [crew, _] = sizes.subject(frame, 3, true, || "fact 03".into())?;
            Ok(Fact::PersonIn { person, crew })
        }
        _ => Err(none_such(frame, 1, "k", "01, 02 and 03")),
    }
}

/// 05: mode person roles q, then q times attribute and set, and the crews of modes 02 and 03.
pub(super) fn query(frame: &[u8], sizes: &Sizes) -> Result<Question, Bad> {
    query_length(frame)?;
    let mode = mode(frame[1]).ok_or_else(|| none_such(frame, 1, "mode", "01, 02 and 03"))?;
    let person = sizes.person(frame, 2)?;
    let leads = u16::from_be_bytes([frame[3], frame[4]]);
    let q = usize::from(frame[5]);
    if q > MOST_ATTRIBUTES {
        let text = format!("q is {q:02X}, {q} attributes; a query names at most {MOST_ATTRIBUTES}");
        return Err(Bad::bytes(5, 5, 1, text));
    }
    let behind = QUERY_FRONT + PART * q;
    let wants = (QUERY_FRONT..behind).step_by(PART).map(|at| want(frame, at, sizes));
    let wants = wants.collect::<Result<Vec<(u8, u16)>, Bad>>()?;
    let crews = if mode == Mode::AtLeast { 0 } else { sizes.crew_set(frame, behind)? };
    if let Some(place) = wants.windows(2).position(|two| two[0].0 >= two[1].0) {
        return Err(not_rising(&wants, place));
    }
    Ok(Question { mode, person, leads, wants, crews })
}

fn mode(number: u8) -> Option<Mode> {
    [Mode::AtLeast, Mode::Exactly, Mode::Directly].into_iter().find(|mode| *mode as u8 == number)
}

fn query_length(frame: &[u8]) -> Result<(), Bad> {
    let Some(&q) = frame.get(QUERY_FRONT - 1) else {
        return Err(too_short(frame, QUERY_FRONT));
    };
    let mode = frame[1];
    // A mode that there is not has no crews behind, as mode 01.
    let crews = if matches!(mode, 2 | 3) { CREWS } else { 0 };
    let without = QUERY_FRONT + PART * usize::from(q);
    if crews == 0 && frame.len() == without + CREWS {
        let text = format!("a set of crews behind in mode {mode:02X}: modes 02 and 03 alone have it");
        return Err(Bad::bytes(4, without, CREWS, text));
    }
    if crews > 0 && frame.len() == without {
        let text = format!("no set of crews behind, but mode {mode:02X} has one, four bytes");
        return Err(Bad::characters(4, 2 * without, 1, text).help("for no crew write 00000000 behind"));
    }
    parts_length(frame, q, crews, |sets| {
        format!("q is {q:02X} and {}", following(sets, "attribute with its set", "attributes with their sets"))
    })
}

/// What a query asks of one attribute: the attribute and its set.
fn want(frame: &[u8], at: usize, sizes: &Sizes) -> Result<(u8, u16), Bad> {
    let attribute = sizes.attribute(frame, at)?;
    Ok((attribute, sizes.value_set(frame, at + 1, attribute)?))
}

/// The attribute behind the one at this place is not higher.
fn not_rising(wants: &[(u8, u16)], place: usize) -> Bad {
    let (one, next) = (wants[place].0, wants[place + 1].0);
    let text = if one == next {
        format!("attribute {one:02X} twice: the query's attributes rise, each named once")
    } else {
        format!("attribute {one:02X} before {next:02X}: the query's attributes rise")
    };
    Bad::bytes(9, QUERY_FRONT + PART * (place + 1), 1, text).help("name each attribute once, in rising order")
}

impl Sizes {
    fn person(&self, frame: &[u8], at: usize) -> Result<u8, Bad> {
        numbered(frame, at, "person", self.persons, "P")
    }

    fn crew(&self, frame: &[u8], at: usize) -> Result<u8, Bad> {
        numbered(frame, at, "crew", self.crews, "G")
    }

    fn attribute(&self, frame: &[u8], at: usize) -> Result<u8, Bad> {
        numbered(frame, at, "attribute", self.counts.len() as u8, "A")
    }

    /// An attribute and its value.
    fn pair(&self, frame: &[u8], at: usize) -> Result<[u8; 2], Bad> {
        let attribute = self.attribute(frame, at)?;
        let value = frame[at + 1];
        if value >= self.counts[usize::from(attribute)] {
            return Err(Bad::bytes(5, at + 1, 1, format!("value {value:02X}, {}", self.values_of(attribute))));
        }
        Ok([attribute, value])
    }

    /// The fields a and v: a crew and 00, or an attribute and its value.
    fn subject(&self, frame: &[u8], at: usize, names_crew: bool, whose: impl Fn() -> String) -> Result<[u8; 2], Bad> {
        if !names_crew {
            return self.pair(frame, at);
        }
        let crew = self.crew(frame, at)?;
        if frame[at + 1] != 0 {
            let text = format!("v is {:02X}, but in {} a is a crew and v is 00", frame[at + 1], whose());
            return Err(Bad::bytes(5, at + 1, 1, text));
        }
        Ok([crew, 0])
    }

    /// Two bytes of an attribute's values.
    fn value_set(&self, frame: &[u8], at: usize, attribute: u8) -> Result<u16, Bad> {
        let set = u16::from_be_bytes([frame[at], frame[at + 1]]);
        let count = self.counts[usize::from(attribute)];
        let outside = u32::from(set) >> count << count;
        if outside != 0 {
            let text = format!("the set {set:04X} has {}, {}", outsiders("value", outside), self.values_of(attribute));
            return Err(Bad::bytes(5, at, 2, text));
        }
        Ok(set)
    }

    /// Four bytes of crews.
    fn crew_set(&self, frame: &[u8], at: usize) -> Result<u32, Bad> {
        let set = u32::from_be_bytes([frame[at], frame[at + 1], frame[at + 2], frame[at + 3]]);
        // Without crews all is outside; a number cannot be shifted by all of its 32 bits.
        let inside = u32::MAX.checked_shr(32 - u32::from(self.crews)).unwrap_or(0);
        let outside = set & !inside;
        if outside != 0 {
            let has = outsiders("crew", outside);
            let text = format!("the set {set:08X} has {has}, {}", there_are("crew", self.crews, "G"));
            return Err(Bad::bytes(5, at, CREWS, text));
        }
        Ok(set)
    }

    /// `but attribute 00 has 3 values, 00 to 02 (line 1: its count is 03)`.
    fn values_of(&self, attribute: u8) -> String {
        let count = self.counts[usize::from(attribute)];
        let many = counted(count.into(), "value");
        format!("but attribute {attribute:02X} has {many}, {} (line 1: its count is {count:02X})", span(count))
    }
}

/// A number below the count of what there is.
fn numbered(frame: &[u8], at: usize, what: &str, count: u8, letter: &str) -> Result<u8, Bad> {
    let number = frame[at];
    if number < count {
        return Ok(number);
    }
    Err(Bad::bytes(5, at, 1, format!("{what} {number:02X}, {}", there_are(what, count, letter))))
}

/// `but this book has 1 crew, 00 (line 1: G is 01)`.
fn there_are(what: &str, count: u8, letter: &str) -> String {
    let many = match count {
        0 => format!("no {what}s"),
        _ => format!("{}, {}", counted(count.into(), what), span(count)),
    };
    format!("but this book has {many} (line 1: {letter} is {count:02X})")
}

/// The numbers below a count that is not 0: `00`, `00 and 01`, `00 to 02`.
fn span(count: u8) -> String {
    match count {
        0 | 1 => "00".into(),
        2 => "00 and 01".into(),
        _ => format!("00 to {:02X}", count - 1),
    }
}

/// `value 03`, `values 03 and 04`.
fn outsiders(what: &str, set: u32) -> String {
    let plural = if set.count_ones() == 1 { "" } else { "s" };
    format!("{what}{plural} {}", listed(members(set).map(|number| format!("{number:02X}")), ""))
}

/// `op 07: there are 01 to 06`.
fn none_such(frame: &[u8], at: usize, what: &str, there: &str) -> Bad {
    Bad::bytes(5, at, 1, format!("{what} {:02X}: there are {there}", frame[at]))
}

/// `no term follows`, `one term follows`, `3 terms follow`.
fn following(count: usize, one: &str, many: &str) -> String {
    match count {
        0 => format!("no {one} follows"),
        1 => format!("one {one} follows"),
        _ => format!("{count} {many} follow"),
    }
}

/// A frame that is always of the same length.
fn fixed_length(frame: &[u8], due: usize) -> Result<(), Bad> {
    if frame.len() == due {
        return Ok(());
    }
    let text = format!("a frame {:02X} has {due} bytes, and this line has {}", frame[0], frame.len());
    Err(other_length(frame, due, text))
}

/// A frame without all of its first fields.
fn too_short(frame: &[u8], least: usize) -> Bad {
    let text = format!("a frame {:02X} has {least} bytes or more, and this line has {}", frame[0], frame.len());
    other_length(frame, least, text)
}

/// A rule or a query, whose front tells how many parts follow, and so many bytes behind them.
fn parts_length(frame: &[u8], parts: u8, behind: usize, told: impl Fn(usize) -> String) -> Result<(), Bad> {
    let front = RULE_FRONT;
    let due = front + PART * usize::from(parts) + behind;
    let has = frame.len();
    if has == due {
        return Ok(());
    }
    Err(match has.checked_sub(front + behind) {
        Some(rest) if rest % PART == 0 => Bad::bytes(4, front - 1, 1, told(rest / PART)),
        _ => {
            let letter = if frame[0] == 3 { "n" } else { "q" };
            let text = format!("{letter} is {parts:02X}, which makes {due} bytes, and this line has {has}");
            other_length(frame, due, text)
        }
    })
}

/// The bytes that are too many, or the place behind the last.
fn other_length(frame: &[u8], due: usize, text: String) -> Bad {
    match frame.len().checked_sub(due) {
        Some(more) => Bad::bytes(4, due, more, text),
        None => Bad::characters(4, 2 * frame.len(), 1, text),
    }
}
