//! Small depots drawn from a seed: 1-2 persons, 0-3 crews, 1-2 attributes of 1-3 values, in most depots two of different
//! counts, at most twelve facts and twelve rules of every op and every kind of term, starting facts, and a query of mode
//! 01 or 02. And others of at most ten facts whose books only grow: with "not" terms, and a query of mode 03.

use crate::seed::Seed;
use crate::trials::{Draft, Ledger};

/// A search over all ledgers of a depot stays small.
const MOST_FACTS: usize = 12;

const MOST_RULES: usize = 12;

/// The same where a book only grows: most of its ledgers can be reached.
const MOST_GROWING_FACTS: usize = 10;

/// The kind of a ladder term: the subject effectively holds v or any higher value of a.
pub const LADDER: u8 = 5;

/// The kinds of "not" terms: the subject does not directly hold v of a, the person is not directly in crew a.
pub const NOT_HELD: u8 = 0x81;
pub const NOT_IN: u8 = 0x83;

/// The first line's numbers; an attribute that is not there has count 0.
#[derive(Clone, Copy)]
pub struct Sizes {
    pub persons: u8,
    pub crews: u8,
    pub counts: [u8; 2],
}

/// A fact as its line has it: kind 1 a person's value, 2 a crew's, 3 a person in crew a.
#[derive(Clone, Copy, PartialEq, Eq)]
pub struct Fact {
    pub kind: u8,
    pub subject: u8,
    pub a: u8,
    pub v: u8,
}

/// A drawn depot with all the facts that its sizes give.
pub struct Depot {
    pub sizes: Sizes,
    pub facts: Vec<Fact>,
    pub draft: Draft,
}

/// Whether an op adds its fact; the others delete it.
pub const fn is_adding(op: u8) -> bool {
    op % 2 == 1
}

impl Fact {
    /// The fact that a request is about.
    pub fn of(request: &[u8]) -> Self {
        Fact { kind: request[0].div_ceil(2), subject: request[2], a: request[3], v: request[4] }
    }

    /// The fact of a starting fact's line.
    pub fn of_frame(frame: &[u8]) -> Self {
        Fact { kind: frame[1], subject: frame[2], a: frame[3], v: frame[4] }
    }

    /// The fact's byte in a ledger and its bit there: "Person p's attribute a is a two-byte set at 16·p + 2·a, crew
    /// c's at 1,024 + 16·c + 2·a, person p's crews a four-byte set at 1,536 + 4·p; big-endian".
    fn place(self) -> (usize, u8) {
        let [s, a, v] = [self.subject, self.a, self.v].map(usize::from);
        let (set, last, number) = match self.kind {
            1 => (16 * s + 2 * a, 1, v),
            2 => (1_024 + 16 * s + 2 * a, 1, v),
            _ => (1_536 + 4 * s, 3, a),
        };
        (set + last - number / 8, 1 << (number % 8))
    }

    pub fn holds(self, ledger: &Ledger) -> bool {
        let (byte, bit) = self.place();
        ledger[byte] & bit != 0
    }

    pub fn put(self, ledger: &mut Ledger, on: bool) {
        let (byte, bit) = self.place();
        ledger[byte] = if on { ledger[byte] | bit } else { ledger[byte] & !bit };
    }
}

impl Sizes {
    pub fn attrs(self) -> u8 {
        self.counts.iter().filter(|&&count| count > 0).count() as u8
    }

    /// How many values an attribute has.
    pub fn values(self, a: u8) -> u8 {
        self.counts[usize::from(a)]
    }

    /// A person's row of a page that has every value: two bytes for each attribute, big-endian.
    pub fn full_row(self) -> [u8; 16] {
        let mut row = [0; 16];
        for (set, count) in row.chunks_exact_mut(2).zip(self.counts) {
            set.copy_from_slice(&((1_u16 << count) - 1).to_be_bytes());
        }
        row
    }

    fn fact_count(self) -> usize {
        let [persons, crews] = [self.persons, self.crews].map(usize::from);
        let values: usize = self.counts.map(usize::from).iter().sum();
        (persons + crews) * values + persons * crews
    }

    /// Every fact: the persons' values, the crews', the memberships.
    fn facts(self) -> Vec<Fact> {
        let mut facts = Vec::new();
        for (kind, subjects) in [(1, self.persons), (2, self.crews)] {
            for subject in 0..subjects {
                for a in 0..self.attrs() {
                    facts.extend((0..self.values(a)).map(|v| Fact { kind, subject, a, v }));
                }
            }
        }
        for subject in 0..self.persons {
            facts.extend((0..self.crews).map(|a| Fact { kind: 3, subject, a, v: 0 }));
        }
        facts
    }

    /// The first line: 01, persons, crews, attributes, and a count for each.
    fn frame(self) -> Vec<u8> {
        let counts = self.counts.into_iter().filter(|&count| count > 0);
        [1, self.persons, self.crews, self.attrs()].into_iter().chain(counts).collect()
    }
}

impl Depot {
    /// The depot of a book's frames.
    pub fn of(frames: Vec<Vec<u8>>) -> Self {
        let (persons, crews, counts) = match frames[0][..] {
            [1, persons, crews, 1, count] => (persons, crews, [count, 0]),
            [1, persons, crews, 2, first, second] => (persons, crews, [first, second]),
            _ => panic!("a first line"),
        };
        let sizes = Sizes { persons, crews, counts };
        Depot { sizes, facts: sizes.facts(), draft: Draft::new(frames) }
    }

    /// Draws a depot.
    pub fn draw(seed: &mut Seed) -> Self {
        let sizes = draw_sizes(seed, MOST_FACTS);
        let facts = sizes.facts();
        let mut frames = vec![sizes.frame()];
        let lines = 12 + seed.below(14);
        let mut rules = 0;
        for _ in 0..lines {
            frames.extend(draw_line(seed, sizes, &facts, &mut rules));
        }
        frames.push(draw_query(seed, sizes));
        Depot { sizes, facts, draft: Draft::new(frames) }
    }

    /// Draws a depot whose book only grows: ops 01, 03 and 05, a rule at most for each op, a and v, terms of kinds 01, 03,
    /// 81 and 83, one of the latter two at least, and a query of mode 03.
    pub fn draw_growing(seed: &mut Seed) -> Self {
        loop {
            let sizes = draw_sizes(seed, MOST_GROWING_FACTS);
            let facts = sizes.facts();
            let mut frames = vec![sizes.frame()];
            let lines = 8 + seed.below(20);
            for _ in 0..lines {
                let line = match seed.below(10) {
                    0 => draw_edge(seed, sizes),
                    1 => Some(draw_fact(seed, &facts)),
                    _ => Some(draw_growing_rule(seed, sizes)),
                };
                // A rule for the op, a and v of an earlier one is left out.
                let is_second =
                    |frame: &Vec<u8>| frames.iter().any(|other| key(other).is_some_and(|of| Some(of) == key(frame)));
                frames.extend(line.filter(|frame| !is_second(frame)));
            }
            frames.push(draw_growing_query(seed, sizes));
            let depot = Depot { sizes, facts, draft: Draft::new(frames) };
            if depot.has_not() {
                return depot;
            }
        }
    }

    /// Whether a rule has a "not" term.
    pub fn has_not(&self) -> bool {
        self.rules().any(|rule| rule[6..].chunks_exact(3).any(|term| matches!(term[0], NOT_HELD | NOT_IN)))
    }

    /// The rules' frames: 03, op, role, a, v, n and the terms.
    pub fn rules(&self) -> impl Iterator<Item = &[u8]> {
        self.draft.frames.iter().filter(|frame| frame[0] == 3).map(Vec::as_slice)
    }

    /// Whether a rule of this op has a ladder term.
    pub fn has_ladder(&self, op: u8) -> bool {
        let is_ladder = |term: &[u8]| term[0] == LADDER;
        self.rules().any(|rule| rule[1] == op && rule[6..].chunks_exact(3).any(is_ladder))
    }

    /// How many subjects an op may be about.
    pub fn subjects(&self, op: u8) -> u8 {
        if matches!(op, 3 | 4) {
            self.sizes.crews
        } else {
            self.sizes.persons
        }
    }

    /// The number of a fact among the depot's facts.
    pub fn number_of(&self, fact: Fact) -> Option<usize> {
        self.facts.iter().position(|&other| other == fact)
    }

    /// F, how many facts a plan may be about: those of the crews and of the query's person.
    pub fn tracked(&self) -> usize {
        let person = self.draft.query()[2];
        self.facts.iter().filter(|fact| fact.kind == 2 || fact.subject == person).count()
    }
}

/// 0 to 3 crews, more of them oftener.
fn draw_crews(seed: &mut Seed) -> u8 {
    match seed.below(8) {
        n @ 0..=4 => n.div_ceil(2),
        _ => 3,
    }
}

/// A count of 1 to 3 for each attribute, mostly of two, of which the second is another than the first seven times out of
/// eight.
fn draw_counts(seed: &mut Seed) -> [u8; 2] {
    let is_single = seed.below(16) == 0;
    let first = 1 + seed.below(3);
    let further = if seed.below(8) > 0 { 1 + seed.below(2) } else { 0 };
    if is_single {
        [first, 0]
    } else {
        [first, 1 + (first - 1 + further) % 3]
    }
}

/// Sizes drawn, and cut where they give too many facts: to one person, to counts of at most 2, to one attribute.
fn draw_sizes(seed: &mut Seed, most: usize) -> Sizes {
    let persons = 1 + seed.below(2);
    let crews = draw_crews(seed);
    let counts @ [first, second] = draw_counts(seed);
    let drawn = Sizes { persons, crews, counts };
    let lone = Sizes { persons: 1, ..drawn };
    let low = Sizes { counts: if first < second { [1, 2] } else { [2, second.min(1)] }, ..lone };
    let one = Sizes { counts: [first, 0], ..drawn };
    let least = Sizes { counts: [2, 0], ..lone };
    [drawn, lone, low, one].into_iter().find(|sizes| sizes.fact_count() <= most).unwrap_or(least)
}

/// Op, a and v of a rule's frame.
fn key(frame: &[u8]) -> Option<[u8; 3]> {
    match *frame {
        [3, op, _, a, v, ..] => Some([op, a, v]),
        _ => None,
    }
}

/// A rule of op 01 or 05, seldom 03, with one term or two, seldom none or three.
fn draw_growing_rule(seed: &mut Seed, sizes: Sizes) -> Vec<u8> {
    let op = if sizes.crews == 0 { 1 } else { [1, 1, 1, 5, 5, 5, 5, 3][usize::from(seed.below(8))] };
    let role = if seed.below(8) > 0 { seed.below(3) } else { 15 };
    let n = [0, 1, 1, 1, 1, 2, 2, 3][usize::from(seed.below(8))];
    let (a, v) = if op == 5 { (seed.below(sizes.crews), 0) } else { draw_value(seed, sizes) };
    let mut frame = vec![3, op, role, a, v, n];
    for _ in 0..n {
        let not = 0x80 * seed.below(2);
        if op == 5 && seed.below(2) == 1 {
            frame.extend([3 | not, seed.below(sizes.crews), 0]);
        } else {
            let (a, v) = draw_value(seed, sizes);
            frame.extend([1 | not, a, v]);
        }
    }
    frame
}

/// A query of mode 03, mostly by roles 0 to 2 and for most of what there is.
fn draw_growing_query(seed: &mut Seed, sizes: Sizes) -> Vec<u8> {
    let person = seed.below(sizes.persons);
    let named: Vec<u8> = (0..sizes.attrs()).filter(|_| seed.below(8) > 0).collect();
    let mut frame = vec![5, 3, person, 128 * seed.below(2), draw_roles(seed), named.len() as u8];
    for a in named {
        frame.extend([a, 0, draw_set(seed, sizes.values(a))]);
    }
    frame.extend([0, 0, 0, draw_set(seed, sizes.crews)]);
    frame
}

/// A line between the first and the query: an edge, a starting fact, or a rule while there are not too many.
fn draw_line(seed: &mut Seed, sizes: Sizes, facts: &[Fact], rules: &mut usize) -> Option<Vec<u8>> {
    match seed.below(10) {
        0 | 1 => draw_edge(seed, sizes),
        2 | 3 => Some(draw_fact(seed, facts)),
        _ if *rules < MOST_RULES => {
            *rules += 1;
            Some(draw_rule(seed, sizes))
        }
        _ => None,
    }
}

/// An edge from a crew to one of smaller number, where there is such a pair.
fn draw_edge(seed: &mut Seed, sizes: Sizes) -> Option<Vec<u8>> {
    let senior = seed.below(sizes.crews);
    let junior = seed.below(senior);
    (senior > 0).then(|| vec![2, senior, junior])
}

fn draw_fact(seed: &mut Seed, facts: &[Fact]) -> Vec<u8> {
    let fact = facts[usize::from(seed.below(facts.len() as u8))];
    vec![4, fact.kind, fact.subject, fact.a, fact.v]
}

fn draw_rule(seed: &mut Seed, sizes: Sizes) -> Vec<u8> {
    let op = draw_op(seed, sizes);
    let role = draw_role(seed);
    let joins = op > 4;
    let n = draw_length(seed);
    let (a, v) = if joins { (seed.below(sizes.crews), 0) } else { draw_value(seed, sizes) };
    let mut frame = vec![3, op, role, a, v, n];
    for _ in 0..n {
        frame.extend(draw_term(seed, sizes, joins));
    }
    frame
}

/// An attribute and one of its own values.
fn draw_value(seed: &mut Seed, sizes: Sizes) -> (u8, u8) {
    let a = seed.below(sizes.attrs());
    (a, seed.below(sizes.values(a)))
}

/// Any of the ops that the sizes have a subject for.
fn draw_op(seed: &mut Seed, sizes: Sizes) -> u8 {
    1 + seed.below(if sizes.crews == 0 { 2 } else { 6 })
}

/// One of the roles 0, 1, 2 and 15.
fn draw_role(seed: &mut Seed) -> u8 {
    [0, 1, 2, 15][usize::from(seed.below(4))]
}

/// How many terms: none or one, seldom two or three.
fn draw_length(seed: &mut Seed) -> u8 {
    [0, 0, 0, 1, 1, 1, 2, 3][usize::from(seed.below(8))]
}

/// A term on values, every second a ladder term, or, where a rule joins persons and crews, on crews half of the time.
fn draw_term(seed: &mut Seed, sizes: Sizes, joins: bool) -> [u8; 3] {
    let on_crew = seed.below(2) == 1;
    if joins && on_crew {
        return [3 + seed.below(2), seed.below(sizes.crews), 0];
    }
    let kind = [1, 2, LADDER, LADDER][usize::from(seed.below(4))];
    let (a, v) = draw_value(seed, sizes);
    [kind, a, v]
}

fn draw_query(seed: &mut Seed, sizes: Sizes) -> Vec<u8> {
    let mode = draw_mode(seed);
    let person = seed.below(sizes.persons);
    let high = 128 * seed.below(2);
    let low = draw_roles(seed);
    let named = [seed.below(8) > 0, seed.below(8) > 0 && sizes.attrs() > 1];
    let q = named.iter().filter(|&&is_named| is_named).count() as u8;
    let mut frame = vec![5, mode, person, high, low, q];
    for (a, _) in (0..).zip(named).filter(|&(_, is_named)| is_named) {
        frame.extend([a, 0, draw_want(seed, sizes.values(a), mode)]);
    }
    if mode == 2 {
        frame.extend([0, 0, 0, draw_set(seed, sizes.crews)]);
    }
    frame
}

/// Mode 02 three times out of four.
fn draw_mode(seed: &mut Seed) -> u8 {
    if seed.below(4) > 0 {
        2
    } else {
        1
    }
}

/// The low byte of the query's roles: 0, 1 and 2, or any of them.
fn draw_roles(seed: &mut Seed) -> u8 {
    if seed.below(8) > 0 {
        7
    } else {
        seed.below(8)
    }
}

/// The set of a named attribute of so many values: in mode 01 drawn again where it is empty, which asks for nothing.
fn draw_want(seed: &mut Seed, values: u8, mode: u8) -> u8 {
    match draw_set(seed, values) {
        0 if mode == 1 => draw_set(seed, values),
        set => set,
    }
}

/// A set of numbers below n, at most 3.
fn draw_set(seed: &mut Seed, n: u8) -> u8 {
    if n == 0 {
        return 0;
    }
    seed.below(1 << n)
}
