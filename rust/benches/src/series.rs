//! Growing books, each made from its numbers alone.
//!
//! The steps of a climb are values 0, 1, 2 and so on, counted through the attributes. Each step has four rules: add to a
//! person, add to a crew, delete from a person, delete from a crew; each asks for the one or two steps below. The query
//! wants exactly the last step, so the plan puts every step in and takes all but the last out again, the highest first.

use std::fmt::Write as _;

use crate::job::{Job, Operation};

/// How the crews stand to each other.
#[derive(Clone, Copy, Debug, PartialEq, Eq)]
pub enum Edges {
    /// Crew 1 over crew 0, 2 over 1, and so on: so many edges.
    Chain(u8),
    /// Of so many crews each over all the lower ones.
    Dense(u8),
}

impl Edges {
    /// Each edge: senior, junior.
    fn list(self) -> Vec<(u8, u8)> {
        match self {
            Edges::Chain(edges) => (1..=edges).map(|senior| (senior, senior - 1)).collect(),
            Edges::Dense(crews) => (1..crews).flat_map(|s| (0..s).map(move |j| (s, j))).collect(),
        }
    }

    /// The highest crew that has an edge, or 0.
    fn top(self) -> u8 {
        match self {
            Edges::Chain(edges) => edges,
            Edges::Dense(crews) => crews.saturating_sub(1),
        }
    }
}

/// A climb's numbers; every attribute has the same count.
#[derive(Clone, Copy, Debug)]
pub struct Climb {
    pub persons: u8,
    pub crews: u8,
    pub attrs: u8,
    pub values: u8,
    pub edges: Edges,
    /// Whether the rules stand in the book from the last step down, each after those that need it.
    pub falling: bool,
    /// Whether the rules ask for the steps below.
    pub terms: bool,
}

impl Climb {
    fn steps(&self) -> u8 {
        self.attrs * self.values
    }

    /// A step as attribute and value.
    fn step(&self, k: u8) -> (u8, u8) {
        (k / self.values, k % self.values)
    }

    /// The terms of the rules of a step.
    fn terms(&self, k: u8) -> String {
        let below = (1..=2_u8.min(k)).map(|down| {
            let (a, v) = self.step(k - down);
            format!("{:02X}{a:02X}{v:02X}", if down == 1 && k.is_multiple_of(2) { 1 } else { 2 })
        });
        let terms: Vec<String> = below.take(if self.terms { 2 } else { 0 }).collect();
        format!("{:02X}{}", terms.len(), terms.concat())
    }

    /// The book's characters.
    pub fn text(&self) -> Vec<u8> {
        let mut text = sizes(self.persons, self.crews, self.attrs, self.values) + &edges(self.edges);
        let mut rules: Vec<String> = (0..self.steps()).flat_map(|k| self.rules(k)).collect();
        if self.falling {
            rules.reverse();
        }
        text += &rules.concat();
        let top = self.edges.top();
        if self.crews > 0 {
            text += &format!("040300{top:02X}00\n");
        }
        text += &self.query(if self.crews > 0 { 1 << top } else { 0 });
        text.into_bytes()
    }

    fn rules(&self, k: u8) -> [String; 4] {
        let (a, v) = self.step(k);
        let terms = self.terms(k);
        [1, 3, 2, 4].map(|op| format!("03{op:02X}00{a:02X}{v:02X}{terms}\n"))
    }

    /// Exactly the last step, in exactly the crews of a set.
    fn query(&self, crews: u32) -> String {
        let mut query = format!("050200FFFF{:02X}", self.attrs);
        for attr in 0..self.attrs {
            let set = if attr + 1 == self.attrs { 1_u16 << (self.values - 1) } else { 0 };
            // Writing to a string does not fail.
            let _ = write!(query, "{attr:02X}{set:04X}");
        }
        query + &format!("{crews:08X}\n")
    }

    /// So many requests on person 0: all steps up and down again, over and over.
    pub fn climbs(&self, requests: usize) -> Vec<u8> {
        let step = |op: u8, k: u8| {
            let (a, v) = self.step(k);
            [op, 0, 0, a, v]
        };
        let up = (0..self.steps()).map(|k| step(1, k));
        let down = (0..self.steps() - 1).rev().map(|k| step(2, k));
        let once: Vec<[u8; 5]> = up.chain(down).collect();
        once.into_iter().cycle().take(requests).flatten().collect()
    }
}

/// A book whose planner loses two facts of a crew in each of so many rounds, at most 60, on each of 32 crews.
///
/// Of a crew, the values of attributes 0 to 3 must go again, those of 4 to 7 may stay. Each of the first is added after one
/// of the second and the other way round; deleting one of the first needs the next of the second. The last of the first has
/// no deletion, so it may never be added, nor what rests on it, and then the one before it cannot be deleted.
fn rounds(count: u8) -> Vec<u8> {
    let first = |k: u8| format!("{:02X}{:02X}", k / 16, k % 16);
    let second = |k: u8| format!("{:02X}{:02X}", 4 + k / 16, k % 16);
    let mut text = sizes(1, 32, 8, 16) + &edges(Edges::Chain(31));
    for k in (0..count).rev() {
        text += &format!("030300{}0101{}\n", second(k), first(k));
        text += &match k.checked_sub(1) {
            Some(before) => format!("030300{}0101{}\n", first(k), second(before)),
            None => format!("030300{}00\n", first(k)),
        };
    }
    for k in (0..count - 1).rev() {
        text += &format!("030400{}0101{}\n", first(k), second(k + 1));
    }
    text += "0403001F00\n030100030F00\n05020000010400000001000002000003800080000000\n";
    text.into_bytes()
}

/// Who add values by chains of rules.
#[derive(Clone, Copy, Debug, PartialEq, Eq)]
enum Takers {
    Crews,
    Persons,
}

/// A book of 32 crews, or of 64 persons, that each add 124 values, one after the other, by one of four chains of rules, in
/// which each rule stands before the one that it needs. They take so many of the chains in turn: with more than one, no
/// crew's or person's moves fire that fired for the one before.
fn chains(takers: Takers, taken: u8) -> Vec<u8> {
    let value = |k: u8| format!("{:02X}{:02X}", k / 16, k % 16);
    let chosen = |chain: u8| value(124 + chain);
    // The op of an addition, the kind of a starting fact, and the sizes.
    let (op, kind, (persons, crews)) = match takers {
        Takers::Crews => (3, 2, (1, 32)),
        Takers::Persons => (1, 1, (64, 0)),
    };
    let mut text = sizes(persons, crews, 8, 16);
    for chain in 0..4 {
        for k in (0..124_u8).rev() {
            text += &match k.checked_sub(1) {
                Some(below) => format!("03{op:02X}00{}0201{}01{}\n", value(k), chosen(chain), value(below)),
                None => format!("03{op:02X}00{}0101{}\n", value(k), chosen(chain)),
            };
        }
    }
    for taker in 0..persons.max(crews) {
        text += &format!("04{kind:02X}{taker:02X}{}\n", chosen(taker % taken));
    }
    text += "030100000000\n050100000101000001\n";
    text.into_bytes()
}

/// The first line: so many values of every attribute.
fn sizes(persons: u8, crews: u8, attrs: u8, values: u8) -> String {
    let counts = format!("{values:02X}").repeat(attrs.into());
    format!("01{persons:02X}{crews:02X}{attrs:02X}{counts}\n")
}

fn edges(edges: Edges) -> String {
    edges.list().into_iter().map(|(senior, junior)| format!("02{senior:02X}{junior:02X}\n")).collect()
}

/// Books that grow in one number.
pub struct Series {
    /// What its number counts.
    pub title: &'static str,
    /// The operations worth plotting.
    pub plotted: &'static [Operation],
    pub points: Vec<(usize, Job)>,
}

const MIDDLE: Climb =
    Climb { persons: 64, crews: 12, attrs: 4, values: 8, edges: Edges::Chain(11), falling: false, terms: true };

fn job(climb: Climb) -> Job {
    Job::new(climb.text()).expect("a climb is accepted")
}

/// A climb of so many rules, a power of two from 32 to 512.
fn with_rules(rules: usize, falling: bool) -> Job {
    let (attrs, values) = if rules < 64 { (1, (rules / 4) as u8) } else { ((rules / 64) as u8, 16) };
    job(Climb { attrs, values, falling, ..MIDDLE })
}

/// A climb without terms, of so many values, a power of two to 128, and 32 crews.
fn with_values(values: usize) -> Job {
    let (attrs, values) = if values < 16 { (1, values as u8) } else { ((values / 16) as u8, 16) };
    job(Climb { persons: 1, crews: 32, attrs, values, edges: Edges::Chain(31), terms: false, ..MIDDLE })
}

fn with_edges(edges: Edges) -> Job {
    job(Climb { crews: 32, attrs: 2, edges, ..MIDDLE })
}

fn with_crews(crews: u8) -> Job {
    job(Climb { crews, edges: Edges::Chain(crews - 1), ..MIDDLE })
}

fn with_climbs(requests: usize) -> Job {
    Job::with_list(MIDDLE.text(), MIDDLE.climbs(requests)).expect("a climb is accepted")
}

fn with_rounds(count: u8) -> Job {
    Job::new(rounds(count)).expect("the book is accepted")
}

fn with_chains(takers: Takers, taken: u8) -> Job {
    Job::new(chains(takers, taken)).expect("the book is accepted")
}

fn with_persons(persons: u8) -> Job {
    job(Climb { persons, ..MIDDLE })
}

fn points<N: Copy>(numbers: &[N], number: impl Fn(N) -> usize, job: impl Fn(N) -> Job) -> Vec<(usize, Job)> {
    numbers.iter().map(|&n| (number(n), job(n))).collect()
}

/// Every series.
pub fn all() -> Vec<Series> {
    const RULES: [usize; 5] = [32, 64, 128, 256, 512];
    const ALL: &[Operation] = &Operation::ALL;
    const PAGE: &[Operation] = &[Operation::Page];
    let series = |title, plotted, points| Series { title, plotted, points };
    let pairs = |n: u8| usize::from(n) * usize::from(n - 1) / 2;
    let chained = |takers| points(&[1, 2, 4], usize::from, |taken| with_chains(takers, taken));
    vec![
        series("rules, each after those it needs", ALL, points(&RULES, |n| n, |n| with_rules(n, false))),
        series("rules, each before those it needs", ALL, points(&RULES, |n| n, |n| with_rules(n, true))),
        series("crews in a chain", ALL, points(&[1, 2, 4, 8, 16, 32], usize::from, with_crews)),
        series("edges of a chain", ALL, points(&[1, 3, 7, 15, 31], usize::from, |n| with_edges(Edges::Chain(n)))),
        series("edges, dense", ALL, points(&[2, 4, 8, 16, 32], pairs, |n| with_edges(Edges::Dense(n)))),
        series("values of 32 crews", ALL, points(&[1, 2, 4, 8, 16, 32, 64, 128], |n| n, with_values)),
        series("requests replayed", &[Operation::Replay], points(&[32, 128, 512, 2_048, 8_192], |n| n, with_climbs)),
        series("rounds of each level", ALL, points(&[4, 8, 15, 30, 60], usize::from, with_rounds)),
        series("chains that crews take in turn", &[Operation::Plan, Operation::Page], chained(Takers::Crews)),
        series("persons", PAGE, points(&[1, 2, 4, 8, 16, 32, 64], usize::from, with_persons)),
        series("chains that persons take in turn", PAGE, chained(Takers::Persons)),
    ]
}

#[cfg(test)]
mod tests {
    use super::*;
    use crate::agree::{self, Found};
    use crate::job::Buffers;
    use crate::measure;

    #[test]
    fn both_accept_every_book_and_agree() {
        for series in all() {
            for (number, job) in &series.points {
                let found = agree::check(job).unwrap_or_else(|why| panic!("{} {number}: {why}", series.title));
                assert!(matches!(found, Found::Plans(1.., 1..)), "{} {number}: {found:?}", series.title);
            }
        }
    }

    #[test]
    fn numbers_are_those_of_the_books() {
        let rules: Vec<usize> = all()[0].points.iter().map(|(_, job)| job.book.rules.len()).collect();
        assert_eq!(rules, [32, 64, 128, 256, 512]);
        for series in &all()[3..5] {
            assert!(series.points.iter().all(|(edges, job)| job.book.edges.len() == *edges));
        }
        assert!(all()[6].points.iter().all(|(requests, job)| job.list.len() == 5 * requests));
        assert!(all()[9].points.iter().all(|(persons, job)| usize::from(job.book.sizes.persons) == *persons));
    }

    /// The library settles all persons at once. No answer shows it, but with a level for each person in turn this page
    /// takes some twenty times as long, since no two neighbours' moves fire in the same order.
    #[test]
    fn chains_in_turn_make_a_page_no_dearer() {
        let micros = |taken| {
            let job = with_chains(Takers::Persons, taken);
            measure::micros(Operation::Page, &job, &mut Buffers::new())[0]
        };
        let (one_chain, in_turn) = (micros(1), micros(4));
        assert!(in_turn < 5.0 * one_chain, "{in_turn} µs, and {one_chain} where all take one chain");
    }
}
