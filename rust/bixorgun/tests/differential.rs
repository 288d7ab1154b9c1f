//! The library against `reference`, the second implementation: seeded books, good and damaged, and all six operations.
//!
//! Each case is drawn from its own seed; a case that fails prints the seed and the book. Each run counts what it saw and
//! wants every refusal of every operation, and every answer, at least once. The plan alone is left open: of it the runs
//! want that both say no way or both plan, and that both accept both plans.
//!
//! Ladder terms are drawn in every op. Each run of drawn books counts what rests on one, and wants all or some of it.
//!
//! A refused request's answer is compared whole: number, line, and the rule and term that 15 tells. Each run counts
//! what 13 and 15 met, on whole books and ledgers and on such with one bit changed.
//!
//! Each attribute has its own count of values. Each run of drawn books counts those whose counts are not all the same, what
//! became of them, and what was refused for a value that a neighbour has: another attribute of the same book.
//!
//! Every book has its page filled, over a pattern, and so has every book with one bit changed: all 1,024 bytes are
//! compared. Each run counts the bits, and wants half of what was measured: [`PAGES`].
//!
//! Runs of their own draw books that only grow, with "not" terms and mode 03, which have no page. They count what rests on
//! a "not" term. 16 and 17 fall in every run.

use std::env;
use std::fs;
use std::path::PathBuf;
use std::thread::panicking;

use bixorgun::bytes::{self, Planned, Shown};
use bixorgun::{
    plan_size, Attr, Book, Judgement, Ledger, Page, Person, Refusal, Request, LEDGER_SIZE, PAGE_SIZE, PLAN_MAX,
    VIEW_SIZE,
};
use reference::book::{Mode, Sizes};
use reference::gen::{self, Draft, Limit, Rng};
use reference::plan::{closure, demand};
use reference::replay::Verdict;
use reference::{book, ledger, page, plan, replay};

mod start;
use start::{at_the_start, Table};

const OPERATIONS: [&str; 6] = ["open", "request", "show", "plan", "replay", "page"];
const OPEN: usize = 0;
const REQUEST: usize = 1;
const SHOW: usize = 2;
const PLAN: usize = 3;
const REPLAY: usize = 4;
const PAGE: usize = 5;

const ANSWERS: [&str; 11] = [
    "open done",
    "request done, changed",
    "request done, equal",
    "show done",
    "show no room",
    "no way",
    "plan",
    "reaches",
    "stops",
    "ends short",
    "page done",
];

/// How often each refusal of each operation and each answer was seen.
#[derive(Default)]
struct Counts {
    books: usize,
    refusals: [[usize; 18]; OPERATIONS.len()],
    answers: [usize; ANSWERS.len()],
    bits: usize,
    requests: usize,
    longest: usize,
    ladders: Ladders,
    ranges: Ranges,
    pages: Pages,
    nots: Nots,
    /// Of requests as they were drawn, and of those where one bit of the ledger and of the book is another.
    matches: Matches,
    bent_ledgers: Matches,
    bent_books: Matches,
}

/// What becomes of requests past 1-9, 11 and 12: what 13 and 15 tell apart. The answers here are the reference's; the
/// library's have been seen to be the same.
#[derive(Default)]
struct Matches {
    no_rule: usize,
    /// 15, by the request's op, 01 to 06, and by the kind of the unmet term, 01 to 05, 81 and 83.
    unmet_by_op: [usize; 6],
    unmet_by_kind: [usize; 7],
    /// 15 with a rule that is not the book's first, and with a term that is not the rule's first.
    later_rule: usize,
    later_term: usize,
    /// 15 where two rules or more match.
    several: usize,
    /// Done by a rule though an unmet term ends the trial of an earlier one.
    later_permits: usize,
    /// The highest places of a rule and of a term that 15 told.
    highest: (u16, u8),
    /// With one bit changed: another answer than before, and of these 15 as before with another rule or term.
    another: usize,
    moved: usize,
}

/// Done, or refused by 13 or 15; nothing where an earlier refusal falls.
type Judged = Option<Result<(), ledger::Refusal>>;

impl Matches {
    /// One request.
    fn request(&mut self, book: &book::Book, ledger: &[u8], request: &[u8]) -> Judged {
        let sizes = &book.sizes;
        let ledger = ledger::Ledger::from_bytes(sizes, ledger);
        let (ledger, request) = ledger.zip(ledger::Request::from_bytes(sizes, request))?;
        let depot = ledger::Depot::new(book);
        let trials = depot.trials(&ledger, &request);
        let answer = depot.refusal(&ledger, &request).map_or(Ok(()), Err);
        match answer {
            Ok(()) => self.later_permits += usize::from(trials[0].unmet.is_some()),
            Err(ledger::Refusal::UnmetTerm { rule, term }) => {
                let unmet = book.rules[usize::from(rule) - 1].terms[usize::from(term) - 1];
                self.unmet_by_op[usize::from(book::op(request.way, request.fact.what())) - 1] += 1;
                self.unmet_by_kind[kind(unmet)] += 1;
                self.later_rule += usize::from(rule > 1);
                self.later_term += usize::from(term > 1);
                self.several += usize::from(trials.len() > 1);
                self.highest = (self.highest.0.max(rule), self.highest.1.max(term));
            }
            Err(_) => self.no_rule += 1,
        }
        Some(answer)
    }

    /// The same request before a bit was changed and after.
    fn beside(&mut self, before: Judged, after: Judged) {
        if let (Some(before), Some(after)) = (before, after) {
            let number = |answer: Result<(), ledger::Refusal>| answer.map_err(|refusal| refusal.number());
            self.another += usize::from(before != after);
            self.moved += usize::from(before != after && number(before) == number(after));
        }
    }

    fn counts(&self) -> [(&'static str, usize); 6] {
        [
            ("13", self.no_rule),
            ("15", self.unmet_by_op.iter().sum()),
            ("15 with a later rule", self.later_rule),
            ("15 with a later term", self.later_term),
            ("15 where several rules match", self.several),
            ("done by a later rule that matches", self.later_permits),
        ]
    }

    fn print(&self, of: &str) {
        let counts = self.counts().map(|(name, times)| format!("{name}: {times}"));
        println!("  {of}, {}", counts.join(", "));
        println!("  {of}, 15 by ops: {:?}, by kinds: {:?}", self.unmet_by_op, self.unmet_by_kind);
        println!("  {of}, 15 at most {:?}; another answer: {}, 15 moved: {}", self.highest, self.another, self.moved);
    }

    fn all_seen(&self, of: &str, least: usize) {
        for (name, times) in self.counts() {
            assert!(times >= least, "{of}, {name}: {times}");
        }
        assert!(self.unmet_by_op.iter().all(|&times| times >= least), "{of}, 15 by ops: {:?}", self.unmet_by_op);
    }
}

/// The place of a term's kind among 01 to 05, 81 and 83.
fn kind(term: book::Term) -> usize {
    match term {
        book::Term::Holds(..) => 0,
        book::Term::EffectivelyHolds(..) => 1,
        book::Term::In(_) => 2,
        book::Term::EffectivelyIn(_) => 3,
        book::Term::Ladder(..) => 4,
        book::Term::NotHolds(..) => 5,
        book::Term::NotIn(_) => 6,
    }
}

/// The ops of a book that only grows.
const GROWING_OPS: [u8; 3] = [1, 3, 5];

/// What rests on "not" terms, in accepted books that have one. Against one: without the "not" terms the answer is another.
#[derive(Default)]
struct Nots {
    books: usize,
    /// By op, 01, 03 and 05: requests done by a rule with a "not" term, and refused against one.
    requests_by: [usize; 3],
    requests_against: [usize; 3],
    plans: usize,
    no_ways: usize,
    no_ways_against: usize,
    lists_against: usize,
    /// Books that are refused by 16, and by 17 for mode 03 without a "not" term and for another mode with one.
    refused_by_16: usize,
    refused_by_17: [usize; 2],
    /// Pages refused by 17 of books that the other operations accept.
    pages: usize,
}

impl Nots {
    fn counts(&self) -> [(&'static str, usize); 13] {
        let [by_1, by_3, by_5] = self.requests_by;
        let [against_1, against_3, against_5] = self.requests_against;
        [
            ("books", self.books),
            ("requests done, op 01", by_1),
            ("op 03", by_3),
            ("op 05", by_5),
            ("requests refused against one, op 01", against_1),
            ("op 03", against_3),
            ("op 05", against_5),
            ("plans", self.plans),
            ("no ways", self.no_ways),
            ("no ways against one", self.no_ways_against),
            ("lists against one", self.lists_against),
            ("refused by 16", self.refused_by_16),
            ("pages refused by 17", self.pages),
        ]
    }

    fn print(&self) {
        let counts = self.counts().map(|(name, times)| format!("{name}: {times}"));
        println!("  \"not\" terms, {}, refused by 17: {:?}", counts.join(", "), self.refused_by_17);
    }

    fn all_seen(&self, least: usize) {
        for (name, times) in self.counts() {
            assert!(times >= least, "\"not\" terms, {name}: {times}");
        }
        assert!(self.refused_by_17[1] >= least, "17: {:?}", self.refused_by_17);
    }

    /// A refused book. With its query's mode, which one digit of the last line tells, 17 is for either.
    fn refused(&mut self, text: &[u8], refusal: book::Refusal) {
        match refusal.number() {
            16 => self.refused_by_16 += 1,
            17 => self.refused_by_17[usize::from(frame(text, refusal.line)[1] != 3)] += 1,
            _ => {}
        }
    }

    /// A request on an accepted book with a "not" term.
    fn request(&mut self, book: &book::Book, ledger: &[u8], request: &[u8]) {
        let sizes = &book.sizes;
        let ledger = ledger::Ledger::from_bytes(sizes, ledger);
        let Some((ledger, request)) = ledger.zip(ledger::Request::from_bytes(sizes, request)) else { return };
        let op = book::op(request.way, request.fact.what());
        let Some(at) = GROWING_OPS.iter().position(|&other| other == op) else { return };
        let is_for =
            |rule: &&book::Rule| (rule.role, rule.way, rule.what) == (request.role, request.way, request.fact.what());
        if ledger::Depot::new(book).permits(&ledger, &request) {
            self.requests_by[at] += usize::from(book.rules.iter().find(is_for).is_some_and(book::Rule::has_not));
        } else {
            let dropped = book.nots_dropped();
            self.requests_against[at] += usize::from(ledger::Depot::new(&dropped).permits(&ledger, &request));
        }
    }

    fn plan(&mut self, book: &book::Book, planned: Option<Planned>) {
        match planned {
            Some(Planned::Plan(_)) => self.plans += 1,
            Some(Planned::NoWay) => {
                self.no_ways += 1;
                self.no_ways_against += usize::from(closure::plan(&book.nots_dropped()).is_some());
            }
            None => {}
        }
    }

    /// Any list of whole requests.
    fn replay(&mut self, book: &book::Book, list: &[u8]) {
        let verdict = |book| replay::judge(book, list, |_, _| ());
        self.lists_against += usize::from(verdict(book) != verdict(&book.nots_dropped()));
    }
}

/// What rests on ladder terms, in accepted books that have one. By one: with kind 02 in its place, which a higher value
/// does not fulfil, the answer is another. Against one: without it the answer is another.
#[derive(Default)]
struct Ladders {
    /// By op, 01 to 06: books with a ladder term in such a rule, and requests done by one and refused against one.
    books: [usize; 6],
    requests_by: [usize; 6],
    requests_against: [usize; 6],
    plans_by: usize,
    no_ways_against: usize,
    lists_by: usize,
    lists_against: usize,
    /// Books refused by 5, for a ladder term whose a or v is out of range.
    refused_by_5: usize,
    /// Books refused by 7, for another term beside a ladder term.
    refused_by_7: usize,
}

impl Ladders {
    fn by_ops(&self) -> [(&'static str, [usize; 6]); 3] {
        [
            ("books", self.books),
            ("requests done by one", self.requests_by),
            ("requests refused against one", self.requests_against),
        ]
    }

    fn others(&self) -> [(&'static str, usize); 6] {
        [
            ("plans by one", self.plans_by),
            ("no ways against one", self.no_ways_against),
            ("lists by one", self.lists_by),
            ("lists against one", self.lists_against),
            ("refused by 5", self.refused_by_5),
            ("refused by 7", self.refused_by_7),
        ]
    }

    fn print(&self) {
        let by_ops = self.by_ops().map(|(name, times)| format!("{name}: {times:?}"));
        let others = self.others().map(|(name, times)| format!("{name}: {times}"));
        println!("  ladder terms by ops, {}", by_ops.join(", "));
        println!("  ladder terms, {}", others.join(", "));
    }

    fn all_seen(&self) {
        for (name, times) in self.by_ops() {
            assert!(times.iter().all(|&times| times > 0), "ladder terms by ops, {name}: {times:?}");
        }
        for (name, times) in self.others() {
            assert!(times > 0, "ladder terms, {name}: never seen");
        }
    }

    /// A refused book, by the line that is refused.
    fn refused(&mut self, text: &[u8], refusal: book::Refusal, sizes: Sizes) {
        let terms = ladder_terms(text, refusal.line);
        match refusal.number() {
            5 => self.refused_by_5 += usize::from(terms.iter().any(|&[a, v]| sizes.pair(a, v).is_none())),
            7 => self.refused_by_7 += usize::from(!terms.is_empty()),
            _ => {}
        }
    }
}

/// The frame of a line; empty where it has none.
fn frame(text: &[u8], line: usize) -> Vec<u8> {
    let digits = text.split(|&character| character == b'\n').nth(line.saturating_sub(1)).unwrap_or(&[]);
    let byte = |two: &[u8]| u8::from_str_radix(&String::from_utf8_lossy(two), 16).ok();
    digits.chunks(2).map(byte).collect::<Option<_>>().unwrap_or_default()
}

/// The fields a and v of the ladder terms of a line; none where it is no rule.
fn ladder_terms(text: &[u8], line: usize) -> Vec<[u8; 2]> {
    match frame(text, line)[..] {
        [3, _, _, _, _, _, ref terms @ ..] => {
            terms.chunks_exact(3).filter(|term| term[0] == 5).map(|term| [term[1], term[2]]).collect()
        }
        _ => Vec::new(),
    }
}

const FIRST_LINES: [&str; 13] = [
    "4, too short for its A",
    "4, a count fewer",
    "4, a count more",
    "4, A raised alone",
    "4, A lowered alone",
    "4, over 64 bytes",
    "4, and a field out of range",
    "5, A = 0",
    "5, A = 9",
    "5, A = 255",
    "5, over 64 bytes",
    "5, a count of 0",
    "5, a count over 16",
];

const PLACES: [&str; 8] =
    ["rule", "term 01", "term 02", "term 05", "term 81", "person's fact", "crew's fact", "query's set"];

/// What rests on each attribute's own count. A value is a neighbour's when its own attribute has it not, but another
/// attribute of the book has: were the highest count that of all, nothing would be refused. The answers here are the
/// reference's; the library's have been seen to be the same.
#[derive(Default)]
struct Ranges {
    /// Accepted books, those of them with two attributes or more, and those whose counts differ: these alone count below.
    books: usize,
    several: usize,
    differing: usize,
    plans: usize,
    no_ways: usize,
    /// A buffer of 10 × F bytes that serves, and one of a byte less that is refused by 10.
    whole_buffers: usize,
    short_buffers: usize,
    /// Books refused by 5 for a neighbour's value, by [`PLACES`].
    places: [usize; PLACES.len()],
    /// Requests refused by 12 for a neighbour's value, by op, 01 to 04.
    requests: [usize; 4],
    /// Ledgers refused by 11 for a neighbour's value of a person and of a crew, in request and in show.
    in_request: [usize; 2],
    in_show: [usize; 2],
    /// Books refused on their first line, by [`FIRST_LINES`].
    first_lines: [usize; FIRST_LINES.len()],
}

impl Ranges {
    fn totals(&self) -> [(&'static str, usize); 5] {
        [
            ("books whose counts differ", self.differing),
            ("plans", self.plans),
            ("no ways", self.no_ways),
            ("whole buffers", self.whole_buffers),
            ("buffers refused by 10", self.short_buffers),
        ]
    }

    fn refusals(&self) -> [(&'static str, &[usize]); 4] {
        [
            ("5 by places", &self.places),
            ("12 by ops", &self.requests),
            ("11 of persons and crews, request", &self.in_request),
            ("11 of persons and crews, show", &self.in_show),
        ]
    }

    fn print(&self) {
        let totals = self.totals().map(|(name, times)| format!("{name}: {times}"));
        let totals = totals.join(", ");
        println!("  own counts, accepted books: {}, of several attributes: {}, {totals}", self.books, self.several);
        let refusals = self.refusals().map(|(name, times)| format!("{name}: {times:?}"));
        println!("  own counts, for a neighbour's value, {}; places: {}", refusals.join(", "), PLACES.join(", "));
        let first: Vec<_> = FIRST_LINES.iter().zip(self.first_lines).map(|(name, n)| format!("{name}: {n}")).collect();
        println!("  first lines, {}", first.join("; "));
    }

    /// The counts of most books differ, and everything was seen so often.
    fn all_seen(&self, least: usize) {
        assert!(2 * self.differing > self.books, "{} books of {}", self.differing, self.books);
        assert!(3 * self.differing > 2 * self.several, "{} books of {}", self.differing, self.several);
        for (name, times) in self.totals() {
            assert!(times >= 10 * least, "own counts, {name}: {times}");
        }
        for (name, times) in self.refusals() {
            assert!(times.iter().all(|&times| times >= least), "own counts, {name}: {times:?}");
        }
        for (name, times) in FIRST_LINES.iter().zip(self.first_lines) {
            assert!(times >= least, "first lines, {name}: {times}");
        }
    }

    fn accepted(&mut self, sizes: &Sizes) {
        self.books += 1;
        self.several += usize::from(sizes.attrs() > 1);
        self.differing += usize::from(sizes.differ());
    }

    /// A refused book, by the line that is refused; `drawn` are its sizes before any damage.
    fn refused(&mut self, text: &[u8], refusal: book::Refusal, drawn: &Sizes) {
        let frame = frame(text, refusal.line);
        if refusal.line == 1 {
            let seen = first_line(&frame, refusal.number(), drawn);
            self.first_lines.iter_mut().zip(seen).for_each(|(times, seen)| *times += usize::from(seen));
        } else if refusal.number() == 5 {
            let first = text.split_inclusive(|&character| character == b'\n').next().unwrap_or(&[]);
            let sizes = book::read(&[first, b"050100000000\n"].concat()).expect("a good first line").sizes;
            let wide = sizes.widened();
            let wider = Draft { sizes: wide, frames: vec![gen::first_frame(&wide)] }.text();
            let wider = book::read(&[&wider, &text[first.len()..]].concat());
            if wider != Err(refusal) {
                let seen = places(&frame, &sizes);
                self.places.iter_mut().zip(seen).for_each(|(times, seen)| *times += usize::from(seen));
            }
        }
    }

    fn request(&mut self, sizes: &Sizes, ledger: &[u8], request: &[u8]) {
        let wide = sizes.widened();
        if let Some(seen) = neighbours_bits(sizes, ledger) {
            self.in_request.iter_mut().zip(seen).for_each(|(times, seen)| *times += usize::from(seen));
        } else if ledger::Ledger::from_bytes(sizes, ledger).is_some() {
            let fits = |sizes| ledger::Request::from_bytes(sizes, request).is_some();
            if !fits(sizes) && fits(&wide) {
                self.requests[usize::from(request[0]) - 1] += 1;
            }
        }
    }

    fn show(&mut self, sizes: &Sizes, ledger: &[u8]) {
        if let Some(seen) = neighbours_bits(sizes, ledger) {
            self.in_show.iter_mut().zip(seen).for_each(|(times, seen)| *times += usize::from(seen));
        }
    }

    fn plan(&mut self, sizes: &Sizes, length: usize, planned: Option<Planned>) {
        if !sizes.differ() {
            return;
        }
        let need = 10 * sizes.facts();
        match planned {
            Some(Planned::Plan(_)) => self.plans += 1,
            Some(Planned::NoWay) => self.no_ways += 1,
            None => self.short_buffers += usize::from(length == need - 1),
        }
        self.whole_buffers += usize::from(planned.is_some() && length == need);
    }
}

/// Which of [`FIRST_LINES`] a refused first line is; none where it is no frame 01.
fn first_line(frame: &[u8], number: u8, drawn: &Sizes) -> [bool; FIRST_LINES.len()] {
    let (four, five) = (frame.first() == Some(&1) && number == 4, frame.first() == Some(&1) && number == 5);
    let (attrs, counts) = (frame.get(3).copied(), frame.get(4..).unwrap_or(&[]));
    let own = Some(drawn.attrs());
    // The same number of counts as was drawn, with another A.
    let alone = counts.len() == usize::from(drawn.attrs());
    let persons = frame.get(1).is_some_and(|persons| !(1..=64).contains(persons));
    let crews = frame.get(2).is_some_and(|&crews| crews > 32);
    let bad = |count: &u8| !(1..=16).contains(count);
    [
        four && attrs.is_none(),
        four && attrs == own && counts.len() + 1 == usize::from(drawn.attrs()),
        four && attrs == own && counts.len() == usize::from(drawn.attrs()) + 1,
        four && alone && attrs > own,
        four && alone && attrs < own,
        four && frame.len() > 64,
        four && (persons || crews || counts.iter().any(bad)),
        five && attrs == Some(0),
        five && attrs == Some(9),
        five && attrs == Some(255),
        five && frame.len() > 64,
        five && counts.contains(&0),
        five && counts.iter().any(|&count| count > 16),
    ]
}

/// In which of [`PLACES`] a frame has a neighbour's value.
fn places(frame: &[u8], sizes: &Sizes) -> [bool; PLACES.len()] {
    let wide = sizes.widened();
    let neighbours = |a, v| sizes.pair(a, v).is_none() && wide.pair(a, v).is_some();
    match *frame {
        [3, op, _, a, v, _, ref terms @ ..] => {
            let term = |kind| terms.chunks_exact(3).any(|term| term[0] == kind && neighbours(term[1], term[2]));
            let own = (1..=4).contains(&op) && neighbours(a, v);
            [own, term(1), term(2), term(5), term(0x81), false, false, false]
        }
        [4, k, _, a, v] => {
            let [person, crew] = [1, 2].map(|of| k == of && neighbours(a, v));
            [false, false, false, false, false, person, crew, false]
        }
        [5, _, _, _, _, q, ref rest @ ..] => {
            let mut sets = rest.chunks_exact(3).take(q.into());
            let outside = sets.any(|of| {
                let (attr, set) = (book::Attr(of[0]), u16::from_be_bytes([of[1], of[2]]));
                set & !sizes.all_values(attr) & wide.all_values(attr) != 0
            });
            [false, false, false, false, false, false, false, outside]
        }
        _ => [false; PLACES.len()],
    }
}

/// Whether a ledger has neighbours' values of persons and of crews; nothing where it is good or bad for another reason.
fn neighbours_bits(sizes: &Sizes, bytes: &[u8]) -> Option<[bool; 2]> {
    let fits = |sizes| ledger::Ledger::from_bytes(sizes, bytes).is_some();
    if fits(sizes) || !fits(&sizes.widened()) {
        return None;
    }
    Some([&bytes[..1_024], &bytes[1_024..1_536]].map(|rows| {
        let sets = (0..8).cycle().map(book::Attr).zip(rows.chunks_exact(2));
        sets.map(|(attr, set)| u16::from_be_bytes([set[0], set[1]]) & !sizes.all_values(attr)).any(|rest| rest != 0)
    }))
}

/// What each run measured of [`Counts::page_counts`].
const PAGES: [(&str, [usize; 14]); 10] = [
    (
        "small",
        [36_981, 2_662, 221_612, 63_423, 2_864, 3_018, 68_701, 35_689, 60_550, 25_736, 5_320, 5_856, 26_442, 2_088],
    ),
    (
        "small and aimed",
        [24_553, 1_868, 148_570, 41_825, 1_920, 2_000, 45_682, 28_644, 34_449, 24_553, 1_727, 4_510, 17_272, 1_365],
    ),
    ("middle", [8_931, 744, 55_686, 15_811, 734, 722, 79_915, 48_622, 63_920, 6_229, 2_637, 4_277, 6_880, 587]),
    ("tangled", [2_943, 268, 18_768, 5_153, 266, 272, 442, 12_006, 2_877, 2_943, 464, 0, 2_210, 75]),
    ("zigzags", [2_925, 242, 17_782, 5_670, 258, 192, 367, 52_712, 13_545, 2_925, 633, 0, 2_745, 1_266]),
    ("graded", [5_784, 592, 35_614, 11_280, 508, 486, 1_498, 9_250, 138_150, 3_476, 2_178, 0, 5_496, 662]),
    ("crowded", [6_011, 488, 37_552, 10_236, 506, 534, 25_145, 1_524, 35_797, 4_169, 478, 509, 4_225, 345]),
    ("staffed", [2_291, 214, 14_874, 4_178, 222, 232, 134_367, 282_134, 438_231, 1_811, 917, 1_896, 1_887, 638]),
    ("large", [383, 28, 2_014, 730, 36, 38, 358_260, 423_243, 292_523, 335, 105, 340, 347, 47]),
    ("stored", [830, 58, 14_012, 1_701, 372, 1_610, 179_105, 101_400, 642_345, 330, 102, 160, 871, 129]),
];

/// What the pages of accepted books have. The pages here are the library's; the reference's have been seen to be the
/// same.
#[derive(Default)]
struct Pages {
    given: usize,
    /// Bits of persons and values that the books have: set for what show gives of the opened ledger, set for what takes
    /// requests, and clear.
    start: usize,
    gained: usize,
    clear: usize,
    /// Of books of mode 02, of books whose own query gets no way and where a bit takes requests, and of books where
    /// such bits are not the same for all persons.
    mode_02: usize,
    no_way: usize,
    unlike: usize,
    /// Of books with one bit changed, and those of them that are another than before.
    bent: usize,
    another: usize,
}

impl Pages {
    /// The page of an accepted book, and whether its own query gets no way.
    fn given(&mut self, text: &[u8], book: &book::Book, table: &Table, no_way: bool) {
        let start = at_the_start(text, book.sizes.persons);
        assert!(table.iter().zip(&start).all(|(byte, start)| start & !byte == 0), "the start takes no request");
        let gained: Vec<u8> = table.iter().zip(&start).map(|(byte, start)| byte & !start).collect();
        let persons = usize::from(book.sizes.persons);
        self.given += 1;
        self.start += ones(&start);
        self.gained += ones(&gained);
        self.clear += persons * book.sizes.pairs().count() - ones(table);
        self.mode_02 += usize::from(book.query.mode != Mode::AtLeast);
        self.no_way += usize::from(no_way && ones(&gained) > 0);
        self.unlike += usize::from(gained.chunks_exact(16).take(persons).any(|row| *row != gained[..16]));
    }

    /// The page before a bit of the book was changed and after.
    fn beside(&mut self, before: Option<Table>, after: Option<Table>) {
        self.bent += usize::from(after.is_some());
        self.another += usize::from(before.zip(after).is_some_and(|(before, after)| before != after));
    }
}

/// How many bits are set.
fn ones(bytes: &[u8]) -> usize {
    bytes.iter().map(|byte| byte.count_ones() as usize).sum()
}

/// An accepted book with ladder terms, and the two that tell what rests on them. The answers here are the reference's;
/// the library's have been seen to be the same.
struct Twins<'b> {
    book: &'b book::Book,
    cut: book::Book,
    dropped: book::Book,
}

impl<'b> Twins<'b> {
    fn of(book: &'b book::Book, ladders: &mut Ladders) -> Option<Self> {
        for (op, books) in (1..).zip(&mut ladders.books) {
            let is_op = |rule: &&book::Rule| book::op(rule.way, rule.what) == op;
            *books += usize::from(book.rules.iter().filter(is_op).any(book::Rule::has_ladder));
        }
        book.has_ladder().then(|| Twins { book, cut: book.ladders_cut(), dropped: book.ladders_dropped() })
    }

    fn request(&self, ledger: &[u8], request: &[u8], ladders: &mut Ladders) {
        let sizes = &self.book.sizes;
        let ledger = ledger::Ledger::from_bytes(sizes, ledger);
        let Some((ledger, request)) = ledger.zip(ledger::Request::from_bytes(sizes, request)) else { return };
        let permits = |book| ledger::Depot::new(book).permits(&ledger, &request);
        let op = usize::from(book::op(request.way, request.fact.what())) - 1;
        if permits(self.book) {
            ladders.requests_by[op] += usize::from(!permits(&self.cut));
        } else {
            ladders.requests_against[op] += usize::from(permits(&self.dropped));
        }
    }

    fn plan(&self, ladders: &mut Ladders) {
        if closure::plan(self.book).is_some() {
            ladders.plans_by += usize::from(closure::plan(&self.cut).is_none());
        } else {
            ladders.no_ways_against += usize::from(closure::plan(&self.dropped).is_some());
        }
    }

    /// Any list of whole requests.
    fn replay(&self, list: &[u8], ladders: &mut Ladders) {
        let verdict = |book| replay::judge(book, list, |_, _| ());
        let own = verdict(self.book);
        ladders.lists_by += usize::from(verdict(&self.cut) != own);
        ladders.lists_against += usize::from(verdict(&self.dropped) != own);
    }
}

impl Counts {
    fn answer(&mut self, name: &str) {
        self.answers[ANSWERS.iter().position(|&answer| answer == name).expect("one of the answers")] += 1;
    }

    fn print(&self, run: &str) {
        println!("{run}: {} books", self.books);
        for (operation, numbers) in OPERATIONS.iter().zip(&self.refusals) {
            let seen: Vec<_> = (1..18).filter(|&n| numbers[n] > 0).map(|n| format!("{n}: {}", numbers[n])).collect();
            println!("  {operation:8} refused by {}", seen.join(", "));
        }
        let total: Vec<_> =
            (1..18).map(|n| format!("{n}: {}", self.refusals.iter().map(|of| of[n]).sum::<usize>())).collect();
        println!("  refusals in all {}", total.join(", "));
        let answers: Vec<_> =
            ANSWERS.iter().zip(self.answers).map(|(name, times)| format!("{name}: {times}")).collect();
        println!("  {}", answers.join(", "));
        println!("  bits damaged: {}; requests planned: {}, at most {}", self.bits, self.requests, self.longest);
    }

    fn print_matches(&self) {
        self.matches.print("requests");
        self.bent_ledgers.print("a ledger's bit");
        self.bent_books.print("a book's bit");
    }

    /// What came of page.
    fn page_counts(&self) -> [(&'static str, usize); 14] {
        let (pages, refusals) = (&self.pages, &self.refusals[PAGE]);
        [
            ("given", pages.given),
            ("the fewest of 1 to 9", *refusals[1..10].iter().min().expect("nine refusals")),
            ("1 to 9", refusals[1..10].iter().sum()),
            ("10", refusals[10]),
            ("16", refusals[16]),
            ("17", refusals[17]),
            ("bits set at the start", pages.start),
            ("bits set by requests", pages.gained),
            ("bits clear", pages.clear),
            ("of mode 02", pages.mode_02),
            ("of no way, with bits set by requests", pages.no_way),
            ("of persons who differ in these", pages.unlike),
            ("with a book's bit changed", pages.bent),
            ("another by that bit", pages.another),
        ]
    }

    fn print_pages(&self) {
        println!("  pages, {}", self.page_counts().map(|(name, times)| format!("{name}: {times}")).join(", "));
    }

    /// Of every count of page there is half of what was measured in this run.
    fn pages_seen(&self, run: &str) {
        let (_, measured) = PAGES.into_iter().find(|(name, _)| *name == run).expect("a measured run");
        for ((name, times), measured) in self.page_counts().into_iter().zip(measured) {
            assert!(2 * times >= measured, "pages, {name}: {times}, measured {measured}");
        }
    }

    /// Every refusal that the header gives an operation was seen, and no other; every answer was seen. Where all books that
    /// are drawn have a "not" term, a page, and 10 for one, need not be there.
    fn all_seen(&self, growing: bool) {
        let own: [&[usize]; OPERATIONS.len()] = [&[11], &[11, 12, 13, 15], &[11, 12], &[10], &[14], &[10]];
        for (at, ((operation, numbers), own)) in OPERATIONS.iter().zip(&self.refusals).zip(own).enumerate() {
            for (n, &times) in numbers.iter().enumerate() {
                let expected = matches!(n, 1..10 | 16 | 17) || own.contains(&n);
                let left_open = growing && (at, n) == (PAGE, 10);
                assert!(left_open || (times > 0) == expected, "{operation}, refusal {n}: seen {times} times");
            }
        }
        for (name, times) in ANSWERS.iter().zip(self.answers) {
            assert!(times > 0 || growing && *name == "page done", "{name}: never seen");
        }
        assert!(self.bits > 0);
    }

    /// With one bit of a ledger or of a book changed, 13 and 15 were seen in every way, an unmet term of every kind from 01
    /// to 05, and another answer than before.
    fn bent_seen(&self, least: usize) {
        for (of, matches) in [("a ledger's bit", &self.bent_ledgers), ("a book's bit", &self.bent_books)] {
            matches.all_seen(of, least);
            let kinds = &matches.unmet_by_kind[..5];
            assert!(kinds.iter().all(|&times| times >= least), "{of}: {kinds:?}");
            assert!(matches.another >= least, "{of}: {}", matches.another);
        }
    }

    /// Where books only grow: of 13 and 15, on whole books and ledgers and on such with one bit changed, all that such books
    /// can have, an unmet term of each of their kinds, and another answer by that bit.
    fn growing_seen(&self, least: usize) {
        let bent = [("a ledger's bit", &self.bent_ledgers), ("a book's bit", &self.bent_books)];
        for (of, matches) in [("requests", &self.matches)].into_iter().chain(bent) {
            let Matches { no_rule, later_rule, later_term, unmet_by_op, unmet_by_kind, another, .. } = *matches;
            let by_op = GROWING_OPS.map(|op| unmet_by_op[usize::from(op) - 1]);
            let by_kind = [0, 2, 5, 6].map(|kind| unmet_by_kind[kind]);
            let seen = [&[no_rule, later_rule, later_term][..], &by_op, &by_kind].concat();
            assert!(seen.iter().all(|&times| times >= least), "{of}: {seen:?}");
            assert!(of == "requests" || another >= least, "{of}: {another}");
        }
    }
}

/// A case, which prints itself when it fails.
struct Case {
    run: &'static str,
    seed: u64,
    text: Vec<u8>,
}

impl Drop for Case {
    fn drop(&mut self) {
        if panicking() {
            println!("run {}, seed {:#X}; the book:", self.run, self.seed);
            println!("{}", String::from_utf8_lossy(&self.text));
        }
    }
}

/// All that a refusal tells, of either implementation.
#[derive(Clone, Copy, Debug, PartialEq, Eq)]
struct Turned {
    number: u8,
    line: Option<usize>,
    /// The rule and the term of 15.
    unmet: Option<(u16, u8)>,
}

impl Turned {
    fn lone(number: u8) -> Self {
        Turned { number, line: None, unmet: None }
    }
}

fn ours(refusal: Refusal) -> Turned {
    let unmet = match refusal {
        Refusal::UnmetTerm { rule, term } => Some((rule, term)),
        _ => None,
    };
    Turned { number: refusal.number(), line: refusal.line(), unmet }
}

fn of_book(refusal: book::Refusal) -> Turned {
    Turned { line: Some(refusal.line), ..Turned::lone(refusal.number()) }
}

fn of_ledger(refusal: ledger::Refusal) -> Turned {
    match refusal {
        ledger::Refusal::Book(refusal) => of_book(refusal),
        ledger::Refusal::UnmetTerm { rule, term } => {
            Turned { unmet: Some((rule, term)), ..Turned::lone(refusal.number()) }
        }
        other => Turned::lone(other.number()),
    }
}

fn of_plan(refusal: plan::Refusal) -> Turned {
    match refusal {
        plan::Refusal::Book(refusal) => of_book(refusal),
        other => Turned::lone(other.number()),
    }
}

fn of_replay(refusal: replay::Refusal) -> Turned {
    match refusal {
        replay::Refusal::Book(refusal) => of_book(refusal),
        other => Turned::lone(other.number()),
    }
}

fn of_page(refusal: page::Refusal) -> Turned {
    match refusal {
        page::Refusal::Book(refusal) => of_book(refusal),
        other => Turned::lone(other.number()),
    }
}

/// Bytes of a length, anyhow.
fn filled(rng: &mut Rng, length: usize) -> Vec<u8> {
    let first = rng.bits() as usize;
    (0..length).map(|at| (first.wrapping_add(at.wrapping_mul(167)) >> (at % 3)) as u8).collect()
}

impl Case {
    fn open(&self, before: &[u8], counts: &mut Counts) {
        let (mut here, mut there) = (before.to_vec(), before.to_vec());
        let answer = bytes::open(&self.text, &mut here).map_err(ours);
        assert_eq!(answer, ledger::open(&self.text, &mut there).map_err(of_ledger), "open");
        assert_eq!(here, there, "open, the ledger");
        match answer {
            Ok(()) => {
                counts.answer("open done");
                assert_eq!(
                    Book::new(&self.text).open().map(Ledger::into_bytes).as_ref().map(|b| &b[..]),
                    Ok(&here[..])
                );
            }
            Err(turned) => {
                assert_eq!(here, before, "open, refused");
                counts.refusals[OPEN][usize::from(turned.number)] += 1;
            }
        }
    }

    /// Gives the ledger afterwards.
    fn request(&self, before: &[u8], request: &[u8], counts: &mut Counts) -> Vec<u8> {
        let (mut here, mut there) = (before.to_vec(), before.to_vec());
        let answer = bytes::request(&self.text, &mut here, request).map_err(ours);
        assert_eq!(answer, ledger::request(&self.text, &mut there, request).map_err(of_ledger), "request {request:?}");
        assert_eq!(here, there, "request {request:?}, the ledger");
        match answer {
            Ok(()) => counts.answer(if here == before { "request done, equal" } else { "request done, changed" }),
            Err(turned) => {
                assert_eq!(here, before, "request {request:?}, refused");
                counts.refusals[REQUEST][usize::from(turned.number)] += 1;
            }
        }
        // The same by types, where there are types for it.
        let typed = request.try_into().ok().and_then(Request::from_bytes);
        if let (Some(request), Ok(mut ledger)) = (typed, Ledger::try_from(before)) {
            assert_eq!(ledger.request(&Book::new(&self.text), request).map_err(ours), answer);
            assert_eq!(ledger.as_ref(), here);
        }
        here
    }

    fn show(&self, ledger: &[u8], person: u8, room: usize, rng: &mut Rng, counts: &mut Counts) {
        let before = filled(rng, room);
        let mut view = before.clone();
        let answer = bytes::show_into(&self.text, ledger, Person(person), &mut view).map_err(ours);
        let typed = bytes::show(&self.text, ledger, Person(person)).map_err(ours);
        match ledger::show(&self.text, ledger, person).map_err(of_ledger) {
            Ok(shown) => {
                let sets = shown.sets.iter().flat_map(|set| set.to_be_bytes());
                let front: Vec<u8> = sets.chain(shown.crews.to_be_bytes()).collect();
                if room < VIEW_SIZE {
                    assert_eq!(answer, Ok(Shown::NoRoom), "show {person}");
                    assert_eq!(view, before, "show {person}, no room");
                    counts.answer("show no room");
                } else {
                    assert_eq!(answer, Ok(Shown::Done), "show {person}");
                    assert_eq!(view[..VIEW_SIZE], front, "show {person}, the view");
                    assert_eq!(view[VIEW_SIZE..], before[VIEW_SIZE..], "show {person}, behind the view");
                    counts.answer("show done");
                }
                let typed = typed.expect("shown");
                for (attr, set) in (0..).map(Attr).zip(shown.sets) {
                    assert_eq!(typed.values(attr).bits(), set);
                    assert!(typed.values(attr).iter().map(u8::from).eq(ledger::numbers(set.into())));
                }
                assert_eq!(typed.crews().bits(), shown.crews);
                assert!(typed.crews().iter().map(u8::from).eq(ledger::numbers(shown.crews.into())));
            }
            Err(turned) => {
                assert_eq!(answer, Err(turned), "show {person}");
                assert_eq!(typed, Err(turned));
                assert_eq!(view, before, "show {person}, refused");
                counts.refusals[SHOW][usize::from(turned.number)] += 1;
            }
        }
    }

    fn replay(&self, list: &[u8], counts: &mut Counts) -> Option<Judgement> {
        let answer = bytes::replay(&self.text, list).map_err(ours);
        let expected = replay::replay(&self.text, list).map_err(of_replay).map(|verdict| match verdict {
            Verdict::Reaches => Judgement::Reaches,
            Verdict::StopsAt(k) => Judgement::Stops(k),
            Verdict::EndsShort => Judgement::EndsShort,
        });
        assert_eq!(answer, expected, "replay {list:?}");
        match answer {
            Ok(Judgement::Reaches) => counts.answer("reaches"),
            Ok(Judgement::Stops(_)) => counts.answer("stops"),
            Ok(Judgement::EndsShort) => counts.answer("ends short"),
            Err(turned) => counts.refusals[REPLAY][usize::from(turned.number)] += 1,
        }
        answer.ok()
    }

    /// Fills a table of a length, over a pattern; gives the page.
    fn page(&self, length: usize, rng: &mut Rng, counts: &mut Counts) -> Option<Table> {
        let before = filled(rng, length);
        let (mut here, mut there) = (before.clone(), before.clone());
        let answer = bytes::page(&self.text, &mut here).map_err(ours);
        assert_eq!(answer, page::page(&self.text, &mut there).map_err(of_page), "page, {length} bytes");
        assert_eq!(here, there, "page, {length} bytes, the table");
        match answer {
            Ok(()) => {
                counts.answer("page done");
                let table = here.try_into().expect("a page of another length");
                assert_eq!(Book::new(&self.text).page(), Ok(Page::from(table)));
                Some(table)
            }
            Err(turned) => {
                assert_eq!(here, before, "page, {length} bytes, refused");
                // The typed page lends a table of the right length.
                assert!(turned.number == 10 || Book::new(&self.text).page().map_err(ours) == Err(turned));
                counts.refusals[PAGE][usize::from(turned.number)] += 1;
                None
            }
        }
    }

    /// Its page, and then a table of another length: the book's own refusal comes first, else 10 falls.
    fn pages(&self, rng: &mut Rng, counts: &mut Counts) -> Option<Table> {
        let table = self.page(PAGE_SIZE, rng, counts);
        let other = rng.pick(&[0, 1, PAGE_SIZE - 1, PAGE_SIZE + 1, 2 * PAGE_SIZE]);
        let by_10 = counts.refusals[PAGE][10];
        assert_eq!(self.page(other, rng, counts), None, "{other} bytes");
        assert_eq!(counts.refusals[PAGE][10] > by_10, table.is_some(), "{other} bytes");
        table
    }

    /// Plans in a buffer of a length; both plans are then replayed by both, whole and damaged.
    fn plan(&self, length: usize, rng: &mut Rng, counts: &mut Counts) -> Option<Planned> {
        let before = filled(rng, length);
        let (mut here, mut there) = (before.clone(), before.clone());
        let answer = bytes::plan_into(&self.text, &mut here).map_err(ours);
        let expected = plan::plan(&self.text, &mut there).map_err(of_plan);
        match (answer, expected) {
            (Ok(Planned::NoWay), Ok(plan::Answer::NoWay)) => {
                assert_eq!(here, before, "plan, no way");
                counts.answer("no way");
            }
            (Ok(Planned::Plan(count)), Ok(plan::Answer::Plan(other))) => {
                let (front, behind) = here.split_at(5 * count);
                assert_eq!(behind, &before[5 * count..], "plan, behind it");
                let book = book::read(&self.text).expect("planned");
                let requests: Option<Vec<_>> =
                    front.chunks(5).map(|five| ledger::Request::from_bytes(&book.sizes, five)).collect();
                assert_eq!(demand::check(&book, &requests.expect("well formed")), Ok(()), "plan {front:?}");
                assert_eq!(self.replay(front, counts), Some(Judgement::Reaches), "plan {front:?}");
                assert_eq!(self.replay(&there[..5 * other], counts), Some(Judgement::Reaches));
                self.damaged(front, rng, counts);
                counts.answer("plan");
                counts.requests += count;
                counts.longest = counts.longest.max(count);
            }
            (Err(turned), Err(expected)) => {
                assert_eq!(turned, expected, "plan");
                assert_eq!(here, before, "plan, refused");
                counts.refusals[PLAN][usize::from(turned.number)] += 1;
            }
            differ => panic!("plan: {differ:?}"),
        }
        answer.ok()
    }

    /// A plan with a request lost or doubled, a bit changed, and its end cut.
    fn damaged(&self, plan: &[u8], rng: &mut Rng, counts: &mut Counts) {
        if plan.is_empty() {
            return;
        }
        let at = 5 * rng.below(plan.len() / 5);
        let mut list = plan.to_vec();
        list.drain(at..at + 5);
        self.replay(&list, counts);
        list = plan.to_vec();
        list.extend_from_slice(&plan[at..at + 5]);
        self.replay(&list, counts);
        list = plan.to_vec();
        list[rng.below(plan.len())] ^= 1 << rng.below(8);
        counts.bits += 1;
        self.replay(&list, counts);
        self.replay(&plan[..rng.below(plan.len())], counts);
    }
}

/// A request whose fields are in range, mostly one that a rule of the book names.
fn request(book: Option<&book::Book>, sizes: &Sizes, rng: &mut Rng) -> [u8; 5] {
    match book {
        Some(book) if rng.percent(85) => gen::apt_request(rng, book),
        _ => gen::request(rng, sizes),
    }
}

/// A request with one bit of the ledger, of itself and of the book changed, each beside the others as they were. Gives
/// the changed book.
fn bend(
    case: &Case,
    book: Option<&book::Book>,
    sizes: Sizes,
    whole: &[u8; LEDGER_SIZE],
    rng: &mut Rng,
    counts: &mut Counts,
) -> Vec<u8> {
    let asked = request(book, &sizes, rng);
    let mut ledger = *whole;
    gen::bent_ledger(rng, &sizes, &mut ledger);
    case.request(&ledger, &asked, counts);
    let person = rng.byte(0, sizes.persons - 1);
    case.show(&ledger, person, VIEW_SIZE, rng, counts);
    let mut other = asked;
    other[rng.below(5)] ^= 1 << rng.below(8);
    case.request(whole, &other, counts);
    let bent = gen::bent_book(rng, &case.text);
    Case { run: case.run, seed: case.seed, text: bent.clone() }.request(whole, &asked, counts);
    counts.bits += 3;

    let Some(book) = book else { return bent };
    counts.matches.request(book, whole, &other);
    let before = counts.matches.request(book, whole, &asked);
    let after = counts.bent_ledgers.request(book, &ledger, &asked);
    counts.bent_ledgers.beside(before, after);
    if let Ok(book) = book::read(&bent) {
        let after = counts.bent_books.request(&book, whole, &asked);
        counts.bent_books.beside(before, after);
    }
    bent
}

/// An accepted book with a request and with ledgers that have a neighbour's value.
fn neighbours(case: &Case, sizes: &Sizes, whole: &[u8], rng: &mut Rng, counts: &mut Counts) {
    let (Some(request), Some(ledger)) = (gen::neighbours_request(rng, sizes), gen::neighbours_ledger(rng, sizes))
    else {
        return;
    };
    case.request(whole, &request, counts);
    counts.ranges.request(sizes, whole, &request);
    let good = gen::request(rng, sizes);
    case.request(&ledger, &good, counts);
    counts.ranges.request(sizes, &ledger, &good);
    case.show(&ledger, rng.byte(0, sizes.persons - 1), VIEW_SIZE, rng, counts);
    counts.ranges.show(sizes, &ledger);
}

/// All six operations on one book: what is lent is now good and now bad.
fn operate(case: &Case, sizes: Sizes, rng: &mut Rng, counts: &mut Counts) {
    counts.books += 1;
    let book = book::read(&case.text);
    match &book {
        Ok(book) => counts.ranges.accepted(&book.sizes),
        Err(refusal) => {
            counts.ladders.refused(&case.text, *refusal, sizes);
            counts.ranges.refused(&case.text, *refusal, &sizes);
            counts.nots.refused(&case.text, *refusal);
        }
    }
    let book = book.ok();
    let growing = book.as_ref().filter(|book| book.has_not());
    counts.nots.books += usize::from(growing.is_some());
    let sizes = book.as_ref().map_or(sizes, |book| book.sizes);
    let twins = book.as_ref().and_then(|book| Twins::of(book, &mut counts.ladders));

    let length = if rng.percent(90) { LEDGER_SIZE } else { rng.pick(&[0, 1, LEDGER_SIZE - 1, LEDGER_SIZE + 1]) };
    let before = filled(rng, length);
    case.open(&before, counts);

    // A run of requests from the starting facts or from any ledger.
    let mut bytes = match &book {
        Some(book) if rng.percent(50) => ledger::Ledger::start(book).to_bytes().to_vec(),
        _ if rng.percent(85) => gen::ledger(rng, &sizes),
        _ => gen::damaged_ledger(rng, &sizes),
    };
    let steps = if book.is_some() { 4 } else { 1 };
    for _ in 0..steps {
        let bad = rng.percent(15);
        let request =
            if bad { gen::damaged_request(rng, &sizes) } else { request(book.as_ref(), &sizes, rng).to_vec() };
        if let Some(book) = book.as_ref().filter(|_| rng.percent(20)) {
            gen::meet_first_terms(rng, book, &mut bytes, &request);
        }
        let before = bytes;
        bytes = case.request(&before, &request, counts);
        if let Some(book) = &book {
            counts.matches.request(book, &before, &request);
            counts.ranges.request(&sizes, &before, &request);
        }
        if let Some(twins) = &twins {
            twins.request(&before, &request, &mut counts.ladders);
        }
        if let Some(book) = growing {
            counts.nots.request(book, &before, &request);
        }
    }
    let person = if rng.percent(85) { rng.byte(0, sizes.persons - 1) } else { rng.pick(&[sizes.persons, 64, 255]) };
    let room = if rng.percent(80) { VIEW_SIZE + rng.below(4) } else { rng.below(VIEW_SIZE) };
    case.show(&bytes, person, room, rng, counts);
    if book.is_some() && rng.percent(25) {
        neighbours(case, &sizes, &bytes, rng, counts);
    }
    let mut bent = Vec::new();
    if let Ok(whole) = <&[u8; LEDGER_SIZE]>::try_from(&bytes[..]) {
        bent.extend((0..2).map(|_| bend(case, book.as_ref(), sizes, whole, rng, counts)));
    }

    let need = 10 * sizes.facts();
    assert_eq!(plan_size(sizes.crews.into(), sizes.pairs().count()), need);
    let length = match rng.below(10) {
        0 => need - 1,
        1 => rng.below(need),
        2 => need + rng.below(30),
        3 => PLAN_MAX,
        _ => need,
    };
    let planned = case.plan(length, rng, counts);
    if book.is_some() {
        counts.ranges.plan(&sizes, length, planned);
    }
    if let Some(twins) = twins.as_ref().filter(|_| length >= need) {
        twins.plan(&mut counts.ladders);
    }
    if let Some(book) = growing {
        counts.nots.plan(book, planned);
    }

    let list = match &book {
        Some(book) => gen::list(rng, book),
        None => filled(rng, 7),
    };
    case.replay(&list, counts);
    if let Some(twins) = twins.filter(|_| list.len().is_multiple_of(5)) {
        twins.replay(&list, &mut counts.ladders);
    }
    if let Some(book) = growing.filter(|_| list.len().is_multiple_of(5)) {
        counts.nots.replay(book, &list);
    }

    // A book with a "not" term has no page.
    let table = case.pages(rng, counts);
    assert_eq!(table.is_some(), book.is_some() && growing.is_none());
    counts.nots.pages += usize::from(growing.is_some());
    if let Some((book, table)) = book.as_ref().zip(table) {
        counts.pages.given(&case.text, book, &table, planned == Some(Planned::NoWay));
    }
    for text in bent {
        let changed = Case { run: case.run, seed: case.seed, text }.pages(rng, counts);
        counts.pages.beside(table, changed);
    }
}

/// What `BIXORGUN_SHIFT` adds to every seed, to draw other books.
fn shift() -> u64 {
    match env::var("BIXORGUN_SHIFT") {
        Ok(shift) => shift.parse().expect("BIXORGUN_SHIFT is a number"),
        Err(_) => 0,
    }
}

/// The refusals of a book.
const OF_BOOKS: [u8; 11] = [1, 2, 3, 4, 5, 6, 7, 8, 9, 16, 17];

/// So many cases: most are good books, some are damaged by each of 1 to 9, 16 and 17, some by noise, some by a neighbour's
/// value and some in their first line.
fn cases(name: &'static str, first: u64, cases: u64, draw: impl Fn(&mut Rng) -> Draft) -> Counts {
    let mut counts = Counts::default();
    let first = first + shift();
    for seed in first..first + cases {
        let mut rng = Rng::new(seed);
        let draft = draw(&mut rng);
        let mut case = Case { run: name, seed, text: draft.text() };
        let kind = rng.below(100);
        let (number, damaged) = match kind {
            0..22 => {
                let number = OF_BOOKS[kind % OF_BOOKS.len()];
                (number, gen::damaged_book(&mut rng, number, &draft))
            }
            22..29 => (5, gen::neighbours_book(&mut rng, &draft)),
            29..35 => {
                let (number, first) = if rng.percent(50) {
                    (4, gen::bad_counts(&mut rng, &draft.sizes))
                } else {
                    (5, gen::bad_sizes(&mut rng, &draft.sizes))
                };
                let mut draft = draft.clone();
                draft.frames[0] = first;
                (number, Some((draft.text(), 1)))
            }
            _ => (0, None),
        };
        if let Some((text, line)) = damaged {
            case.text = text;
            assert_eq!(
                Book::new(&case.text).open().map_err(ours),
                Err(Turned { line: Some(line), ..Turned::lone(number) })
            );
        } else if kind >= 92 {
            gen::noise(&mut rng, &mut case.text);
        }
        operate(&case, draft.sizes, &mut rng, &mut counts);
    }
    counts.print(name);
    counts.ladders.print();
    counts.print_matches();
    counts.ranges.print();
    counts.print_pages();
    counts.nots.print();
    counts
}

/// Cases of books without a "not" term, but for the damaged ones.
fn run(name: &'static str, first: u64, number: u64, draw: impl Fn(&mut Rng) -> Draft) -> Counts {
    let counts = cases(name, first, number, draw);
    counts.all_seen(false);
    counts.matches.all_seen("requests", number as usize / 200);
    counts.ranges.all_seen(number as usize / 1_000);
    counts.pages_seen(name);
    let Nots { refused_by_16, refused_by_17, .. } = counts.nots;
    assert!(refused_by_16.min(refused_by_17[0]) >= number as usize / 100, "{refused_by_16}, {refused_by_17:?}");
    counts
}

/// Cases of books that only grow, with "not" terms.
fn run_growing(name: &'static str, first: u64, number: u64, draw: impl Fn(&mut Rng) -> Draft) -> Counts {
    let counts = cases(name, first, number, draw);
    counts.all_seen(true);
    counts.growing_seen(number as usize / 1_000);
    counts.ranges.all_seen(number as usize / 1_000);
    counts.nots.all_seen(number as usize / 500);
    counts
}

#[test]
fn small() {
    let counts = run("small", 0x0B1C_0000_0000, 60_000, gen::small_book);
    counts.ladders.all_seen();
    counts.bent_seen(100);
}

#[test]
fn small_aimed() {
    let counts = run("small and aimed", 0x0B1C_1000_0000, 40_000, gen::small_aimed_book);
    counts.ladders.all_seen();
    counts.bent_seen(60);
}

#[test]
fn middle() {
    let counts = run("middle", 0x0B1C_2000_0000, 15_000, gen::middle_book);
    counts.ladders.all_seen();
    counts.bent_seen(30);
}

#[test]
fn tangled() {
    let Counts { ladders, .. } = run("tangled", 0x0B1C_3000_0000, 5_000, |rng| gen::tangled_book(rng, (4, 3, 4)));
    assert!(ladders.plans_by > 0 && ladders.no_ways_against > 0);
}

#[test]
fn zigzags() {
    let Counts { ladders, .. } = run("zigzags", 0x0B1C_4000_0000, 5_000, |rng| gen::zigzag_book(rng, 6, 16));
    assert!(ladders.no_ways_against > 0);
}

#[test]
fn graded() {
    run("graded", 0x0B1C_8000_0000, 10_000, |rng| gen::graded_book(rng, (6, 4, 16))).ladders.all_seen();
}

/// Several rules match a request, of 512 too, and terms are unmet at every place.
#[test]
fn crowded() {
    let counts = run("crowded", 0x0B1C_9000_0000, 10_000, gen::crowded_book);
    counts.bent_seen(30);
    assert!(counts.bent_ledgers.moved > 20 && counts.bent_books.moved > 5);
    let Matches { several, later_term, later_permits, highest, .. } = counts.matches;
    assert!(several > 2_000 && later_term > 1_000 && later_permits > 2_000);
    assert!(highest.0 > 400 && highest.1 == 8, "{highest:?}");
}

/// A depot of many persons, now and then of 64, most with starting facts of their own.
fn staffed_book(rng: &mut Rng) -> Draft {
    let mut draft = match rng.below(5) {
        0 => gen::tangled_book(rng, (4, 3, 4)),
        1 => gen::zigzag_book(rng, 6, 8),
        2 => gen::graded_book(rng, (6, 4, 8)),
        3 => gen::crowded_book(rng),
        _ => gen::middle_book(rng),
    };
    let persons = if rng.percent(20) { 64 } else { rng.byte(5, 63) };
    gen::staff(rng, &mut draft, persons, 2 * usize::from(persons));
    draft
}

#[test]
fn staffed() {
    run("staffed", 0x0B1C_A000_0000, 4_000, staffed_book);
}

#[test]
fn growing_small() {
    run_growing("growing, small", 0x0B1C_B000_0000, 20_000, gen::small_not_book);
}

#[test]
fn growing_middle() {
    run_growing("growing, middle", 0x0B1C_C000_0000, 6_000, gen::middle_not_book);
}

#[test]
fn growing_large() {
    let counts = run_growing("growing, large", 0x0B1C_D000_0000, 400, gen::large_not_book);
    assert!(counts.longest > 100, "{}", counts.longest);
}

/// Books that go beyond one limit alone, and those with the wrong mode as well: 16 falls, and where the limit is kept and
/// the mode is wrong 17.
#[test]
fn beyond_each_limit() {
    let mut counts = Counts::default();
    let first = 0x0B1C_E000_0000 + shift();
    for seed in first..first + 2_000 {
        let mut rng = Rng::new(seed);
        let whole = gen::small_not_book(&mut rng);
        for limit in Limit::ALL.map(Some).into_iter().chain([None]) {
            let mut draft = whole.clone();
            if let Some(limit) = limit {
                gen::break_limit(&mut rng, &mut draft, limit);
            }
            if limit.is_none() || rng.percent(50) {
                gen::wrong_mode(&mut rng, &mut draft);
            }
            counts.books += 1;
            let case = Case { run: "limits", seed, text: draft.text() };
            let number = if limit.is_some() { 16 } else { 17 };
            let told = Turned { line: Some(draft.frames.len()), ..Turned::lone(number) };
            assert_eq!(Book::new(&case.text).open().map_err(ours), Err(told), "{limit:?}");
            // What is lent is bad too.
            case.open(&filled(&mut rng, 7), &mut counts);
            case.request(&filled(&mut rng, 7), &[7], &mut counts);
            case.show(&filled(&mut rng, 7), 255, 3, &mut rng, &mut counts);
            case.plan(7, &mut rng, &mut counts);
            case.replay(&filled(&mut rng, 7), &mut counts);
            case.pages(&mut rng, &mut counts);
        }
    }
    counts.print("limits");
    for (operation, numbers) in OPERATIONS.iter().zip(&counts.refusals) {
        assert!(numbers[16] >= 8_000 && numbers[17] >= 2_000, "{operation}: {numbers:?}");
    }
}

#[test]
fn large() {
    let Counts { ladders, matches, ranges, .. } = run("large", 0x0B1C_5000_0000, 600, |rng| {
        let mut draft = gen::large_book(rng);
        if rng.percent(50) {
            let book = book::read(&draft.text()).expect("a good book");
            let ledger = gen::walk(rng, &book, 2_000);
            gen::aim(rng, &mut draft, &book, &ledger);
        }
        draft
    });
    assert!(ladders.plans_by > 0);
    assert!(matches.highest.0 > 256, "{:?}", matches.highest);
    assert!(ranges.plans > 50 && ranges.no_ways > 30 && ranges.whole_buffers > 50 && ranges.short_buffers > 5);
    for (name, times) in ranges.refusals() {
        assert!(times.iter().sum::<usize>() > 15, "own counts, {name}: {times:?}");
    }
}

/// A line of about 64 bytes or more, of any kind, by the length that its n, q or A gives or by another; some have a digit
/// too many or another character.
fn long_line(rng: &mut Rng) -> Vec<u8> {
    let mut frame: Vec<u8> = (0..6).map(|_| rng.below(7) as u8).collect();
    frame[5] = 16 + rng.below(8) as u8;
    let crews = if frame[0] == 5 && matches!(frame[1], 2 | 3) { 4 } else { 0 };
    let due = if frame[0] == 1 {
        frame[3] = if rng.percent(80) { 56 + rng.below(10) } else { 66 + rng.below(190) } as u8;
        4 + usize::from(frame[3])
    } else {
        6 + 3 * usize::from(frame[5]) + crews
    };
    let length = if rng.percent(50) { due } else { 60 + rng.below(10) };
    frame.resize_with(length, || rng.below(4) as u8);
    let mut line: Vec<u8> = frame.iter().flat_map(|byte| format!("{byte:02X}").into_bytes()).collect();
    if rng.percent(10) {
        line.push(b'0');
    }
    if rng.percent(10) {
        let at = rng.below(line.len());
        line[at] = b'a';
    }
    line.push(b'\n');
    line
}

/// No good book has a line of over 64 bytes, and the reader keeps no more of one: which refusal it is rests on these and the
/// line's length.
#[test]
fn long_lines() {
    let mut counts = Counts::default();
    let first = 0x0B1C_7000_0000 + shift();
    for seed in first..first + 10_000 {
        let mut rng = Rng::new(seed);
        let draft = gen::small_book(&mut rng);
        let (sizes, text) = (draft.sizes, draft.text());
        let mut lines: Vec<Vec<u8>> = text.split_inclusive(|&c| c == b'\n').map(<[u8]>::to_vec).collect();
        let long = long_line(&mut rng);
        let first = long.starts_with(b"01") && rng.percent(80);
        lines.insert(if first { 0 } else { rng.below(lines.len() + 1) }, long);
        let case = Case { run: "long lines", seed, text: lines.concat() };
        counts.books += 1;
        if let Err(refusal) = book::read(&case.text) {
            counts.ranges.refused(&case.text, refusal, &sizes);
        }
        case.open(&filled(&mut rng, LEDGER_SIZE), &mut counts);
        case.pages(&mut rng, &mut counts);
    }
    counts.print("long lines");
    counts.ranges.print();
    assert!((2..=5).all(|number| counts.refusals[OPEN][number] > 100));
    assert!((2..=5).all(|number| counts.refusals[PAGE][number] == 2 * counts.refusals[OPEN][number]));
    for (name, times) in FIRST_LINES.iter().zip(counts.ranges.first_lines).filter(|(name, _)| name.contains("64")) {
        assert!(times > 100, "{name}: {times}");
    }
}

/// The repository's stored books, good and bad.
#[test]
fn stored() {
    let dir: PathBuf = [env!("CARGO_MANIFEST_DIR"), "..", "..", "crates", "books", "data"].iter().collect();
    let entries = fs::read_dir(&dir).unwrap_or_else(|error| panic!("{}: {error}", dir.display()));
    let mut files: Vec<_> = entries.map(|entry| entry.expect("an entry").path()).collect();
    files.sort();
    let mut counts = Counts::default();
    for (seed, file) in (0x0B1C_6000_0000..).zip(&files) {
        let text = fs::read(file).unwrap_or_else(|error| panic!("{}: {error}", file.display()));
        let case = Case { run: "stored", seed, text };
        let mut rng = Rng::new(seed);
        let Draft { sizes, .. } = gen::small_book(&mut rng);
        (0..5).for_each(|_| operate(&case, sizes, &mut rng, &mut counts));
    }
    counts.print("stored");
    counts.ladders.print();
    counts.print_matches();
    counts.ranges.print();
    counts.print_pages();
    counts.nots.print();
    counts.all_seen(false);
    counts.nots.all_seen(1);
    assert!(counts.nots.refused_by_17[0] > 0);
    counts.matches.all_seen("requests", 1);
    counts.pages_seen("stored");
    assert!(counts.books > 1_000);
}
