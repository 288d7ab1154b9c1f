//! Plans of thousands of requests at the largest sizes, each carried out request by request and replayed whole and
//! damaged. What replay must answer to a damaged plan is found by request and show. The pages of the same books, whose
//! bits follow from how they are made. And the largest book with "not" terms, whose plan is one of a kind.

mod seed;
mod trials;

use std::fs;
use std::path::PathBuf;

use bixorgun::bytes::{self, Planned};
use bixorgun::{Judgement, PAGE_SIZE, PLAN_MAX};

use seed::Seed;
use trials::{Draft, Ledger};

const SEED: u64 = 20_261_115;

const CREWS: u8 = 32;

/// How many values each attribute has.
type Counts = [u8; 8];

const FULL: Counts = [16; 8];
const UNEVEN: Counts = [3, 16, 1, 7, 2, 12, 5, 9];

/// A plan is changed at one place of so many: a request is doubled, and swapped with the next.
const GAP: u8 = 40;
/// At one of so many of these a request is also left out. That is rarer, since such a list runs on to its end where it
/// does not stop, at a whole reading of the book for each request.
const RARE: u8 = 16;

type Frames = Vec<Vec<u8>>;

/// The values of all attributes stand in one row, attribute by attribute: what stands at each place of it.
fn row_of(counts: Counts) -> Vec<[u8; 2]> {
    (0..).zip(counts).flat_map(|(a, count)| (0..count).map(move |v| [a, v])).collect()
}

/// Which rules stand for every place: op and role, and terms of a kind on at most so many places before it. An own
/// rule counts its own place among these.
struct Rules {
    counts: Counts,
    op: u8,
    role: u8,
    kind: u8,
    most: usize,
    own: bool,
}

impl Rules {
    fn frames(&self) -> Frames {
        let row = row_of(self.counts);
        (0..row.len()).map(|place| self.frame(&row, place)).collect()
    }

    fn frame(&self, row: &[[u8; 2]], place: usize) -> Vec<u8> {
        let top = place + usize::from(self.own);
        let asked = &row[top.saturating_sub(self.most)..top];
        let [a, v] = row[place];
        let mut frame = vec![3, self.op, self.role, a, v, asked.len() as u8];
        frame.extend(asked.iter().rev().flat_map(|&[a, v]| [self.kind, a, v]));
        frame
    }

    /// These rules, which add, and rules of the same role, own ones or not, that delete by terms of kind 01.
    fn there_and_back(&self, own: bool) -> Frames {
        let back = Rules { op: self.op + 1, kind: 1, own, ..*self };
        [self.frames(), back.frames()].concat()
    }
}

/// Rules that assign or remove whoever is directly in the next crew; of crew 31 anybody.
fn joins(op: u8, role: u8) -> Frames {
    let join = |crew| match crew + 1 {
        CREWS => vec![3, op, role, crew, 0, 0],
        next => vec![3, op, role, crew, 0, 1, 3, next, 0],
    };
    (0..CREWS).map(join).collect()
}

/// Each crew above the one before it.
fn chain_of_crews() -> Frames {
    (1..CREWS).map(|senior| vec![2, senior, senior - 1]).collect()
}

/// Each crew above all before it.
fn dense_crews() -> Frames {
    (1..CREWS).flat_map(|senior| (0..senior).map(move |junior| vec![2, senior, junior])).collect()
}

/// The sizes, and a person in crew 31.
fn start(counts: Counts, person: u8) -> Frames {
    let sizes = [&[1, 64, CREWS, 8][..], &counts].concat();
    vec![sizes, vec![4, 3, person, CREWS - 1, 0]]
}

/// How many of the attributes, from the first on, a query names with all their values; the others it names with none.
#[derive(Clone, Copy)]
enum Whole {
    None = 0,
    First = 1,
    All = 8,
}

/// A query that names every attribute. In mode 02 crew 31 alone is listed.
fn query(counts: Counts, mode: u8, person: u8, roles: u8, whole: Whole) -> Frames {
    let mut frame = vec![5, mode, person, 0, roles, 8];
    for (a, count) in (0..).zip(counts) {
        let [high, low] = if a < whole as u8 { (u16::MAX >> (16 - count)).to_be_bytes() } else { [0, 0] };
        frame.extend([a, high, low]);
    }
    if mode == 2 {
        frame.extend([128, 0, 0, 0]);
    }
    vec![frame]
}

/// Each value needs the one before it, to be added and to be deleted; nothing is to stay.
fn chain() -> Frames {
    let crews = Rules { counts: FULL, op: 3, role: 0, kind: 1, most: 1, own: false };
    let persons = Rules { op: 1, ..crews };
    let rules = [crews.there_and_back(false), persons.there_and_back(false)].concat();
    [start(FULL, 5), chain_of_crews(), rules, query(FULL, 2, 5, 1, Whole::None)].concat()
}

/// Each value may be added by itself; the crews are joined from 31 down. A third of the rules are of roles that are
/// not asked.
fn free() -> Frames {
    let crews = Rules { counts: FULL, op: 3, role: 0, kind: 1, most: 0, own: false };
    let persons = Rules { op: 1, role: 1, ..crews };
    let others = Rules { op: 4, role: 2, ..crews };
    let added = [crews.frames(), persons.frames(), joins(5, 3)].concat();
    let deleted = [others.frames(), joins(6, 2)].concat();
    [start(FULL, 62), added, deleted, query(FULL, 1, 63, 11, Whole::All)].concat()
}

/// To be added each value needs the eight before it effectively; to be deleted, itself and the seven before it
/// directly. Every crew is above all before it. The values of attribute 0 are to stay.
fn dense() -> Frames {
    let crews = Rules { counts: FULL, op: 3, role: 0, kind: 2, most: 8, own: false };
    let persons = Rules { op: 1, role: 1, ..crews };
    let rules = [crews.there_and_back(true), persons.there_and_back(true)].concat();
    [start(FULL, 17), dense_crews(), rules, query(FULL, 2, 17, 3, Whole::First)].concat()
}

/// Each value needs the two before it effectively; the crews are joined from 31 down; all values are wanted.
fn row() -> Frames {
    let crews = Rules { counts: FULL, op: 3, role: 0, kind: 2, most: 2, own: false };
    let persons = Rules { op: 1, role: 2, ..crews };
    let query = query(FULL, 1, 40, 7, Whole::All);
    [start(FULL, 0), chain_of_crews(), crews.frames(), joins(5, 1), persons.frames(), query].concat()
}

/// Each attribute has another count. To be added each value needs the two before it, or higher ones of their
/// attributes, effectively; to be deleted, itself and the one before it directly. The values of attribute 0 are to stay.
fn uneven() -> Frames {
    let crews = Rules { counts: UNEVEN, op: 3, role: 0, kind: 5, most: 2, own: false };
    let persons = Rules { op: 1, role: 1, ..crews };
    let rules = [crews.there_and_back(true), persons.there_and_back(true)].concat();
    [start(UNEVEN, 63), chain_of_crews(), rules, query(UNEVEN, 2, 63, 3, Whole::First)].concat()
}

/// What is done to a plan at a place.
#[derive(Clone, Copy)]
enum Change {
    LeftOut,
    Doubled,
    Swapped,
}

const CHANGES: [(Change, &str); 3] =
    [(Change::LeftOut, "left out"), (Change::Doubled, "doubled"), (Change::Swapped, "swapped")];

impl Change {
    /// The plan with its request k left out, doubled, or swapped with the next.
    fn list(self, plan: &[u8], k: usize) -> Vec<u8> {
        let (before, rest) = plan.split_at(5 * k);
        match self {
            Change::LeftOut => [before, &rest[5..]].concat(),
            Change::Doubled => [before, &rest[..5], rest].concat(),
            Change::Swapped => [before, &rest[5..10], &rest[..5], &rest[10..]].concat(),
        }
    }

    /// How many requests of the plan two requests of the list, from the changed place on, stand for.
    const fn window(self) -> usize {
        match self {
            Change::LeftOut => 3,
            Change::Doubled => 1,
            Change::Swapped => 2,
        }
    }
}

/// At most so many requests from request k on.
fn part(list: &[u8], k: usize, requests: usize) -> &[u8] {
    let from = list.len().min(5 * k);
    let to = list.len().min(5 * (k + requests));
    &list[from..to]
}

/// How many requests go from the ledger on, up to the first that does not.
fn count_going(draft: &Draft, ledger: &mut Ledger, list: &[u8]) -> usize {
    list.chunks_exact(5).take_while(|request| draft.goes(ledger, request)).count()
}

/// What a list comes to that is a plan changed at place k, where the ledger before that place is given. Where the
/// ledger is the plan's own two requests later, the rest of both is the same, and the plan reaches.
fn course_of(draft: &Draft, ledger: &Ledger, plan: &[u8], change: Change, k: usize, list: &[u8]) -> Judgement {
    let (mut here, mut there) = (*ledger, *ledger);
    let first = part(list, k, 2);
    let went = count_going(draft, &mut here, first);
    if went < first.len() / 5 {
        return Judgement::Stops(k + went + 1);
    }
    count_going(draft, &mut there, part(plan, k, change.window()));
    if here == there {
        return Judgement::Reaches;
    }
    let rest = part(list, k + 2, list.len());
    let went = count_going(draft, &mut here, rest);
    if went < rest.len() / 5 {
        Judgement::Stops(k + 2 + went + 1)
    } else if draft.is_met(&here) {
        Judgement::Reaches
    } else {
        Judgement::EndsShort
    }
}

/// How many lists of each change reach, end short and stop, and in how many replay says otherwise.
#[derive(Default)]
struct Tally {
    courses: [[usize; 3]; CHANGES.len()],
    differences: usize,
}

impl Tally {
    fn expect(&mut self, good: bool) {
        self.differences += usize::from(!good);
    }

    /// Tries the plan changed at place k, where the ledger before that place is given.
    fn try_change(&mut self, draft: &Draft, ledger: &Ledger, plan: &[u8], change: Change, k: usize) {
        let list = change.list(plan, k);
        let course = course_of(draft, ledger, plan, change, k, &list);
        let column = match course {
            Judgement::Reaches => 0,
            Judgement::EndsShort => 1,
            Judgement::Stops(_) => 2,
        };
        self.courses[change as usize][column] += 1;
        self.expect(bytes::replay(draft.text(), &list) == Ok(course));
    }

    /// Tries changes at place k, by chance.
    fn try_place(&mut self, draft: &Draft, ledger: &Ledger, plan: &[u8], k: usize, seed: &mut Seed) {
        let is_left_out = seed.below(RARE) == 0;
        if seed.below(GAP) > 0 {
            return;
        }
        self.try_change(draft, ledger, plan, Change::Doubled, k);
        if 5 * (k + 1) < plan.len() {
            self.try_change(draft, ledger, plan, Change::Swapped, k);
        }
        if is_left_out {
            self.try_change(draft, ledger, plan, Change::LeftOut, k);
        }
    }

    /// Carries the plan out: each request goes, the last ledger meets the query, replay answers reaches; its
    /// changes are tried on the way.
    fn try_plan(&mut self, draft: &Draft, plan: &[u8], seed: &mut Seed) {
        let mut ledger = draft.open();
        for (k, request) in plan.chunks_exact(5).enumerate() {
            self.try_place(draft, &ledger, plan, k, seed);
            self.expect(draft.goes(&mut ledger, request));
        }
        self.expect(bytes::replay(draft.text(), plan) == Ok(Judgement::Reaches));
        self.expect(draft.is_met(&ledger));
    }

    fn print(&self) {
        for (change, name) in CHANGES {
            let [reaches, short, stops] = self.courses[change as usize];
            println!("{name}, reaches {reaches}\n{name}, ends short {short}\n{name}, stops {stops}");
        }
        println!("differences {}", self.differences);
    }
}

#[test]
fn replay_of_long_plans_whole_and_damaged() {
    let mut seed = Seed::new(SEED);
    let mut tally = Tally::default();
    let books = [("chain", chain()), ("free", free()), ("dense", dense()), ("row", row()), ("uneven", uneven())];
    for (name, frames) in books {
        let draft = Draft::new(frames);
        let mut buffer = vec![0; PLAN_MAX];
        let Ok(Planned::Plan(count)) = bytes::plan_into(draft.text(), &mut buffer) else { panic!("{name}: a plan") };
        println!("{name} {count}");
        tally.try_plan(&draft, &buffer[..5 * count], &mut seed);
    }
    tally.print();
    assert_eq!(tally.differences, 0);
    // The counts rest on which plans are given; each course that a change can take has to be there.
    let [left_out, doubled, swapped] = tally.courses;
    assert!(left_out.iter().all(|&count| count > 0), "left out: {left_out:?}");
    assert!(doubled[0] > 0 && doubled[2] > 0, "doubled: {doubled:?}");
    assert!(swapped[0] > 0 && swapped[2] > 0, "swapped: {swapped:?}");
}

/// Fills a book's page, and compares it with one on which each person has so many of the row's first values. How many
/// bits are set.
fn try_page(frames: Frames, counts: Counts, values: impl Fn(u8) -> usize) -> usize {
    let row = row_of(counts);
    let mut expected = [0; PAGE_SIZE];
    for (person, sets) in (0..).zip(expected.chunks_exact_mut(16)) {
        for &[a, v] in &row[..values(person)] {
            // Big-endian: values from 8 on stand in the first of two bytes.
            sets[2 * usize::from(a) + usize::from(v < 8)] |= 1 << (v % 8);
        }
    }
    let mut table = [0xA5; PAGE_SIZE];
    assert_eq!(bytes::page(Draft::new(frames).text(), &mut table), Ok(()));
    for (at, (byte, expected)) in table.iter().zip(expected).enumerate() {
        assert_eq!(*byte, expected, "byte {at}");
    }
    table.iter().map(|byte| byte.count_ones() as usize).sum()
}

/// Who comes to hold every value; all others come to hold none.
#[derive(Clone, Copy)]
enum Who {
    Nobody,
    One(u8),
    Everybody,
}

/// Tries a book with each of some sets of roles.
fn try_roles(name: &str, mut frames: Frames, counts: Counts, roles: &[(u8, Who)]) {
    let all = row_of(counts).len();
    for &(roles, who) in roles {
        frames.last_mut().expect("a query")[3..5].copy_from_slice(&[0, roles]);
        let bits = try_page(frames.clone(), counts, |person| match who {
            Who::Everybody => all,
            Who::One(one) if one == person => all,
            _ => 0,
        });
        println!("{name}, roles {roles:04b}: {bits} bits");
    }
}

/// Nobody holds a value at the start. Roles that add to persons bring everybody all values; those that add to crews
/// bring them to who is in crew 31, and with those that let anybody join it they bring them to everybody.
#[test]
fn pages_by_roles() {
    use Who::{Everybody, Nobody, One};
    try_roles("chain", chain(), FULL, &[(0b0, Nobody), (0b1, Everybody)]);
    let of_free = [(0b1100, Nobody), (0b0101, One(62)), (0b0010, Everybody), (0b1001, Everybody), (0b1111, Everybody)];
    try_roles("free", free(), FULL, &of_free);
    try_roles("dense", dense(), FULL, &[(0b01, One(17)), (0b10, Everybody), (0b11, Everybody)]);
    let of_row = [(0b010, Nobody), (0b001, One(0)), (0b011, Everybody), (0b100, Everybody), (0b111, Everybody)];
    try_roles("row", row(), FULL, &of_row);
    try_roles("uneven", uneven(), UNEVEN, &[(0b01, One(63)), (0b10, Everybody), (0b11, Everybody)]);
}

/// Without the rule that adds the value at a place of the row to a person, everybody stops there, since each value
/// needs the one before it. Who is in crew 31 has all values through it.
#[test]
fn pages_of_rows_that_stop() {
    let books = [("chain", chain(), FULL, 5), ("dense", dense(), FULL, 17), ("uneven", uneven(), UNEVEN, 63)];
    for (name, frames, counts, member) in books {
        let row = row_of(counts);
        let mut bits = 0;
        for place in 0..row.len() {
            let [a, v] = row[place];
            let mut frames = frames.clone();
            frames.retain(|frame| frame[0] != 3 || frame[1] != 1 || frame[3..5] != [a, v]);
            bits += try_page(frames, counts, |person| if person == member { row.len() } else { place });
        }
        println!("{name}, {} pages: {bits} bits", row.len());
    }
}

/// The request for a place in the row of one person's facts: the values of attribute 0, 1, .. 7, then the crews.
fn own_fact(place: u8) -> [u8; 5] {
    match place.checked_sub(128) {
        None => [1, 15, 63, place / 16, place % 16],
        Some(crew) => [5, 15, 63, crew, 0],
    }
}

/// The stored book in which each of a person's 160 facts bars the eight before it, as far as there are so many, and the
/// first eight their own: the facts come from the last to the first and in no other order. Two neighbours swapped stop at
/// the second, since it bars the first. Without one of them no other is barred and the query is not met. A second time is
/// permitted, and changes nothing, but for the first eight.
#[test]
fn the_longest_plan_of_a_book_that_only_grows() {
    let stored = |name| {
        let path: PathBuf = [env!("CARGO_MANIFEST_DIR"), "..", "..", "crates", "books", "data", name].iter().collect();
        fs::read(path).expect("a stored book")
    };
    let book = stored("grow-worst.book");
    let mut out = vec![0xA5; PLAN_MAX];
    assert_eq!(bytes::plan_into(&book, &mut out), Ok(Planned::Plan(160)));
    let plan: Vec<[u8; 5]> = (0..160).rev().map(own_fact).collect();
    assert_eq!(out[..800], plan.concat());
    assert!(out[800..].iter().all(|&byte| byte == 0xA5));
    let judged = |list: &[[u8; 5]]| bytes::replay(&book, &list.concat()).expect("a good book");
    assert_eq!(judged(&plan), Judgement::Reaches);
    for at in 0..160 {
        let mut list = plan.clone();
        list.remove(at);
        assert_eq!(judged(&list), Judgement::EndsShort, "without request {at}");
        list.insert(at, plan[at]);
        list.insert(at, plan[at]);
        let expected = if at < 152 { Judgement::Reaches } else { Judgement::Stops(at + 2) };
        assert_eq!(judged(&list), expected, "request {at} twice");
        if at < 159 {
            let mut list = plan.clone();
            list.swap(at, at + 1);
            assert_eq!(judged(&list), Judgement::Stops(at + 2), "request {at} and the next swapped");
        }
    }
    // Where the first fact bars the second too, neither can be the later one: no way, and not a byte is written.
    let book = stored("grow-worst-no.book");
    out.fill(0xA5);
    assert_eq!(bytes::plan_into(&book, &mut out), Ok(Planned::NoWay));
    assert!(out.iter().all(|&byte| byte == 0xA5));
}
