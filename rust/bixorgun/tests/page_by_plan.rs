//! The library's page against its own plan, bit by bit: "A bit is set exactly when the mode 01 query for that person,
//! that value alone and the roles of the book's query would get a plan."
//!
//! Every bit of every book is asked of plan, by the book with such a query in the place of its own, and each plan is
//! replayed. No bit is left out. Of the reference the drawing of books is used, and its page where a test counts what a
//! bit rests on.

use std::collections::BTreeSet;
use std::fs;
use std::path::PathBuf;

use bixorgun::bytes::{self, Planned};
use bixorgun::{Judgement, PAGE_SIZE, PLAN_MAX};
use reference::book::{self, Attr, Mode, Sizes, Value, Way, What};
use reference::gen::{self, Draft, Rng, Shape};
use reference::page;

mod start;
use start::{at_the_start, Table};

/// So many differences are printed, each with the book where it has no more characters than this.
const SHOWN: usize = 5;
const SHORT: usize = 8_000;

/// "At most 65,536 characters."
const MOST_CHARACTERS: usize = 65_536;

fn page_of(text: &[u8]) -> Table {
    let mut table = [0xA5; PAGE_SIZE];
    assert_eq!(bytes::page(text, &mut table), Ok(()), "{}", String::from_utf8_lossy(text));
    table
}

/// A person and a value.
#[derive(Clone, Copy)]
struct Bit {
    person: u8,
    attr: u8,
    value: u8,
}

impl Bit {
    /// All that the sizes have.
    fn all(sizes: &Sizes) -> impl Iterator<Item = Bit> + '_ {
        let of = |person| sizes.pairs().map(move |(Attr(attr), Value(value))| Bit { person, attr, value });
        (0..sizes.persons).flat_map(of)
    }

    /// Whether it is set: two bytes at 16·p + 2·a, big-endian, weight 2^v.
    fn is_set(self, table: &Table) -> bool {
        let set = 16 * usize::from(self.person) + 2 * usize::from(self.attr);
        u16::from_be_bytes([table[set], table[set + 1]]) >> self.value & 1 == 1
    }

    /// "the mode 01 query for that person, that value alone and the roles of the book's query"
    fn query(self, roles: &str) -> String {
        format!("0501{:02X}{roles}01{:02X}{:04X}\n", self.person, self.attr, 1_u16 << self.value)
    }
}

/// A book's characters before its last line, and the four digits of the roles in that line.
fn split(text: &[u8]) -> (&[u8], &str) {
    let last = text[..text.len() - 1].iter().rposition(|&character| character == b'\n').expect("two lines") + 1;
    (&text[..last], std::str::from_utf8(&text[last + 6..last + 10]).expect("digits"))
}

/// The same book with another query.
fn with_query(text: &[u8], query: &str) -> Vec<u8> {
    [split(text).0, query.as_bytes()].concat()
}

/// How many bits one table has and another has not.
fn more(table: &Table, than: &Table) -> usize {
    table.iter().zip(than).map(|(byte, other)| (byte & !other).count_ones() as usize).sum()
}

/// A book by its name.
#[derive(Clone, Copy)]
struct Named<'b> {
    name: &'b str,
    text: &'b [u8],
}

/// What the books of a test have shown.
#[derive(Debug, Default)]
struct Tally {
    books: usize,
    /// Books of more than 8 persons, of 64, of more than 8 crews, of 32.
    over_8_persons: usize,
    of_64_persons: usize,
    over_8_crews: usize,
    of_32_crews: usize,
    mode_01: usize,
    mode_02: usize,
    /// Books with a ladder term, with different counts, without a role.
    ladders: usize,
    differing: usize,
    no_roles: usize,
    /// Bits asked of plan: set at the start, set by requests, and clear.
    start: usize,
    gained: usize,
    clear: usize,
    /// Plans replayed that are not empty, all their requests, and those of the longest.
    plans: usize,
    requests: usize,
    longest: usize,
    /// Set bits that are clear when no crew gains a value, when nobody is assigned, and with kind 02 in the place of
    /// each ladder term; clear bits that are set without these terms, and with all roles.
    by_crews: usize,
    by_assigning: usize,
    by_ladders: usize,
    clear_by_ladders: usize,
    clear_by_roles: usize,
    /// Books whose own query has no way and where a bit is set by requests.
    no_way: usize,
    differences: usize,
}

impl Tally {
    /// A difference in a book, with the query that was asked.
    fn differ(&mut self, Named { name, text }: Named<'_>, what: &str, query: &str) {
        self.differences += 1;
        if self.differences <= SHOWN {
            let whole = if text.len() <= SHORT { String::from_utf8_lossy(text) } else { "".into() };
            println!("{name}, {what}: {query}{whole}");
        }
    }

    /// Asks plan for a bit, and replays the plan.
    fn ask(&mut self, of: Named<'_>, bit: Bit, is_set: bool, buffer: &mut [u8]) {
        let query = bit.query(split(of.text).1);
        let asked = with_query(of.text, &query);
        match bytes::plan_into(&asked, buffer) {
            Ok(Planned::NoWay) if is_set => self.differ(of, "a bit set, though plan says no way", &query),
            Ok(Planned::NoWay) => {}
            Ok(Planned::Plan(_)) if !is_set => self.differ(of, "a bit clear, though there is a plan", &query),
            Ok(Planned::Plan(count)) => {
                if bytes::replay(&asked, &buffer[..5 * count]) != Ok(Judgement::Reaches) {
                    self.differ(of, "a plan that does not reach", &query);
                }
                self.plans += usize::from(count > 0);
                self.requests += count;
                self.longest = self.longest.max(count);
            }
            Err(refusal) => self.differ(of, &refusal.to_string(), &query),
        }
    }

    /// Asks plan for each bit of a book's page; beside these no bit is set.
    fn compare(&mut self, name: &str, text: &[u8]) {
        let of = Named { name, text };
        let book = book::read(text).expect("a good book");
        let (table, start) = (page_of(text), at_the_start(text, book.sizes.persons));
        let mut buffer = vec![0; PLAN_MAX];
        let (mut set, mut gained) = (0, 0);
        for bit in Bit::all(&book.sizes) {
            let (is_set, at_start) = (bit.is_set(&table), bit.is_set(&start));
            self.ask(of, bit, is_set, &mut buffer);
            set += usize::from(is_set);
            gained += usize::from(is_set && !at_start);
            self.clear += usize::from(!is_set);
        }
        self.start += set - gained;
        self.gained += gained;
        if set != more(&table, &[0; PAGE_SIZE]) {
            self.differ(of, "a bit of an absent person, attribute or value", "\n");
        }
        self.no_way += usize::from(gained > 0 && bytes::plan_into(text, &mut buffer) == Ok(Planned::NoWay));
        self.count(&book, &table);
    }

    fn count(&mut self, book: &book::Book, table: &Table) {
        let Sizes { persons, crews, .. } = book.sizes;
        self.books += 1;
        self.over_8_persons += usize::from(persons > 8);
        self.of_64_persons += usize::from(persons == 64);
        self.over_8_crews += usize::from(crews > 8);
        self.of_32_crews += usize::from(crews == 32);
        self.mode_01 += usize::from(book.query.mode == Mode::AtLeast);
        self.mode_02 += usize::from(book.query.mode != Mode::AtLeast);
        self.ladders += usize::from(book.has_ladder());
        self.differing += usize::from(book.sizes.differ());
        self.no_roles += usize::from(book.query.roles == 0);
        self.by_crews += more(table, &without(book, |what| matches!(what, What::OfCrew(..))));
        self.by_assigning += more(table, &without(book, |what| matches!(what, What::Membership(_))));
        self.by_ladders += more(table, &page::of(&book.ladders_cut()));
        self.clear_by_ladders += more(&page::of(&book.ladders_dropped()), table);
        let mut all_roles = book.clone();
        all_roles.query.roles = u16::MAX;
        self.clear_by_roles += more(&page::of(&all_roles), table);
    }

    /// Prints what was counted; there is no difference.
    fn finish(&self) {
        println!("{self:?}");
        assert_eq!(self.differences, 0);
    }
}

/// The page of the same book without the rules that add such facts.
fn without(book: &book::Book, what: impl Fn(What) -> bool) -> Table {
    let mut book = book.clone();
    book.rules.retain(|rule| rule.way == Way::Delete || !what(rule.what));
    page::of(&book)
}

/// Any roles, and now and then none.
fn draw_roles(rng: &mut Rng) -> u16 {
    if rng.percent(25) {
        0
    } else {
        rng.bits() as u16
    }
}

/// Puts other roles into a query's frame.
fn give_roles(query: &mut [u8], roles: u16) {
    query[3..5].copy_from_slice(&roles.to_be_bytes());
}

/// A depot of one of the reference's kinds, with so many persons at least, and now and then with other roles.
fn draw(rng: &mut Rng, kind: usize, persons: u8) -> Draft {
    let mut draft = match kind % 7 {
        0 => gen::small_aimed_book(rng),
        1 | 2 => gen::middle_book(rng),
        3 => gen::crowded_book(rng),
        4 => gen::tangled_book(rng, (4, 3, 5)),
        5 => gen::zigzag_book(rng, 4, 8),
        _ => gen::graded_book(rng, (5, 4, 6)),
    };
    if draft.sizes.persons < persons {
        gen::staff(rng, &mut draft, persons, 2 * usize::from(persons));
    }
    if rng.percent(40) {
        let roles = draw_roles(rng);
        give_roles(draft.frames.last_mut().expect("a query"), roles);
    }
    draft
}

/// A depot of 9 to 32 crews.
fn draw_crews(rng: &mut Rng) -> Draft {
    let crews = if rng.percent(40) { 32 } else { rng.byte(9, 31) };
    let counts: Vec<u8> = (0..rng.byte(1, 3)).map(|_| rng.byte(1, 6)).collect();
    let shape = Shape {
        sizes: Sizes::new(rng.byte(2, 10), crews, &counts),
        edges: rng.pick(&[0, 10, 30, 60]),
        rules: 20 + rng.below(180),
        terms: rng.byte(1, 3),
        facts: 5 + rng.below(60),
        roles: 6,
    };
    gen::book(rng, &shape)
}

#[test]
fn drawn_depots() {
    let mut rng = Rng::new(0x0B1C_0031);
    let mut tally = Tally::default();
    for round in 0..2_400 {
        let persons = rng.byte(2, 8);
        tally.compare(&format!("drawn {round}"), &draw(&mut rng, round, persons).text());
    }
    tally.finish();
    assert!(tally.mode_01 > 390 && tally.mode_02 > 1_750 && tally.no_way > 700);
    assert!(tally.ladders > 1_750 && tally.differing > 1_600 && tally.no_roles > 220);
    assert!(tally.start > 20_000 && tally.gained > 22_000 && tally.clear > 42_000);
    assert!(tally.by_crews > 7_500 && tally.by_assigning > 2_000 && tally.by_ladders > 750);
    assert!(tally.clear_by_ladders > 2_100 && tally.clear_by_roles > 8_000);
}

#[test]
fn depots_of_many_persons() {
    let mut rng = Rng::new(0x0B1C_0032);
    let mut tally = Tally::default();
    for round in 0..800 {
        let persons = if rng.percent(20) { 64 } else { rng.byte(9, 63) };
        tally.compare(&format!("many persons {round}"), &draw(&mut rng, round, persons).text());
    }
    tally.finish();
    assert!(tally.over_8_persons == 800 && tally.of_64_persons > 150);
    assert!(tally.mode_01 > 120 && tally.mode_02 > 600 && tally.no_way > 250);
    assert!(tally.ladders > 600 && tally.differing > 540 && tally.no_roles > 50);
    assert!(tally.start > 48_000 && tally.gained > 66_000 && tally.clear > 110_000);
    assert!(tally.by_crews > 19_000 && tally.by_assigning > 8_000 && tally.by_ladders > 1_800);
    assert!(tally.clear_by_ladders > 6_000 && tally.clear_by_roles > 20_000);
}

#[test]
fn depots_of_many_crews() {
    let mut rng = Rng::new(0x0B1C_0033);
    let mut tally = Tally::default();
    for round in 0..400 {
        tally.compare(&format!("many crews {round}"), &draw_crews(&mut rng).text());
    }
    tally.finish();
    assert!(tally.over_8_crews == 400 && tally.of_32_crews > 130);
    assert!(tally.mode_01 > 95 && tally.mode_02 > 260 && tally.no_way > 230);
    assert!(tally.start > 4_900 && tally.gained > 7_900 && tally.clear > 2_200);
    assert!(tally.by_crews > 1_400 && tally.by_assigning > 1_000 && tally.by_ladders > 130);
    assert!(tally.clear_by_ladders > 220 && tally.clear_by_roles > 780);
}

/// Of any size up to the largest.
#[test]
fn large_depots() {
    let mut rng = Rng::new(0x0B1C_0034);
    let mut tally = Tally::default();
    for round in 0..20 {
        tally.compare(&format!("large {round}"), &gen::large_book(&mut rng).text());
    }
    tally.finish();
    assert!(tally.of_64_persons > 4 && tally.of_32_crews > 3 && tally.no_way > 11);
    assert!(tally.start > 15_000 && tally.gained > 15_000 && tally.clear > 24_000);
    assert!(tally.by_crews > 1_700 && tally.by_assigning > 7_000 && tally.by_ladders > 1_200);
    assert!(tally.clear_by_ladders > 250 && tally.clear_by_roles > 4_000);
}

/// The repository's stored books that are accepted, by their names, but for those with a "not" term, which have no page.
/// Many stand there twice, and are taken once.
fn stored() -> Vec<(String, Vec<u8>)> {
    let data: PathBuf = [env!("CARGO_MANIFEST_DIR"), "..", "..", "crates", "books", "data"].iter().collect();
    let entries = fs::read_dir(&data).unwrap_or_else(|error| panic!("{}: {error}", data.display()));
    let mut names: Vec<_> = entries.map(|entry| entry.expect("an entry").file_name()).collect();
    names.sort();
    let mut seen = BTreeSet::new();
    let read = |name| (fs::read(data.join(&name)).expect("a book's characters"), name);
    let texts =
        names.into_iter().map(read).filter(|(text, _)| book::read_for_page(text).is_ok() && seen.insert(text.clone()));
    texts.map(|(text, name)| (name.to_string_lossy().into_owned(), text)).collect()
}

/// The names of the larger ones begin so.
const LARGER: [&str; 8] =
    ["maximal-", "typical-", "dense496-", "own-largest", "rounds", "sweep-128", "maxplan-8448", "read-65536"];

fn is_larger(name: &str) -> bool {
    LARGER.iter().any(|front| name.starts_with(front))
}

/// Whether a book has room for a query of so many bytes in the place of its own.
fn has_room(text: &[u8], bytes: usize) -> bool {
    split(text).0.len() + 2 * bytes < MOST_CHARACTERS
}

/// All bits, but of two books that have no room for the query of one value: they end in a shorter one.
#[test]
fn all_bits_of_stored_books() {
    let mut tally = Tally::default();
    let (mut larger, mut no_room) = (0, 0);
    for (name, text) in stored() {
        if has_room(&text, 9) {
            larger += usize::from(is_larger(&name));
            tally.compare(&name, &text);
        } else {
            no_room += 1;
        }
    }
    println!("the larger ones {larger}, without room {no_room}");
    tally.finish();
    assert!(larger >= 18 && no_room == 2 && tally.books > 130);
    assert!(tally.of_64_persons > 15 && tally.of_32_crews > 20 && tally.no_way > 15);
    assert!(tally.start > 13_000 && tally.gained > 9_000 && tally.clear > 75_000);
    assert!(tally.by_crews > 3_400 && tally.by_assigning > 4_300);
}

/// A frame's line.
fn line(frame: &[u8]) -> String {
    frame.iter().map(|byte| format!("{byte:02X}")).collect::<String>() + "\n"
}

/// What became of other queries of the same book.
#[derive(Debug, Default)]
struct Others {
    /// Of the same roles, and so the same page: how many had another mode, another person, and another answer of plan.
    same_roles: usize,
    modes: usize,
    persons: usize,
    answers: usize,
    /// Of other roles, asked of plan bit by bit: how many have another page.
    other_roles: usize,
    pages: usize,
}

impl Others {
    /// A book with four other queries of its roles, and with one of other roles.
    fn try_book(&mut self, rng: &mut Rng, name: &str, text: &[u8], tally: &mut Tally) {
        let book = book::read(text).expect("a good book");
        let (table, mut buffer) = (page_of(text), vec![0; PLAN_MAX]);
        let mut has_plan = |text: &[u8]| matches!(bytes::plan_into(text, &mut buffer), Ok(Planned::Plan(_)));
        let planned = has_plan(text);
        for _ in 0..4 {
            let mut query = gen::query(rng, &book.sizes);
            give_roles(&mut query, book.query.roles);
            let other = with_query(text, &line(&query));
            assert_eq!(page_of(&other), table, "{name}: {}", line(&query));
            self.same_roles += 1;
            self.modes += usize::from((query[1] == 1) != (book.query.mode == Mode::AtLeast));
            self.persons += usize::from(query[2] != book.query.person.0);
            self.answers += usize::from(has_plan(&other) != planned);
        }
        let mut query = gen::query(rng, &book.sizes);
        let mut roles = draw_roles(rng);
        if roles == book.query.roles {
            roles ^= 1;
        }
        give_roles(&mut query, roles);
        let other = with_query(text, &line(&query));
        tally.compare(&format!("{name}, other roles"), &other);
        self.other_roles += 1;
        self.pages += usize::from(page_of(&other) != table);
    }
}

/// "the roles of the book's query": its mode, its person, its sets and its crews do not matter.
#[test]
fn of_the_query_the_roles_count() {
    let mut rng = Rng::new(0x0B1C_0035);
    let (mut others, mut tally) = (Others::default(), Tally::default());
    for round in 0..1_200 {
        let persons = if round % 8 == 0 { rng.byte(9, 64) } else { rng.byte(2, 8) };
        let draft = draw(&mut rng, round, persons);
        others.try_book(&mut rng, &format!("drawn {round}"), &draft.text(), &mut tally);
    }
    println!("{others:?}");
    tally.finish();
    assert!(others.modes > 1_600 && others.persons > 3_400 && others.answers > 1_600 && others.pages > 570);
    assert!(tally.start > 16_500 && tally.gained > 11_000 && tally.clear > 48_000 && tally.clear_by_roles > 17_000);
}

/// The same of the larger stored books that have room for the longest query: eight sets and crews.
#[test]
fn of_the_query_of_stored_books_the_roles_count() {
    let mut rng = Rng::new(0x0B1C_0036);
    let (mut others, mut tally) = (Others::default(), Tally::default());
    for (name, text) in stored() {
        if is_larger(&name) && has_room(&text, 6 + 3 * 8 + 4) {
            others.try_book(&mut rng, &name, &text, &mut tally);
        }
    }
    println!("{others:?}");
    tally.finish();
    assert!(others.other_roles >= 17 && others.modes > 24 && others.answers > 35 && others.pages > 9);
    assert!(tally.start > 9_000 && tally.gained > 1_800 && tally.clear > 42_000 && tally.clear_by_roles > 2_300);
}
