//! The page beside the queries that it stands for: every one of its 8,192 bits.

use std::fs;
use std::path::PathBuf;

use reference::book::{self, Attr, Book, Mode, Sizes, Value, Way, What};
use reference::gen::{self, Draft, Rng};
use reference::ledger::{self, LEDGER_BYTES};
use reference::page::{self, Refusal, PAGE_BYTES};
use reference::plan::{self, closure, search, Answer};

type Table = [u8; PAGE_BYTES];

fn page_of(text: &[u8]) -> Table {
    let mut table = [0xA5; PAGE_BYTES];
    page::page(text, &mut table).expect("a page");
    table
}

/// The byte and the bit of a value: "big-endian, weights as above".
fn place(person: u8, attr: u8, value: u8) -> (usize, u8) {
    let set = 16 * usize::from(person) + 2 * usize::from(attr);
    (set + usize::from(value < 8), 1 << (value % 8))
}

/// A book's characters before its last line, and the four digits of the roles in that line.
fn before_the_query(text: &[u8]) -> (&[u8], &str) {
    let last = text[..text.len() - 1].iter().rposition(|&c| c == b'\n').expect("two lines") + 1;
    (&text[..last], std::str::from_utf8(&text[last + 6..last + 10]).expect("digits"))
}

/// The page by one query for each person and value of some sizes: the book with "the mode 01 query for that person,
/// that value alone and the roles of the book's query" in the place of its own.
fn by_queries(text: &[u8], sizes: &Sizes, mut has_plan: impl FnMut(&[u8]) -> bool) -> Table {
    let (front, roles) = before_the_query(text);
    let mut table = [0; PAGE_BYTES];
    for person in 0..sizes.persons {
        for (Attr(attr), Value(value)) in sizes.pairs() {
            let query = format!("0501{person:02X}{roles}01{attr:02X}{:04X}\n", 1_u16 << value);
            if has_plan(&[front, query.as_bytes()].concat()) {
                let (byte, bit) = place(person, attr, value);
                table[byte] |= bit;
            }
        }
    }
    table
}

/// The page by [`plan::plan`], with a buffer of the largest need.
fn by_plan(text: &[u8], sizes: &Sizes) -> Table {
    let mut buffer = vec![0; 42_560];
    by_queries(text, sizes, |book| matches!(plan::plan(book, &mut buffer), Ok(Answer::Plan(_))))
}

/// The same where reading the book anew for each query would take too long: the query alone is changed.
fn by_closure(book: &Book) -> Table {
    let mut book = book.clone();
    let mut table = [0; PAGE_BYTES];
    book.query.mode = Mode::AtLeast;
    for person in 0..book.sizes.persons {
        book.query.person = book::Person(person);
        for (attr, value) in book.sizes.pairs() {
            book.query.named = vec![(attr, 1 << value.0)];
            if closure::plan(&book).is_some() {
                let (byte, bit) = place(person, attr.0, value.0);
                table[byte] |= bit;
            }
        }
    }
    table
}

/// The ledger of the starting facts.
fn opened(text: &[u8]) -> [u8; LEDGER_BYTES] {
    let mut facts = [0; LEDGER_BYTES];
    ledger::open(text, &mut facts).expect("opens");
    facts
}

/// What each person effectively holds at the start, by open and show.
fn at_the_start(text: &[u8], sizes: &Sizes) -> Table {
    let facts = opened(text);
    let mut table = [0; PAGE_BYTES];
    for person in 0..sizes.persons {
        let sets = ledger::show(text, &facts, person).expect("shown").sets;
        let row = &mut table[16 * usize::from(person)..][..16];
        row.chunks_exact_mut(2).zip(sets).for_each(|(to, set)| to.copy_from_slice(&set.to_be_bytes()));
    }
    table
}

/// How many bits one table has and another has not.
fn more(table: &Table, than: &Table) -> usize {
    table.iter().zip(than).map(|(byte, other)| (byte & !other).count_ones() as usize).sum()
}

/// The page of the same book without the rules that add such facts.
fn without(book: &Book, what: impl Fn(What) -> bool) -> Table {
    let mut book = book.clone();
    book.rules.retain(|rule| rule.way == Way::Delete || !what(rule.what));
    page::of(&book)
}

/// What the books of a test have shown.
#[derive(Debug, Default)]
struct Seen {
    books: usize,
    /// Books with 64 persons.
    of_64: usize,
    /// Bits of persons and values that the books have.
    bits: usize,
    /// Bits set for what a person effectively holds at the start, and those set for what takes requests.
    start: usize,
    gained: usize,
    clear: usize,
    /// Gained bits that are clear when no crew gains a value, and those that are clear when nobody is assigned.
    by_crews: usize,
    by_assigning: usize,
    /// Gained bits that are clear with kind 02 in the place of each ladder term, and clear bits that are set without
    /// these terms.
    by_ladder: usize,
    clear_by_ladder: usize,
    /// Clear bits that are set with all roles.
    clear_by_roles: usize,
    /// Books of mode 02, and those of them whose own query has no way.
    exact: usize,
    exact_no_way: usize,
    /// Books whose roles are 0000.
    no_roles: usize,
    /// Books with a rule of the query's roles and one of another role.
    both_roles: usize,
    /// Books with edges, and books whose counts are not all the same.
    edges: usize,
    differing: usize,
    /// Persons whose bits, and those whose gained bits, are not those of the person before; and persons with the
    /// starting facts of the person before, whose bits are the same.
    unlike: usize,
    unlike_gained: usize,
    alike: usize,
}

impl Seen {
    fn count(&mut self, text: &[u8], book: &Book, table: &Table) {
        let facts = opened(text);
        let start = at_the_start(text, &book.sizes);
        assert_eq!(more(&start, table), 0, "what is held at the start needs no request");
        let none = [0; PAGE_BYTES];
        let bits = usize::from(book.sizes.persons) * book.sizes.pairs().count();
        let set = more(table, &none);
        self.books += 1;
        self.of_64 += usize::from(book.sizes.persons == 64);
        self.bits += bits;
        self.start += more(&start, &none);
        self.gained += more(table, &start);
        self.clear += bits - set;
        self.by_crews += more(table, &without(book, |what| matches!(what, What::OfCrew(..))));
        self.by_assigning += more(table, &without(book, |what| matches!(what, What::Membership(_))));
        self.by_ladder += more(table, &page::of(&book.ladders_cut()));
        self.clear_by_ladder += more(&page::of(&book.ladders_dropped()), table);
        let mut all_roles = book.clone();
        all_roles.query.roles = u16::MAX;
        self.clear_by_roles += more(&page::of(&all_roles), table);
        if book.query.mode != Mode::AtLeast {
            self.exact += 1;
            self.exact_no_way += usize::from(closure::plan(book).is_none());
        }
        self.no_roles += usize::from(book.query.roles == 0);
        let inside = |rule: &book::Rule| book.query.has_role(rule.role);
        self.both_roles += usize::from(book.rules.iter().any(inside) && !book.rules.iter().all(inside));
        self.edges += usize::from(!book.edges.is_empty());
        self.differing += usize::from(book.sizes.differ());
        let mut gained = *table;
        gained.iter_mut().zip(start).for_each(|(byte, start)| *byte &= !start);
        for two in (0..usize::from(book.sizes.persons)).collect::<Vec<_>>().windows(2) {
            let differ = |bytes: &[u8], row: usize| bytes[row * two[0]..][..row] != bytes[row * two[1]..][..row];
            // A person's values stand in the first part of a ledger, a person's crews in the last.
            let same_facts = !differ(&facts, 16) && !differ(&facts[1_536..], 4);
            let unlike = differ(table, 16);
            assert!(!(same_facts && unlike), "nothing but the starting facts tells persons apart");
            self.unlike += usize::from(unlike);
            self.unlike_gained += usize::from(differ(&gained, 16));
            self.alike += usize::from(same_facts);
        }
    }
}

/// Puts other roles into a book's query.
fn give_roles(draft: &mut Draft, roles: u16) {
    let query = draft.frames.last_mut().expect("a query");
    query[3..5].copy_from_slice(&roles.to_be_bytes());
}

/// A depot of any of the kinds, with two persons at least, and now and then other roles than its own: none, or any.
fn draw(rng: &mut Rng, kind: usize) -> Draft {
    let mut draft = match kind % 8 {
        0 => gen::small_book(rng),
        1 => gen::small_aimed_book(rng),
        2 | 3 => gen::middle_book(rng),
        4 => gen::crowded_book(rng),
        5 => gen::tangled_book(rng, (4, 3, 5)),
        6 => gen::zigzag_book(rng, 4, 8),
        _ => gen::graded_book(rng, (5, 4, 6)),
    };
    if draft.sizes.persons == 1 {
        let persons = rng.byte(2, 6);
        gen::staff(rng, &mut draft, persons, 2 * usize::from(persons));
    }
    match rng.below(10) {
        0 => give_roles(&mut draft, 0),
        1..=3 => give_roles(&mut draft, rng.bits() as u16),
        _ => {}
    }
    draft
}

/// The page is the one that the queries give in some way; counts what the book has shown.
fn compare(seen: &mut Seen, text: &[u8], expected: impl Fn(&[u8], &Book) -> Table) {
    let book = book::read(text).expect("a good book");
    let table = page_of(text);
    assert_eq!(table, expected(text, &book), "{}", String::from_utf8_lossy(text));
    seen.count(text, &book, &table);
}

/// Each bit is that of its query, on depots of every kind.
#[test]
fn drawn_depots_by_plan() {
    let mut rng = Rng::new(0x0B1C_0021);
    let mut seen = Seen::default();
    for round in 0..8_000 {
        compare(&mut seen, &draw(&mut rng, round).text(), |text, book| by_plan(text, &book.sizes));
    }
    println!("{seen:?}");
    assert!(seen.start > 40_000 && seen.gained > 40_000 && seen.clear > 80_000);
    assert!(seen.by_crews > 15_000 && seen.by_assigning > 3_000);
    assert!(seen.by_ladder > 1_200 && seen.clear_by_ladder > 4_000);
    assert!(seen.clear_by_roles > 15_000 && seen.no_roles > 600 && seen.both_roles > 1_400);
    assert!(seen.exact_no_way > 3_000 && seen.books - seen.exact > 1_200);
    assert!(seen.edges > 3_000 && seen.differing > 5_000);
    assert!(seen.unlike > 9_000 && seen.unlike_gained > 7_000 && seen.alike > 1_000);
}

/// The same with 64 persons, of whom most have starting facts of their own.
#[test]
fn depots_of_64_persons() {
    let mut rng = Rng::new(0x0B1C_0022);
    let mut seen = Seen::default();
    for round in 0..240 {
        let mut draft = draw(&mut rng, round);
        gen::staff(&mut rng, &mut draft, 64, 150);
        compare(&mut seen, &draft.text(), |text, book| by_plan(text, &book.sizes));
    }
    println!("{seen:?}");
    assert!(seen.of_64 == seen.books && seen.start > 20_000 && seen.gained > 20_000 && seen.clear > 40_000);
    assert!(seen.by_crews > 5_000 && seen.by_assigning > 2_000 && seen.by_ladder > 700 && seen.clear_by_ladder > 1_500);
    assert!(seen.clear_by_roles > 10_000 && seen.no_roles > 20 && seen.exact_no_way > 80);
    assert!(seen.unlike > 7_000 && seen.unlike_gained > 5_000 && seen.alike > 700);
}

/// Depots of any size, up to the largest.
#[test]
fn large_depots() {
    let mut rng = Rng::new(0x0B1C_0023);
    let mut seen = Seen::default();
    for _ in 0..40 {
        compare(&mut seen, &gen::large_book(&mut rng).text(), |_, book| by_closure(book));
    }
    println!("{seen:?}");
    assert!(seen.of_64 > 10 && seen.start > 30_000 && seen.gained > 40_000 && seen.clear > 30_000);
    assert!(
        seen.by_crews > 4_000 && seen.by_assigning > 20_000 && seen.by_ladder > 2_000 && seen.clear_by_ladder > 800
    );
    assert!(seen.exact_no_way > 15 && seen.unlike > 800 && seen.unlike_gained > 1_200);
}

/// Each bit is that of a search through every ledger that can be reached.
#[test]
fn small_depots_by_search() {
    let mut rng = Rng::new(0x0B1C_0024);
    let mut seen = Seen::default();
    for round in 0..20_000 {
        let mut draft = match round % 4 {
            0 => gen::small_book(&mut rng),
            1 => gen::small_aimed_book(&mut rng),
            2 => gen::graded_book(&mut rng, (1, 2, 3)),
            _ => {
                let mut draft = gen::graded_book(&mut rng, (1, 2, 2));
                gen::staff(&mut rng, &mut draft, 2, 2);
                draft
            }
        };
        match rng.below(10) {
            0 => give_roles(&mut draft, 0),
            1 | 2 => give_roles(&mut draft, rng.bits() as u16),
            _ => {}
        }
        compare(&mut seen, &draft.text(), |text, book| {
            by_queries(text, &book.sizes, |text| {
                let book = book::read(text).expect("a good book");
                search::shortest(&book).expect("a small depot").is_some()
            })
        });
    }
    println!("{seen:?}");
    assert!(seen.start > 20_000 && seen.gained > 15_000 && seen.clear > 40_000);
    assert!(
        seen.by_crews > 2_000 && seen.by_assigning > 1_800 && seen.by_ladder > 1_200 && seen.clear_by_ladder > 7_000
    );
    assert!(seen.clear_by_roles > 4_000 && seen.no_roles > 1_500 && seen.both_roles > 1_800);
    assert!(seen.exact_no_way > 5_000 && seen.unlike > 4_000 && seen.unlike_gained > 2_500);
}

/// The query of an absent person, attribute or value is refused and gets no plan: all 8,192 of them are asked.
#[test]
fn absent_persons_attributes_and_values() {
    let mut rng = Rng::new(0x0B1C_0025);
    let most = Sizes::new(64, 0, &[16; 8]);
    for round in 0..40 {
        let text = draw(&mut rng, round).text();
        assert_eq!(page_of(&text), by_plan(&text, &most), "{}", String::from_utf8_lossy(&text));
    }
}

/// The stored books of the repository that are planned and accepted. Those of over 40,000 characters are read once. Those
/// with a "not" term have no page.
#[test]
fn stored_books() {
    let data: PathBuf = [env!("CARGO_MANIFEST_DIR"), "..", "..", "crates", "books", "data"].iter().collect();
    let mut seen = Seen::default();
    let mut large = 0;
    for entry in fs::read_dir(data).expect("a directory of books") {
        let path = entry.expect("a name").path();
        if path.extension().is_none_or(|extension| extension != "book") {
            continue;
        }
        let text = fs::read(&path).expect("a book's characters");
        let Ok(book) = book::read(&text) else { continue };
        if book.has_not() {
            let number = page::page(&text, &mut [0; PAGE_BYTES]).map_err(|refusal| refusal.number());
            assert_eq!(number, Err(17), "{}", path.display());
            continue;
        }
        let name = path.file_name().expect("a name").to_string_lossy();
        let fronts = ["maximal-", "typical-", "dense496-", "own-largest", "rounds"];
        large += usize::from(fronts.iter().any(|front| name.starts_with(front)));
        let expected = |text: &[u8], book: &Book| match text.len() {
            0..=40_000 => by_plan(text, &book.sizes),
            _ => by_closure(book),
        };
        compare(&mut seen, &text, expected);
    }
    println!("{large} large ones, {seen:?}");
    assert!(large >= 15 && seen.books >= 80);
    assert!(seen.start > 10_000 && seen.gained > 8_000 && seen.by_crews > 3_000 && seen.by_assigning > 4_000);
}

/// A drawn pattern of so many bytes.
fn pattern(rng: &mut Rng, length: usize) -> Vec<u8> {
    (0..length).map(|_| rng.bits() as u8).collect()
}

/// A refused book gives its own number and line, whatever the table's length, and the table keeps its bytes.
#[test]
fn refused_books() {
    let mut rng = Rng::new(0x0B1C_0026);
    let mut seen = [0; 18];
    let mut accepted = 0;
    let numbers: Vec<u8> = (0..=9).chain(16..=17).collect();
    for round in 0..7_200 {
        let draft = draw(&mut rng, round / numbers.len());
        let text = match numbers[round % numbers.len()] {
            0 => {
                let mut text = draft.text();
                gen::noise(&mut rng, &mut text);
                text
            }
            number => match gen::damaged_book(&mut rng, number, &draft) {
                Some((text, line)) => {
                    let refusal = page::page(&text, &mut []).expect_err("a damaged book");
                    let Refusal::Book(refusal) = refusal else { panic!("{refusal}") };
                    assert_eq!((refusal.number(), refusal.line), (number, line));
                    text
                }
                None => continue,
            },
        };
        let Err(refusal) = book::read(&text) else {
            accepted += 1;
            continue;
        };
        for length in [0, PAGE_BYTES - 1, PAGE_BYTES, PAGE_BYTES + 1] {
            let mut table = pattern(&mut rng, length);
            let before = table.clone();
            assert_eq!(page::page(&text, &mut table), Err(Refusal::Book(refusal)), "{length} bytes");
            assert_eq!(table, before, "{length} bytes");
        }
        seen[usize::from(refusal.number())] += 1;
    }
    println!("refused: {seen:?}, accepted with noise: {accepted}");
    assert!(numbers[1..].iter().all(|&number| seen[usize::from(number)] > 300));
}

/// "A table of another length is refused under 10.": shorter or longer, it keeps its bytes. One of 1,024 bytes is
/// written wholly: what stood in it does not matter.
#[test]
fn tables() {
    let mut rng = Rng::new(0x0B1C_0027);
    let mut marked = 0;
    for round in 0..3_000 {
        let text = draw(&mut rng, round).text();
        let other = rng.below(4 * PAGE_BYTES);
        for length in [0, 1, PAGE_BYTES - 1, PAGE_BYTES + 1, 2 * PAGE_BYTES, LEDGER_BYTES, other] {
            if length != PAGE_BYTES {
                let mut table = pattern(&mut rng, length);
                let before = table.clone();
                let refusal = page::page(&text, &mut table).expect_err("another length");
                assert_eq!((refusal, refusal.number()), (Refusal::Table, 10), "{length} bytes");
                assert_eq!(table, before, "{length} bytes");
            }
        }
        let expected = page::of(&book::read(&text).expect("a good book"));
        let drawn = pattern(&mut rng, PAGE_BYTES);
        let opposite = drawn.iter().map(|byte| !byte).collect();
        for mut table in [vec![0x00; PAGE_BYTES], vec![0xFF; PAGE_BYTES], drawn, opposite] {
            assert_eq!(page::page(&text, &mut table), Ok(()));
            assert_eq!(table, expected);
        }
        marked += usize::from(expected != [0; PAGE_BYTES]);
    }
    println!("3000 books, with a bit set: {marked}");
    assert!(marked > 2_000);
}

/// Of the book's query its roles count, and neither its mode, its person, its sets nor its crews.
#[test]
fn the_roles_alone_count() {
    let mut rng = Rng::new(0x0B1C_0028);
    let (mut modes, mut persons, mut answers, mut by_roles, mut by_no_roles) = (0, 0, 0, 0, 0);
    for round in 0..4_000 {
        let mut draft = draw(&mut rng, round);
        let text = draft.text();
        let book = book::read(&text).expect("a good book");
        let table = page_of(&text);
        for _ in 0..3 {
            draft.ask(gen::query(&mut rng, &draft.sizes));
            give_roles(&mut draft, book.query.roles);
            let asked = draft.text();
            assert_eq!(page_of(&asked), table, "{}", String::from_utf8_lossy(&asked));
            let other = book::read(&asked).expect("a good book");
            modes += usize::from((other.query.mode == Mode::AtLeast) != (book.query.mode == Mode::AtLeast));
            persons += usize::from(other.query.person != book.query.person);
            answers += usize::from(closure::plan(&other).is_some() != closure::plan(&book).is_some());
        }
        // More roles take nothing away; without roles there is what the start gives.
        let roles = rng.bits() as u16;
        let mut with_roles = |roles: u16| {
            give_roles(&mut draft, roles);
            page_of(&draft.text())
        };
        let (fewer, other, all) = (with_roles(roles & book.query.roles), with_roles(roles), with_roles(u16::MAX));
        assert_eq!(more(&fewer, &table) + more(&fewer, &other) + more(&table, &all) + more(&other, &all), 0);
        by_roles += usize::from(other != table);
        let none = with_roles(0);
        assert_eq!(none, at_the_start(&text, &book.sizes));
        by_no_roles += usize::from(none != table);
    }
    println!("of 12000: another mode {modes}, another person {persons}, another answer {answers}");
    println!("of 4000: another page by other roles {by_roles}, by no roles {by_no_roles}");
    assert!(modes > 3_000 && persons > 6_000 && answers > 3_000);
    assert!(by_roles > 1_200 && by_no_roles > 1_800);
}
