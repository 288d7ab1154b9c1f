//! The page as it is written: each cell against the library's plan for that person and value, and each plan behind a cell
//! read off the page and replayed.

use bixorgun::{bytes, Answer, Attr, Book, Judgement, Person, Refusal, Request, Value};
use depot::compile;
use depot::html::{self, Sheet};
use depot::model::{Depot, Mode, Question};
use depot::sheet::{self, Unmade};
use depot::{hex, requests};
use reference::gen::Rng;

mod books;

/// A cell as it stands on the page.
#[derive(Debug, PartialEq)]
enum Shown {
    Has,
    Through(String),
    Moves(usize),
    NoWay,
}

fn written(depot: &Depot, book: &[u8]) -> String {
    let leads = depot.question.as_ref().expect("a question").what.leads;
    let rows = sheet::rows(depot, book, leads, &|_| ()).expect("a book with a page");
    html::page(&Sheet { depot, file: "a.book", leads, rows })
}

/// What stands between two marks, from a place on, and the place behind it.
fn between<'t>(text: &'t str, from: usize, open: &str, close: &str) -> Option<(&'t str, usize)> {
    let begin = from + text.get(from..)?.find(open)? + open.len();
    let end = begin + text[begin..].find(close)?;
    Some((&text[begin..end], end + close.len()))
}

/// A text without its tags.
fn plain(html: &str) -> String {
    let mut tag = false;
    let kept = html.chars().filter(|c| {
        let inside = tag || *c == '<';
        tag = (tag || *c == '<') && *c != '>';
        !inside
    });
    kept.collect::<String>().replace("&lt;", "<").replace("&gt;", ">").replace("&quot;", "\"").replace("&amp;", "&")
}

/// A person's cells on the page, by attribute and value: of a folded page they stand in several rows.
fn row(page: &str, person: usize) -> Vec<Shown> {
    let mut cells = Vec::new();
    for attribute in 0..8 {
        let Some((row, _)) = between(page, 0, &format!("<tr id=\"r{person}a{attribute}\">"), "</tr>") else { break };
        let mut at = 0;
        while let Some((cell, behind)) = between(row, at, "<td class=\"", "</td>") {
            let text = plain(&cell[cell.find('>').expect("a tag's end") + 1..]);
            cells.push(match (cell.chars().next(), text.as_str()) {
                (Some('h'), "has") => Shown::Has,
                (Some('n'), "no way") => Shown::NoWay,
                (Some('t'), text) => Shown::Through(text.strip_prefix("through ").expect("a crew").into()),
                (Some('r'), text) => {
                    Shown::Moves(text.split(' ').next().and_then(|n| n.parse().ok()).expect("a count"))
                }
                other => panic!("a cell {other:?}"),
            });
            at = behind;
        }
    }
    cells
}

/// Compares the page of a book; how many cells of each kind it has.
fn compare(name: &str, book: &[u8], counts: &mut [usize; 4]) {
    let depot = hex::read(book).unwrap_or_else(|refused| panic!("{name}: {:?}", refused.fault));
    let page = written(&depot, book);
    let leads = depot.question.as_ref().expect("a question").what.leads;
    let last = book[..book.len() - 1].iter().rposition(|byte| *byte == b'\n').expect("a line") + 1;
    let ledger = Book::new(book).open().expect("an accepted book");
    for person in 0..depot.persons.len() as u8 {
        let cells = row(&page, person.into());
        let values: Vec<(u8, u8)> = (0u8..)
            .zip(&depot.attributes)
            .flat_map(|(a, it)| (0..it.values.len()).map(move |v| (a, v as u8)))
            .collect();
        assert_eq!(cells.len(), values.len(), "{name}: person {person}");
        let view = ledger.show(&Book::new(book), Person(person)).expect("a person");
        for ((attribute, value), shown) in values.into_iter().zip(cells) {
            let wants = vec![(attribute, 1 << value)];
            let question = Question { mode: Mode::AtLeast, person, leads, wants, crews: 0 };
            let asked = [&book[..last], compile::question(&question).as_bytes()].concat();
            let answer = Book::new(&asked).plan().expect("an accepted book");
            let cell = format!("{name}: person {person}, attribute {attribute}, value {value}: {shown:?}");
            let held = view.values(Attr(attribute)).contains(Value(value));
            let own = ledger.as_bytes()[16 * usize::from(person) + 2 * usize::from(attribute)..][..2].to_vec();
            let direct = u16::from_be_bytes([own[0], own[1]]) >> value & 1 == 1;
            let kind = match &shown {
                Shown::Has => held && direct,
                Shown::Through(crew) => held && !direct && depot.crews.contains(crew),
                Shown::Moves(count) => {
                    let requests = behind(&page, &depot, person, attribute, value);
                    assert_eq!(requests.len(), *count, "{cell}");
                    let list: Vec<u8> = requests.iter().flat_map(Request::to_bytes).collect();
                    assert_eq!(bytes::replay(&asked, &list), Ok(Judgement::Reaches), "{cell}");
                    !held && *count > 0
                }
                Shown::NoWay => !held && answer == Answer::NoWay,
            };
            assert!(kind && (answer == Answer::NoWay) == (shown == Shown::NoWay), "{cell}");
            counts[match shown {
                Shown::Has => 0,
                Shown::Through(_) => 1,
                Shown::Moves(_) => 2,
                Shown::NoWay => 3,
            }] += 1;
        }
    }
}

/// The moves behind a cell, read off the page.
fn behind(page: &str, depot: &Depot, person: u8, attribute: u8, value: u8) -> Vec<Request> {
    let id = format!("<section class=\"p\" id=\"p{person}a{attribute}v{value}\">");
    let (section, _) = between(page, 0, &id, "</section>").expect("the plan behind a cell");
    let mut moves = String::new();
    let mut at = 0;
    while let Some((item, behind)) = between(section, at, "<li>", "</li>") {
        moves += item.split(" <i>").next().expect("a move");
        moves.push('\n');
        at = behind;
    }
    requests::list(depot, &plain(&moves)).unwrap_or_else(|fault| panic!("{fault:?} in {moves}"))
}

#[test]
fn stored_books() {
    let mut counts = [0; 4];
    let mut pages = 0;
    for (name, book) in books::stored() {
        // The largest are compared below.
        if book.len() < 3_000 && Book::new(&book).page().is_ok() {
            compare(&name, &book, &mut counts);
            pages += 1;
        }
    }
    println!("{pages} pages of stored books: {counts:?}");
    assert!(pages > 100 && counts.iter().all(|count| *count >= 50), "{counts:?}");
}

#[test]
fn drawn_books() {
    let mut rng = Rng::new(23);
    let (mut counts, mut pages) = ([0; 4], 0);
    while pages < 300 {
        let book = books::drawn(&mut rng).text();
        if book.len() < 3_000 && Book::new(&book).page().is_ok() {
            compare("a drawn book", &book, &mut counts);
            pages += 1;
        }
    }
    println!("{pages} pages of drawn books: {counts:?}");
    assert!(counts.iter().all(|count| *count > 100), "{counts:?}");
}

#[test]
fn the_largest_book() {
    let mut counts = [0; 4];
    compare("maximal-m1-yes", &books::book("maximal-m1-yes.book"), &mut counts);
    assert_eq!(counts.iter().sum::<usize>(), 64 * 128);
    assert!(counts.iter().all(|count| *count > 500), "{counts:?}");
}

#[test]
fn a_depot_with_not_has_no_page() {
    let book = books::book("not-depot.book");
    let depot = hex::read(&book).expect("an accepted book");
    let unmade = sheet::rows(&depot, &book, 7, &|_| ()).err();
    assert_eq!(unmade, Some(Unmade::Refused(Refusal::WrongMode { line: 20 })));
}
