//! The specification's example, D1 to D12, the sentences on the page and on books that only grow, and the shapes of
//! answers.

use bixorgun::bytes::{self, Planned, Shown};
use bixorgun::{Act, Answer, Attr, Book, Crew, Judgement, Ledger, Page, Person, Plan, Refusal, Request, Role, Value};
use bixorgun::{LEDGER_SIZE, PAGE_SIZE, PLAN_MAX, VIEW_SIZE};

mod printed;
use printed::printed;

const D1: &str = "0101010102\n030100000100\n030501000001010001\n0402000000\n050100000301000001\n";
const HOLDS_BOTH: &str = "0401000000\n0401000001\n";
const EACH_NEEDS_THE_OTHER: &str = "030200000001010001\n030200000101010000\n";

/// One person, one attribute, values 0 and 1, no crews.
fn bare(frames: &str, query: &str) -> String {
    format!("0101000102\n{frames}{query}\n")
}

/// The same with crew 1, the senior of crew 0, and a query that is not asked.
fn two_crews(frames: &str) -> String {
    format!("0101020102\n020100\n{frames}050100FFFF00\n")
}

/// "exactly": mode 02, all roles, the one attribute, no crews.
fn exactly(set: u16) -> String {
    format!("050200FFFF0100{set:04X}00000000")
}

/// Plans a book, and sees that the plan works when it is carried out; its requests.
fn planned(book: &str) -> Option<Vec<[u8; 5]>> {
    let book = Book::new(book);
    let plan = book.plan().expect("accepted").plan()?;
    assert_eq!(book.replay(&plan), Ok(Judgement::Reaches));
    let mut ledger = book.open().expect("accepted");
    for request in &plan {
        let before = ledger.clone();
        ledger.request(&book, request).expect("permitted");
        assert_ne!(before, ledger);
    }
    Some(plan.iter().map(|request| request.to_bytes()).collect())
}

fn judged(book: &str, list: &[[u8; 5]]) -> Judgement {
    bytes::replay(book.as_bytes(), &list.concat()).expect("judged")
}

#[test]
fn the_example_is_printed() {
    assert_eq!(printed(D1.as_bytes()), "810002\n0100000001\n0501000000\n");
    assert_eq!(printed(b""), "8F030001\n");
    assert_eq!(printed(bare("", "050100FFFF01000001").as_bytes()), "80\n");
    assert_eq!(printed(bare("", "050100FFFF00").as_bytes()), "810000\n");
}

#[test]
fn d1_and_d2() {
    let (add, assign) = ([1, 0, 0, 0, 1], [5, 1, 0, 0, 0]);
    assert_eq!(planned(D1), Some(vec![add, assign]));
    assert_eq!(judged(D1, &[add]), Judgement::EndsShort);
    assert_eq!(judged(D1, &[assign, add]), Judgement::Stops(1));
    assert_eq!(judged(D1, &[add, add, [9; 5], assign]), Judgement::Stops(3));
    let d2 = D1.replace("05010000030", "05010000010");
    assert_eq!(planned(&d2), None);
    assert_eq!(judged(&d2, &[add, assign]), Judgement::Stops(2));
}

#[test]
fn d3_to_d5() {
    let (zero, one) = ([2, 0, 0, 0, 0], [2, 0, 0, 0, 1]);
    let each = format!("{HOLDS_BOTH}{EACH_NEEDS_THE_OTHER}");
    assert_eq!(planned(&bare(&each, &exactly(0b00))), None, "D3");
    assert_eq!(planned(&bare(&each, &exactly(0b10))), Some(vec![zero]), "D4");
    let d5 = bare(&format!("{HOLDS_BOTH}030200000001010001\n030200000100\n"), &exactly(0b00));
    assert_eq!(planned(&d5), Some(vec![zero, one]), "D5");
    assert_eq!(judged(&d5, &[one, zero]), Judgement::Stops(2));
}

#[test]
fn d6_to_d9() {
    let d6 = bare("030100000000\n030100000100\n", &exactly(0b01));
    assert_eq!(planned(&d6), Some(vec![[1, 0, 0, 0, 0]]), "D6");
    assert_eq!(planned(&bare("", "050100FFFF00")), Some(vec![]), "D7");
    assert_eq!(planned(&bare("030100000001010000\n", "050100FFFF01000001")), None, "D8");
    let d9 = bare("0401000000\n030200000001010000\n", &exactly(0b00));
    assert_eq!(planned(&d9), Some(vec![[2, 0, 0, 0, 0]]), "D9");
}

#[test]
fn d10_a_senior_inherits_and_a_junior_does_not() {
    let text = two_crews("0403000100\n0402000000\n");
    let book = Book::new(&text);
    let view = book.open().expect("opens").show(&book, Person(0)).expect("shown");
    assert!(view.values(Attr(0)).iter().eq([Value(0)]));
    assert!(view.crews().iter().eq([Crew(0), Crew(1)]));
    let text = two_crews("0403000000\n0402010000\n");
    let book = Book::new(&text);
    let view = book.open().expect("opens").show(&book, Person(0)).expect("shown");
    assert!(view.values(Attr(0)).is_empty());
    assert!(view.crews().iter().eq([Crew(0)]));
}

#[test]
fn d11_removal_from_a_crew_held_through_a_senior() {
    let text = two_crews("0403000100\n030600000000\n");
    let book = Book::new(&text);
    let mut ledger = book.open().expect("opens");
    let before = ledger.clone();
    assert_eq!(ledger.request(&book, Request::new(Role(0), Act::Remove(Person(0), Crew(0)))), Ok(()));
    assert_eq!(ledger, before);
}

#[test]
fn d12_a_deleted_value_that_is_inherited() {
    let text = two_crews("0401000000\n0402000000\n0403000000\n030200000000\n");
    let book = Book::new(&text);
    let mut ledger = book.open().expect("opens");
    assert_eq!(ledger.as_bytes()[1], 1);
    let delete = Request::new(Role(0), Act::DeleteFromPerson(Person(0), Attr(0), Value(0)));
    assert_eq!(ledger.request(&book, delete), Ok(()));
    assert_eq!(ledger.as_bytes()[1], 0);
    assert!(ledger.show(&book, Person(0)).expect("shown").values(Attr(0)).contains(Value(0)));
}

#[test]
fn the_ledgers_places() {
    let text = "014020080102030405060710\n04013F070F\n04021F070F\n04033F1F00\n0401000000\n050100000000\n";
    let ledger = Book::new(text).open().expect("opens");
    assert_eq!(format!("{ledger:?}"), "Ledger {1: 1, 1022: 128, 1534: 128, 1788: 128}");
    assert!(Ledger::try_from(&ledger.as_bytes()[..]).is_ok_and(|again| again == ledger));
    assert!(Ledger::try_from(&ledger.as_bytes()[1..]).is_err());
    assert_eq!(Ledger::from(*ledger.as_bytes()).into_bytes()[..], *ledger.as_ref());
}

/// Shows bytes, front and behind, and what each number of a view says.
#[test]
fn the_bytes_of_show() {
    // Person 63 holds values 15 and 0 of attribute 7 and 3 of attribute 1, and is in crew 31, senior of 9, which holds 8.
    // Of attribute 1 that is the last value.
    let text =
        "014020080109020304050610\n04013F070F\n04013F0700\n04013F0103\n04033F1F00\n021F09\n0402090108\n050100000000\n";
    let book = Book::new(text);
    let ledger = book.open().expect("opens");
    let mut buffer = [0xA5; VIEW_SIZE + 3];
    assert_eq!(bytes::show_into(text.as_bytes(), ledger.as_ref(), Person(63), &mut buffer), Ok(Shown::Done));
    let (front, behind) = buffer.split_at(VIEW_SIZE);
    assert_eq!(front, [0, 0, 1, 8, 0, 0, 0, 0, 0, 0, 0, 0, 0, 0, 0x80, 1, 0x80, 0, 2, 0]);
    assert_eq!(behind, [0xA5; 3]);
    let view = ledger.show(&book, Person(63)).expect("shown");
    assert!(view.values(Attr(7)).iter().eq([Value(0), Value(15)]));
    assert!(view.values(Attr(1)).iter().eq([Value(3), Value(8)]));
    assert!(view.crews().iter().eq([Crew(9), Crew(31)]));
    assert_eq!((view.crews().len(), view.values(Attr(8)).len()), (2, 0));
    assert!(!view.values(Attr(7)).contains(Value(16)) && !view.crews().contains(Crew(32)));
    let named: Vec<_> = view.sets().filter(|(_, set)| !set.is_empty()).map(|(attr, set)| (attr, set.bits())).collect();
    assert_eq!(named, [(Attr(1), 0x0108), (Attr(7), 0x8001)]);
    for length in 0..VIEW_SIZE {
        let mut short = vec![0xA5; length];
        assert_eq!(bytes::show_into(text.as_bytes(), ledger.as_ref(), Person(63), &mut short), Ok(Shown::NoRoom));
        assert_eq!(short, vec![0xA5; length]);
        // A refusal comes before the want of room.
        assert_eq!(
            bytes::show_into(text.as_bytes(), ledger.as_ref(), Person(64), &mut short),
            Err(Refusal::BadRequest)
        );
    }
}

#[test]
fn a_plan_iterates() {
    let book = Book::new(D1);
    let Ok(Answer::Plan(plan)) = book.plan() else { panic!("a plan") };
    let add = Request::new(Role(0), Act::AddToPerson(Person(0), Attr(0), Value(1)));
    let assign = Request::new(Role(1), Act::Assign(Person(0), Crew(0)));
    assert_eq!(plan.as_slice(), [add, assign]);
    assert_eq!((plan.len(), plan.is_empty(), plan.iter().len()), (2, false, 2));
    assert!(plan.iter().rev().eq([assign, add]));
    assert!((&plan).into_iter().eq([add, assign]));
    assert_eq!(plan.iter().collect::<Plan>(), plan);
    assert_eq!(book.replay(plan.iter().take(1)), Ok(Judgement::EndsShort));
    assert_eq!(book.replay(plan.iter().rev()), Ok(Judgement::Stops(1)));
    assert_eq!(plan.to_bytes(), [1, 0, 0, 0, 1, 5, 1, 0, 0, 0]);
    assert!(plan.into_iter().eq([add, assign]));
    assert!(Plan::default().is_empty());
}

/// A buffer of exactly 10 × F, and a longer one; a plan in its front, and all behind as it was.
#[test]
fn a_plan_fills_the_front() {
    let need = bixorgun::plan_size(1, 2);
    for length in [need, need + 1, PLAN_MAX] {
        let mut buffer = vec![0xA5; length];
        assert_eq!(bytes::plan_into(D1.as_bytes(), &mut buffer), Ok(Planned::Plan(2)));
        assert_eq!(buffer[..10], [1, 0, 0, 0, 1, 5, 1, 0, 0, 0]);
        assert!(buffer[10..].iter().all(|&byte| byte == 0xA5));
        let d2 = D1.replace("05010000030", "05010000010");
        let before = buffer.clone();
        assert_eq!(bytes::plan_into(d2.as_bytes(), &mut buffer), Ok(Planned::NoWay));
        assert_eq!(buffer, before);
    }
}

/// The page of a book, filled over bytes that are not a page's.
fn page(book: &str) -> Page {
    let mut table = [0xA5; PAGE_SIZE];
    bytes::page(book.as_bytes(), &mut table).expect("accepted");
    let page = Page::from(table);
    assert_eq!(Book::new(book).page(), Ok(page.clone()));
    page
}

/// A sorter in the night shift (person 0, crew 1), a trainee (1) and a driver with lane 1 (2); three grades and two
/// lanes. The night shift is above the returns crew (0), which holds grade 0. Role 0 assigns to the returns crew who holds
/// lane 1; role 1 adds lane 0 to who has grade 1 or higher, and deletes lane 1; role 2 adds grade 1 to a crew that has
/// grade 0.
const DEPOT: &str = "010302020302\n020100\n0402000000\n0403000100\n0401020101\n030302000101020000\n\
                     030500000001010101\n030101010001050001\n030201010100\n";

/// "A bit is set exactly when the mode 01 query for that person, that value alone and the roles of the book's query
/// would get a plan.", here for every set of the roles 0 to 2, asked of plan bit by bit.
#[test]
fn a_bit_of_the_page_is_a_query() {
    let counts = (0..8).map(|roles| {
        let page = page(&format!("{DEPOT}050100{roles:04X}00\n"));
        let mut count = 0;
        for (person, attr, values) in (0..3).flat_map(|person| [(person, 0, 3), (person, 1, 2)]) {
            for value in 0..values {
                let query = format!("0501{person:02X}{roles:04X}01{attr:02X}{:04X}\n", 1 << value);
                let way = planned(&format!("{DEPOT}{query}")).is_some();
                assert_eq!(page.reaches(Person(person), Attr(attr), Value(value)), way, "{query}");
                count += usize::from(way);
            }
        }
        assert_eq!(page.iter().len(), count, "no other bit is set");
        count
    });
    assert!(counts.eq([2, 3, 2, 3, 3, 5, 4, 7]));
}

/// "the roles of the book's query": its mode, person, sets and crews do not matter, and it may have no way.
#[test]
fn of_the_query_the_page_takes_the_roles() {
    let first = page(&format!("{DEPOT}050100000700\n"));
    let others = ["050102000700", "050101000702000007010003", "05020000070000000000", "05020200070100000000000003"];
    for query in others {
        assert_eq!(page(&format!("{DEPOT}{query}\n")), first, "{query}");
    }
    assert_eq!(planned(&format!("{DEPOT}05020000070000000000\n")), None, "nobody removes her from the night shift");
}

/// "for each person a two-byte set for each of eight attributes, 1,024 bytes. [..] Bytes of absent persons and
/// attributes are 0."
#[test]
fn the_pages_places() {
    let last = page("014020081010101010101010\n04013F070F\n0401000008\n050100000000\n");
    assert_eq!(format!("{last:?}"), "Page {(0, 0): {8}, (63, 7): {15}}");
    assert_eq!((&last.as_bytes()[..2], &last.as_bytes()[1_022..]), (&[1, 0][..], &[0x80, 0][..]));
    // The first of these facts alone, in the smallest sizes that have it.
    let small = page("0101000109\n0401000008\n050100000000\n");
    assert_eq!(small.as_bytes()[..2], [1, 0]);
    assert!(small.as_bytes()[2..].iter().all(|&byte| byte == 0));
    for person in 0..=255 {
        for attr in 0..=255 {
            let there = (person, attr) == (0, 0);
            assert_eq!(small.values(Person(person), Attr(attr)).is_empty(), !there, "{person}, {attr}");
            for value in [0, 7, 8, 9, 15, 16, 24, 255] {
                let reaches = small.reaches(Person(person), Attr(attr), Value(value));
                assert_eq!(reaches, there && value == 8, "{person}, {attr}, {value}");
            }
        }
    }
}

/// The pilot depot, whose sorter was lent to the returns crew by one lead and raised by a second, so that a third could
/// give her lane control.
#[test]
fn a_page_iterates() {
    let data = concat!(env!("CARGO_MANIFEST_DIR"), "/../../crates/books/data/pilot.book");
    let pilot = page(&std::fs::read_to_string(data).expect("a stored book"));
    let (sorter, grade, lane) = (Person(0), Attr(0), Attr(1));
    let all = [(sorter, grade, Value(0)), (sorter, grade, Value(1)), (sorter, lane, Value(0))];
    assert!(pilot.iter().eq(all));
    assert!((&pilot).into_iter().eq(all));
    assert_eq!(format!("{pilot:?}"), "Page {(0, 0): {0, 1}, (0, 1): {0}}");
    assert!(pilot.reaches(sorter, lane, Value(0)) && !pilot.reaches(sorter, lane, Value(1)));
    assert_eq!(pilot.values(sorter, grade).bits(), 0b11);
    let mut left = pilot.iter();
    for count in (0..3).rev() {
        assert!(left.next().is_some());
        assert_eq!((left.len(), left.size_hint()), (count, (count, Some(count))));
    }
    assert_eq!((left.next(), left.next(), left.len()), (None, None, 0));
    // Every bit that a table can have, in rising order.
    let full = Page::from([0xFF; PAGE_SIZE]);
    assert_eq!(full.iter().len(), 64 * 8 * 16);
    assert!(full.iter().is_sorted_by(|a, b| a < b) && full.iter().count() == 64 * 8 * 16);
    assert!(full.iter().all(|(person, attr, value)| full.reaches(person, attr, value)));
    let empty = page("0101000102\n050100FFFF00\n");
    assert_eq!((empty.iter().next(), format!("{empty:?}")), (None, "Page {}".to_owned()));
}

/// "may join customs if not in returns": anybody joins crew 0, and crew 1 who is not in crew 0. Attribute 0 has two values;
/// 0 is for who lacks 1, and 1 for anybody.
const GROWING: &str = "0101020102\n030500000000\n030500010001830000\n030100000001810001\n030100000100\n";

/// A book that only grows, with these facts and a query of mode 03, by role 0: a set of values and a set of crews.
fn growing(facts: &str, set: u16, crews: u32) -> String {
    format!("{GROWING}{facts}05030000010100{set:04X}{crews:08X}\n")
}

/// "Plan and "no way" mean there what they mean elsewhere": what is barred comes before what bars it, or never.
#[test]
fn books_that_only_grow() {
    let (zero, one) = ([1, 0, 0, 0, 0], [1, 0, 0, 0, 1]);
    let (returns, customs) = ([5, 0, 0, 0, 0], [5, 0, 0, 1, 0]);
    let book = growing("", 0b11, 0b11);
    let mut plan = planned(&book).expect("a way");
    let place = |plan: &[[u8; 5]], request| plan.iter().position(|&other| other == request);
    assert!(place(&plan, customs) < place(&plan, returns) && place(&plan, zero) < place(&plan, one));
    plan.sort_unstable();
    assert_eq!(plan, [zero, one, returns, customs]);
    assert_eq!(judged(&book, &[zero, one, customs, returns]), Judgement::Reaches);
    assert_eq!(judged(&book, &[customs, zero, returns, one]), Judgement::Reaches);
    assert_eq!(judged(&book, &[zero, one, returns, customs]), Judgement::Stops(4));
    assert_eq!(judged(&book, &[one, zero, customs, returns]), Judgement::Stops(2));
    assert_eq!(judged(&book, &[zero, one, customs]), Judgement::EndsShort);
    assert_eq!(judged(&book, &[zero, [2, 0, 0, 0, 0]]), Judgement::Stops(2), "nothing is deleted");
    assert_eq!(planned(&growing("0403000000\n", 0, 0b10)), None, "in returns");
    assert_eq!(planned(&growing("0401000001\n", 0b01, 0)), None, "1 is held");
}

/// "the person must at least directly hold the named sets and directly be in the listed crews"
#[test]
fn mode_03_is_met_directly() {
    // Crew 1 is above crew 0 and both hold both values; person 0 is in crew 1.
    let inherited = "020100\n0402000000\n0402000001\n0402010000\n0402010001\n0403000100\n";
    assert_eq!(judged(&growing(inherited, 0, 0b10), &[]), Judgement::Reaches);
    assert_eq!(judged(&growing(inherited, 0, 0b01), &[]), Judgement::EndsShort);
    assert_eq!(judged(&growing(inherited, 0b01, 0), &[]), Judgement::EndsShort);
    // At least: more is allowed.
    let held = "0401000000\n0401000001\n0403000000\n0403000100\n";
    for (set, crews) in (0..4).flat_map(|set| (0..4).map(move |crews| (set, crews))) {
        assert_eq!(judged(&growing(held, set, crews), &[]), Judgement::Reaches);
        assert_eq!(planned(&growing(held, set, crews)), Some(Vec::new()));
    }
    // What is inherited bars nothing.
    assert_eq!(planned(&growing(inherited, 0b01, 0)), Some(vec![[1, 0, 0, 0, 0]]));
    assert_eq!(planned(&growing(&inherited.replace("0403000100", "0403000000"), 0, 0b10)), None);
}

/// The sentences on 16 and 17, on a book of one rule with a "not" term.
#[test]
fn a_book_with_not_has_limits() {
    let not = "030100000001810001\n";
    let (at_least, directly) = ("050100000100", "05030000010000000000");
    let book = |rules: &str, query: &str| format!("0101010102\n{rules}{query}\n");
    let numbers = |text: &str| {
        let book = Book::new(text);
        let told = |refusal: Refusal| (refusal.number(), refusal.line());
        let plan = book.plan().err().map(told);
        let others = [book.open().err(), book.replay([]).err()].map(|refusal| refusal.map(told));
        assert_eq!(others, [plan, plan], "{text}");
        (plan, book.page().err().map(told))
    };
    // "The page of Wish 5 refuses every book with a "not" term by 17."
    assert_eq!(numbers(&book(not, directly)), (None, Some((17, Some(3)))));
    // "mode 03 without a "not" term or another mode with one gets 17"
    for text in [book(not, at_least), book("030100000000\n", directly)] {
        assert_eq!(numbers(&text), (Some((17, Some(3))), Some((17, Some(3)))));
    }
    // "only ops 01, 03 and 05, at most one rule for each op, a and v, and only terms 01, 03, 81, 83"; "A rule given twice
    // counts as two here."; "16 before 17"
    let others = ["030200000100\n", "030101000000\n", not, "030100000101020000\n", "030500000001040000\n"];
    for (other, query) in others.iter().flat_map(|other| [at_least, directly].map(|query| (other, query))) {
        let text = book(&format!("{not}{other}"), query);
        assert_eq!(numbers(&text), (Some((16, Some(4))), Some((16, Some(4)))), "{text}");
    }
    let good = ["030300000000\n", "030100000101010000\n", "030500000002030000830000\n"];
    assert_eq!(numbers(&book(&format!("{not}{}", good.concat()), directly)), (None, Some((17, Some(6)))));
    // "both only where no line has any of 1-9"
    let unlisted = "05030000010000000002";
    assert_eq!(numbers(&book(&format!("{not}{not}"), unlisted)), (Some((5, Some(4))), Some((5, Some(4)))));
}

#[test]
fn requests_and_their_bytes() {
    for op in 0..=255 {
        for v in [0, 1, 255] {
            let five = [op, 15, 63, 7, v];
            let good = (1..=4).contains(&op) || matches!((op, v), (5 | 6, 0));
            let request = Request::from_bytes(five);
            assert_eq!(request.is_some(), good, "{five:?}");
            if let Some(request) = request {
                assert_eq!(request.to_bytes(), five);
            } else {
                let mut ledger = [0; LEDGER_SIZE];
                let book = "014020081010101010101010\n050100000000\n";
                assert_eq!(bytes::request(book.as_bytes(), &mut ledger, &five), Err(Refusal::BadRequest));
            }
        }
    }
}

/// A lent book, a ledger and an answer may go to other threads.
#[test]
fn threads() {
    std::thread::scope(|scope| {
        let threads: Vec<_> = (0..4).map(|_| scope.spawn(|| Book::new(D1).plan())).collect();
        for thread in threads {
            let answer = thread.join().expect("no panic").expect("accepted");
            assert_eq!(answer.plan().map(|plan| plan.len()), Some(2));
        }
    });
}
