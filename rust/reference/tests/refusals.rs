//! Every number of the table is reached, with its line, and no refusal writes.

use reference::book;
use reference::gen::{self, Draft, Rng};
use reference::ledger::{self, Depot, Ledger, Refusal, Request, LEDGER_BYTES};
use reference::plan::{self, closure};
use reference::replay::{self, Verdict};

fn draft(rng: &mut Rng) -> Draft {
    match rng.below(20) {
        0 => gen::large_book(rng),
        1..=9 => gen::middle_book(rng),
        _ => gen::small_book(rng),
    }
}

#[test]
fn damaged_books() {
    let mut rng = Rng::new(0x0B1C_0011);
    let mut seen = [0; 18];
    let numbers: Vec<u8> = (1..=9).chain(16..=17).collect();
    for round in 0..22_000 {
        let number = numbers[round % numbers.len()];
        let draft = draft(&mut rng);
        assert!(book::read(&draft.text()).is_ok());
        let Some((text, line)) = gen::damaged_book(&mut rng, number, &draft) else {
            continue;
        };
        let refusal = book::read(&text).expect_err("a damaged book");
        let text = String::from_utf8_lossy(&text);
        assert_eq!((refusal.number(), refusal.line), (number, line), "{text}");
        seen[usize::from(number)] += 1;
    }
    println!("refused: {seen:?}");
    assert!(numbers.iter().all(|&number| seen[usize::from(number)] > 1_000));
}

/// A first line of another length than its A gives is 4, whatever else is wrong with it; one of that length is 5.
#[test]
fn first_lines() {
    let mut rng = Rng::new(0x0B1C_0017);
    for _ in 0..8_000 {
        let mut draft = gen::small_book(&mut rng);
        let (number, first) = match rng.below(2) {
            0 => (4, gen::bad_counts(&mut rng, &draft.sizes)),
            _ => (5, gen::bad_sizes(&mut rng, &draft.sizes)),
        };
        let due = first.get(3).is_some_and(|&attrs| first.len() == 4 + usize::from(attrs));
        assert_eq!(due, number == 5);
        draft.frames[0] = first;
        let refusal = book::read(&draft.text()).expect_err("a bad first line");
        assert_eq!((refusal.number(), refusal.line), (number, 1), "{:?}", draft.frames[0]);
    }
}

/// A value that another attribute of the book has is refused where its own has it not: by 5 in a book, 11 in a ledger, 12
/// in a request. Nothing else is wrong: with the highest count for every attribute there is no such refusal.
#[test]
fn neighbours_values() {
    let mut rng = Rng::new(0x0B1C_0018);
    let mut seen = 0;
    for _ in 0..6_000 {
        let mut draft = draft(&mut rng);
        let (sizes, text) = (draft.sizes, draft.text());
        let Some((bad, line)) = gen::neighbours_book(&mut rng, &draft) else {
            assert!(!sizes.differ());
            continue;
        };
        let wide = sizes.widened();
        let refusal = book::read(&bad).expect_err("a neighbour's value");
        assert_eq!((refusal.number(), refusal.line), (5, line), "{}", String::from_utf8_lossy(&bad));
        draft.frames = vec![gen::first_frame(&wide)];
        let first = text.iter().position(|&c| c == b'\n').expect("a line") + 1;
        assert_ne!(book::read(&[&draft.text(), &bad[first..]].concat()), Err(refusal));

        let mut ledger = gen::ledger(&mut rng, &sizes);
        let (before, person) = (ledger.clone(), rng.byte(0, sizes.persons - 1));
        let request = gen::neighbours_request(&mut rng, &sizes).expect("counts differ");
        assert_eq!(ledger::request(&text, &mut ledger, &request), Err(Refusal::Request));
        assert_eq!(ledger, before);
        assert!(Request::from_bytes(&wide, &request).is_some());
        let mut ledger = gen::neighbours_ledger(&mut rng, &sizes).expect("counts differ");
        let before = ledger.clone();
        assert_eq!(ledger::request(&text, &mut ledger, &request), Err(Refusal::Ledger));
        assert_eq!(ledger::show(&text, &ledger, person), Err(Refusal::Ledger));
        assert_eq!(ledger, before);
        assert!(Ledger::from_bytes(&wide, &ledger).is_some());
        seen += 1;
    }
    println!("neighbours' values: {seen}");
    assert!(seen > 2_000);
}

/// Each operation gives the book's refusal before it looks at anything else, and writes nothing.
#[test]
fn the_books_refusal_comes_first() {
    let mut rng = Rng::new(0x0B1C_0012);
    let numbers: Vec<u8> = (1..=9).chain(16..=17).collect();
    for round in 0..1_100 {
        let draft = gen::small_book(&mut rng);
        let Some((text, _)) = gen::damaged_book(&mut rng, numbers[round % numbers.len()], &draft) else {
            continue;
        };
        let refusal = book::read(&text).expect_err("a damaged book");
        let mut buffer = gen::damaged_ledger(&mut rng, &draft.sizes);
        let before = buffer.clone();
        assert_eq!(ledger::open(&text, &mut buffer), Err(refusal.into()));
        assert_eq!(ledger::request(&text, &mut buffer, &[]), Err(refusal.into()));
        assert_eq!(ledger::show(&text, &buffer, 255), Err(refusal.into()));
        assert_eq!(plan::plan(&text, &mut buffer), Err(refusal.into()));
        assert_eq!(replay::replay(&text, &[0; 7]), Err(refusal.into()));
        assert_eq!(buffer, before);
    }
}

#[test]
fn ledgers_and_requests() {
    let mut rng = Rng::new(0x0B1C_0013);
    // Done, and 11, 12, 13, 15.
    let mut seen = [0; 5];
    for _ in 0..8_000 {
        let draft = draft(&mut rng);
        let text = draft.text();
        let book = book::read(&text).expect("a good book");
        let bad_ledger = rng.percent(15);
        let bad_request = rng.percent(20);
        let mut bytes =
            if bad_ledger { gen::damaged_ledger(&mut rng, &draft.sizes) } else { gen::ledger(&mut rng, &draft.sizes) };
        let request = if bad_request {
            gen::damaged_request(&mut rng, &draft.sizes)
        } else {
            gen::apt_request(&mut rng, &book).to_vec()
        };
        let before = bytes.clone();
        let answer = ledger::request(&text, &mut bytes, &request);
        let number = answer.map_or_else(|refusal| refusal.number(), |()| 0);
        match number {
            11 => assert!(bad_ledger),
            12 => assert!(!bad_ledger && bad_request),
            _ => assert!(!bad_ledger && !bad_request && [0, 13, 15].contains(&number)),
        }
        let changed: u32 = before.iter().zip(&bytes).map(|(a, b)| (a ^ b).count_ones()).sum();
        assert!(changed <= u32::from(number == 0));
        assert_eq!(ledger::show(&text, &before, 255).map_err(|r| r.number()), Err(if bad_ledger { 11 } else { 12 }));
        assert_eq!(ledger::show(&text, &before, 0).is_ok(), !bad_ledger);
        assert_eq!(ledger::open(&text, &mut bytes).is_ok(), bytes.len() == LEDGER_BYTES);
        let place = [0, 11, 12, 13, 15].iter().position(|&n| n == number).expect("one of these");
        seen[place] += 1;
    }
    println!("done, 11, 12, 13, 15: {seen:?}");
    assert!(seen.iter().all(|&times| times > 500));
}

/// A book whose rule of this place, counted from 1, has no more than its first n terms.
fn cut(draft: &Draft, rule: u16, n: u8) -> Draft {
    let mut draft = draft.clone();
    let mut rules = draft.frames.iter_mut().filter(|frame| frame[0] == 3);
    let frame = rules.nth(usize::from(rule) - 1).expect("a rule of the book");
    assert!(n <= frame[5]);
    frame[5] = n;
    frame.truncate(6 + 3 * usize::from(n));
    draft
}

/// 13 and 15 beside the frames of the book. Of a rule that 15 tells, the terms before the unmet one let the request be
/// done, and with the unmet one the answer is the same again.
#[test]
fn missing_rules_and_unmet_terms() {
    let mut rng = Rng::new(0x0B1C_0016);
    let (mut no_rule, mut unmet, mut later_rule, mut later_term, mut later_permits) = (0, 0, 0, 0, 0);
    let mut last = (0, 0);
    for round in 0..8_000 {
        let draft = if round % 2 == 0 { gen::crowded_book(&mut rng) } else { draft(&mut rng) };
        let book = book::read(&draft.text()).expect("a good book");
        let mut bytes = gen::ledger(&mut rng, &book.sizes);
        let apt = rng.percent(85);
        let asked = if apt { gen::apt_request(&mut rng, &book) } else { gen::request(&mut rng, &book.sizes) };
        if rng.percent(50) {
            gen::meet_first_terms(&mut rng, &book, &mut bytes, &asked);
        }
        let answer = |draft: &Draft| ledger::request(&draft.text(), &mut bytes.clone(), &asked);

        let [op, role, _, a, v] = asked;
        let mut rules = draft.frames.iter().filter(|frame| frame[0] == 3);
        let first = rules.position(|frame| frame[1..5] == [op, role, a, v]);
        let facts = Ledger::from_bytes(&book.sizes, &bytes).expect("a good ledger");
        let request = Request::from_bytes(&book.sizes, &asked).expect("a good request");
        let given = answer(&draft);
        assert_eq!(given.is_ok(), Depot::new(&book).permits(&facts, &request));
        match given {
            Ok(()) => {
                let trials = Depot::new(&book).trials(&facts, &request);
                assert_eq!(Some(usize::from(trials[0].rule) - 1), first);
                later_permits += usize::from(trials[0].unmet.is_some());
            }
            Err(Refusal::NoRule) => {
                assert_eq!(first, None);
                no_rule += 1;
            }
            Err(Refusal::UnmetTerm { rule, term }) => {
                assert_eq!(first, Some(usize::from(rule) - 1));
                assert_eq!(answer(&cut(&draft, rule, term - 1)), Ok(()));
                assert_eq!(answer(&cut(&draft, rule, term)), given);
                unmet += 1;
                later_rule += usize::from(rule > 1);
                later_term += usize::from(term > 1);
                last = (rule.max(last.0), term.max(last.1));
            }
            Err(other) => panic!("{other}"),
        }
    }
    println!("13: {no_rule}, 15: {unmet}, of a later rule: {later_rule}, a later term: {later_term}, at most {last:?}");
    println!("done by a later rule: {later_permits}");
    assert!(no_rule > 1_000 && unmet > 1_000 && later_rule > 500 && later_term > 300 && later_permits > 300);
    assert!(last.0 > 256 && last.1 == 8);
}

#[test]
fn buffers_and_lists() {
    let mut rng = Rng::new(0x0B1C_0014);
    let (mut short, mut odd) = (0, 0);
    // Of books whose counts differ: 10 × F bytes, and a byte less.
    let (mut whole, mut less) = (0, 0);
    let mut verdicts = [0; 3];
    for _ in 0..6_000 {
        let draft = gen::small_aimed_book(&mut rng);
        let text = draft.text();
        let book = book::read(&text).expect("a good book");
        let need = 10 * book.sizes.facts();
        let mut buffer = vec![0xA5; need + rng.below(9) - 4];
        let enough = buffer.len() >= need;
        whole += usize::from(book.sizes.differ() && buffer.len() == need);
        less += usize::from(book.sizes.differ() && buffer.len() == need - 1);
        match plan::plan(&text, &mut buffer) {
            Err(refusal) => {
                assert!(!enough && refusal.number() == 10);
                short += 1;
            }
            Ok(plan::Answer::NoWay) => {
                assert!(enough && buffer.iter().all(|&byte| byte == 0xA5));
                assert_eq!(closure::plan(&book), None);
            }
            Ok(plan::Answer::Plan(count)) => {
                let (front, rest) = buffer.split_at(5 * count);
                assert_eq!(replay::replay(&text, front), Ok(Verdict::Reaches));
                assert!(enough && rest.iter().all(|&byte| byte == 0xA5));
            }
        }
        let list = gen::list(&mut rng, &book);
        match replay::replay(&text, &list) {
            Err(refusal) => {
                assert!(refusal.number() == 14 && !list.len().is_multiple_of(5));
                odd += 1;
            }
            Ok(Verdict::Reaches) => verdicts[0] += 1,
            Ok(Verdict::StopsAt(k)) => {
                assert!((1..=list.len() / 5).contains(&k));
                // The list before the stop is carried out.
                assert!(!matches!(replay::replay(&text, &list[..5 * (k - 1)]), Ok(Verdict::StopsAt(_))));
                verdicts[1] += 1;
            }
            Ok(Verdict::EndsShort) => verdicts[2] += 1,
        }
    }
    println!("10: {short}, 14: {odd}, reaches, stops, ends short: {verdicts:?}");
    assert!(whole > 100 && less > 100);
    assert!(short > 1_000 && odd > 100 && verdicts.iter().all(|&times| times > 100));
}

/// Whatever the characters are, there is an answer, and the line is one of the book's or the one after the last.
#[test]
fn noise() {
    let mut rng = Rng::new(0x0B1C_0015);
    let mut seen = [0; 18];
    for round in 0..40_000 {
        let draft = if round % 4 == 0 { gen::small_not_book(&mut rng) } else { gen::small_book(&mut rng) };
        let mut text = draft.text();
        gen::noise(&mut rng, &mut text);
        match book::read(&text) {
            Ok(_) => seen[0] += 1,
            Err(refusal) => {
                let lines = text.split_inclusive(|&c| c == b'\n').count();
                assert!((1..=lines + 1).contains(&refusal.line));
                seen[usize::from(refusal.number())] += 1;
            }
        }
    }
    println!("accepted, then 1-17: {seen:?}");
}
