//! Books that only grow, with "not": the planner beside searches, and what 16 and 17 refuse.

use std::collections::BTreeSet;

use reference::book::{self, Book, Crew, Fact, Mode, Person, Term, Value, Way};
use reference::gen::{self, Draft, Limit, Rng};
use reference::ledger::{self, crews, numbers, Depot, Ledger, Request, LEDGER_BYTES};
use reference::page::{self, PAGE_BYTES};
use reference::plan::compare::Counts;
use reference::plan::{self, closure, demand, growing, search, Answer};
use reference::replay::{self, Verdict};

fn read(text: &[u8]) -> Book {
    book::read(text).unwrap_or_else(|refusal| panic!("{refusal}\n{}", String::from_utf8_lossy(text)))
}

/// The requests of the query's roles that some rule names, on the query's person.
fn own_requests(book: &Book) -> Vec<Request> {
    let person = book.query.person;
    let mut requests = Vec::new();
    for rule in book.rules.iter().filter(|rule| book.query.has_role(rule.role)) {
        let fact = match rule.what {
            book::What::OfPerson(attr, value) => Fact::PersonHolds(person, attr, value),
            book::What::Membership(crew) => Fact::PersonIn(person, crew),
            book::What::OfCrew(..) => continue,
        };
        requests.push(Request { role: rule.role, way: rule.way, fact });
    }
    requests
}

/// Whether adding all that can be added, in the order of the rules and again until nothing changes, meets the query.
fn met_by_adding_all(book: &Book) -> bool {
    let depot = Depot::new(book);
    let mut ledger = Ledger::start(book);
    let mut left = own_requests(book);
    loop {
        let before = left.len();
        left.retain(|request| {
            let fits = depot.permits(&ledger, request);
            if fits {
                request.carry_out(&mut ledger);
            }
            !fits
        });
        if left.len() == before {
            return depot.met(&ledger);
        }
    }
}

/// What the books of a test have shown.
#[derive(Debug, Default)]
struct Seen {
    plans: usize,
    no_ways: usize,
    requests: usize,
    longest: usize,
    /// Plans where adding all that can be added does not meet the query.
    by_order: usize,
    /// No ways that have a plan without the "not" terms, and those that have one with all roles.
    no_way_by_not: usize,
    no_way_by_roles: usize,
    /// Plans that assign, and plans with a rule that names a crew in a "not" term.
    assigning: usize,
    by_crews: usize,
    /// Plans with a rule that bars its own fact.
    own: usize,
}

impl Seen {
    /// One book and its plan, which has all that demand 3 asks.
    fn count(&mut self, book: &Book, text: &[u8]) -> bool {
        let Some(plan) = growing::plan(book) else {
            let mut all_roles = book.clone();
            all_roles.query.roles = u16::MAX;
            self.no_ways += 1;
            self.no_way_by_not += usize::from(growing::plan(&book.nots_dropped()).is_some());
            self.no_way_by_roles += usize::from(growing::plan(&all_roles).is_some());
            assert!(!met_by_adding_all(book), "{}", String::from_utf8_lossy(text));
            return false;
        };
        assert_eq!(demand::check(book, &plan), Ok(()), "{}", String::from_utf8_lossy(text));
        assert!(plan.iter().all(|request| request.way == Way::Add && is_own(book, request.fact)));
        let rule = |request: &&Request| book.rules.iter().find(|rule| rule.what == request.fact.what());
        let bars = |request: &&Request, sought: fn(&Request, Term) -> bool| {
            rule(request).is_some_and(|rule| rule.terms.iter().any(|&term| sought(request, term)))
        };
        self.plans += 1;
        self.requests += plan.len();
        self.longest = self.longest.max(plan.len());
        self.by_order += usize::from(!met_by_adding_all(book));
        self.assigning += usize::from(plan.iter().any(|request| matches!(request.fact, Fact::PersonIn(..))));
        self.by_crews +=
            usize::from(plan.iter().any(|request| bars(&request, |_, term| matches!(term, Term::NotIn(_)))));
        self.own += usize::from(plan.iter().any(|request| {
            bars(&request, |request, term| match (term, request.fact) {
                (Term::NotHolds(attr, value), Fact::PersonHolds(_, a, v)) => (attr, value) == (a, v),
                (Term::NotIn(crew), Fact::PersonIn(_, c)) => crew == c,
                _ => false,
            })
        }));
        true
    }
}

fn is_own(book: &Book, fact: Fact) -> bool {
    match fact {
        Fact::PersonHolds(person, ..) | Fact::PersonIn(person, _) => person == book.query.person,
        Fact::CrewHolds(..) => false,
    }
}

/// The planner beside a search through every ledger that can be reached, by requests on all persons and crews.
#[test]
fn small_books_by_search() {
    let mut rng = Rng::new(0x0B1C_0031);
    let (mut counts, mut seen) = (Counts::default(), Seen::default());
    let (mut two_persons, mut with_crews, mut edges) = (0, 0, 0);
    for _ in 0..30_000 {
        let text = gen::small_not_book(&mut rng).text();
        let book = read(&text);
        if let Err(difference) = counts.compare(&book) {
            panic!("{difference}\n{}", String::from_utf8_lossy(&text));
        }
        seen.count(&book, &text);
        two_persons += usize::from(book.sizes.persons > 1);
        with_crews += usize::from(book.sizes.crews > 0);
        edges += usize::from(!book.edges.is_empty());
    }
    println!("{counts:?}\n{seen:?}\ntwo persons {two_persons}, crews {with_crews}, edges {edges}");
    assert_eq!(counts.nots, counts.depots);
    assert_eq!(counts.as_short, counts.plans, "a plan has the needed requests alone");
    assert!(counts.no_way > 2_500 && counts.moved > 10_000 && counts.no_way_by_not > 600 && counts.longest > 6);
    assert!(seen.by_order > 300 && seen.assigning > 1_000 && seen.by_crews > 300 && seen.own > 300);
    assert!(two_persons > 5_000 && with_crews > 10_000 && edges > 2_000);
}

/// Every set of the person's own facts that can be reached, those of other persons and of crews left out: how few
/// requests lead to one that meets the query.
fn by_own_facts(book: &Book) -> Option<usize> {
    let depot = Depot::new(book);
    let mut facts: Vec<Fact> = own_requests(book).into_iter().map(|request| request.fact).collect();
    facts.retain(|&fact| !Ledger::start(book).has(fact));
    assert!(facts.len() <= 24);
    let requests = own_requests(book);
    let start = Ledger::start(book);
    let mut sets = BTreeSet::from([0_u32]);
    for round in 0.. {
        let mut next = BTreeSet::new();
        for &set in &sets {
            let mut ledger = start.clone();
            numbers(set.into()).for_each(|n| ledger.set(facts[usize::from(n)], true));
            if depot.met(&ledger) {
                return Some(round);
            }
            for request in &requests {
                if let Some(n) = facts.iter().position(|&fact| fact == request.fact) {
                    if set >> n & 1 == 0 && depot.permits(&ledger, request) {
                        next.insert(set | 1 << n);
                    }
                }
            }
        }
        if next.is_empty() {
            return None;
        }
        sets = next;
    }
    None
}

#[test]
fn middle_books_by_own_facts() {
    let mut rng = Rng::new(0x0B1C_0032);
    let mut seen = Seen::default();
    let mut books = 0;
    while books < 4_000 {
        let text = gen::middle_not_book(&mut rng).text();
        let book = read(&text);
        if own_requests(&book).len() > 10 {
            continue;
        }
        books += 1;
        seen.count(&book, &text);
        let plan = growing::plan(&book).map(|plan| plan.len());
        assert_eq!(plan, by_own_facts(&book), "{}", String::from_utf8_lossy(&text));
    }
    println!("{seen:?}");
    assert!(seen.plans > 1_000 && seen.no_way_by_not > 200 && seen.by_order > 100 && seen.longest > 6);
}

/// No way, told without an order: a table of which needed fact precedes which, also over others between them. A fact
/// that precedes itself is no way.
fn no_way_by_table(book: &Book) -> bool {
    let start = Ledger::start(book);
    let person = book.query.person;
    let fact_of = |term: Term| match term {
        Term::Holds(attr, value) | Term::NotHolds(attr, value) => Fact::PersonHolds(person, attr, value),
        Term::In(crew) | Term::NotIn(crew) => Fact::PersonIn(person, crew),
        _ => panic!("no such term beside a \"not\" term"),
    };
    let Mode::AtLeastDirectly { crews: listed } = book.query.mode else { panic!("mode 03") };
    let mut needed: Vec<Fact> = crews(listed).map(|crew| Fact::PersonIn(person, crew)).collect();
    for &(attr, set) in &book.query.named {
        needed.extend(numbers(set.into()).map(|value| Fact::PersonHolds(person, attr, Value(value))));
    }
    needed.retain(|&fact| !start.has(fact));
    let mut rules = Vec::new();
    let mut at = 0;
    while at < needed.len() {
        let own = |rule: &&book::Rule| rule.what == needed[at].what() && book.query.has_role(rule.role);
        let Some(rule) = book.rules.iter().find(own) else { return true };
        for &term in &rule.terms {
            let fact = fact_of(term);
            if term.is_not() && start.has(fact) {
                return true;
            }
            if !term.is_not() && !start.has(fact) && !needed.contains(&fact) {
                needed.push(fact);
            }
        }
        rules.push(rule);
        at += 1;
    }
    let place = |fact: Fact| needed.iter().position(|&other| other == fact);
    let mut precedes = vec![vec![false; needed.len()]; needed.len()];
    for (n, rule) in rules.iter().enumerate() {
        for &term in &rule.terms {
            match place(fact_of(term)) {
                Some(other) if term.is_not() && other != n => precedes[n][other] = true,
                Some(other) if !term.is_not() => precedes[other][n] = true,
                _ => {}
            }
        }
    }
    for between in 0..needed.len() {
        for first in 0..needed.len() {
            if precedes[first][between] {
                let row = precedes[between].clone();
                precedes[first].iter_mut().zip(row).for_each(|(to, from)| *to |= from);
            }
        }
    }
    (0..needed.len()).any(|n| precedes[n][n])
}

#[test]
fn middle_and_large_books_by_a_table() {
    let mut rng = Rng::new(0x0B1C_0033);
    let mut seen = Seen::default();
    for round in 0..4_000 {
        let text = if round % 4 == 0 { gen::large_not_book(&mut rng) } else { gen::middle_not_book(&mut rng) }.text();
        let book = read(&text);
        let found = seen.count(&book, &text);
        assert_eq!(found, !no_way_by_table(&book), "{}", String::from_utf8_lossy(&text));
    }
    println!("{seen:?}");
    assert!(seen.plans > 1_000 && seen.no_ways > 1_000 && seen.no_way_by_not > 200 && seen.no_way_by_roles > 100);
    assert!(seen.by_order > 300 && seen.longest > 60 && seen.assigning > 500 && seen.by_crews > 300 && seen.own > 300);
}

/// A query that is aimed at a ledger which a walk has reached has a plan, whatever the size.
#[test]
fn aimed_queries() {
    let mut rng = Rng::new(0x0B1C_0034);
    let mut seen = Seen::default();
    for round in 0..1_500 {
        let mut draft = if round % 3 == 0 { gen::large_not_book(&mut rng) } else { gen::middle_not_book(&mut rng) };
        let book = read(&draft.text());
        let ledger = gen::walk(&mut rng, &book, 3_000);
        gen::aim_directly(&mut rng, &mut draft, &book, &ledger);
        let text = draft.text();
        assert!(seen.count(&read(&text), &text), "{}", String::from_utf8_lossy(&text));
    }
    println!("{seen:?}");
    assert!(seen.longest > 80 && seen.by_order > 300);
}

/// Through all 160 own facts of the largest sizes, each of which asks for the one before it and bars the next six: one
/// order alone. When the first bars the start, or asks for the last, there is no way.
#[test]
fn a_chain_through_every_fact() {
    let own: Vec<[u8; 3]> =
        (0..8).flat_map(|a| (0..16).map(move |v| [1, a, v])).chain((0..32).map(|crew| [5, crew, 0])).collect();
    let chain = |more: &[&str], first: &[u8]| {
        let sizes = book::Sizes::new(64, 32, &[16; 8]);
        let mut frames = vec![gen::first_frame(&sizes)];
        for (n, &[op, a, v]) in own.iter().enumerate() {
            let mut frame = vec![3, op, 0, a, v, 0];
            let mut add = |kind: u8, &[of, a, v]: &[u8; 3]| {
                // A rule about a value names no crew.
                if of == 1 || op == 5 {
                    frame[5] += 1;
                    frame.extend([kind | if of == 5 { 2 } else { 0 }, a, v]);
                }
            };
            own[..n].iter().rev().take(1).for_each(|before| add(0x01, before));
            own[n + 1..].iter().take(6).for_each(|next| add(0x81, next));
            if n == 0 {
                frame[5] += (first.len() / 3) as u8;
                frame.extend(first);
            }
            frames.push(frame);
        }
        let mut query = vec![5, 3, 63, 0, 1, 8];
        (0..8).for_each(|a| query.extend([a, 0xFF, 0xFF]));
        query.extend([0xFF; 4]);
        frames.push(query);
        let mut text = Draft { sizes, frames }.text();
        let last = text[..text.len() - 1].iter().rposition(|&c| c == b'\n').expect("two lines") + 1;
        more.iter().for_each(|line| {
            text.splice(last..last, format!("{line}\n").into_bytes());
        });
        read(&text)
    };
    let book = chain(&[], &[]);
    let plan = growing::plan(&book).expect("a plan");
    assert_eq!(demand::check(&book, &plan), Ok(()));
    assert_eq!(plan.len(), 160);
    for (request, &[op, a, v]) in plan.iter().zip(&own) {
        assert_eq!(request.to_bytes(), [op, 0, 63, a, v]);
    }
    // What others start with, and a crew, is no hindrance; what the person starts with is.
    assert_eq!(growing::plan(&chain(&["04013E0001", "0402000001"], &[])).map(|plan| plan.len()), Some(160));
    assert_eq!(growing::plan(&chain(&["04013F0001"], &[])), None);
    assert_eq!(growing::plan(&chain(&["04013F0000"], &[])).map(|plan| plan.len()), Some(159));
    assert_eq!(growing::plan(&chain(&[], &[1, 7, 15])), None);
    assert_eq!(growing::plan(&chain(&[], &[0x81, 7, 15])).map(|plan| plan.len()), Some(160));
    assert_eq!(growing::plan(&chain(&[], &[0x81, 0, 0])).map(|plan| plan.len()), Some(160));
    assert_eq!(growing::plan(&chain(&[], &[1, 0, 0])), None);
}

/// Every operation gives this refusal and line, whatever it is lent, and every lent buffer keeps its bytes.
fn refused_everywhere(rng: &mut Rng, text: &[u8], number: u8, line: usize) {
    let shown = String::from_utf8_lossy(text);
    let refusal = book::read(text).expect_err("a refused book");
    assert_eq!((refusal.number(), refusal.line), (number, line), "{shown}");
    // Lengths that serve, and such as would be refused by 10, 11, 12 and 14.
    for (length, request) in
        [(0, &[0; 5][..]), (LEDGER_BYTES, &[1, 0, 0, 0, 0]), (LEDGER_BYTES, &[]), (42_560, &[9; 7])]
    {
        let mut buffer: Vec<u8> = (0..length).map(|_| rng.bits() as u8).collect();
        let before = buffer.clone();
        assert_eq!(ledger::open(text, &mut buffer), Err(refusal.into()), "{shown}");
        assert_eq!(ledger::request(text, &mut buffer, request), Err(refusal.into()), "{shown}");
        assert_eq!(ledger::show(text, &buffer, rng.pick(&[0, 255])), Err(refusal.into()), "{shown}");
        assert_eq!(replay::replay(text, request), Err(refusal.into()), "{shown}");
        assert_eq!(plan::plan(text, &mut buffer), Err(refusal.into()), "{shown}");
        assert_eq!(buffer, before, "{shown}");
    }
    assert_eq!(plan::printed(text), format!("8F{number:02X}{line:04X}\n"));
    refused_by_the_page(rng, text, number, line);
}

fn refused_by_the_page(rng: &mut Rng, text: &[u8], number: u8, line: usize) {
    for length in [0, 3, PAGE_BYTES - 1, PAGE_BYTES, PAGE_BYTES + 1] {
        let mut table: Vec<u8> = (0..length).map(|_| rng.bits() as u8).collect();
        let before = table.clone();
        let Err(page::Refusal::Book(refusal)) = page::page(text, &mut table) else { panic!("a book that is refused") };
        assert_eq!((refusal.number(), refusal.line), (number, line), "{}", String::from_utf8_lossy(text));
        assert_eq!(table, before);
    }
}

/// All orders of some lines.
fn orders(lines: &[String]) -> Vec<String> {
    if lines.is_empty() {
        return vec![String::new()];
    }
    let mut all = Vec::new();
    for n in 0..lines.len() {
        let rest = [&lines[..n], &lines[n + 1..]].concat();
        all.extend(orders(&rest).into_iter().map(|behind| lines[n].clone() + "\n" + &behind));
    }
    all
}

/// One rule with a "not" term, and what it may and may not stand beside, in every order of the lines, with each mode.
#[test]
fn each_cause_in_each_order() {
    let mut rng = Rng::new(0x0B1C_0035);
    let nots = ["030100000001810001", "030500000001830100", "030300000002010001810000"];
    let modes = ["050100000000", "05020000000000000000", "05030000000000000000"];
    let fine = ["030100000100", "030500010001030000", "03010F010001010001", "0402000000", "020100", "0403000000"];
    // Ops 02, 04 and 06, also with "not" terms; kinds 02, 04 and 05, one of them behind others.
    let beyond = [
        "030200000000",
        "030400000001810000",
        "030600000001830000",
        "030100010001020000",
        "030500010001040000",
        "030100010001050000",
        "030500010003010000830000020000",
    ];
    let book = |body: &str, mode: &str| format!("010202020202\n{body}{mode}\n").into_bytes();
    for not in nots.map(str::to_owned) {
        // The rule once more, and another for its op, a and v: of another role, and of the same role without a term.
        let [role, same] = ["0F", "00"].map(|role| format!("03{}{role}{}00", &not[2..4], &not[6..10]));
        for mode in modes {
            for other in fine {
                for body in orders(&[not.clone(), other.to_owned()]) {
                    let text = book(&body, mode);
                    if mode.starts_with("0503") {
                        read(&text);
                        refused_by_the_page(&mut rng, &text, 17, 4);
                    } else {
                        refused_everywhere(&mut rng, &text, 17, 4);
                    }
                }
            }
            for other in beyond.into_iter().chain([not.as_str(), &role, &same]) {
                for third in ["0401000000", fine[0]] {
                    for body in orders(&[not.clone(), other.to_owned(), third.to_owned()]) {
                        refused_everywhere(&mut rng, &book(&body, mode), 16, 5);
                    }
                }
            }
        }
    }
    // Without a "not" term none of this is refused by 16, and mode 03 always by 17.
    for other in beyond.into_iter().chain(fine).filter(|frame| !frame.contains("81") && !frame.contains("83")) {
        let body = format!("{other}\n{other}\n");
        for mode in &modes[..2] {
            read(&book(&body, mode));
        }
        refused_everywhere(&mut rng, &book(&body, modes[2]), 17, 4);
    }
}

/// Drawn books beyond each limit, with the wrong mode, and with both; 16 comes before 17.
#[test]
fn drawn_books_beyond_the_limits() {
    let mut rng = Rng::new(0x0B1C_0036);
    for round in 0..800 {
        let good = match round % 10 {
            0 => gen::large_not_book(&mut rng),
            1..=5 => gen::middle_not_book(&mut rng),
            _ => gen::small_not_book(&mut rng),
        };
        let text = good.text();
        assert!(good.has_not() && read(&text).only_grows());
        refused_by_the_page(&mut rng, &text, 17, good.frames.len());
        for limit in Limit::ALL {
            let mut draft = good.clone();
            gen::break_limit(&mut rng, &mut draft, limit);
            refused_everywhere(&mut rng, &draft.text(), 16, draft.frames.len());
            gen::wrong_mode(&mut rng, &mut draft);
            refused_everywhere(&mut rng, &draft.text(), 16, draft.frames.len());
        }
        let mut draft = good.clone();
        gen::wrong_mode(&mut rng, &mut draft);
        refused_everywhere(&mut rng, &draft.text(), 17, draft.frames.len());
        let mut draft = gen::small_book(&mut rng);
        gen::wrong_mode(&mut rng, &mut draft);
        refused_everywhere(&mut rng, &draft.text(), 17, draft.frames.len());
    }
}

/// "both only where no line has any of 1-9": wherever the bad line stands, in books on which 16, 17 or neither falls.
#[test]
fn a_bad_line_comes_first() {
    let mut rng = Rng::new(0x0B1C_0037);
    let mut seen = [0; 10];
    for round in 0..2_700 {
        let mut draft = if round % 5 == 0 { gen::middle_not_book(&mut rng) } else { gen::small_not_book(&mut rng) };
        if rng.percent(60) {
            let limit = rng.pick(&Limit::ALL);
            gen::break_limit(&mut rng, &mut draft, limit);
        }
        if rng.percent(40) {
            gen::wrong_mode(&mut rng, &mut draft);
        }
        let number = (round % 9 + 1) as u8;
        let Some((text, line)) = gen::damaged_book(&mut rng, number, &draft) else { continue };
        refused_everywhere(&mut rng, &text, number, line);
        seen[usize::from(number)] += 1;
    }
    println!("refused: {:?}", &seen[1..]);
    assert!(seen[1..].iter().all(|&times| times > 100));
}

/// "Refusals with a line come before all those without", and where none falls, those are as elsewhere: 10 by 10 × F.
#[test]
fn accepted_books_and_lent_buffers() {
    let mut rng = Rng::new(0x0B1C_0038);
    let (mut done, mut no_rule, mut unmet, mut unmet_not, mut verdicts) = (0, 0, 0, 0, [0; 3]);
    for _ in 0..8_000 {
        let draft = if rng.percent(30) { gen::middle_not_book(&mut rng) } else { gen::small_not_book(&mut rng) };
        let text = draft.text();
        let book = read(&text);
        let need = 10 * book.sizes.facts();
        let mut buffer = vec![0xA5; need - 1];
        assert_eq!(plan::plan(&text, &mut buffer), Err(plan::Refusal::Buffer));
        assert!(buffer.iter().all(|&byte| byte == 0xA5));
        buffer.resize(need + rng.below(3), 0xA5);
        let count = match plan::plan(&text, &mut buffer) {
            Ok(Answer::Plan(count)) => count,
            Ok(Answer::NoWay) => 0,
            Err(refusal) => panic!("{refusal}"),
        };
        let (front, rest) = buffer.split_at(5 * count);
        assert!(rest.iter().all(|&byte| byte == 0xA5));
        assert_eq!(replay::replay(&text, front) == Ok(Verdict::Reaches), closure::plan(&book).is_some());
        assert_eq!(replay::replay(&text, &[0; 7]), Err(replay::Refusal::Length));
        verdicts[match replay::replay(&text, &gen::list(&mut rng, &book)) {
            Ok(Verdict::Reaches) => 0,
            Ok(Verdict::StopsAt(_)) => 1,
            Ok(Verdict::EndsShort) => 2,
            Err(_) => continue,
        }] += 1;

        let mut bytes = gen::ledger(&mut rng, &book.sizes);
        let asked =
            if rng.percent(85) { gen::apt_request(&mut rng, &book) } else { gen::request(&mut rng, &book.sizes) };
        if rng.percent(60) {
            gen::meet_first_terms(&mut rng, &book, &mut bytes, &asked);
        }
        let before = bytes.clone();
        let answer = ledger::request(&text, &mut bytes, &asked);
        assert!(answer.is_ok() || bytes == before);
        match answer {
            Ok(()) => done += 1,
            Err(ledger::Refusal::NoRule) => no_rule += 1,
            Err(ledger::Refusal::UnmetTerm { rule, term }) => {
                unmet += 1;
                let frame =
                    draft.frames.iter().filter(|frame| frame[0] == 3).nth(usize::from(rule) - 1).expect("a rule");
                let told = &frame[3 + 3 * usize::from(term)..][..3];
                let held = holds(&book, &before, &asked, told);
                assert_eq!(held, told[0] >= 0x80, "a \"not\" term is unmet where its fact is there, another where not");
                unmet_not += usize::from(told[0] >= 0x80);
            }
            Err(other) => panic!("{other}"),
        }
        bytes.pop();
        assert_eq!(ledger::request(&text, &mut bytes, &asked), Err(ledger::Refusal::Ledger));
        assert_eq!(ledger::show(&text, &before, 255), Err(ledger::Refusal::Request));
    }
    println!("done {done}, 13 {no_rule}, 15 {unmet}, of a \"not\" term {unmet_not}; verdicts {verdicts:?}");
    assert!(done > 1_000 && no_rule > 300 && unmet > 1_000 && unmet_not > 300 && verdicts.iter().all(|&n| n > 300));
}

/// Whether a ledger has the fact that a term of kind 01, 03, 81 or 83 names, of a request's subject.
fn holds(book: &Book, ledger: &[u8], asked: &[u8; 5], term: &[u8]) -> bool {
    let ledger = Ledger::from_bytes(&book.sizes, ledger).expect("a good ledger");
    let subject = asked[2];
    let (attr, value) = (book::Attr(term[1]), Value(term[2]));
    ledger.has(match (term[0] & 0x7F, asked[0]) {
        (1, 3) => Fact::CrewHolds(Crew(subject), attr, value),
        (1, _) => Fact::PersonHolds(Person(subject), attr, value),
        _ => Fact::PersonIn(Person(subject), Crew(term[1])),
    })
}

/// What a small book gets: no way, or the requests of a shortest plan and of the planner's, which are as many.
#[test]
fn both_methods_on_the_examples() {
    // In each: two values of one person, role 0; then a book with two crews.
    let bare = |frames: &str, query: &str| format!("0101000102\n{frames}{query}\n");
    let (zero, both) = ("05030000010100000100000000", "05030000010100000300000000");
    let zero_if_not_1 = "030100000001810001\n";
    let one = "030100000100\n";
    let one_if_not_0 = "030100000101810000\n";
    let (add_0, add_1) = ([1, 0, 0, 0, 0], [1, 0, 0, 0, 1]);
    let crews = "0101020102\n030500010001830000\n030500000000\n05030000010000000003\n";
    let by_role_1 = "030101000001810001\n";
    for (text, expected) in [
        (bare(&format!("{zero_if_not_1}{one}"), both), Some(vec![add_0, add_1])),
        (bare(&format!("{zero_if_not_1}{one_if_not_0}"), both), None),
        (bare(&format!("{one_if_not_0}0401000000\n"), both), None),
        (bare("030100000001810000\n", zero), Some(vec![add_0])),
        (bare(&format!("030100000002010001810001\n{one}"), zero), None),
        (bare(&format!("{zero_if_not_1}{one}"), zero), Some(vec![add_0])),
        (bare(&format!("{by_role_1}{one}"), zero), None),
        (bare(&format!("{zero_if_not_1}0401000000\n"), zero), Some(vec![])),
        (crews.to_owned(), Some(vec![[5, 0, 0, 1, 0], [5, 0, 0, 0, 0]])),
    ] {
        let book = read(text.as_bytes());
        let bytes = |plan: Vec<Request>| plan.iter().map(Request::to_bytes).collect::<Vec<_>>();
        assert_eq!(search::shortest(&book).expect("small").map(bytes), expected, "{text}");
        assert_eq!(closure::plan(&book).map(bytes), expected, "{text}");
        let lines = |plan: &Vec<[u8; 5]>| {
            let requests = plan
                .iter()
                .flat_map(|request| request.iter().map(|byte| format!("{byte:02X}")).chain(["\n".to_owned()]));
            format!("81{:04X}\n{}", plan.len(), requests.collect::<String>())
        };
        assert_eq!(plan::printed(text.as_bytes()), expected.as_ref().map_or("80\n".to_owned(), lines), "{text}");
    }
    // More roles, and role 1 may.
    let text = bare(&format!("{by_role_1}{one}"), &zero.replace("05030000010", "05030000030"));
    assert_eq!(closure::plan(&read(text.as_bytes())).map(|plan| plan.len()), Some(1));
}
