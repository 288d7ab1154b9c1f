//! The planning methods against each other, on small depots and on large ones.

use reference::book::{self, Attr, Book, Crew, Fact, Mode, Value, Way, What};
use reference::gen::{self, Rng};
use reference::ledger::{crews, Depot, Ledger, Request};
use reference::plan::compare::Counts;
use reference::plan::{closure, demand, search};

fn small(depots: usize, seed: u64, mut draw: impl FnMut(&mut Rng) -> gen::Draft) -> Counts {
    let mut rng = Rng::new(seed);
    let mut counts = Counts::default();
    for _ in 0..depots {
        let text = draw(&mut rng).text();
        let book = book::read(&text).expect("a good book");
        if search::size(&book) > 14 {
            continue;
        }
        if let Err(difference) = counts.compare(&book) {
            panic!("{difference}\n{}", String::from_utf8_lossy(&text));
        }
    }
    println!("{counts:?}");
    assert!(2 * counts.differing > counts.depots && 3 * counts.differing > 2 * counts.several_attrs);
    assert!(counts.moved_differing > 500 && counts.no_way_differing > 500);
    counts
}

#[test]
fn small_depots() {
    let counts = small(40_000, 0x0B1C_0001, gen::small_book);
    assert!(counts.no_way > 10_000 && counts.moved > 5_000 && counts.deleting > 2_000 && counts.detours > 100);
    assert!(counts.ladders > 20_000 && counts.plans_by_ladder > 50 && counts.no_way_by_ladder > 200);
}

#[test]
fn small_depots_with_an_aimed_query() {
    let counts = small(50_000, 0x0B1C_0002, gen::small_aimed_book);
    assert!(counts.no_way > 5_000 && counts.moved > 10_000 && counts.deleting > 5_000 && counts.detours > 200);
    assert!(counts.ladders > 20_000 && counts.plans_by_ladder > 100 && counts.no_way_by_ladder > 200);
}

#[test]
fn small_tangled_depots() {
    let counts = small(20_000, 0x0B1C_0006, |rng| gen::tangled_book(rng, (2, 2, 2)));
    assert!(counts.no_way > 2_000 && counts.detours > 500);
}

#[test]
fn small_zigzags() {
    let counts = small(10_000, 0x0B1C_0007, |rng| gen::zigzag_book(rng, 0, 4));
    assert!(counts.no_way > 1_000 && counts.detours > 1_500);
    let counts = small(10_000, 0x0B1C_0008, |rng| gen::zigzag_book(rng, 2, 2));
    assert!(counts.no_way > 1_000 && counts.detours > 500);
}

#[test]
fn small_grades() {
    let counts = small(30_000, 0x0B1C_000A, |rng| gen::graded_book(rng, (2, 2, 4)));
    assert!(counts.no_way > 5_000 && counts.deleting > 1_000 && counts.detours > 500);
    assert!(counts.plans_by_ladder > 1_000 && counts.no_way_by_ladder > 5_000);
}

/// The greatest set once more, without columns or sleeping rules: every fact is tried by the ledger's own definitions
/// until nothing changes. Gives the count of the plan.
fn naive(book: &Book) -> Option<usize> {
    let depot = Depot::new(book);
    let facts = facts(book);
    let start = Ledger::start(book);
    let mut barred: Vec<Fact> = Vec::new();
    loop {
        let mut all = start.clone();
        let mut missing: Vec<Fact> = facts.iter().copied().filter(|f| !all.has(*f) && !barred.contains(f)).collect();
        let added = exhaust(&mut missing, |fact| {
            let fits = allowed(&depot, &all, Way::Add, fact);
            if fits {
                all.set(fact, true);
            }
            fits
        });
        let bad: Vec<Fact> = facts.iter().copied().filter(|&f| all.has(f) && unwanted(&depot, f)).collect();
        let mut last = all.clone();
        bad.iter().for_each(|&fact| last.set(fact, false));
        if !depot.met(&last) {
            return None;
        }
        let mut stuck = bad.clone();
        exhaust(&mut stuck, |fact| {
            last.set(fact, true);
            let fits = allowed(&depot, &last, Way::Delete, fact);
            last.set(fact, fits);
            fits
        });
        if stuck.is_empty() {
            return Some(added + bad.len());
        }
        if stuck.iter().any(|&fact| start.has(fact)) {
            return None;
        }
        barred.extend(stuck);
    }
}

/// Passes over the facts, takes out each that fits, and ends with a pass in which none does; counts them.
fn exhaust(facts: &mut Vec<Fact>, mut fits: impl FnMut(Fact) -> bool) -> usize {
    let before = facts.len();
    loop {
        let left = facts.len();
        facts.retain(|&fact| !fits(fact));
        if facts.len() == left {
            return before - left;
        }
    }
}

fn facts(book: &Book) -> Vec<Fact> {
    let person = book.query.person;
    let mut facts: Vec<Fact> = crews(book.sizes.all_crews()).map(|crew| Fact::PersonIn(person, crew)).collect();
    for (attr, value) in book.sizes.pairs() {
        facts.push(Fact::PersonHolds(person, attr, value));
        facts.extend(crews(book.sizes.all_crews()).map(|crew| Fact::CrewHolds(crew, attr, value)));
    }
    // No other fact is ever named by a rule or held at the start.
    let start = Ledger::start(book);
    facts.retain(|fact| start.has(*fact) || book.rules.iter().any(|rule| rule.what == fact.what()));
    facts
}

fn allowed(depot: &Depot, ledger: &Ledger, way: Way, fact: Fact) -> bool {
    let roles = (0..16).map(book::Role).filter(|&role| depot.book.query.has_role(role));
    let mut requests = roles.map(|role| Request { role, way, fact });
    requests.any(|request| depot.permits(ledger, &request))
}

/// Whether no ledger that meets the query has the fact.
fn unwanted(depot: &Depot, fact: Fact) -> bool {
    let query = &depot.book.query;
    let Mode::Exactly { crews: listed } = query.mode else {
        return false;
    };
    let foreign = |attr: Attr, value: Value| query.named.iter().any(|&(a, set)| a == attr && set >> value.0 & 1 == 0);
    // A ledger in which the person is in the listed crews and nothing else is the case shows who inherits.
    let mut ledger = Ledger::default();
    crews(listed).for_each(|crew| ledger.set(Fact::PersonIn(query.person, crew), true));
    let heir = |crew: Crew| depot.person_in(&ledger, query.person) >> crew.0 & 1 == 1;
    match fact {
        Fact::PersonIn(_, crew) => listed >> crew.0 & 1 == 0,
        Fact::PersonHolds(_, attr, value) => foreign(attr, value),
        Fact::CrewHolds(crew, attr, value) => heir(crew) && foreign(attr, value),
    }
}

/// Both ways to the greatest set give the same answer and the same count; every plan has all that demand 3 asks.
fn same(book: &Book, text: &[u8]) -> bool {
    let plan = closure::plan(book);
    assert_eq!(plan.as_ref().map(Vec::len), naive(book), "{}", String::from_utf8_lossy(text));
    if let Some(plan) = &plan {
        assert_eq!(demand::check(book, plan), Ok(()), "{}", String::from_utf8_lossy(text));
    }
    plan.is_some()
}

#[test]
fn middle_depots() {
    let mut rng = Rng::new(0x0B1C_0003);
    let (mut plans, mut depots) = (0, 0);
    for round in 0..6_000 {
        let mut draft = gen::middle_book(&mut rng);
        if round % 2 == 1 {
            let book = book::read(&draft.text()).expect("a good book");
            let ledger = gen::walk(&mut rng, &book, 400);
            gen::aim(&mut rng, &mut draft, &book, &ledger);
        }
        let text = draft.text();
        let book = book::read(&text).expect("a good book");
        let found = same(&book, &text);
        assert!(found || round % 2 == 0, "a ledger that was reached: {}", String::from_utf8_lossy(&text));
        plans += usize::from(found);
        depots += 1;
    }
    println!("{depots} depots, {plans} plans");
}

#[test]
fn tangles_zigzags_and_grades() {
    let mut rng = Rng::new(0x0B1C_0009);
    let mut plans = 0;
    for round in 0..8_000 {
        let draft = match round % 4 {
            0 => gen::tangled_book(&mut rng, (4, 3, 5)),
            1 => gen::zigzag_book(&mut rng, 6, 16),
            2 => gen::zigzag_book(&mut rng, 0, 16),
            _ => gen::graded_book(&mut rng, (6, 8, 16)),
        };
        let text = draft.text();
        let book = book::read(&text).expect("a good book");
        plans += usize::from(same(&book, &text));
    }
    for _ in 0..20 {
        let text = gen::zigzag_book(&mut rng, 32, 16).text();
        let book = book::read(&text).expect("a good book");
        plans += usize::from(same(&book, &text));
    }
    println!("8020 depots, {plans} plans");
}

/// A query that is aimed at a ledger which a walk has reached has a plan, whatever the size.
#[test]
fn large_depots() {
    let mut rng = Rng::new(0x0B1C_0004);
    let (mut requests, mut longest) = (0, 0);
    for _ in 0..300 {
        let mut draft = gen::large_book(&mut rng);
        let book = book::read(&draft.text()).expect("a good book");
        let ledger = gen::walk(&mut rng, &book, 3_000);
        gen::aim(&mut rng, &mut draft, &book, &ledger);
        let text = draft.text();
        let book = book::read(&text).expect("a good book");
        let plan = closure::plan(&book).expect("a plan");
        assert_eq!(demand::check(&book, &plan), Ok(()), "{}", String::from_utf8_lossy(&text));
        requests += plan.len();
        longest = longest.max(plan.len());
    }
    println!("300 plans, {requests} requests, the longest {longest}");
}

#[test]
fn large_depots_by_the_naive_method() {
    let mut rng = Rng::new(0x0B1C_0005);
    let mut plans = 0;
    for round in 0..120 {
        let mut draft = gen::large_book(&mut rng);
        if round % 2 == 1 {
            let book = book::read(&draft.text()).expect("a good book");
            let ledger = gen::walk(&mut rng, &book, 3_000);
            gen::aim(&mut rng, &mut draft, &book, &ledger);
        }
        let text = draft.text();
        let book = book::read(&text).expect("a good book");
        plans += usize::from(same(&book, &text));
    }
    println!("120 depots, {plans} plans");
}

/// A chain of rules in which each rests on the one before, through all values and the last crew, and back again.
#[test]
fn a_chain_through_every_column() {
    for counts in [[16; 8], [16, 1, 9, 3, 16, 2, 12, 7], [1, 2, 3, 4, 5, 6, 7, 8]] {
        chain(&book::Sizes::new(1, 32, &counts));
    }
}

fn chain(sizes: &book::Sizes) {
    let mut frames = vec![gen::first_frame(sizes)];
    let mut before = None;
    for (Attr(a), Value(v)) in sizes.pairs() {
        let mut rule = vec![3, 3, 0, a, v, u8::from(before.is_some())];
        if let Some((a, v)) = before.replace((a, v)) {
            rule.extend([2, a, v]);
        }
        frames.push(rule.clone());
        // The same terms for the deletion: the last value goes first.
        rule[1] = 4;
        frames.push(rule);
    }
    frames.push(vec![3, 5, 0, 31, 0, 0]);
    let mut query = vec![5, 2, 0, 0, 1, 8];
    (0..8).for_each(|a| query.extend([a, 0, 0]));
    query.extend([0x80, 0, 0, 0]);
    frames.push(query);
    (1..32).for_each(|senior| frames.insert(1, vec![2, senior, senior - 1]));
    let text = gen::Draft { sizes: *sizes, frames }.text();
    let book = book::read(&text).expect("a good book");
    let plan = closure::plan(&book).expect("a plan");
    assert_eq!(demand::check(&book, &plan), Ok(()));
    assert_eq!(plan.len(), 2 * 32 * sizes.pairs().count() + 1);
    assert!(plan.iter().any(|request| request.fact.what() == What::Membership(Crew(31))));
}
