//! Small depots drawn from a seed, each planned, its page filled, and searched over every ledger that chains of
//! requests reach; and such whose books only grow, with "not" terms. The search knows open, request and show alone.
//!
//! The planner is a parameter: wrong planners in its place have to be caught. So is what fills the page.

mod depots;
mod search;
mod seed;
mod trials;
mod wrong_pages;
mod wrong_planners;

use std::collections::BTreeMap;
use std::sync::OnceLock;

use bixorgun::bytes::{self, Planned};
use bixorgun::{Judgement, Refusal, PAGE_SIZE};

use depots::{is_adding, Depot, Fact};
use search::Reached;
use seed::Seed;
use wrong_planners::{growing, RIGHT, RIGHT_GROWING, WRONG, WRONG_GROWING};

const BOOKS: usize = 20_000;
const SEED: u64 = 20_261_115;

/// So many books with differences are printed.
const SHOWN: usize = 5;

/// A planner: it writes its plan of a depot's book to the front of a lent buffer.
type Planner = fn(&Depot, &mut [u8]) -> Result<Planned, Refusal>;

/// What fills the page of a depot's book into a lent table.
type Pager = fn(&Depot, &mut [u8]) -> Result<(), Refusal>;

/// What stands in a lent buffer before. No request has such a byte, and no row of a small depot's page.
const FILLING: u8 = 0xA5;

/// A drawn depot with what the search found.
struct Searched {
    depot: Depot,
    is_met_at_start: bool,
    reached: Reached,
}

/// The depots, drawn and searched once for all tests.
fn searched() -> &'static [Searched] {
    static SEARCHED: OnceLock<Vec<Searched>> = OnceLock::new();
    SEARCHED.get_or_init(|| {
        let mut seed = Seed::new(SEED);
        (0..BOOKS).map(|_| Searched::of(Depot::draw(&mut seed))).collect()
    })
}

/// The depots whose books only grow, drawn and searched once for all tests.
fn searched_growing() -> &'static [Searched] {
    static SEARCHED: OnceLock<Vec<Searched>> = OnceLock::new();
    SEARCHED.get_or_init(|| {
        let mut seed = Seed::new(SEED + 1);
        (0..BOOKS).map(|_| Searched::of(Depot::draw_growing(&mut seed))).collect()
    })
}

impl Searched {
    fn of(depot: Depot) -> Self {
        let is_met_at_start = depot.draft.is_met(&depot.draft.open());
        let reached = search::walk(&depot);
        Searched { depot, is_met_at_start, reached }
    }
}

/// In what an answer differs from the search, or from what demand 3 says of a plan.
type Difference = &'static str;

/// What a planner answered where there is no difference.
enum Finding {
    NoWay,
    Plan { count: usize, deletes: bool },
}

fn ensure(good: bool, difference: Difference) -> Result<(), Difference> {
    good.then_some(()).ok_or(difference)
}

fn is_kept(buffer: &[u8]) -> bool {
    buffer.iter().all(|&byte| byte == FILLING)
}

/// A planner's answer on a buffer of exactly 10 × F bytes, beside the search's; then on a buffer one byte shorter.
fn judge(searched: &Searched, planner: Planner) -> Result<Finding, Difference> {
    let depot = &searched.depot;
    let mut out = vec![FILLING; 10 * depot.tracked()];
    let finding = match planner(depot, &mut out) {
        Ok(Planned::NoWay) => {
            ensure(!searched.reached.query, "no way, though there is one")?;
            ensure(is_kept(&out), "a byte written on no way")?;
            Finding::NoWay
        }
        Ok(Planned::Plan(count)) => {
            ensure(searched.reached.query, "a plan, though there is no way")?;
            ensure(5 * count <= out.len(), "more than 2 × F requests")?;
            let (plan, behind) = out.split_at(5 * count);
            ensure(is_kept(behind), "a byte written behind the plan")?;
            Finding::Plan { count, deletes: carry_out(depot, plan)? }
        }
        Err(_) => return Err("the book refused"),
    };
    let mut short = vec![FILLING; 10 * depot.tracked() - 1];
    ensure(planner(depot, &mut short) == Err(Refusal::ShortPlanBuffer), "a short buffer not refused by 10")?;
    ensure(is_kept(&short), "a byte written to a short buffer")?;
    Ok(finding)
}

/// Carries out a plan from the starting facts: each request is permitted, is of the query's roles and changes its
/// own fact alone, none is added twice or deleted twice, the last ledger meets the query, and replay agrees.
/// Whether the plan deletes.
fn carry_out(depot: &Depot, plan: &[u8]) -> Result<bool, Difference> {
    let draft = &depot.draft;
    let mut ledger = draft.open();
    let (mut added, mut deleted) = (Vec::new(), Vec::new());
    for request in plan.chunks_exact(5) {
        let before = ledger;
        ensure(draft.asks(request[1]), "a request of another role")?;
        ensure(draft.goes(&mut ledger, request), "a request not done")?;
        ensure(ledger != before, "a request that changes nothing")?;
        let (fact, adds) = (Fact::of(request), is_adding(request[0]));
        let mut expected = before;
        fact.put(&mut expected, adds);
        ensure(ledger == expected, "a request that changes another fact")?;
        let done = if adds { &mut added } else { &mut deleted };
        ensure(!done.contains(&fact), "a fact added twice or deleted twice")?;
        done.push(fact);
    }
    ensure(draft.is_met(&ledger), "the last ledger does not meet the query")?;
    ensure(bytes::replay(draft.text(), plan) == Ok(Judgement::Reaches), "replay does not answer reaches")?;
    Ok(!deleted.is_empty())
}

fn library(depot: &Depot, out: &mut [u8]) -> Result<Planned, Refusal> {
    bytes::plan_into(depot.draft.text(), out)
}

/// What became of some depots.
#[derive(Default)]
struct Answers {
    no_way: usize,
    plans: usize,
    /// Plans of which a request deletes.
    deleting: usize,
    /// The requests of the longest plan.
    longest: usize,
    differences: usize,
}

impl Answers {
    /// What a planner answers to each; the first differences are printed. Replay refuses a list of seven bytes.
    fn of(all: &[Searched], planner: Planner) -> Self {
        let mut answers = Answers::default();
        for searched in all {
            match judge(searched, planner) {
                Ok(Finding::NoWay) => answers.no_way += 1,
                Ok(Finding::Plan { count, deletes }) => {
                    answers.plans += 1;
                    answers.deleting += usize::from(deletes);
                    answers.longest = answers.longest.max(count);
                }
                Err(difference) => {
                    answers.differences += 1;
                    if answers.differences <= SHOWN {
                        println!("{difference}:\n{}", String::from_utf8_lossy(searched.depot.draft.text()));
                    }
                }
            }
            assert_eq!(bytes::replay(searched.depot.draft.text(), &[1; 7]), Err(Refusal::BadPlanLength));
        }
        answers
    }

    fn print(&self) {
        println!("no way {}", self.no_way);
        println!("plans {}", self.plans);
        println!("plans with deletions {}", self.deleting);
        println!("longest plan {}", self.longest);
        println!("differences {}", self.differences);
    }
}

/// How many of some depots are such.
fn count(all: &[Searched], is_such: impl Fn(&Searched) -> bool) -> usize {
    all.iter().filter(|searched| is_such(searched)).count()
}

/// The planner of the library agrees with the search on every depot.
#[test]
fn the_planner_agrees_with_the_search() {
    let answers = Answers::of(searched(), library);
    let met = count(searched(), |searched| searched.is_met_at_start);
    let ladders = (1..=6).map(|op| count(searched(), |searched| searched.depot.has_ladder(op)));
    let ladders: Vec<usize> = ladders.collect();
    let two: Vec<[u8; 2]> =
        searched().iter().map(|searched| searched.depot.sizes.counts).filter(|c| c[1] > 0).collect();
    let different = two.iter().filter(|counts| counts[0] != counts[1]).count();
    println!("books {}", searched().len());
    println!("with two attributes {}", two.len());
    println!("with two attributes of different counts {different}");
    println!("with a ladder term in a rule of op 01 to 06 {ladders:?}");
    println!("met by the starting facts {met}");
    answers.print();
    assert_eq!(answers.differences, 0);
    // These do not rest on which plan is given.
    assert_eq!((two.len(), different), (12_000, 10_805));
    assert_eq!((met, answers.no_way, answers.plans), (3_179, 13_514, 6_486));
    assert_eq!(ladders, [10_772, 10_816, 8_470, 8_727, 5_302, 5_431]);
    assert!(answers.deleting > 0 && answers.longest > 0);
}

/// The same of the depots whose books only grow.
#[test]
fn the_planner_agrees_with_the_search_where_books_only_grow() {
    let all = searched_growing();
    let answers = Answers::of(all, library);
    let met = count(all, |searched| searched.is_met_at_start);
    let two_persons = count(all, |searched| searched.depot.sizes.persons == 2);
    let ops = [1, 3, 5].map(|op| count(all, |searched| searched.depot.rules().any(|rule| rule[1] == op)));
    let [own, on_crews] = [0, 1].map(|at| count(all, |searched| growing::traits(&searched.depot)[at]));
    let ledgers: usize = all.iter().map(|searched| searched.reached.ledgers).sum();
    let most = all.iter().map(|searched| searched.reached.ledgers).max();
    println!("books {}, of two persons {two_persons}, with a rule of op 01, 03 and 05 {ops:?}", all.len());
    println!("with a rule that bars its own fact {own}, with a \"not\" term on crews {on_crews}");
    println!("ledgers {ledgers}, at most {most:?}");
    println!("met by the starting facts {met}");
    answers.print();
    assert_eq!(answers.differences, 0);
    // A book with a "not" term has no page.
    for searched in all {
        let line = searched.depot.draft.frames.len();
        let mut table = [FILLING; PAGE_SIZE];
        assert_eq!(bytes::page(searched.depot.draft.text(), &mut table), Err(Refusal::WrongMode { line }));
        assert!(is_kept(&table));
    }
    // These do not rest on which plan is given.
    assert_eq!((two_persons, ops, own, on_crews), (2_045, [19_847, 14_246, 17_542], 11_445, 8_967));
    assert_eq!((ledgers, most), (148_586, Some(768)));
    assert_eq!((met, answers.no_way, answers.plans), (3_295, 12_104, 7_896));
    assert!(answers.deleting == 0 && answers.longest > 0);
}

/// A page beside what the walk found, bit by bit; then tables that are a byte shorter and a byte longer.
fn judge_page(searched: &Searched, pager: Pager) -> Result<(), Difference> {
    let depot = &searched.depot;
    let mut table = [FILLING; PAGE_SIZE];
    ensure(pager(depot, &mut table).is_ok(), "the book refused")?;
    let (rows, absent) = table.split_at(16 * usize::from(depot.sizes.persons));
    ensure(absent.iter().all(|&byte| byte == 0), "a bit set of an absent person, attribute or value")?;
    let full = depot.sizes.full_row().into_iter().cycle();
    for ((byte, held), full) in rows.iter().zip(searched.reached.held).zip(full) {
        ensure(byte & !full == 0, "a bit set of an absent person, attribute or value")?;
        ensure(byte & !held == 0, "a bit set, though no ledger has it")?;
        ensure(held & !byte == 0, "a bit clear, though a ledger has it")?;
    }
    for length in [PAGE_SIZE - 1, PAGE_SIZE + 1] {
        let mut other = vec![FILLING; length];
        let answer = pager(depot, &mut other);
        ensure(answer == Err(Refusal::ShortPlanBuffer), "a table of another length not refused by 10")?;
        ensure(is_kept(&other), "a byte written to a table of another length")?;
    }
    Ok(())
}

/// How often something differs from the search, by the first difference in each depot.
fn differences(all: &[Searched], found: impl Fn(&Searched) -> Option<Difference>) -> BTreeMap<Difference, usize> {
    let mut counts = BTreeMap::new();
    for difference in all.iter().filter_map(found) {
        *counts.entry(difference).or_default() += 1;
    }
    counts
}

/// Prints what is wrong in how many depots; it has to be wrong in one.
fn expect_caught(fault: &str, counts: &BTreeMap<Difference, usize>) {
    let total: usize = counts.values().sum();
    let each: Vec<String> = counts.iter().map(|(difference, count)| format!("{count} {difference}")).collect();
    println!("{fault}: {total} differences ({})", each.join("; "));
    assert!(total > 0, "{fault}: not caught");
}

/// Each wrong planner is caught, and the small planner that most of them are is right without its fault.
#[test]
fn wrong_planners_are_caught() {
    catch(searched(), &RIGHT, &WRONG);
}

/// The same where books only grow.
#[test]
fn wrong_planners_are_caught_where_books_only_grow() {
    catch(searched_growing(), &RIGHT_GROWING, &WRONG_GROWING);
}

fn catch(all: &[Searched], right: &[Planner], wrong: &[(&str, Planner)]) {
    for &right in right {
        assert_eq!(differences(all, |searched| judge(searched, right).err()), BTreeMap::new());
    }
    for &(fault, planner) in wrong {
        expect_caught(fault, &differences(all, |searched| judge(searched, planner).err()));
    }
}

/// What the walks came to, and the bits that they set.
#[derive(Debug, Default, PartialEq, Eq)]
struct Walks {
    ledgers: usize,
    /// The most of one depot.
    most: usize,
    /// Bits of persons and values that the depots have: set at the start, set in a later ledger alone, and clear.
    start: usize,
    later: usize,
    clear: usize,
    /// Depots where a later ledger sets a bit, and those of them whose own query has no way.
    gaining: usize,
    no_way: usize,
    /// Depots of two persons, and those of them where later ledgers set other bits of the one than of the other.
    two_persons: usize,
    unlike: usize,
}

impl Walks {
    fn count(&mut self, Searched { depot, reached, .. }: &Searched) {
        let ones = |bytes: &[u8]| bytes.iter().map(|byte| byte.count_ones() as usize).sum::<usize>();
        let mut start = Reached::default();
        start.note(depot, &depot.draft.open());
        let later: Vec<u8> = reached.held.iter().zip(start.held).map(|(held, start)| held & !start).collect();
        let all = usize::from(depot.sizes.persons) * ones(&depot.sizes.full_row());
        self.ledgers += reached.ledgers;
        self.most = self.most.max(reached.ledgers);
        self.start += ones(&start.held);
        self.later += ones(&later);
        self.clear += all - ones(&reached.held);
        self.gaining += usize::from(ones(&later) > 0);
        self.no_way += usize::from(ones(&later) > 0 && !reached.query);
        self.two_persons += usize::from(depot.sizes.persons == 2);
        self.unlike += usize::from(depot.sizes.persons == 2 && later[..16] != later[16..32]);
    }
}

/// The library's page agrees with the walk on every bit of every depot.
#[test]
fn the_page_agrees_with_the_search() {
    let mut walks = Walks::default();
    let mut differences = 0;
    for searched in searched() {
        walks.count(searched);
        if let Err(difference) = judge_page(searched, |depot, table| bytes::page(depot.draft.text(), table)) {
            differences += 1;
            if differences <= SHOWN {
                println!("{difference}:\n{}", String::from_utf8_lossy(searched.depot.draft.text()));
            }
        }
    }
    println!("{walks:?}");
    println!("differences {differences}");
    assert_eq!(differences, 0);
    let expected = Walks {
        ledgers: 540_712,
        most: 2_048,
        start: 28_716,
        later: 15_711,
        clear: 20_066,
        gaining: 10_021,
        no_way: 6_256,
        two_persons: 3_457,
        unlike: 1_684,
    };
    assert_eq!(walks, expected);
}

/// Each wrong page is caught, and the small page that most of them are is right without its fault.
#[test]
fn wrong_pages_are_caught() {
    assert_eq!(differences(searched(), |searched| judge_page(searched, wrong_pages::right).err()), BTreeMap::new());
    for (fault, pager) in wrong_pages::WRONG {
        expect_caught(fault, &differences(searched(), |searched| judge_page(searched, pager).err()));
    }
}

/// The specification's "Plans that would mislead a depot", each with the marked example that it misses.
const MISLEADING: [(&str, &[&[u8]]); 5] = [
    // D6: holds none, both may be added, no deletions, exactly {0}.
    (
        "all added that can be, then deleted",
        &[&[1, 1, 0, 1, 2], &[3, 1, 0, 0, 0, 0], &[3, 1, 0, 0, 1, 0], &[5, 2, 0, 255, 255, 1, 0, 0, 1, 0, 0, 0, 0]],
    ),
    // D5: holds 0 and 1, deleting 0 needs 1, deleting 1 needs no term, none wanted.
    (
        "deleted in any order that is permitted",
        &[
            &[1, 1, 0, 1, 2],
            &[4, 1, 0, 0, 0],
            &[4, 1, 0, 0, 1],
            &[3, 2, 0, 0, 1, 0],
            &[3, 2, 0, 0, 0, 1, 1, 0, 1],
            &[5, 2, 0, 255, 255, 1, 0, 0, 0, 0, 0, 0, 0],
        ],
    ),
    // D9: deleting 0 needs 0, none wanted, 0 held.
    (
        "a deletion's terms tested after the fact is gone",
        &[
            &[1, 1, 0, 1, 2],
            &[4, 1, 0, 0, 0],
            &[3, 2, 0, 0, 0, 1, 1, 0, 0],
            &[5, 2, 0, 255, 255, 1, 0, 0, 0, 0, 0, 0, 0],
        ],
    ),
    // D10: in senior crew 1, junior crew 0 holds 0, which is wanted.
    (
        "juniors inherit from seniors",
        &[&[1, 1, 2, 1, 2], &[2, 1, 0], &[4, 2, 0, 0, 0], &[4, 3, 0, 1, 0], &[5, 1, 0, 255, 255, 1, 0, 0, 1]],
    ),
    // D2: the second of the two requests is of a role outside the query's.
    (
        "rules of roles outside the query used",
        &[
            &[1, 1, 1, 1, 2],
            &[3, 1, 0, 0, 1, 0],
            &[3, 5, 1, 0, 0, 1, 1, 0, 1],
            &[4, 2, 0, 0, 0],
            &[5, 1, 0, 0, 1, 1, 0, 0, 1],
        ],
    ),
];

/// Faults about ladder terms, each with an example that it misses. Values of attribute 0 are grades, 0 to 2; the one
/// value of attribute 1 is wanted, and adding it needs grade 1 or any higher, but for the deletion.
const LADDERS: [(&str, &[&[u8]]); 7] = [
    // Grade 2 is held.
    ("a ladder term taken for kind 02", &[&[1, 1, 0, 2, 3, 1], &[4, 1, 0, 0, 2], ADDED_BY_LADDER, WANTED]),
    // Grade 0 is held.
    ("a ladder term looks downward", &[&[1, 1, 0, 2, 3, 1], &[4, 1, 0, 0, 0], ADDED_BY_LADDER, WANTED]),
    // Grade 1 is held.
    ("a ladder term leaves out its own value", &[&[1, 1, 0, 2, 3, 1], &[4, 1, 0, 0, 1], ADDED_BY_LADDER, WANTED]),
    // Grade 2 is held.
    ("a ladder term leaves out the highest value", &[&[1, 1, 0, 2, 3, 1], &[4, 1, 0, 0, 2], ADDED_BY_LADDER, WANTED]),
    // In crew 0, which holds grade 2.
    (
        "a ladder term's higher values held directly alone",
        &[&[1, 1, 1, 2, 3, 1], &[4, 2, 0, 0, 2], &[4, 3, 0, 0, 0], ADDED_BY_LADDER, WANTED],
    ),
    // Grade 2 is held, deleting it needs grade 0 or any higher, none wanted.
    (
        "a deletion's ladder terms tested after the fact is gone",
        &[
            &[1, 1, 0, 1, 3],
            &[4, 1, 0, 0, 2],
            &[3, 2, 0, 0, 2, 1, 5, 0, 0],
            &[5, 2, 0, 255, 255, 1, 0, 0, 0, 0, 0, 0, 0],
        ],
    ),
    // Grade 0 is held.
    ("a ladder term not tested", &[&[1, 1, 0, 2, 3, 1], &[4, 1, 0, 0, 0], ADDED_BY_LADDER, WANTED]),
];

const ADDED_BY_LADDER: &[u8] = &[3, 1, 0, 1, 0, 1, 5, 0, 1];
const WANTED: &[u8] = &[5, 1, 0, 255, 255, 1, 1, 0, 1];

/// Faults about ranges, each with an example that it misses: the one attribute has one value, the other three.
const RANGES: [(&str, &[&[u8]]); 3] = [
    // Value 2 of attribute 1 is held. Adding the value of attribute 0, which is wanted, needs 0 or any higher of it.
    (
        "a ladder term looks up to the first attribute's count",
        &[&[1, 1, 0, 2, 1, 3], &[4, 1, 0, 1, 2], &[3, 1, 0, 0, 0, 1, 5, 1, 0], &[5, 1, 0, 255, 255, 1, 0, 0, 1]],
    ),
    // Value 2 of attribute 1 is wanted, and may be added.
    (
        "every attribute taken to have the first one's values",
        &[&[1, 1, 0, 2, 1, 3], &[3, 1, 0, 1, 2, 0], &[5, 1, 0, 255, 255, 1, 1, 0, 4]],
    ),
    // F is 3 + 1, and not 3 + 3: the buffer of 10 × F bytes is long enough.
    ("10 × F by A × the first attribute's count", &[&[1, 1, 0, 2, 3, 1], &[5, 1, 0, 255, 255, 0]]),
];

/// Faults about books that only grow, each with an example that it misses. Two values, of role 0.
const GROWING: [(&str, &[&[u8]]); 16] = [
    // 1 if not 0; 0 held; both wanted.
    ("\"not\" terms not heeded", &[TWO_VALUES, &[4, 1, 0, 0, 0], ONE_IF_NOT_ZERO, BOTH]),
    ("starting facts bar nothing", &[TWO_VALUES, &[4, 1, 0, 0, 0], ONE_IF_NOT_ZERO, BOTH]),
    // 0; 1 if not 0; both wanted: 1, then 0.
    ("added in any order that is permitted", &[TWO_VALUES, ZERO, ONE_IF_NOT_ZERO, BOTH]),
    ("added in the order of their numbers", &[TWO_VALUES, ZERO, ONE_IF_NOT_ZERO, BOTH]),
    // 0 if 1; 1 if not 0; 0 wanted: 1, then 0.
    ("what is asked for not added", &[TWO_VALUES, &[3, 1, 0, 0, 0, 1, 1, 0, 1], ONE_IF_NOT_ZERO, FIRST]),
    // 0 if not 1; 1 if not 0; 0 wanted.
    ("all added that a rule adds", &[TWO_VALUES, &[3, 1, 0, 0, 0, 1, 0x81, 0, 1], ONE_IF_NOT_ZERO, FIRST]),
    // 0; 1 if not 0; 0 held and wanted.
    ("starting facts forgotten", &[TWO_VALUES, &[4, 1, 0, 0, 0], ZERO, ONE_IF_NOT_ZERO, FIRST]),
    // 0 if not 1, by role 1; wanted by role 0.
    ("rules of roles outside the query used", &[TWO_VALUES, &[3, 1, 1, 0, 0, 1, 0x81, 0, 1], FIRST]),
    // 0 if not 0.
    ("a rule that bars its own fact not used", &[TWO_VALUES, &[3, 1, 0, 0, 0, 1, 0x81, 0, 0], FIRST]),
    // In crew 0, which holds 1; 0 if not 1.
    (
        "what is effective bars",
        &[&[1, 1, 1, 1, 2], &[4, 3, 0, 0, 0], &[4, 2, 0, 0, 1], &[3, 1, 0, 0, 0, 1, 0x81, 0, 1], FIRST],
    ),
    // In crew 0, which holds 0; 1 if not 0; 0 wanted.
    (
        "what is effective meets the query",
        &[&[1, 1, 1, 1, 2], &[4, 3, 0, 0, 0], &[4, 2, 0, 0, 0], ONE_IF_NOT_ZERO, FIRST],
    ),
    // 0 if not 1.
    ("a \"not\" term asks for the fact", &[TWO_VALUES, &[3, 1, 0, 0, 0, 1, 0x81, 0, 1], FIRST]),
    // "may join customs if not in returns": in crew 0; crew 1 wanted.
    (
        "a \"not\" term on crews not tested",
        &[&[1, 1, 2, 1, 2], &[4, 3, 0, 0, 0], &[3, 5, 0, 1, 0, 1, 0x83, 0, 0], &[5, 3, 0, 0, 1, 0, 0, 0, 0, 2]],
    ),
    // 0 if 1 and not 0; 0 wanted.
    ("a term that asks for a fact not tested", &[TWO_VALUES, &[3, 1, 0, 0, 0, 2, 1, 0, 1, 0x81, 0, 0], FIRST]),
    // 0 if not 1; crew 0 wanted.
    (
        "the listed crews not asked for",
        &[&[1, 1, 1, 1, 2], &[3, 1, 0, 0, 0, 1, 0x81, 0, 1], &[5, 3, 0, 0, 1, 0, 0, 0, 0, 1]],
    ),
    // 1 held; 0 if not 0; 0 wanted.
    ("mode 03 taken for mode 02", &[TWO_VALUES, &[4, 1, 0, 0, 1], &[3, 1, 0, 0, 0, 1, 0x81, 0, 0], FIRST]),
];

const TWO_VALUES: &[u8] = &[1, 1, 0, 1, 2];
const ZERO: &[u8] = &[3, 1, 0, 0, 0, 0];
const ONE_IF_NOT_ZERO: &[u8] = &[3, 1, 0, 0, 1, 1, 0x81, 0, 0];
const BOTH: &[u8] = &[5, 3, 0, 0, 1, 1, 0, 0, 3, 0, 0, 0, 0];
const FIRST: &[u8] = &[5, 3, 0, 0, 1, 1, 0, 0, 1, 0, 0, 0, 0];

/// The library's planner and the small one without a fault are right on each example, the misleading plan is not.
#[test]
fn misleading_plans_miss_their_examples() {
    MISLEADING.into_iter().chain(LADDERS).chain(RANGES).for_each(|example| miss(example, &RIGHT, &WRONG));
    GROWING.into_iter().for_each(|example| miss(example, &RIGHT_GROWING, &WRONG_GROWING));
}

fn miss((fault, frames): (&str, &[&[u8]]), right: &[Planner], wrong: &[(&str, Planner)]) {
    let searched = Searched::of(Depot::of(frames.iter().map(|frame| frame.to_vec()).collect()));
    assert!(right.iter().chain([&(library as Planner)]).all(|&right| judge(&searched, right).is_ok()), "{fault}");
    let (_, wrong) = wrong.iter().find(|(other, _)| *other == fault).expect("a wrong planner");
    let difference = judge(&searched, *wrong).err().expect("a difference");
    println!("{fault}: {difference}");
}
