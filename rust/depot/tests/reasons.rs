//! The words beside a plan: each move has its reason, and whatever is told is what the library says.

use std::collections::HashMap;

use bixorgun::{bytes, Answer, Book, Judgement, Request, LEDGER_SIZE};
use depot::compile::compile;
use depot::hex;
use depot::model::{Depot, Said, Statement};
use depot::state::{change, State};
use depot::story::{Rest, Story, Telling};
use reference::gen::{self, Rng};

mod books;

/// What was seen.
#[derive(Debug, Default)]
struct Seen {
    plans: usize,
    moves: usize,
    needed: usize,
    through: usize,
    lacking: usize,
}

/// Tells the plan of a book, if it has one, short and whole.
fn tell(name: &str, book: &[u8], seen: &mut Seen) {
    let Ok(Answer::Plan(plan)) = Book::new(book).plan() else { return };
    let depot = hex::read(book).unwrap_or_else(|refused| panic!("{name}: {:?}", refused.fault));
    let question = &depot.question.as_ref().expect("a question").what;
    let telling = Telling::new(&depot, book).expect("an accepted book");
    let whole = telling.tell(book, question, plan.as_slice(), true).expect("an accepted book");
    let short = telling.tell(book, question, plan.as_slice(), false).expect("an accepted book");
    assert!(whole.moves.iter().map(|step| step.request).eq(plan.iter()), "{name}: the library's plan, told whole");
    assert!(in_order(&short, plan.as_slice()), "{name}: moves that are not the library's");
    for story in [&whole, &short] {
        assert_eq!((story.whole, story.replay), (plan.len(), Judgement::Reaches), "{name}");
        judge(name, &depot, book, story);
    }
    seen.plans += 1;
    seen.moves += plan.len();
    seen.needed += short.moves.len();
    let rests = short.moves.iter().filter_map(|step| step.reason.as_ref()).flat_map(|reason| &reason.grounds);
    for ground in rests {
        match ground.rest {
            Rest::ValueThrough { .. } | Rest::MemberThrough(_) => seen.through += 1,
            Rest::Lacking => seen.lacking += 1,
            _ => {}
        }
    }
}

/// Whether the moves are some of a plan's, in its order.
fn in_order(story: &Story, plan: &[Request]) -> bool {
    let mut rest = plan.iter();
    story.moves.iter().all(|step| rest.any(|request| *request == step.request))
}

/// Every move has a reason, and changes something; with that rule alone in the book the library permits it.
fn judge(name: &str, depot: &Depot, book: &[u8], story: &Story) {
    let mut ledger = [0; LEDGER_SIZE];
    bytes::open(book, &mut ledger).expect("an accepted book");
    let mut books: HashMap<usize, Vec<u8>> = HashMap::new();
    for step in &story.moves {
        let reason = step.reason.as_ref().unwrap_or_else(|| panic!("{name}: {} has no reason", step.request));
        let alone = books.entry(reason.rule).or_insert_with(|| alone(depot, reason.rule));
        let (line, rule) = depot.rules().nth(reason.rule - 1).expect("a rule");
        assert_eq!(line, reason.line, "{name}");
        assert!(
            rule.terms.iter().eq(reason.grounds.iter().map(|ground| &ground.term)),
            "{name}: the rule's conditions"
        );
        let before = State(ledger);
        bytes::request(alone, &mut ledger, &step.request.to_bytes()).unwrap_or_else(|why| panic!("{name}: {why}"));
        let (fact, holds) = change(&step.request);
        assert!(State(ledger).has(fact) == holds && before.has(fact) != holds, "{name}: a move that changes nothing");
    }
    assert!(ledger == story.last, "{name}: another last ledger");
}

/// A depot's book with one of its rules alone.
fn alone(depot: &Depot, rule: usize) -> Vec<u8> {
    let mut one = depot.clone();
    let mut place = 0;
    one.statements.retain(|said| {
        place += usize::from(matches!(said.what, Statement::Rule(_)));
        matches!(said.what, Statement::Over { .. }) || (matches!(said.what, Statement::Rule(_)) && place == rule)
    });
    let mut question = one.question.clone().expect("a question").what;
    question.mode = if one.has_not() { depot::model::Mode::Directly } else { depot::model::Mode::AtLeast };
    compile(&one, &Said { line: 0, what: question }).characters
}

#[test]
fn stored_plans() {
    let mut seen = Seen::default();
    for (name, book) in books::stored() {
        tell(&name, &book, &mut seen);
    }
    println!("{seen:?}");
    assert!(seen.plans >= 80 && seen.through > 0 && seen.lacking > 0, "{seen:?}");
}

#[test]
fn drawn_plans() {
    let mut rng = Rng::new(22);
    let mut seen = Seen::default();
    while seen.plans < 3_000 {
        let draft = match rng.below(6) {
            0 => gen::small_aimed_book(&mut rng),
            1 => gen::tangled_book(&mut rng, (3, 3, 4)),
            2 => gen::zigzag_book(&mut rng, 3, 3),
            _ => books::drawn(&mut rng),
        };
        tell("a drawn book", &draft.text(), &mut seen);
    }
    println!("{seen:?}");
    assert!(seen.through > 100 && seen.lacking > 100 && seen.needed < seen.moves, "{seen:?}");
}
