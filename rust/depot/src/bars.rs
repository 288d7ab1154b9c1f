//! The bars of a plan's picture: what is held from when to when, of all that the moves change, rest on or are asked for.

use bixorgun::LEDGER_SIZE;

use crate::model::{members, Depot, Fact, Mode, Question};
use crate::state::{below, change, direct_value, subject, value_ways, State};
use crate::story::{Bar, Ground, Holding, Rest, Story, Subject, DRAWN};

/// Gives a story its bars, and each ground the bar that shows it. `states` has the ledgers from the start on, behind each
/// move; of a long plan the first alone.
pub fn draw(depot: &Depot, question: &Question, states: &[[u8; LEDGER_SIZE]], story: &mut Story) {
    let below = below(depot);
    let last = State(story.last);
    let mut bars: Vec<Bar> = Vec::new();
    if story.moves.len() > DRAWN {
        return;
    }
    for step in &mut story.moves {
        let subject = subject(&step.request);
        for ground in step.reason.iter_mut().flat_map(|reason| &mut reason.grounds) {
            ground.bar = bar_of(ground).map(|(holding, through)| place(&mut bars, subject, holding, through));
        }
        let (fact, _) = change(&step.request);
        place(&mut bars, subject, held(fact), None);
    }
    for (holding, through) in wanted(question, &below, &last) {
        let at = place(&mut bars, Subject::Person(question.person), holding, through);
        bars[at].wanted = true;
    }
    let states: Vec<State> = states.iter().map(|ledger| State(*ledger)).collect();
    for bar in &mut bars {
        bar.spans = spans(states.iter().map(|state| holds(bar, &below, state)));
    }
    sort(&mut bars, story);
    story.bars = bars;
}

/// Persons before crews, then by the time from which it holds.
fn sort(bars: &mut [Bar], story: &mut Story) {
    let key = |bar: &Bar| {
        let (crew, number) = match bar.subject {
            Subject::Person(number) => (false, number),
            Subject::Crew(number) => (true, number),
        };
        (crew, number, bar.spans.first().map_or(usize::MAX, |span| span.0))
    };
    let mut order: Vec<usize> = (0..bars.len()).collect();
    order.sort_by_key(|at| key(&bars[*at]));
    let sorted: Vec<Bar> = order.iter().map(|at| bars[*at].clone()).collect();
    bars.clone_from_slice(&sorted);
    let grounds = story.moves.iter_mut().filter_map(|step| step.reason.as_mut()).flat_map(|reason| &mut reason.grounds);
    for ground in grounds {
        ground.bar = ground.bar.and_then(|old| order.iter().position(|at| *at == old));
    }
}

/// The place of a bar, which is put in where it is not there yet.
fn place(bars: &mut Vec<Bar>, subject: Subject, holding: Holding, through: Option<u8>) -> usize {
    let same = |bar: &Bar| bar.subject == subject && bar.holding == holding && bar.through == through;
    bars.iter().position(same).unwrap_or_else(|| {
        bars.push(Bar { subject, holding, through, wanted: false, spans: Vec::new() });
        bars.len() - 1
    })
}

/// What shows a ground.
fn bar_of(ground: &Ground) -> Option<(Holding, Option<u8>)> {
    let attribute = ground.term.a;
    match ground.rest {
        Rest::Value(value) => Some((Holding::Value { attribute, value }, None)),
        Rest::ValueThrough { value, crew } => Some((Holding::Value { attribute, value }, Some(crew))),
        Rest::Member => Some((Holding::In(ground.term.a), None)),
        Rest::MemberThrough(crew) => Some((Holding::In(ground.term.a), Some(crew))),
        Rest::Lacking => None,
    }
}

fn held(fact: Fact) -> Holding {
    match fact {
        Fact::PersonHas { attribute, value, .. } | Fact::CrewHas { attribute, value, .. } => {
            Holding::Value { attribute, value }
        }
        Fact::PersonIn { crew, .. } => Holding::In(crew),
    }
}

/// What the question asks for, as it is held at the end.
fn wanted(question: &Question, below: &[u32], last: &State) -> Vec<(Holding, Option<u8>)> {
    let direct = question.mode == Mode::Directly;
    let holder = Subject::Person(question.person);
    let values = question.wants.iter().flat_map(|&(a, set)| members(set.into()).map(move |v| (a, v)));
    let values = values.filter_map(|(attribute, value)| {
        let way = value_ways(last, below, holder, attribute, value..=value, direct).into_iter().next()?;
        let through = match way.rest {
            Rest::ValueThrough { crew, .. } => Some(crew),
            _ => None,
        };
        Some((Holding::Value { attribute, value }, through))
    });
    values.chain(members(question.crews).map(|crew| (Holding::In(crew), None))).collect()
}

/// Whether what a bar shows holds in a ledger.
fn holds(bar: &Bar, below: &[u32], state: &State) -> bool {
    match (bar.subject, bar.holding, bar.through) {
        (subject, Holding::Value { attribute, value }, None) => state.has(direct_value(subject, attribute, value)),
        (subject, Holding::Value { attribute, value }, Some(crew)) => {
            let leads = match subject {
                Subject::Person(person) => members(state.crews(person)).any(|c| below[usize::from(c)] >> crew & 1 == 1),
                Subject::Crew(senior) => below[usize::from(senior)] >> crew & 1 == 1,
            };
            leads && state.has(Fact::CrewHas { crew, attribute, value })
        }
        (Subject::Person(person), Holding::In(crew), None) => state.has(Fact::PersonIn { person, crew }),
        (Subject::Person(person), Holding::In(crew), Some(senior)) => {
            state.has(Fact::PersonIn { person, crew: senior }) && below[usize::from(senior)] >> crew & 1 == 1
        }
        (Subject::Crew(_), Holding::In(_), _) => false,
    }
}

/// From when to when something holds.
fn spans(holds: impl ExactSizeIterator<Item = bool>) -> Vec<(usize, usize)> {
    let end = holds.len();
    let mut spans: Vec<(usize, usize)> = Vec::new();
    for (time, _) in holds.enumerate().filter(|(_, holds)| *holds) {
        match spans.last_mut() {
            Some((_, to)) if *to == time => *to = time + 1,
            _ => spans.push((time, time + 1)),
        }
    }
    debug_assert!(spans.iter().all(|(_, to)| *to <= end));
    spans
}
