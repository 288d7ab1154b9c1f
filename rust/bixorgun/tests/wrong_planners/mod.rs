//! Planners that are wrong, each in one way, to see that the search catches them. Two give every book the same answer,
//! some damage the answer of the library's planner, and the others are the small planner of `model`, or for books that
//! only grow that of `growing`, with a fault; both are right without one.

pub mod growing;
pub mod model;

use bixorgun::bytes::{self, Planned};
use bixorgun::{plan_size, Refusal};

use crate::depots::Depot;
use crate::Planner;
use model::{Fault, Model, Move};

/// The wrong planners by their faults.
pub const WRONG: [(&str, Planner); 26] = [
    ("no way to every book", |depot, out| answer(depot, out, || None)),
    ("the empty plan to every book", |depot, out| answer(depot, out, || Some(Vec::new()))),
    ("rules of roles outside the query used", |depot, out| small(depot, out, Fault::RolesIgnored)),
    ("all added that can be, then deleted", add_all),
    ("deleted in any order that is permitted", |depot, out| in_two_steps(depot, out, cleared_as_permitted)),
    ("a deletion's terms tested after the fact is gone", |depot, out| small(depot, out, Fault::TermsAfterDeletion)),
    ("juniors inherit from seniors", |depot, out| small(depot, out, Fault::JuniorsInherit)),
    ("crews inherit nothing", |depot, out| small(depot, out, Fault::CrewsInheritNothing)),
    ("mode 02 taken for mode 01", |depot, out| small(depot, out, Fault::ModeTwoAsOne)),
    ("a ladder term taken for kind 02", |depot, out| small(depot, out, Fault::LadderAsKindTwo)),
    ("a ladder term looks downward", |depot, out| small(depot, out, Fault::LadderDownward)),
    ("a ladder term leaves out its own value", |depot, out| small(depot, out, Fault::LadderWithoutLowest)),
    ("a ladder term leaves out the highest value", |depot, out| small(depot, out, Fault::LadderWithoutHighest)),
    ("a ladder term's higher values held directly alone", |depot, out| small(depot, out, Fault::HigherValuesDirect)),
    ("a deletion's ladder terms tested after the fact is gone", |depot, out| {
        small(depot, out, Fault::OwnRungForgotten)
    }),
    ("a ladder term not tested", |depot, out| small(depot, out, Fault::LadderNotTested)),
    ("a ladder term looks up to the first attribute's count", |depot, out| {
        small(depot, out, Fault::LadderToFirstCount)
    }),
    ("every attribute taken to have the first one's values", |depot, out| small(depot, out, Fault::ValuesOfFirst)),
    ("the last request left out", leave_out_last),
    ("a request doubled", double_first),
    ("a fact added, deleted and added again", add_again),
    ("a wrong count", miscount),
    ("a byte written behind the plan", write_behind),
    ("a byte written on no way", write_on_no_way),
    ("a short buffer not refused", fill_short_buffer),
    ("10 × F by A × the first attribute's count", need_by_first),
];

/// The wrong planners for books that only grow, by their faults.
pub const WRONG_GROWING: [(&str, Planner); 25] = [
    ("no way to every book", |depot, out| answer(depot, out, || None)),
    ("the empty plan to every book", |depot, out| answer(depot, out, || Some(Vec::new()))),
    ("\"not\" terms not heeded", |depot, out| grown(depot, out, growing::Fault::NotsUnheeded)),
    ("added in any order that is permitted", |depot, out| grown(depot, out, growing::Fault::AnyOrder)),
    ("added in the order of their numbers", |depot, out| grown(depot, out, growing::Fault::ByNumber)),
    ("what is asked for not added", |depot, out| grown(depot, out, growing::Fault::NeedsUnclosed)),
    ("all added that a rule adds", |depot, out| grown(depot, out, growing::Fault::AllNeeded)),
    ("starting facts bar nothing", |depot, out| grown(depot, out, growing::Fault::StartBarsNothing)),
    ("starting facts forgotten", |depot, out| grown(depot, out, growing::Fault::StartForgotten)),
    ("rules of roles outside the query used", |depot, out| grown(depot, out, growing::Fault::RolesIgnored)),
    ("a rule that bars its own fact not used", |depot, out| grown(depot, out, growing::Fault::OwnFactBarred)),
    ("what is effective bars", |depot, out| grown(depot, out, growing::Fault::EffectiveBars)),
    ("what is effective meets the query", |depot, out| grown(depot, out, growing::Fault::EffectiveMeets)),
    ("a \"not\" term asks for the fact", |depot, out| grown(depot, out, growing::Fault::NotTurned)),
    ("a \"not\" term on crews not tested", |depot, out| grown(depot, out, growing::Fault::CrewNotsUnheeded)),
    ("a term that asks for a fact not tested", |depot, out| grown(depot, out, growing::Fault::AskedUnheeded)),
    ("the listed crews not asked for", |depot, out| grown(depot, out, growing::Fault::CrewsNotAsked)),
    ("mode 03 taken for mode 02", |depot, out| grown(depot, out, growing::Fault::Exactly)),
    ("any person's starting facts taken", |depot, out| grown(depot, out, growing::Fault::AnyPersonsStart)),
    ("the last request left out", leave_out_last),
    ("a request doubled", double_first),
    ("a wrong count", miscount),
    ("a byte written behind the plan", write_behind),
    ("a byte written on no way", write_on_no_way),
    ("a short buffer not refused", fill_short_buffer),
];

/// The small planner for these books without a fault, and a search in its place.
pub const RIGHT_GROWING: [Planner; 2] = [
    |depot, out| grown(depot, out, growing::Fault::None),
    |depot, out| answer(depot, out, || growing::shortest(depot)),
];

fn grown(depot: &Depot, out: &mut [u8], fault: growing::Fault) -> Result<Planned, Refusal> {
    answer(depot, out, || growing::plan(depot, fault))
}

/// The small planner without a fault, in its two forms.
pub const RIGHT: [Planner; 2] =
    [|depot, out| small(depot, out, Fault::None), |depot, out| in_two_steps(depot, out, cleared_by_search)];

type Requests = Vec<[u8; 5]>;

/// The most requests of a plan: 2 × F.
fn most(depot: &Depot) -> usize {
    2 * depot.tracked()
}

/// Gives an answer as a planner does: refusal 10 on a short buffer, else no way, or the plan in the buffer's front.
fn answer(depot: &Depot, out: &mut [u8], plan: impl FnOnce() -> Option<Requests>) -> Result<Planned, Refusal> {
    if out.len() < 5 * most(depot) {
        return Err(Refusal::ShortPlanBuffer);
    }
    let Some(plan) = plan() else { return Ok(Planned::NoWay) };
    write(&plan, out);
    Ok(Planned::Plan(plan.len()))
}

fn write(plan: &[[u8; 5]], out: &mut [u8]) {
    out.iter_mut().zip(plan.as_flattened()).for_each(|(place, &byte)| *place = byte);
}

/// The plan of the library's planner; nothing where there is no way.
fn planned(depot: &Depot) -> Option<Requests> {
    let mut buffer = vec![0; 5 * most(depot)];
    match bytes::plan_into(depot.draft.text(), &mut buffer).expect("a good book") {
        Planned::NoWay => None,
        Planned::Plan(count) => {
            let requests = buffer.chunks_exact(5).take(count);
            Some(requests.map(|five| five.try_into().expect("five bytes")).collect())
        }
    }
}

fn requests(moves: &[&Move]) -> Requests {
    moves.iter().map(|step| step.request).collect()
}

fn small(depot: &Depot, out: &mut [u8], fault: Fault) -> Result<Planned, Refusal> {
    answer(depot, out, || {
        let model = Model::of(depot, fault);
        let way = model.shortest(model.start, |_| true, |state| model.is_met(state))?;
        Some(requests(&way))
    })
}

/// Adds whatever can be added, and then looks for deletions.
fn add_all(depot: &Depot, out: &mut [u8]) -> Result<Planned, Refusal> {
    answer(depot, out, || {
        let model = Model::of(depot, Fault::None);
        let (state, mut way) = as_permitted(&model, model.start, |step| step.adds);
        way.extend(model.shortest(state, |step| !step.adds, |state| model.is_met(state))?);
        Some(requests(&way))
    })
}

/// Looks for additions, and then deletes what stands in the way. Without the order of the deletions as a fault this is
/// right too: more facts never spoil a term, so that all additions may come first.
fn in_two_steps(
    depot: &Depot,
    out: &mut [u8],
    cleared: fn(&Model, u16) -> Option<Vec<&Move>>,
) -> Result<Planned, Refusal> {
    answer(depot, out, || {
        let model = Model::of(depot, Fault::None);
        let mut way = model.shortest(model.start, |step| step.adds, |state| cleared(&model, state).is_some())?;
        let state = way.iter().try_fold(model.start, |state, step| model.after(state, step));
        way.extend(state.and_then(|state| cleared(&model, state)).expect("deletions"));
        Some(requests(&way))
    })
}

/// Deletes what stands in the way, each fact as soon as it is permitted: the deletions, where they meet the query.
fn cleared_as_permitted(model: &Model, state: u16) -> Option<Vec<&Move>> {
    let (end, way) = as_permitted(model, state, |step| model.clears_way(step));
    model.is_met(end).then_some(way)
}

/// Deletes what stands in the way in an order that works, if there is one.
fn cleared_by_search(model: &Model, state: u16) -> Option<Vec<&Move>> {
    model.shortest(state, |step| model.clears_way(step), |state| model.is_met(state))
}

/// Makes every change of a kind that is permitted, in the order of the rules, until none is left.
pub fn as_permitted(model: &Model, start: u16, chosen: impl Fn(&Move) -> bool) -> (u16, Vec<&Move>) {
    let (mut state, mut way) = (start, Vec::new());
    let change = |state, step| model.after(state, step).filter(|&next| next != state).map(|next| (next, step));
    while let Some((next, step)) = model.moves.iter().filter(|step| chosen(step)).find_map(|step| change(state, step)) {
        state = next;
        way.push(step);
    }
    (state, way)
}

fn leave_out_last(depot: &Depot, out: &mut [u8]) -> Result<Planned, Refusal> {
    answer(depot, out, || {
        let mut plan = planned(depot)?;
        plan.pop();
        Some(plan)
    })
}

/// Doubles the first request, where there is one and room for one more.
fn double_first(depot: &Depot, out: &mut [u8]) -> Result<Planned, Refusal> {
    answer(depot, out, || {
        let mut plan = planned(depot)?;
        if !plan.is_empty() && plan.len() < most(depot) {
            plan.insert(0, plan[0]);
        }
        Some(plan)
    })
}

/// Deletes an added fact and adds it again, where both are permitted and there is room for two more.
fn add_again(depot: &Depot, out: &mut [u8]) -> Result<Planned, Refusal> {
    answer(depot, out, || {
        let model = Model::of(depot, Fault::None);
        let mut way = model.shortest(model.start, |_| true, |state| model.is_met(state))?;
        if let Some((at, back)) = undone(&model, &way).filter(|_| way.len() + 2 <= most(depot)) {
            way.splice(at..at, [way[at], back]);
        }
        Some(requests(&way))
    })
}

/// The first addition of a way that can be undone and made again, by its place, and the deletion that does it.
fn undone<'m>(model: &'m Model, way: &[&'m Move]) -> Option<(usize, &'m Move)> {
    let mut state = model.start;
    way.iter().enumerate().find_map(|(at, step)| {
        state = model.after(state, step)?;
        let is_again = |without| model.after(without, step).is_some();
        let is_undoing = |back: &&Move| back.undoes(step) && model.after(state, back).is_some_and(is_again);
        model.moves.iter().find(is_undoing).map(|back| (at, back))
    })
}

/// Counts a request more than was written, or one less where there is no room for more.
fn miscount(depot: &Depot, out: &mut [u8]) -> Result<Planned, Refusal> {
    Ok(match answer(depot, out, || planned(depot))? {
        Planned::Plan(count) if count < most(depot) => Planned::Plan(count + 1),
        Planned::Plan(count) => Planned::Plan(count - 1),
        Planned::NoWay => Planned::NoWay,
    })
}

fn write_behind(depot: &Depot, out: &mut [u8]) -> Result<Planned, Refusal> {
    let planned = answer(depot, out, || planned(depot))?;
    if let Planned::Plan(count) = planned {
        out.iter_mut().skip(5 * count).take(1).for_each(|byte| *byte = 0);
    }
    Ok(planned)
}

fn write_on_no_way(depot: &Depot, out: &mut [u8]) -> Result<Planned, Refusal> {
    let planned = answer(depot, out, || planned(depot))?;
    if planned == Planned::NoWay {
        out[0] = 0;
    }
    Ok(planned)
}

/// Plans into any buffer, as far as it goes.
fn fill_short_buffer(depot: &Depot, out: &mut [u8]) -> Result<Planned, Refusal> {
    let Some(plan) = planned(depot) else { return Ok(Planned::NoWay) };
    write(&plan, out);
    Ok(Planned::Plan(plan.len()))
}

/// Asks for a buffer as if every attribute had the first one's count, and plans into any that is as long.
fn need_by_first(depot: &Depot, out: &mut [u8]) -> Result<Planned, Refusal> {
    let sizes = depot.sizes;
    let values = usize::from(sizes.attrs()) * usize::from(sizes.values(0));
    if out.len() < plan_size(sizes.crews.into(), values) {
        return Err(Refusal::ShortPlanBuffer);
    }
    fill_short_buffer(depot, out)
}
