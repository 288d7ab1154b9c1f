//! Pages that are wrong, each in one way, to see that the search catches them. Some damage the library's page. The
//! others are a small page over `wrong_planners::model`, with a fault of its own or of the model's. Without one it is
//! right. It calls no operation of the library.

use bixorgun::{bytes, Refusal, PAGE_SIZE};

use crate::depots::{Depot, Fact};
use crate::wrong_planners::as_permitted;
use crate::wrong_planners::model::{Condition, Fault, Model, Weights};
use crate::Pager;

/// What the small page takes otherwise than the specification has it.
#[derive(Clone, Copy, PartialEq, Eq)]
enum Slip {
    None,
    /// A bit is set for what a person comes to hold directly, and for nothing that crews have.
    DirectAlone,
    /// Every person has the starting facts of person 0.
    FactsOfFirst,
    /// The last person is left out.
    LastLeftOut,
    /// A book of mode 02 keeps its mode, sets and crews: a bit is set where a ledger that can be reached has the value
    /// and nothing that its query forbids that person.
    OwnMode,
    /// Nothing is added to crews.
    CrewsNeverGain,
    /// Where the last value of an attribute is set, so is one more.
    PastTheCount,
    /// A person begins with what the person before has come to hold directly, and in its crews.
    KeptFromBefore,
    /// No request is made.
    StartAlone,
}

/// The wrong pages by their faults.
pub const WRONG: [(&str, Pager); 19] = [
    ("direct values only", |depot, table| small(depot, table, Slip::DirectAlone)),
    ("starting facts of person 0 for all", |depot, table| small(depot, table, Slip::FactsOfFirst)),
    ("the last person left out", |depot, table| small(depot, table, Slip::LastLeftOut)),
    ("the book's own mode kept", |depot, table| small(depot, table, Slip::OwnMode)),
    ("crews never gain", |depot, table| small(depot, table, Slip::CrewsNeverGain)),
    ("a value past the count set", |depot, table| small(depot, table, Slip::PastTheCount)),
    ("what the person before came to hold is kept", |depot, table| small(depot, table, Slip::KeptFromBefore)),
    ("only what is held at the start", |depot, table| small(depot, table, Slip::StartAlone)),
    ("rules of roles outside the query used", |depot, table| of_model(depot, table, Fault::RolesIgnored)),
    ("juniors inherit from seniors", |depot, table| of_model(depot, table, Fault::JuniorsInherit)),
    ("crews inherit nothing", |depot, table| of_model(depot, table, Fault::CrewsInheritNothing)),
    ("a ladder term taken for kind 02", |depot, table| of_model(depot, table, Fault::LadderAsKindTwo)),
    ("a ladder term not tested", |depot, table| of_model(depot, table, Fault::LadderNotTested)),
    ("a ladder term looks up to the first attribute's count", |depot, table| {
        of_model(depot, table, Fault::LadderToFirstCount)
    }),
    ("every attribute taken to have the first one's values", |depot, table| {
        of_model(depot, table, Fault::ValuesOfFirst)
    }),
    ("the low byte of a set first", low_byte_first),
    ("bytes of absent persons left as they were", leave_absent),
    ("a longer table taken", take_longer),
    ("a byte written to a table of another length", write_on_refusal),
];

/// The small page without a fault.
pub fn right(depot: &Depot, table: &mut [u8]) -> Result<(), Refusal> {
    small(depot, table, Slip::None)
}

fn small(depot: &Depot, table: &mut [u8], slip: Slip) -> Result<(), Refusal> {
    fill(&Weights::of(depot, Fault::None), table, slip)
}

fn of_model(depot: &Depot, table: &mut [u8], fault: Fault) -> Result<(), Refusal> {
    fill(&Weights::of(depot, fault), table, Slip::None)
}

/// The small page: for each person all is added that can be, to crews and to the person, and what the person then holds
/// is set.
fn fill(weights: &Weights<'_>, table: &mut [u8], slip: Slip) -> Result<(), Refusal> {
    if table.len() != PAGE_SIZE {
        return Err(Refusal::ShortPlanBuffer);
    }
    table.fill(0);
    let depot = weights.depot;
    let persons = depot.sizes.persons - u8::from(slip == Slip::LastLeftOut);
    let mut before = 0;
    for person in 0..persons {
        let model = Model::of_person(weights, person);
        let start = match slip {
            Slip::FactsOfFirst => given(depot, model.start, 0, person),
            Slip::KeptFromBefore if person > 0 => model.start | given(depot, before, person - 1, person),
            _ => model.start,
        };
        let (end, _) = as_permitted(&model, start, |step| match slip {
            Slip::StartAlone => false,
            Slip::CrewsNeverGain => step.adds && step.request[0] != 3,
            _ => step.adds,
        });
        before = end;
        for a in 0..depot.sizes.attrs() {
            let held = (0..weights.values(a)).filter(|&v| {
                let value = match slip {
                    Slip::DirectAlone => Condition::of(weights.own(person, a, v)),
                    _ => weights.person_holds(person, a, v),
                };
                match slip {
                    Slip::OwnMode => reaches(&model, |state| value.holds(state) && model.is_clear(state)),
                    _ => value.holds(end),
                }
            });
            let mut set = held.fold(0_u16, |set, v| set | 1 << v);
            if slip == Slip::PastTheCount {
                set |= (set & 1 << (weights.values(a) - 1)) << 1;
            }
            table[16 * usize::from(person) + 2 * usize::from(a)..][..2].copy_from_slice(&set.to_be_bytes());
        }
    }
    Ok(())
}

fn reaches(model: &Model, is_end: impl Fn(u16) -> bool) -> bool {
    model.shortest(model.start, |_| true, is_end).is_some()
}

/// A state in which one person's facts are given to another, in the place of the other's own.
fn given(depot: &Depot, state: u16, from: u8, to: u8) -> u16 {
    let facts = depot.facts.iter().enumerate();
    let bits = facts.map(|(i, &fact)| {
        let is_other = fact.kind != 2 && fact.subject == to;
        let source = if is_other { depot.number_of(Fact { subject: from, ..fact }).expect("the same fact") } else { i };
        (state >> source & 1) << i
    });
    bits.fold(0, |state, bit| state | bit)
}

fn low_byte_first(depot: &Depot, table: &mut [u8]) -> Result<(), Refusal> {
    bytes::page(depot.draft.text(), table)?;
    table.chunks_exact_mut(2).for_each(|set| set.swap(0, 1));
    Ok(())
}

fn leave_absent(depot: &Depot, table: &mut [u8]) -> Result<(), Refusal> {
    let before = table.to_vec();
    bytes::page(depot.draft.text(), table)?;
    let behind = 16 * usize::from(depot.sizes.persons);
    table[behind..].copy_from_slice(&before[behind..]);
    Ok(())
}

fn take_longer(depot: &Depot, table: &mut [u8]) -> Result<(), Refusal> {
    let length = table.len().min(PAGE_SIZE);
    bytes::page(depot.draft.text(), &mut table[..length])
}

fn write_on_refusal(depot: &Depot, table: &mut [u8]) -> Result<(), Refusal> {
    let refusal = bytes::page(depot.draft.text(), table);
    if refusal.is_err() {
        table[0] = 0;
    }
    refusal
}
