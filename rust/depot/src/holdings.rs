//! What a person holds, as the library shows it, and whether it comes through a crew.

use bixorgun::{bytes, Attr, Crew, Person, Refusal, Value, LEDGER_SIZE};

use crate::json::Json;
use crate::model::{members, Depot};
use crate::say::listed;
use crate::state::{below, value_ways, State};
use crate::story::{Rest, Subject};

/// What a person has and is in.
#[derive(Clone, Debug, PartialEq, Eq)]
pub struct Holdings {
    /// Attribute, value, and the crews that it comes through; none where the person has it directly.
    pub values: Vec<(u8, u8, Vec<u8>)>,
    /// Crew, and the crew above that it comes through.
    pub crews: Vec<(u8, Option<u8>)>,
}

/// What a person holds in a ledger: what there is is the library's answer, and the crew beside it the front end's reading,
/// told only where the library shows the person to be in it.
pub fn holdings(depot: &Depot, book: &[u8], ledger: &[u8; LEDGER_SIZE], person: u8) -> Result<Holdings, Refusal> {
    let view = bytes::show(book, ledger, Person(person))?;
    let (state, below) = (State(*ledger), below(depot));
    let shown = |crew: &u8| view.crews().contains(Crew(*crew));
    let mut values = Vec::new();
    for (attribute, value) in all_values(depot) {
        if view.values(Attr(attribute)).contains(Value(value)) {
            let ways = value_ways(&state, &below, Subject::Person(person), attribute, value..=value, false);
            let direct = ways.iter().any(|way| matches!(way.rest, Rest::Value(_)));
            let through = ways.iter().filter_map(|way| match way.rest {
                Rest::ValueThrough { crew, .. } if !direct => Some(crew),
                _ => None,
            });
            let mut through: Vec<u8> = through.filter(shown).collect();
            through.sort_unstable();
            through.dedup();
            values.push((attribute, value, through));
        }
    }
    let crews = members(view.crews().bits()).map(|crew| {
        let own = state.crews(person);
        let above = members(own).find(|senior| below[usize::from(*senior)] >> crew & 1 == 1);
        (crew, if own >> crew & 1 == 1 { None } else { above.filter(shown) })
    });
    Ok(Holdings { values, crews: crews.collect() })
}

/// Every attribute with each of its values.
pub fn all_values(depot: &Depot) -> impl Iterator<Item = (u8, u8)> + '_ {
    let attributes = depot.attributes.iter().enumerate();
    attributes.flat_map(|(a, attribute)| (0..attribute.values.len()).map(move |v| (a as u8, v as u8)))
}

impl Holdings {
    /// `has grade trainee (through returns) and lane control, and is in returns`.
    pub fn words(&self, depot: &Depot) -> String {
        let through = |crews: &[u8]| match crews {
            [] => String::new(),
            crews => format!(" (through {})", listed(crews.iter().map(|crew| depot.crew(*crew)), "")),
        };
        let values = self.values.iter().map(|(a, v, crews)| format!("{}{}", depot.value(*a, *v), through(crews)));
        let crews =
            self.crews.iter().map(|(crew, above)| format!("{}{}", depot.crew(*crew), through(above.as_slice())));
        format!("has {}, and is in {}", listed(values, "nothing"), listed(crews, "no crew"))
    }

    /// The same for machines.
    pub fn json(&self, depot: &Depot) -> Json {
        let through = |crews: &[u8]| Json::list(crews.iter().map(|crew| Json::text(depot.crew(*crew))));
        let values = self.values.iter().map(|(a, v, crew)| {
            Json::Object(vec![
                ("attribute", Json::text(depot.attribute(*a))),
                ("value", Json::text(depot.value_alone(*a, *v))),
                ("through", through(crew)),
            ])
        });
        let crews = self.crews.iter().map(|(crew, above)| {
            Json::Object(vec![("crew", Json::text(depot.crew(*crew))), ("through", through(above.as_slice()))])
        });
        Json::Object(vec![("values", Json::list(values)), ("crews", Json::list(crews))])
    }
}
