//! What is good in a file, and perhaps not meant: a name that nothing is said of makes "no way" easy to get.

use crate::model::{members, Depot, Fact, Op, Statement};
use crate::state::below;

/// Leads without a rule, and crews that nobody comes into.
pub fn remarks(depot: &Depot) -> Vec<String> {
    let mut remarks = idle_leads(depot, u16::MAX);
    let entered = entered(depot);
    for crew in (0..depot.crews.len() as u8).filter(|crew| entered >> crew & 1 == 0) {
        remarks.push(format!("nobody is in {}, and no rule assigns to it or to a crew above it", depot.the_crew(crew)));
    }
    remarks
}

/// The leads of a set that have no rule.
pub fn idle_leads(depot: &Depot, set: u16) -> Vec<String> {
    let ruled = depot.rules().fold(0u16, |leads, (_, rule)| leads | 1u16.checked_shl(rule.lead.into()).unwrap_or(0));
    let known = members(set.into()).filter(|lead| usize::from(*lead) < depot.leads.len());
    known.filter(|lead| ruled >> lead & 1 == 0).map(|lead| format!("lead {} has no rule", depot.lead(lead))).collect()
}

/// The crews that somebody is in at the start, or that a rule assigns to, and all below these.
fn entered(depot: &Depot) -> u32 {
    let below = below(depot);
    let named = depot.statements.iter().filter_map(|said| match &said.what {
        Statement::Fact(Fact::PersonIn { crew, .. }) => Some(*crew),
        Statement::Rule(rule) if rule.op == Op::Assign => Some(rule.a),
        _ => None,
    });
    named.fold(0, |crews, crew| crews | below[usize::from(crew)])
}
