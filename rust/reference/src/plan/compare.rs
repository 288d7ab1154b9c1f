//! The two methods side by side on one small depot.

use crate::book::{Book, Fact, Mode, Way};

use super::{closure, demand, search};

/// How the comparisons came out.
#[derive(Clone, Copy, Debug, Default, PartialEq, Eq)]
pub struct Counts {
    /// Depots looked at.
    pub depots: usize,
    /// Those with a query of mode 02.
    pub exact: usize,
    /// No way, by both.
    pub no_way: usize,
    /// No way, by both, in mode 02.
    pub no_way_exact: usize,
    /// A plan, by both.
    pub plans: usize,
    /// A shortest plan that has at least one request.
    pub moved: usize,
    /// A shortest plan that deletes.
    pub deleting: usize,
    /// A shortest plan that adds a fact and deletes it again.
    pub detours: usize,
    /// Where the closure's plan is a shortest one.
    pub as_short: usize,
    /// The most requests of a shortest plan.
    pub longest: usize,
    /// Depots with a ladder term.
    pub ladders: usize,
    /// A plan, though there is no way with kind 02 in the place of each ladder term.
    pub plans_by_ladder: usize,
    /// No way, though there is a plan without the ladder terms.
    pub no_way_by_ladder: usize,
    /// Depots whose book has a "not" term.
    pub nots: usize,
    /// No way, though there is a plan without the "not" terms.
    pub no_way_by_not: usize,
    /// Depots with two attributes or more.
    pub several_attrs: usize,
    /// Those of them whose counts are not all the same.
    pub differing: usize,
    /// A shortest plan that has at least one request, where the counts are not all the same.
    pub moved_differing: usize,
    /// No way, where the counts are not all the same.
    pub no_way_differing: usize,
}

impl Counts {
    /// Compares the methods on one depot.
    ///
    /// # Errors
    ///
    /// What differs: one has a plan and the other has none, a plan has a flaw, or a plan is shorter than the shortest.
    pub fn compare(&mut self, book: &Book) -> Result<(), String> {
        let shortest = search::shortest(book).map_err(|_| "too large to search".to_owned())?;
        let exact = matches!(book.query.mode, Mode::Exactly { .. });
        self.depots += 1;
        self.exact += usize::from(exact);
        self.ladders += usize::from(book.has_ladder());
        self.nots += usize::from(book.has_not());
        let differing = usize::from(book.sizes.differ());
        self.several_attrs += usize::from(book.sizes.attrs() > 1);
        self.differing += differing;
        match (shortest, closure::plan(book)) {
            (None, None) => {
                self.no_way += 1;
                self.no_way_exact += usize::from(exact);
                self.no_way_differing += differing;
                self.no_way_by_ladder += usize::from(closure::plan(&book.ladders_dropped()).is_some());
                self.no_way_by_not += usize::from(closure::plan(&book.nots_dropped()).is_some());
                Ok(())
            }
            (Some(shortest), Some(plan)) => {
                demand::check(book, &plan).map_err(|flaw| format!("closure: {flaw}"))?;
                demand::check(book, &shortest).map_err(|flaw| format!("search: {flaw}"))?;
                if plan.len() < shortest.len() {
                    return Err(format!("closure has {} requests, search {}", plan.len(), shortest.len()));
                }
                let deleted = |fact: Fact| shortest.iter().any(|r| r.way == Way::Delete && r.fact == fact);
                self.plans += 1;
                self.moved += usize::from(!shortest.is_empty());
                self.moved_differing += if shortest.is_empty() { 0 } else { differing };
                self.deleting += usize::from(shortest.iter().any(|r| r.way == Way::Delete));
                self.detours += usize::from(shortest.iter().any(|r| r.way == Way::Add && deleted(r.fact)));
                self.as_short += usize::from(plan.len() == shortest.len());
                self.longest = self.longest.max(shortest.len());
                self.plans_by_ladder += usize::from(closure::plan(&book.ladders_cut()).is_none());
                Ok(())
            }
            (Some(_), None) => Err("search finds a plan, closure none".to_owned()),
            (None, Some(_)) => Err("closure finds a plan, search none".to_owned()),
        }
    }
}
