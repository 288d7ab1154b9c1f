//! Why a move is permitted: found by the front end's own reading, compared with the library, then told.
//!
//! That a rule permits a move is asked of the library's `request`, with a book that has the sizes, the edges and that one
//! rule, on the library's ledger as it stands before the move. What is held directly stands in that ledger; what comes
//! through crews is asked of the library's `show`. A reason that it does not confirm is left out.

use bixorgun::{bytes, Attr, Crew, Person, Request, Value, View, LEDGER_SIZE};

use crate::compile;
use crate::matching::Matching;
use crate::model::{Depot, Mode, Question, Rule, Statement, Term};
use crate::state::{below, subject, ways, State};
use crate::story::{Ground, Reason, Rest, Subject};

/// Finds reasons for requests on one depot.
pub struct Reasons<'d> {
    /// The depot's rules.
    pub rules: Matching<'d>,
    below: Vec<u32>,
    /// The frames 01 and 02.
    crews: String,
}

impl<'d> Reasons<'d> {
    /// The reasons of a depot.
    pub fn new(depot: &'d Depot) -> Reasons<'d> {
        let edges = depot.statements.iter().filter_map(|said| match said.what {
            Statement::Over { senior, junior } => Some(compile::frame(&[2, senior, junior])),
            _ => None,
        });
        let crews = compile::sizes(depot) + &edges.collect::<String>();
        Reasons { rules: Matching::new(depot), below: below(depot), crews }
    }

    /// Why a request is permitted, where the library confirms it: then it has carried it out on the ledger. Else the
    /// ledger is as it was.
    pub fn carry_out(&self, ledger: &mut [u8; LEDGER_SIZE], request: &Request) -> Option<Reason> {
        let state = State(*ledger);
        let holds = |term: &Term| {
            let rest = ways(&state, &self.below, subject(request), term).into_iter().next()?.rest;
            Some(Ground { term: *term, rest, bar: None })
        };
        let mut found = self.rules.of(request).filter_map(|matched| {
            let grounds: Option<Vec<Ground>> = matched.rule.terms.iter().map(holds).collect();
            Some((matched.rule, Reason { rule: matched.place, line: matched.line, grounds: grounds? }))
        });
        let (rule, reason) = found.next()?;
        let through = |ground: &Ground| matches!(ground.rest, Rest::ValueThrough { .. } | Rest::MemberThrough(_));
        if reason.grounds.iter().any(through) {
            let view = self.view(&state, subject(request))?;
            if !reason.grounds.iter().all(|ground| confirmed(ground, &view)) {
                return None;
            }
        }
        bytes::request(self.book_of(rule).as_bytes(), ledger, &request.to_bytes()).ok()?;
        Some(reason)
    }

    /// The book that has the sizes, the edges and one rule.
    fn book_of(&self, rule: &Rule) -> String {
        let not = rule.terms.iter().any(|term| term.kind.is_not());
        let mode = if not { Mode::Directly } else { Mode::AtLeast };
        let question = Question { mode, person: 0, leads: 0, wants: Vec::new(), crews: 0 };
        [self.crews.as_str(), &compile::rule(rule), &compile::question(&question)].concat()
    }

    /// What a person or a crew effectively has, as the library shows it. It shows persons alone, so for a crew one that has
    /// nothing and is in just that crew.
    fn view(&self, state: &State, subject: Subject) -> Option<View> {
        let question = Question { mode: Mode::AtLeast, person: 0, leads: 0, wants: Vec::new(), crews: 0 };
        let book = [self.crews.as_str(), &compile::question(&question)].concat();
        match subject {
            Subject::Person(person) => bytes::show(book.as_bytes(), &state.0, Person(person)).ok(),
            Subject::Crew(crew) => {
                let mut ledger = state.0;
                ledger[..16].fill(0);
                ledger[1536..1540].copy_from_slice(&(1u32 << crew).to_be_bytes());
                bytes::show(book.as_bytes(), &ledger, Person(0)).ok()
            }
        }
    }
}

/// Whether the library's view has what a ground says is there.
fn confirmed(ground: &Ground, view: &View) -> bool {
    let has = |value| view.values(Attr(ground.term.a)).contains(Value(value));
    let inside = |crew| view.crews().contains(Crew(crew));
    match ground.rest {
        Rest::Value(value) => has(value),
        Rest::ValueThrough { value, crew } => has(value) && inside(crew),
        Rest::Member => inside(ground.term.a),
        Rest::MemberThrough(crew) => inside(ground.term.a) && inside(crew),
        // The library's request judges it with the rule.
        Rest::Lacking => true,
    }
}
