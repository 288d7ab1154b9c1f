//! A plan told: which rule permits each move, what its conditions rest on, and what holds from when to when.

use bixorgun::{bytes, Judgement, Refusal, Request, LEDGER_SIZE};

use crate::bars;
use crate::model::{Depot, Question, Term};
use crate::needed::needed;
use crate::reasons::Reasons;

/// A plan with its reasons. Each reason has been compared with the library.
#[derive(Clone, Debug)]
pub struct Story {
    /// In their order: those of the library's plan that matter, or all of them.
    pub moves: Vec<Move>,
    /// How many moves the library's plan has. Where `moves` has fewer, the others are not needed.
    pub whole: usize,
    /// What `replay` says of just these moves.
    pub replay: Judgement,
    /// Bars for a picture: first those of the question's person, then those of crews.
    pub bars: Vec<Bar>,
    /// The ledger behind the last move.
    pub last: [u8; LEDGER_SIZE],
}

/// A plan of more moves than this has no bars but those that the question asks for: it is drawn as a list.
pub const DRAWN: usize = 40;

/// What a story is told from.
pub struct Telling<'d> {
    /// The depot.
    pub depot: &'d Depot,
    /// Its reasons.
    pub reasons: Reasons<'d>,
    /// The ledger of its starting facts, as the library opens it.
    pub start: [u8; LEDGER_SIZE],
}

impl<'d> Telling<'d> {
    /// Of a depot and its book.
    pub fn new(depot: &'d Depot, book: &[u8]) -> Result<Telling<'d>, Refusal> {
        let mut start = [0; LEDGER_SIZE];
        bytes::open(book, &mut start)?;
        Ok(Telling { depot, reasons: Reasons::new(depot), start })
    }

    /// Tells the library's plan for a question, `book` being the depot's book with that question: the moves that matter,
    /// or all of them.
    pub fn tell(&self, book: &[u8], question: &Question, plan: &[Request], all: bool) -> Result<Story, Refusal> {
        let short = if all {
            plan.to_vec()
        } else if replay(book, &[])? == Judgement::Reaches {
            Vec::new()
        } else {
            needed(self.depot, &self.reasons.rules, question, &self.start, plan)
        };
        let judged = replay(book, &short)?;
        let (told, replay) = match judged {
            Judgement::Reaches => (short.as_slice(), judged),
            _ => (plan, replay(book, plan)?),
        };
        let mut ledger = self.start;
        let mut states = vec![ledger];
        let mut moves = Vec::with_capacity(told.len());
        for request in told {
            let reason = self.reasons.carry_out(&mut ledger, request);
            if reason.is_none() {
                bytes::request(book, &mut ledger, &request.to_bytes())?;
            }
            moves.push(Move { request: *request, reason });
            if told.len() <= DRAWN {
                states.push(ledger);
            }
        }
        let mut story = Story { moves, whole: plan.len(), replay, bars: Vec::new(), last: ledger };
        bars::draw(self.depot, question, &states, &mut story);
        Ok(story)
    }
}

fn replay(book: &[u8], requests: &[Request]) -> Result<Judgement, Refusal> {
    let list: Vec<u8> = requests.iter().flat_map(Request::to_bytes).collect();
    bytes::replay(book, &list)
}

/// One move of a plan.
#[derive(Clone, Debug)]
pub struct Move {
    /// What the library's plan has.
    pub request: Request,
    /// Why it is permitted; nothing where the front end's reading and the library's differ.
    pub reason: Option<Reason>,
}

/// Why a move is permitted.
#[derive(Clone, Debug, PartialEq, Eq)]
pub struct Reason {
    /// The place of the rule among the book's rules, counted from 1.
    pub rule: usize,
    /// The line of the file that has the rule.
    pub line: usize,
    /// One for each of the rule's terms, in their order.
    pub grounds: Vec<Ground>,
}

/// What makes a term hold.
#[derive(Clone, Copy, Debug, PartialEq, Eq)]
pub struct Ground {
    /// The term.
    pub term: Term,
    /// What it rests on.
    pub rest: Rest,
    /// The bar of the picture that shows it, by its place in `Story::bars`; nothing for what is lacking.
    pub bar: Option<usize>,
}

/// What a term rests on.
#[derive(Clone, Copy, Debug, PartialEq, Eq)]
pub enum Rest {
    /// The subject directly has this value of the term's attribute.
    Value(u8),
    /// The subject has this value of the term's attribute through a crew that directly has it.
    ValueThrough {
        /// The value, which is the term's or, with "or higher", a higher one.
        value: u8,
        /// The crew that directly has it.
        crew: u8,
    },
    /// The subject is directly in the term's crew.
    Member,
    /// The subject is in the term's crew through this crew above it.
    MemberThrough(u8),
    /// What the term says not to be is not.
    Lacking,
}

/// A fact over the time of a plan: time 0 is the start, time i is behind move i.
#[derive(Clone, Debug, PartialEq, Eq)]
pub struct Bar {
    /// Of whom.
    pub subject: Subject,
    /// What.
    pub holding: Holding,
    /// The crew that it comes through, where the subject does not have it directly.
    pub through: Option<u8>,
    /// Whether the question asks for it.
    pub wanted: bool,
    /// From time, to time: it holds at each time from the first up to before the second. The second is the count of moves
    /// and 1 where it holds at the end.
    pub spans: Vec<(usize, usize)>,
}

/// A person or a crew.
#[derive(Clone, Copy, Debug, PartialEq, Eq)]
pub enum Subject {
    /// A person's number.
    Person(u8),
    /// A crew's number.
    Crew(u8),
}

/// What is held.
#[derive(Clone, Copy, Debug, PartialEq, Eq)]
pub enum Holding {
    /// A value of an attribute.
    Value {
        /// The attribute.
        attribute: u8,
        /// The value.
        value: u8,
    },
    /// Being in a crew.
    In(u8),
}
