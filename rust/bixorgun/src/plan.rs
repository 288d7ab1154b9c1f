use std::iter::Copied;
use std::{fmt, slice, vec};

use crate::{Request, REQUEST_SIZE};

/// What the planner answers.
#[derive(Clone, Debug, PartialEq, Eq, Hash)]
#[must_use]
pub enum Answer {
    /// No list of requests whatever by the query's roles leads to the query.
    NoWay,
    /// Requests that replay answers [`Judgement::Reaches`] to.
    Plan(Plan),
}

impl Answer {
    /// The plan, when there is one.
    #[must_use]
    pub fn plan(self) -> Option<Plan> {
        match self {
            Answer::NoWay => None,
            Answer::Plan(plan) => Some(plan),
        }
    }

    /// Whether there is no way.
    #[must_use]
    pub const fn is_no_way(&self) -> bool {
        matches!(self, Answer::NoWay)
    }
}

/// What replay says of a list of requests.
#[derive(Clone, Copy, Debug, PartialEq, Eq, Hash)]
#[must_use]
pub enum Judgement {
    /// All are made by the query's roles and permitted, and the last ledger meets the query.
    Reaches,
    /// The first request, counted from 1, that is ill-formed, outside the query's roles or not permitted. Why is not
    /// told here; [`Ledger::request`](crate::Ledger::request) tells it.
    Stops(usize),
    /// None stops, and the query is not met.
    EndsShort,
}

impl fmt::Display for Judgement {
    fn fmt(&self, f: &mut fmt::Formatter<'_>) -> fmt::Result {
        match self {
            Judgement::Reaches => f.write_str("reaches"),
            Judgement::Stops(k) => write!(f, "stops at request {k}"),
            Judgement::EndsShort => f.write_str("ends short of the query"),
        }
    }
}

/// A list of requests: the planner's, or any other by [`FromIterator`].
///
/// ```
/// use bixorgun::{Book, Judgement, Plan};
///
/// # fn main() -> Result<(), bixorgun::Refusal> {
/// let book = Book::new("0101000101\n030100000000\n050100000101000001\n");
/// let plan = book.plan()?.plan().expect("there is a way");
/// assert_eq!((plan.len(), plan.to_bytes()), (1, vec![1, 0, 0, 0, 0]));
/// let twice: Plan = plan.iter().chain(&plan).collect();
/// assert_eq!(book.replay(&twice)?, Judgement::Reaches);
/// # Ok(())
/// # }
/// ```
#[derive(Clone, Debug, Default, PartialEq, Eq, Hash)]
pub struct Plan {
    requests: Vec<Request>,
}

/// Iterates over the requests of a lent [`Plan`].
pub type Requests<'p> = Copied<slice::Iter<'p, Request>>;

impl Plan {
    /// The plan that the planner wrote.
    ///
    /// # Panics
    ///
    /// On bytes that are no requests, which the planner does not write.
    pub(crate) fn of(bytes: &[u8]) -> Self {
        let request = |five: &[u8]| five.try_into().ok().and_then(Request::from_bytes);
        let requests = bytes.chunks(REQUEST_SIZE).map(|five| request(five).expect("the planner writes requests"));
        requests.collect()
    }

    /// How many requests there are.
    #[must_use]
    pub fn len(&self) -> usize {
        self.requests.len()
    }

    /// Whether there is no request.
    #[must_use]
    pub fn is_empty(&self) -> bool {
        self.requests.is_empty()
    }

    /// The requests in their order, each by itself.
    pub fn iter(&self) -> Requests<'_> {
        self.requests.iter().copied()
    }

    /// The requests in their order.
    #[must_use]
    pub fn as_slice(&self) -> &[Request] {
        &self.requests
    }

    /// The requests' bytes, five each, as [`bytes::replay`](crate::bytes::replay) takes them.
    #[must_use]
    pub fn to_bytes(&self) -> Vec<u8> {
        self.iter().flat_map(|request| request.to_bytes()).collect()
    }
}

impl FromIterator<Request> for Plan {
    fn from_iter<I: IntoIterator<Item = Request>>(requests: I) -> Self {
        Plan { requests: requests.into_iter().collect() }
    }
}

impl<'p> IntoIterator for &'p Plan {
    type Item = Request;
    type IntoIter = Requests<'p>;

    fn into_iter(self) -> Requests<'p> {
        self.iter()
    }
}

impl IntoIterator for Plan {
    type Item = Request;
    type IntoIter = vec::IntoIter<Request>;

    fn into_iter(self) -> vec::IntoIter<Request> {
        self.requests.into_iter()
    }
}
