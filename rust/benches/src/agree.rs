//! Both implementations give the same answer to everything that is measured; only the choice of a plan is left open.

use bixorgun::bytes::{self, Planned};
use bixorgun::{Attr, Judgement, Person, Refusal, LEDGER_SIZE, PAGE_SIZE, PLAN_MAX, REQUEST_SIZE};
use reference::plan::Answer;
use reference::replay::Verdict;
use reference::{ledger, page, plan, replay};

use crate::job::Job;

/// What the planner answered.
#[derive(Clone, Copy, Debug, PartialEq, Eq)]
pub enum Found {
    NoWay,
    /// The counts of requests: ours, then the reference's.
    Plans(usize, usize),
}

/// Runs the six operations of a job by both.
pub fn check(job: &Job) -> Result<Found, String> {
    open(job)?;
    requests(job)?;
    show(job)?;
    let _ = judged(job, &job.list)?;
    page(job)?;
    plans(job)
}

fn same<T: PartialEq + std::fmt::Debug>(what: &str, ours: T, theirs: T) -> Result<(), String> {
    (ours == theirs).then_some(()).ok_or_else(|| format!("{what}: ours {ours:?}, the reference's {theirs:?}"))
}

fn open(job: &Job) -> Result<(), String> {
    let (mut ours, mut theirs) = ([0x55; LEDGER_SIZE], [0xAA; LEDGER_SIZE]);
    let answer = bytes::open(&job.text, &mut ours).map_err(|refusal| refusal.number());
    same("open", answer, ledger::open(&job.text, &mut theirs).map_err(|refusal| refusal.number()))?;
    same("open's ledger", ours, theirs)
}

fn requests(job: &Job) -> Result<(), String> {
    // A refusal's number, and the rule and the term of 15.
    let ours_told = |refusal| match refusal {
        Refusal::UnmetTerm { rule, term } => (15, Some((rule, term))),
        other => (other.number(), None),
    };
    let theirs_told = |refusal| match refusal {
        ledger::Refusal::UnmetTerm { rule, term } => (15, Some((rule, term))),
        other => (other.number(), None),
    };
    let (mut ours, mut theirs) = (job.after, job.after);
    for request in &job.run {
        let answer = bytes::request(&job.text, &mut ours, request).map_err(ours_told);
        same("request", answer, ledger::request(&job.text, &mut theirs, request).map_err(theirs_told))?;
        same("request's ledger", ours, theirs)?;
    }
    Ok(())
}

fn show(job: &Job) -> Result<(), String> {
    let person = job.book.query.person.0;
    let ours = bytes::show(&job.text, &job.after, Person(person)).map_err(|refusal| refusal.to_string())?;
    let theirs = ledger::show(&job.text, &job.after, person).map_err(|refusal| refusal.to_string())?;
    for (attr, set) in (0..).zip(theirs.sets) {
        same("show", ours.values(Attr(attr)).bits(), set)?;
    }
    same("show's crews", ours.crews().bits(), theirs.crews)
}

/// What both say of a list of requests.
fn judged(job: &Job, list: &[u8]) -> Result<Judgement, String> {
    let ours = bytes::replay(&job.text, list).map_err(|refusal| refusal.to_string())?;
    let theirs = match replay::replay(&job.text, list).map_err(|refusal| refusal.to_string())? {
        Verdict::Reaches => Judgement::Reaches,
        Verdict::StopsAt(k) => Judgement::Stops(k),
        Verdict::EndsShort => Judgement::EndsShort,
    };
    same("replay", ours, theirs)?;
    Ok(ours)
}

/// A book with a "not" term has no page: both refuse it, and the tables stay as they were.
fn page(job: &Job) -> Result<(), String> {
    let (mut ours, mut theirs) = ([0x55; PAGE_SIZE], [0xAA; PAGE_SIZE]);
    let answer = bytes::page(&job.text, &mut ours).map_err(|refusal| refusal.number());
    same("page", answer, page::page(&job.text, &mut theirs).map_err(|refusal| refusal.number()))?;
    same("a page", answer.is_err(), job.book.has_not())?;
    if answer.is_ok() {
        same("page's table", ours, theirs)
    } else {
        same("a refused page's table", (ours, theirs), ([0x55; PAGE_SIZE], [0xAA; PAGE_SIZE]))
    }
}

fn plans(job: &Job) -> Result<Found, String> {
    let (mut ours, mut theirs) = (vec![0; PLAN_MAX], vec![0; PLAN_MAX]);
    let planned = bytes::plan_into(&job.text, &mut ours).map_err(|refusal| refusal.to_string())?;
    let answered = plan::plan(&job.text, &mut theirs).map_err(|refusal| refusal.to_string())?;
    match (planned, answered) {
        (Planned::NoWay, Answer::NoWay) => Ok(Found::NoWay),
        (Planned::Plan(n), Answer::Plan(m)) => {
            same("our plan", judged(job, &ours[..REQUEST_SIZE * n])?, Judgement::Reaches)?;
            same("the reference's plan", judged(job, &theirs[..REQUEST_SIZE * m])?, Judgement::Reaches)?;
            Ok(Found::Plans(n, m))
        }
        differing => Err(format!("plan: {differing:?}")),
    }
}

#[cfg(test)]
mod tests {
    use super::*;

    /// Anybody joins crew 0, and crew 1 who is not in crew 0; both are wanted, or crew 1 by who is in crew 0.
    #[test]
    fn both_agree_where_a_book_has_not() {
        let book = |facts: &str, crews: &str| {
            format!("0101020101\n030500000000\n030500010001830000\n{facts}050300000100000000{crews}\n")
        };
        let checked = |text: String| Job::new(text.into_bytes()).map(|job| check(&job));
        assert_eq!(checked(book("", "03")), Ok(Ok(Found::Plans(2, 2))));
        assert_eq!(checked(book("0403000000\n", "02")), Ok(Ok(Found::NoWay)));
    }
}
