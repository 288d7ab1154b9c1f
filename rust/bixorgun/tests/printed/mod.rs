//! What the product's program prints for a book, by this crate's own answer to it.

use bixorgun::{Answer, Book, Judgement};

/// The text of the answer. A plan is seen to reach the query.
pub fn printed(characters: &[u8]) -> String {
    let book = Book::new(characters);
    match book.plan() {
        Ok(Answer::NoWay) => "80\n".to_owned(),
        Ok(Answer::Plan(plan)) => {
            assert_eq!(book.replay(&plan), Ok(Judgement::Reaches));
            let requests: String = plan.iter().map(|request| format!("{request}\n")).collect();
            format!("81{:04X}\n{requests}", plan.len())
        }
        Err(refusal) => format!("8F{:02X}{:04X}\n", refusal.number(), refusal.line().expect("plan's buffer is long")),
    }
}
