//! What a command answers for one file, in words and for machines.

use crate::fault::{show_all, Fault};
use crate::json::Json;
use crate::load::Trouble;
use crate::paint::Paint;

/// A plan, done, reaches, all expectations met.
pub const YES: u8 = 0;
/// No way, not permitted, ends short, an expectation missed.
pub const NO: u8 = 1;
/// The command itself is wrong, or a file can't be read or written.
pub const USAGE: u8 = 2;
/// The book is refused, or there is an error in the file.
pub const REFUSED: u8 = 3;

/// What a command answers for one file.
#[derive(Clone, Debug)]
pub struct Reply {
    /// The exit status.
    pub status: u8,
    /// The answer in a word or two, for machines.
    pub answer: &'static str,
    /// For standard output.
    pub out: String,
    /// For standard error.
    pub err: String,
    /// For machines, behind command, file, status, answer and errors.
    pub more: Vec<(&'static str, Json)>,
    /// What is wrong, for machines.
    pub errors: Vec<Json>,
}

impl Reply {
    /// An answer.
    pub fn new(status: u8, answer: &'static str, out: String, more: Vec<(&'static str, Json)>) -> Reply {
        Reply { status, answer, out, err: String::new(), more, errors: Vec::new() }
    }

    /// The object of `--json`.
    pub fn json(&self, command: &str, file: &str) -> Json {
        let mut members = vec![
            ("command", Json::text(command)),
            ("file", Json::text(file)),
            ("status", Json::Number(self.status.into())),
            ("answer", Json::text(self.answer)),
            ("errors", Json::List(self.errors.clone())),
        ];
        members.extend(self.more.iter().cloned());
        Json::Object(members)
    }

    /// The reply to a file that is not good.
    pub fn trouble(file: &str, trouble: &Trouble, paint: Paint) -> Reply {
        match trouble {
            Trouble::Unread(why) => Reply::unread(file, why),
            Trouble::Faults { faults, source, refused } => {
                let reply = Reply::faults(file, faults, source, paint);
                Reply { answer: if *refused { "refused" } else { reply.answer }, ..reply }
            }
        }
    }

    /// The reply where a file can't be read or written.
    pub fn unread(file: &str, why: &str) -> Reply {
        let fault = Fault::of_file(why);
        let mut reply = Reply::new(USAGE, "unread", String::new(), Vec::new());
        reply.err = fault.show(file, "", Paint(false));
        reply.errors = vec![error(file, &fault)];
        reply
    }

    /// The reply to faults.
    pub fn faults(file: &str, faults: &[Fault], source: &str, paint: Paint) -> Reply {
        let mut reply = Reply::new(REFUSED, "error", String::new(), Vec::new());
        reply.err = show_all(faults, file, source, paint);
        reply.errors = faults.iter().map(|fault| error(file, fault)).collect();
        reply
    }
}

/// A fault for machines; `file` is what it is in: the file that is answered, or another that the command line names.
fn error(file: &str, fault: &Fault) -> Json {
    let place = |number: usize| if number == 0 { Json::Null } else { Json::Number(number) };
    let help = if fault.help.is_empty() { Json::Null } else { Json::text(&*fault.help) };
    Json::Object(vec![
        ("file", Json::text(file)),
        ("line", place(fault.line)),
        ("column", place(fault.column)),
        ("text", Json::text(&*fault.text)),
        ("help", help),
        ("refusal", fault.refusal.map_or(Json::Null, |number| Json::Number(number.into()))),
    ])
}
