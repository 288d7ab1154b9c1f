//! The program: the command line read, each file answered, the highest status.

use std::env;
use std::io::{self, IsTerminal as _, Write as _};

use crate::args::{parse, Wish};
use crate::commands::{answer, files, Context};
use crate::help;
use crate::paint::Paint;
use crate::reply::USAGE;

/// Runs the program; gives its exit status.
pub fn run(args: &[String]) -> u8 {
    let parsed = match parse(args) {
        Ok(Wish::Do(parsed)) => parsed,
        Ok(Wish::Help(topic)) => return show_help(topic.as_deref()),
        Ok(Wish::Version) => {
            return told(tell(&format!("depot {}\n", env!("CARGO_PKG_VERSION"))));
        }
        Err(why) => {
            tell_error(&format!("depot: {why}\n"));
            return USAGE;
        }
    };
    let plain = env::var_os("NO_COLOR").is_some() || parsed.json;
    let context = Context {
        args: &parsed,
        paint: Paint(!plain && io::stdout().is_terminal()),
        paint_errors: Paint(!plain && io::stderr().is_terminal()),
        terminal: io::stderr().is_terminal(),
    };
    let files = files(&parsed);
    let headed = files.len() > 1 && !parsed.json && matches!(parsed.command.as_str(), "plan" | "book" | "words");
    let mut status = 0;
    for (at, file) in files.iter().enumerate() {
        let reply = answer(&context, file);
        status = status.max(reply.status);
        let told = if parsed.json {
            tell(&format!("{}\n", reply.json(&parsed.command, file)))
        } else {
            tell_error(&reply.err);
            let head = if headed && !reply.out.is_empty() {
                format!("{}# {file}\n", if at > 0 { "\n" } else { "" })
            } else {
                String::new()
            };
            tell(&format!("{head}{}", reply.out))
        };
        match told {
            Ok(()) => {}
            // Nobody reads on.
            Err(error) if error.kind() == io::ErrorKind::BrokenPipe => break,
            Err(error) => {
                tell_error(&format!("depot: the answer can't be written: {error}\n"));
                return status.max(USAGE);
            }
        }
    }
    status
}

fn show_help(topic: Option<&str>) -> u8 {
    match help::on(topic) {
        Some(text) => told(tell(&text)),
        None => {
            tell_error(&format!(
                "depot: there is no help on `{}`; `depot --help` lists what there is\n",
                topic.unwrap_or_default()
            ));
            USAGE
        }
    }
}

/// The status of what only had to be told.
fn told(result: io::Result<()>) -> u8 {
    match result {
        Err(error) if error.kind() != io::ErrorKind::BrokenPipe => {
            tell_error(&format!("depot: the answer can't be written: {error}\n"));
            USAGE
        }
        _ => 0,
    }
}

/// Writes to standard output.
fn tell(text: &str) -> io::Result<()> {
    let mut out = io::stdout().lock();
    out.write_all(text.as_bytes())?;
    out.flush()
}

fn tell_error(text: &str) {
    let _ = io::stderr().write_all(text.as_bytes());
}
