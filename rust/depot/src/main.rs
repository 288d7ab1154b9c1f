//! The program `depot`: `depot --help` says what it does.

use std::process::ExitCode;

fn main() -> ExitCode {
    // Words that are no text can name a file all the same, where only their bad bytes are changed; such a file is not found.
    let args: Vec<String> = std::env::args_os().skip(1).map(|arg| arg.to_string_lossy().into_owned()).collect();
    ExitCode::from(depot::run::run(&args))
}
