//! The command line.

use crate::cursor::near;

/// The commands, in the order of `--help`.
pub const COMMANDS: [&str; 12] =
    ["plan", "check", "book", "words", "tidy", "open", "request", "show", "replay", "page", "test", "help"];

/// What was asked on the command line.
#[derive(Clone, Debug, Default, PartialEq, Eq)]
pub struct Args {
    /// One of `COMMANDS`.
    pub command: String,
    /// What stands behind it, but options.
    pub rest: Vec<String>,
    /// `--json`.
    pub json: bool,
    /// `--all`: all moves of a plan.
    pub all: bool,
    /// `--start`: the starting facts in the place of a ledger.
    pub start: bool,
    /// `-o FILE`.
    pub out: Option<String>,
    /// `--svg FILE`.
    pub svg: Option<String>,
    /// `--names FILE`.
    pub names: Option<String>,
}

/// What to do.
#[derive(Clone, Debug, PartialEq, Eq)]
pub enum Wish {
    /// A command.
    Do(Args),
    /// Help on a command or on the notation; on all where there is none.
    Help(Option<String>),
    /// The version.
    Version,
}

/// The options that each command takes.
fn options(command: &str) -> &'static [&'static str] {
    match command {
        "plan" => &["--json", "--names", "--all", "--svg", "-o"],
        "words" | "page" => &["--json", "--names", "-o"],
        "book" | "tidy" => &["--json", "-o"],
        "show" | "request" => &["--json", "--names", "--start"],
        "check" | "replay" => &["--json", "--names"],
        _ => &["--json"],
    }
}

/// Reads the command line, without the program's name; an error in words.
pub fn parse(args: &[String]) -> Result<Wish, String> {
    let Some(command) = args.first() else { return Ok(Wish::Help(None)) };
    match command.as_str() {
        "-h" | "--help" => return Ok(Wish::Help(args.get(1).cloned())),
        "-V" | "--version" => return Ok(Wish::Version),
        "help" => return Ok(Wish::Help(args.get(1).cloned())),
        known if COMMANDS.contains(&known) => {}
        unknown => {
            let near =
                near(unknown, COMMANDS.into_iter()).unwrap_or_else(|| "`depot --help` lists the commands".into());
            return Err(format!("there is no command `{unknown}`: {near}"));
        }
    }
    let mut parsed = Args { command: command.clone(), ..Args::default() };
    let mut rest = args[1..].iter();
    let mut files_only = false;
    while let Some(arg) = rest.next() {
        if files_only || arg == "-" || !arg.starts_with('-') {
            parsed.rest.push(arg.clone());
            continue;
        }
        let (name, given) = match arg.split_once('=') {
            Some((name, value)) if name.starts_with("--") => (name, Some(value.to_string())),
            _ => (arg.as_str(), None),
        };
        let known = options(command);
        let flag = matches!(name, "--json" | "--all" | "--start");
        match name {
            _ if flag && given.is_some() => return Err(format!("`{name}` takes nothing behind it")),
            "--" => files_only = true,
            "-h" | "--help" => return Ok(Wish::Help(Some(command.clone()))),
            name if !known.contains(&name) => {
                let near = near(name, known.iter().copied());
                let near = near.unwrap_or_else(|| format!("it takes {}", known.join(", ")));
                return Err(format!("`depot {command}` has no option `{name}`: {near}"));
            }
            "--json" => parsed.json = true,
            "--all" => parsed.all = true,
            "--start" => parsed.start = true,
            _ => {
                let value = given.or_else(|| rest.next().cloned());
                let value = value.filter(|value| !value.is_empty());
                let value = value.ok_or_else(|| format!("behind `{name}` comes a file's name"))?;
                *match name {
                    "-o" => &mut parsed.out,
                    "--svg" => &mut parsed.svg,
                    _ => &mut parsed.names,
                } = Some(value);
            }
        }
    }
    check(parsed)
}

/// Whether there are as many words as the command takes.
fn check(args: Args) -> Result<Wish, String> {
    let count = args.rest.len();
    let command = args.command.as_str();
    let wanted = match command {
        "request" if args.start => (2, 2, "FILE REQUEST"),
        "request" => (3, 3, "FILE LEDGER REQUEST"),
        "show" if args.start => (1, usize::MAX, "FILE [PERSON..]"),
        "show" => (2, usize::MAX, "FILE LEDGER [PERSON..]"),
        "replay" => (2, 2, "FILE PLAN"),
        "open" => (2, 2, "FILE LEDGER"),
        _ => (1, usize::MAX, "FILE.."),
    };
    if count < wanted.0 || count > wanted.1 {
        let takes = wanted.2;
        return Err(format!(
            "`depot {command}` takes {takes} (`-` is standard input); `depot {command} --help` has an example"
        ));
    }
    let one_file = args.svg.is_some() || (args.out.is_some() && command != "page");
    if one_file && count > 1 {
        return Err("`-o` and `--svg` write one file, so they go with one FILE".into());
    }
    let ledger = matches!(command, "open" | "request" | "show") && !args.start && args.rest[1] == "-";
    if ledger || [&args.out, &args.svg].into_iter().flatten().any(|file| file == "-") {
        return Err("a ledger, `-o` and `--svg` name a file; `-` is no file here".into());
    }
    if args.rest.iter().filter(|word| *word == "-").count() > 1 {
        return Err("`-` is standard input, which can be read once".into());
    }
    Ok(Wish::Do(args))
}
