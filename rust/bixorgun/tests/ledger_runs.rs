//! Stored runs of open, request and show, each a book and commands on one ledger under it. What they answer was
//! worked out from the specification, and every byte is compared. `ledger_runs/RUNS.md` has the format.

use std::collections::BTreeSet;
use std::fmt::Write as _;
use std::fs;
use std::path::PathBuf;

use bixorgun::bytes;
use bixorgun::{Person, Refusal, View, LEDGER_SIZE};

/// A byte more than a ledger has, so that more than a ledger can be lent too.
const ROOM: usize = LEDGER_SIZE + 1;

fn stored(name: &str) -> PathBuf {
    [env!("CARGO_MANIFEST_DIR"), "tests", "ledger_runs", name].iter().collect()
}

fn read(name: &str) -> Vec<u8> {
    fs::read(stored(name)).unwrap_or_else(|error| panic!("{name}: {error}"))
}

fn text(bytes: Vec<u8>) -> String {
    String::from_utf8(bytes).expect("a text")
}

/// The room from which a ledger is lent, and what the commands have set up.
struct Run<'r> {
    book: &'r [u8],
    room: [u8; ROOM],
    remembered: [u8; ROOM],
    lent: usize,
}

/// 8F, the number, the line; for 15 the places of the rule and of its term behind them.
fn refused(refusal: Refusal) -> String {
    let numbers = format!("8F{:02X}{:04X}", refusal.number(), refusal.line().unwrap_or(0));
    match refusal {
        Refusal::UnmetTerm { rule, term } => format!("{numbers} {rule:04X} {term:02X}"),
        _ => numbers,
    }
}

fn done(outcome: Result<(), Refusal>) -> String {
    outcome.map_or_else(refused, |()| "done".to_owned())
}

fn shown(view: View) -> String {
    let sets: String = view.sets().map(|(_, set)| format!("{:04X} ", set.bits())).collect();
    format!("{sets}{:08X}", view.crews().bits())
}

/// The bytes of an operand, two digits each.
fn bytes_of(operand: &str) -> Vec<u8> {
    let digits = operand.as_bytes().chunks_exact(2);
    assert!(digits.remainder().is_empty(), "{operand}");
    digits.map(|two| u8::from_str_radix(&String::from_utf8_lossy(two), 16).expect("digits")).collect()
}

fn number(high: u8, low: u8) -> usize {
    u16::from_be_bytes([high, low]).into()
}

impl<'r> Run<'r> {
    fn of(book: &'r [u8]) -> Self {
        Run { book, room: [0; ROOM], remembered: [0; ROOM], lent: LEDGER_SIZE }
    }

    /// What a command answers: a letter or sign, its operand, and behind a blank a phrase.
    fn obey(&mut self, line: &str) -> String {
        let (command, operand) = line.split(' ').next().and_then(|first| first.split_at_checked(1)).expect("a command");
        let operand = bytes_of(operand);
        let ledger = &mut self.room[..self.lent];
        match (command, &operand[..]) {
            ("o", []) => done(bytes::open(self.book, ledger)),
            ("r", request) => done(bytes::request(self.book, ledger, request)),
            ("s", &[person]) => bytes::show(self.book, ledger, Person(person)).map_or_else(refused, shown),
            ("d", []) => self.list(),
            ("?", []) => if self.room == self.remembered { "same" } else { "changed" }.to_owned(),
            (command, operand) => {
                self.set_up(command, operand);
                "set".to_owned()
            }
        }
    }

    /// The commands that only set something up.
    fn set_up(&mut self, command: &str, operand: &[u8]) {
        match (command, operand) {
            ("=", []) => self.remembered = self.room,
            ("b", &[high, low, byte]) => self.room[number(high, low)] = byte,
            ("f", &[byte]) => self.room.fill(byte),
            ("l", &[high, low]) => self.lent = number(high, low),
            _ => panic!("no such command: {command}, {operand:?}"),
        }
    }

    /// The room's bytes that are not 00, each with its place.
    fn list(&self) -> String {
        let bytes = self.room.iter().enumerate().filter(|&(_, &byte)| byte != 0);
        bytes.fold("bytes".to_owned(), |list, (place, byte)| format!("{list} {place:04X}:{byte:02X}"))
    }
}

/// What a run writes: its name, and each command's line behind its answer.
fn written(name: &str) -> String {
    let run = read(&format!("data/{name}"));
    // The book is what stands before the first full stop; the commands begin on the line below it.
    let stop = run.iter().position(|&c| c == b'.').expect("a full stop");
    let commands = text(run[stop..].to_vec());
    let mut run = Run::of(&run[..stop]);
    let mut out = format!("run {name}\n");
    for line in commands.split_terminator('\n').skip(1) {
        writeln!(out, "{} {line}", run.obey(line)).expect("a string takes all");
    }
    out
}

#[test]
fn every_run_answers_as_the_specification_says() {
    let names = text(read("names"));
    let expected = text(read("answers"));
    let out: String = names.lines().map(written).collect();
    for (line, (answer, expected)) in (1..).zip(out.lines().zip(expected.lines())) {
        assert_eq!(answer, expected, "line {line} of the answers");
    }
    assert!(out == expected, "the answers go on, or end before");
    println!("{} runs, {} lines", names.lines().count(), out.lines().count());
}

/// No stored run is left out.
#[test]
fn every_run_is_named() {
    let names = text(read("names"));
    let named: BTreeSet<String> = names.lines().map(str::to_owned).collect();
    let entries = fs::read_dir(stored("data")).expect("the runs");
    let stored: BTreeSet<String> =
        entries.map(|entry| entry.expect("an entry").file_name().into_string().expect("a name")).collect();
    assert_eq!(named, stored);
    assert_eq!(names.lines().count(), 81);
}
