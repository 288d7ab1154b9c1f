//! The program: every command with each exit status, what goes where, JSON read back, and files of all kinds.

mod support;

use std::io::Write as _;
use std::process::{Command, Output, Stdio};
use std::time::{Duration, Instant};

use bixorgun::{bytes, Refusal, LEDGER_SIZE};
use support::{book, Chance, Folder, Json, PILOT, PILOT_BOOK};

/// What `depot plan` says of it.
const PILOT_PLAN: &str = "\
YES: Ana can come to have lane control, in 3 moves by shift, quality and lanes.

  1. shift assigns Ana to returns      line 10, no condition
  2. quality adds grade sorter to Ana  line 11: Ana has grade trainee, through returns
  3. lanes adds lane control to Ana    line 12: Ana directly has grade sorter

Then Ana has grade trainee (through returns), grade sorter and lane control, and is in returns.
Replayed from the starting facts: reaches.
";

/// A depot that only grows: customs for who is not in returns and has no key.
const GROWS: &str = "\
persons Ana
crews returns customs
attribute key cage
leads desk keys gate
desk may assign to customs if not directly in returns and not directly has key cage
keys may add key cage to persons
gate may assign to returns if directly has key cage
may Ana ever directly be in returns and be in customs by desk keys gate
";

/// The files that most tests have.
fn folder(name: &str) -> Folder {
    let folder = Folder::new(name);
    let expect = |first: &str, second: &str| {
        let question = "may Ana ever have lane control by shift quality";
        format!("{PILOT}expect {first}: {question} lanes\nexpect {second}: {question}\n")
    };
    let characters = book(PILOT_BOOK);
    let files: &[(&str, String)] = &[
        ("pilot.depot", PILOT.into()),
        ("noway.depot", PILOT.replace("by shift quality lanes", "by shift quality")),
        ("typo.depot", PILOT.replace("add grade sorter", "add grade sortr")),
        ("grows.depot", GROWS.into()),
        ("met.depot", expect("yes", "no way")),
        ("missed.depot", expect("yes", "yes")),
        ("pilot.book", characters.clone()),
        ("editor.book", characters.to_lowercase().replace('\n', "\r\n")),
        ("refused.book", characters.replace("0402000000", "0402010000")),
        ("empty.depot", String::new()),
        ("moves.txt", "shift assigns Ana to returns\n0101000001\nlanes adds lane control to Ana\n".into()),
        ("short.txt", "shift assigns Ana to returns # and no more\n".into()),
        ("stops.txt", "shift assigns Ana to returns\nlanes adds lane control to Ana\n".into()),
        ("typo.txt", "shift assigns Ana to retuns\n".into()),
        ("short.ledger", "no ledger".into()),
    ];
    files.iter().for_each(|(name, text)| folder.put(name, text));
    std::fs::create_dir(folder.0.join("sub")).expect("a folder can be made");
    let mut ledger = [0; LEDGER_SIZE];
    bytes::open(characters.as_bytes(), &mut ledger).expect("the pilot depot's book");
    folder.put("pilot.ledger", ledger);
    // A bit outside the sizes.
    ledger[LEDGER_SIZE - 1] = 1;
    folder.put("strange.ledger", ledger);
    folder
}

/// What a run gave.
struct Ran {
    status: i32,
    out: String,
    err: String,
}

/// Runs the program in a folder. Whatever it does, it does not panic, is soon done, and colours nothing.
fn run(folder: &Folder, args: &[&str]) -> Ran {
    run_with(folder, args, b"")
}

fn run_with(folder: &Folder, args: &[&str], input: &[u8]) -> Ran {
    let begun = Instant::now();
    let mut child = Command::new(env!("CARGO_BIN_EXE_depot"))
        .args(args)
        .current_dir(&folder.0)
        .env_remove("NO_COLOR")
        .env("TERM", "xterm-256color")
        .stdin(Stdio::piped())
        .stdout(Stdio::piped())
        .stderr(Stdio::piped())
        .spawn()
        .expect("the program runs");
    // A program that does not read its input closes it.
    let _ = child.stdin.take().expect("a pipe").write_all(input);
    let Output { status, stdout, stderr } = child.wait_with_output().expect("the program ends");
    let (out, err) = (String::from_utf8(stdout).expect("text"), String::from_utf8_lossy(&stderr).into_owned());
    let status = status.code().unwrap_or_else(|| panic!("{args:?}: {status}"));
    assert!(matches!(status, 0..=3) && !err.contains("panicked"), "{args:?}: status {status}\n{err}");
    assert!(!out.contains('\u{1B}') && !err.contains('\u{1B}'), "{args:?}: a colour");
    assert!(begun.elapsed() < Duration::from_secs(10), "{args:?}: {:?}", begun.elapsed());
    Ran { status, out, err }
}

/// Runs the program with `--json`: the objects, each with the five keys first, and nothing on standard error.
fn json(folder: &Folder, args: &[&str]) -> (i32, Vec<Json>) {
    let all: Vec<&str> = args.iter().copied().chain(["--json"]).collect();
    let Ran { status, out, err } = run(folder, &all);
    assert_eq!(err, "", "{args:?}");
    assert!(out.ends_with('\n'), "{args:?}");
    let objects: Vec<Json> =
        out.lines().map(|line| Json::read(line).unwrap_or_else(|why| panic!("{args:?}: {why}\n{line}"))).collect();
    for object in &objects {
        assert_eq!(object.keys()[..5], ["command", "file", "status", "answer", "errors"], "{args:?}");
        assert_eq!(object.get("command").text(), args[0], "{args:?}");
        for error in object.get("errors").list() {
            assert_eq!(error.keys(), ["file", "line", "column", "text", "help", "refusal"], "{args:?}");
            assert!(!error.get("text").text().is_empty(), "{args:?}");
        }
        let bad = object.get("status").number() >= 2;
        assert_eq!(bad, !object.get("errors").list().is_empty(), "{args:?}: {object:?}");
    }
    let highest = objects.iter().map(|object| object.get("status").number()).max();
    assert_eq!(highest, Some(status as usize), "{args:?}");
    (status, objects)
}

/// A command, its status, what standard output begins with, what standard error begins with, and the answer in JSON.
type Row = (&'static [&'static str], i32, &'static str, &'static str, &'static str);

/// Every command with each status that it can have.
const STATUSES: &[Row] = &[
    (&["plan", "pilot.depot"], 0, "YES: Ana can come to have lane control, in 3 moves", "", "plan"),
    (&["plan", "pilot.book"], 0, "YES: person-0 can come to have attribute-1 value-0, in 3 moves", "", "plan"),
    (&["plan", "grows.depot"], 0, "YES: Ana can come to directly be in returns and be in customs, in 3", "", "plan"),
    (&["plan", "noway.depot"], 1, "NO WAY. By shift and quality no chain of requests, of whatever", "", "no way"),
    (&["plan", "nofile.depot"], 2, "", "nofile.depot: there is no such file\n", "unread"),
    (&["plan", "sub"], 2, "", "sub: ", "unread"),
    (&["plan", "pilot.depot", "-o", "no/moves.txt"], 2, "", "no/moves.txt: it can't be written: ", "unread"),
    (&["plan", "pilot.depot", "--svg", "no/p.svg"], 2, "", "no/p.svg: it can't be written: ", "unread"),
    (&["plan", "pilot.depot", "-o", "sub"], 2, "", "sub: it can't be written: ", "unread"),
    (&["plan", "pilot.depot", "--names", "pilot.depot"], 2, "", "pilot.depot: it has names: ", "usage"),
    (&["plan", "pilot.book", "--names", "grows.depot"], 2, "", "grows.depot: the book has 1 crew, the", "usage"),
    (&["plan", "pilot.book", "--names", "nofile"], 2, "", "nofile: there is no such file\n", "unread"),
    (&["plan", "pilot.book", "--names", "typo.depot"], 3, "", "typo.depot:11:24: no value of grade", "error"),
    (&["plan", "typo.depot"], 3, "", "typo.depot:11:24: no value of grade is called `sortr`\n", "error"),
    (&["plan", "empty.depot"], 3, "", "empty.depot: the file says nothing (refusal 3)\n", "error"),
    (&["plan", "refused.book"], 3, "", "refused.book:2:5: crew 01, but ", "refused"),
    (&["check", "pilot.depot"], 0, "pilot.depot: good. 1 person, 1 crew, 2 attributes, 3 values, 3 leads,", "", "good"),
    (&["check", "nofile"], 2, "", "nofile: there is no such file\n", "unread"),
    (&["check", "typo.depot"], 3, "", "typo.depot:11:24: no value", "error"),
    (&["check", "refused.book"], 3, "", "refused.book:2:5: ", "refused"),
    (&["book", "pilot.depot"], 0, "010101020201\n0402000000\n030500000000\n", "", "book"),
    (&["book", "pilot.depot", "-o", "out.book"], 0, "", "", "book"),
    (&["book", "pilot.depot", "-o", "no/out.book"], 2, "", "no/out.book: it can't be written: ", "unread"),
    (&["book", "typo.depot"], 3, "", "typo.depot:11:24: ", "error"),
    (&["words", "pilot.book"], 0, "persons person-0\ncrews crew-0\n", "", "words"),
    (&["words", "pilot.book", "--names", "pilot.depot"], 0, "persons Ana\ncrews returns\n", "", "words"),
    (&["words", "nofile"], 2, "", "nofile: there is no such file\n", "unread"),
    (&["words", "refused.book"], 3, "", "refused.book:2:5: ", "refused"),
    (&["tidy", "pilot.book"], 0, "010101020201\n", "pilot.book: nothing to put right\n", "tidy"),
    (&["tidy", "nofile"], 2, "", "nofile: there is no such file\n", "unread"),
    (&["tidy", "pilot.book", "-o", "no/x"], 2, "", "no/x: it can't be written: ", "unread"),
    (&["tidy", "refused.book"], 3, "010101020201\n", "refused.book: nothing to put right\n", "refused"),
    (
        &["open", "pilot.depot", "new.ledger"],
        0,
        "new.ledger: the ledger of the starting facts, 1792 bytes; new.ledger.names: the names in it.\n",
        "",
        "done",
    ),
    (&["open", "pilot.depot", "no/new.ledger"], 2, "", "no/new.ledger: it can't be written: ", "unread"),
    (&["open", "typo.depot", "new.ledger"], 3, "", "typo.depot:11:24: ", "error"),
    (
        &["request", "pilot.depot", "--start", "shift assigns Ana to returns"],
        0,
        "PERMITTED at the start: shift assigns Ana to returns  (line 10, no condition). Nothing is written.\n",
        "",
        "permitted",
    ),
    (
        &["request", "pilot.depot", "pilot.ledger", "lanes adds lane control to Ana"],
        1,
        "NOT PERMITTED: line 12 (rule 3) lets lanes do this `if directly has grade sorter`, and that does not\n\
         hold of Ana (refusal 15).\n",
        "",
        "not permitted",
    ),
    (
        &["request", "pilot.depot", "pilot.ledger", "shift adds lane control to Ana"],
        1,
        "NOT PERMITTED: no rule lets shift do this, to whatever person (refusal 13). There are rules for\n\
         lanes (line 12).\n",
        "",
        "not permitted",
    ),
    (
        &["request", "pilot.depot", "pilot.ledger", "shift deletes lane control from crew returns"],
        1,
        "NOT PERMITTED: no rule lets shift do this, to whatever crew (refusal 13). Nor has any other lead\nsuch",
        "",
        "not permitted",
    ),
    (
        &["request", "pilot.depot", "no.ledger", "shift assigns Ana to returns"],
        2,
        "",
        "no.ledger: there is no such file; `depot open pilot.depot no.ledger` makes a ledger",
        "usage",
    ),
    (
        &["request", "pilot.depot", "pilot.ledger", "shift assigns Ana to retuns"],
        3,
        "",
        "request:1:22: no crew is called `retuns`\n  shift assigns Ana to retuns\n",
        "error",
    ),
    (&["request", "pilot.depot", "--start", ""], 3, "", "request: a request is missing\n", "error"),
    (&["request", "pilot.depot", "--start", "0700000000"], 3, "", "request:1:1: no request has these", "error"),
    (&["request", "pilot.depot", "--start", "0500010000"], 3, "", "request: it names what this", "refused"),
    (
        &["request", "pilot.depot", "short.ledger", "shift assigns Ana to returns"],
        3,
        "",
        "short.ledger: this is no ledger: it has 9 bytes",
        "refused",
    ),
    (
        &["request", "pilot.depot", "strange.ledger", "shift assigns Ana to returns"],
        3,
        "",
        "strange.ledger: it has persons, crews or values",
        "refused",
    ),
    (&["show", "pilot.depot", "--start", "Ana"], 0, "Ana has nothing, and is in no crew.\n", "", "shown"),
    (&["show", "pilot.depot", "pilot.ledger", "Ana"], 0, "Ana has nothing, and is in no crew.\n", "", "shown"),
    (&["show", "pilot.depot", "no.ledger", "Ana"], 2, "", "no.ledger: there is no such file; ", "usage"),
    (&["show", "pilot.depot", "--start", "Bob"], 3, "", "depot show: `Bob` is no person\n", "error"),
    (&["show", "pilot.depot", "short.ledger", "Ana"], 3, "", "short.ledger: this is no ledger", "refused"),
    (
        &["show", "pilot.depot", "strange.ledger", "Ana"],
        3,
        "",
        "strange.ledger: it has persons, crews or values",
        "refused",
    ),
    (
        &["replay", "pilot.depot", "moves.txt"],
        0,
        "REACHES: 3 requests, each permitted in its turn, let Ana have lane control.\n",
        "",
        "reaches",
    ),
    (&["replay", "pilot.depot", "short.txt"], 1, "ENDS SHORT: 1 request, each permitted", "", "ends short"),
    (
        &["replay", "pilot.depot", "stops.txt"],
        1,
        "STOPS at request 2 of 2, lanes adds lane control to Ana: line 12 (rule 3) lets lanes do this `if\n",
        "",
        "stops",
    ),
    (&["replay", "noway.depot", "moves.txt"], 1, "STOPS at request 3 of 3, lanes adds lane", "", "stops"),
    (&["replay", "pilot.depot", "nofile"], 2, "", "nofile: there is no such file\n", "unread"),
    (&["replay", "pilot.depot", "typo.txt"], 3, "", "typo.txt:1:22: no crew is called `retuns`\n", "error"),
    (&["replay", "typo.depot", "moves.txt"], 3, "", "typo.depot:11:24: ", "error"),
    (&["page", "pilot.depot"], 0, "<!DOCTYPE html>\n", "", "page"),
    (
        &["page", "pilot.depot", "-o", "pilot.html"],
        0,
        "pilot.html: 1 person by the leads shift, quality and lanes: 0 held, 0 held through a crew, 3 that",
        "",
        "page",
    ),
    (&["page", "pilot.depot", "-o", "no/pilot.html"], 2, "", "no/pilot.html: it can't be written: ", "unread"),
    (&["page", "nofile", "-o", "pilot.html"], 2, "", "nofile: there is no such file\n", "unread"),
    (&["page", "typo.depot", "-o", "pilot.html"], 3, "", "typo.depot:11:24: ", "error"),
    (&["page", "grows.depot", "-o", "pilot.html"], 3, "", "grows.depot:8: ", "refused"),
    (
        &["test", "met.depot"],
        0,
        "met.depot\n  passed  line 15: expect yes: may Ana ever have lane control by shift quality lanes\n",
        "",
        "passed",
    ),
    (&["test", "missed.depot"], 1, "missed.depot\n  passed  line 15: ", "", "failed"),
    (&["test", "nofile"], 2, "", "nofile: there is no such file\n", "unread"),
    (&["test", "typo.depot"], 3, "", "typo.depot:11:24: ", "error"),
    (&["test", "pilot.depot"], 3, "", "pilot.depot: the file has no line `expect`, so ", "refused"),
];

#[test]
fn every_status() {
    let folder = folder("statuses");
    for (args, status, out, err, answer) in STATUSES {
        let ran = run(&folder, args);
        assert_eq!(ran.status, *status, "{args:?}\n{}{}", ran.out, ran.err);
        assert!(ran.out.starts_with(out) && out.is_empty() == ran.out.is_empty(), "{args:?}\n{}", ran.out);
        assert!(ran.err.starts_with(err) && err.is_empty() == ran.err.is_empty(), "{args:?}\n{}", ran.err);
        // A ledger that is there is not replaced.
        let _ = std::fs::remove_file(folder.0.join("new.ledger"));
        // For machines: the same status, one object, the file as it was named.
        let (again, objects) = json(&folder, args);
        assert_eq!((again, objects.len()), (*status, 1), "{args:?}");
        assert_eq!(objects[0].get("file").text(), args[1], "{args:?}");
        assert_eq!(objects[0].get("answer").text(), *answer, "{args:?}");
    }
    // No file is left half written.
    assert!(folder.list().iter().all(|name| !name.ends_with(".new")), "{:?}", folder.list());
}

/// Each command has each of its statuses in the table: a lead's request and a question can fail, the others can't.
#[test]
fn the_table_of_statuses_is_whole() {
    let all = ["plan", "check", "book", "words", "tidy", "open", "request", "show", "replay", "page", "test"];
    for command in all {
        for status in 0..=3 {
            let can = status != 1 || matches!(command, "plan" | "request" | "replay" | "test");
            let there = STATUSES.iter().any(|(args, found, ..)| args[0] == command && *found == status);
            assert_eq!(there, can, "{command} {status}");
        }
    }
}

#[test]
fn the_pilot_depot() {
    let folder = folder("pilot");
    let ran = run(&folder, &["plan", "pilot.depot"]);
    assert_eq!((ran.status, ran.out.as_str(), ran.err.as_str()), (0, PILOT_PLAN, ""));
    let ran = run(&folder, &["plan", "noway.depot"]);
    let no_way =
        "NO WAY. By shift and quality no chain of requests, of whatever length and on any persons and crews,\n\
                  ever lets Ana have lane control.\n";
    assert_eq!((ran.status, ran.out.as_str(), ran.err.as_str()), (1, no_way, ""));
    let ran = run(&folder, &["plan", "typo.depot"]);
    let typo = "typo.depot:11:24: no value of grade is called `sortr`\n  \
                quality  may add grade sortr  to persons  if has grade trainee\n                         \
                ^^^^^ did you mean `sorter`?\n";
    assert_eq!((ran.status, ran.out.as_str(), ran.err.as_str()), (3, "", typo));
    let ran = run(&folder, &["check", "pilot.depot"]);
    let good = "pilot.depot: good. 1 person, 1 crew, 2 attributes, 3 values, 3 leads, 3 rules and 1 starting fact.\n\
                Its book has 94 of 65,536 characters.\n";
    assert_eq!((ran.status, ran.out.as_str(), ran.err.as_str()), (0, good, ""));
    let ran = run(&folder, &["book", "pilot.depot"]);
    assert_eq!((ran.status, ran.out, ran.err.as_str()), (0, book(PILOT_BOOK), ""));
    let ran = run(&folder, &["test", "missed.depot"]);
    let table = "missed.depot\n  \
                 passed  line 15: expect yes: may Ana ever have lane control by shift quality lanes\n  \
                 FAILED  line 16: expect yes: may Ana ever have lane control by shift quality\n          \
                 the answer is no way\n1 passed, 1 failed\n";
    assert_eq!((ran.status, ran.out.as_str(), ran.err.as_str()), (1, table, ""));
}

/// The pilot depot's plan for machines, member by member.
#[test]
fn the_pilot_depot_for_machines() {
    let folder = folder("machines");
    let (_, objects) = json(&folder, &["plan", "pilot.depot"]);
    let plan = &objects[0];
    assert_eq!(plan.keys()[5..], ["question", "book", "moves", "plan", "holds", "replay"]);
    assert_eq!(plan.get("question").text(), "may Ana ever have lane control by shift quality lanes");
    assert_eq!(plan.get("book").text(), book(PILOT_BOOK));
    assert_eq!(plan.get("replay").text(), "reaches");
    let requests = ["0500000000", "0101000001", "0102000100"];
    assert_eq!(plan.get("plan").list().iter().map(Json::text).collect::<Vec<_>>(), requests);
    let moves = plan.get("moves").list();
    let keys = ["lead", "op", "person", "attribute", "value", "words", "bytes", "rule", "line", "because"];
    assert_eq!(moves[1].keys(), keys);
    let expected = [
        ("shift", "assign", "shift assigns Ana to returns", 1, 10),
        ("quality", "add", "quality adds grade sorter to Ana", 2, 11),
        ("lanes", "add", "lanes adds lane control to Ana", 3, 12),
    ];
    for ((found, bytes), (lead, op, words, rule, line)) in moves.iter().zip(requests).zip(expected) {
        assert_eq!((found.get("lead").text(), found.get("op").text()), (lead, op));
        assert_eq!((found.get("words").text(), found.get("bytes").text()), (words, bytes));
        assert_eq!((found.get("rule").number(), found.get("line").number()), (rule, line));
    }
    let (_, objects) = json(&folder, &["check", "met.depot"]);
    for (key, count) in [("persons", 1), ("crews", 1), ("attributes", 2), ("values", 3), ("leads", 3), ("edges", 0)]
        .into_iter()
        .chain([("rules", 3), ("facts", 1), ("expectations", 2), ("characters", 94)])
    {
        assert_eq!(objects[0].get(key).number(), count, "{key}");
    }
    let (_, objects) = json(&folder, &["plan", "typo.depot"]);
    let error = &objects[0].get("errors").list()[0];
    assert_eq!((error.get("line").number(), error.get("column").number()), (11, 24));
    assert_eq!(error.get("text").text(), "no value of grade is called `sortr`");
    assert_eq!((error.get("help").text(), error.get("refusal")), ("did you mean `sorter`?", &Json::Null));
    assert_eq!(json(&folder, &["plan", "nofile"]).1[0].get("errors").list()[0].get("help"), &Json::Null);
    let (_, objects) = json(&folder, &["test", "missed.depot"]);
    assert_eq!((objects[0].get("passed").number(), objects[0].get("failed").number()), (1, 1));
    let missed = &objects[0].get("expectations").list()[1];
    assert_eq!((missed.get("line").number(), missed.get("found").text()), (16, "no way"));
    assert_eq!((missed.get("expected").text(), missed.get("passed")), ("yes", &Json::Bool(false)));
}

/// The strict reader of JSON is one.
#[test]
fn json_is_read_strictly() {
    for good in
        ["null", " [ ] ", "{}", "[1,-0.5e+3,true,false]", r#"{"a":"\u00e9\ud83d\ude00\"\\\/\b\f\n\r\t"}"#, "\"é\""]
    {
        assert!(Json::read(good).is_ok(), "{good}: {:?}", Json::read(good));
    }
    assert_eq!(Json::read(r#""\u00e9\ud83d\ude00""#), Ok(Json::Text("é😀".into())));
    for bad in [
        "",
        "nul",
        "01",
        "1.",
        "+1",
        ".5",
        "1e",
        "[1,]",
        "[1 2]",
        "{\"a\"}",
        "{\"a\":1,}",
        "{a:1}",
        "{\"a\":1,\"a\":2}",
    ] {
        assert!(Json::read(bad).is_err(), "{bad}");
    }
    for bad in
        ["\"", "\"\n\"", "\"\\x\"", "\"\\u12\"", "\"\\ud83d\"", "\"\\ude00\"", "1 1", "{} x", "'a'", "NaN", "\u{FEFF}1"]
    {
        assert!(Json::read(bad).is_err(), "{bad}");
    }
}

/// Commands that are wrong: status 2, words on standard error alone.
#[test]
fn usage() {
    let folder = folder("usage");
    let rows: &[(&[&str], &str)] = &[
        (&["pln", "pilot.depot"], "depot: there is no command `pln`: did you mean `plan`?\n"),
        (&["pilot.depot"], "depot: there is no command `pilot.depot`: `depot --help` lists the commands\n"),
        (&[""], "depot: there is no command ``: `depot --help` lists the commands\n"),
        (&["plan"], "depot: `depot plan` takes FILE.. (`-` is standard input); `depot plan --help` has an example\n"),
        (&["plan", "--jsno", "pilot.depot"], "depot: `depot plan` has no option `--jsno`: did you mean `--json`?\n"),
        (
            &["plan", "--start", "pilot.depot"],
            "depot: `depot plan` has no option `--start`: it takes --json, --names, --all, --svg, -o\n",
        ),
        (&["check", "-o", "x", "pilot.depot"], "depot: `depot check` has no option `-o`: "),
        (&["plan", "pilot.depot", "-o"], "depot: behind `-o` comes a file's name\n"),
        (&["plan", "pilot.depot", "--svg="], "depot: behind `--svg` comes a file's name\n"),
        (&["plan", "pilot.depot", "-o", ""], "depot: behind `-o` comes a file's name\n"),
        (
            &["plan", "pilot.depot", "noway.depot", "-o", "x"],
            "depot: `-o` and `--svg` write one file, so they go with one FILE\n",
        ),
        (&["plan", "pilot.depot", "noway.depot", "--svg", "x"], "depot: `-o` and `--svg` write one file"),
        (&["open", "pilot.depot"], "depot: `depot open` takes FILE LEDGER (`-` is standard input); "),
        (&["open", "pilot.depot", "a", "b"], "depot: `depot open` takes FILE LEDGER (`-` is standard input); "),
        (
            &["request", "pilot.depot", "pilot.ledger"],
            "depot: `depot request` takes FILE LEDGER REQUEST (`-` is standard input); ",
        ),
        (&["request", "pilot.depot", "--start"], "depot: `depot request` takes FILE REQUEST (`-` is standard input); "),
        (
            &["request", "pilot.depot", "l", "shift", "assigns"],
            "depot: `depot request` takes FILE LEDGER REQUEST (`-` is standard input); ",
        ),
        (&["show", "pilot.depot"], "depot: `depot show` takes FILE LEDGER [PERSON..] (`-` is standard input); "),
        (&["replay", "pilot.depot"], "depot: `depot replay` takes FILE PLAN (`-` is standard input); "),
        (&["plan", "-", "-"], "depot: `-` is standard input, which can be read once\n"),
        (&["help", "nonsense"], "depot: there is no help on `nonsense`; `depot --help` lists what there is\n"),
        (&["tidy", "pilot.book", "--names", "pilot.depot"], "depot: `depot tidy` has no option `--names`: "),
        (&["plan", "pilot.depot", "--json=no"], "depot: `--json` takes nothing behind it\n"),
        (&["plan", "pilot.depot", "-o", "-"], "depot: a ledger, `-o` and `--svg` name a file; `-` is no file here\n"),
        (&["open", "pilot.depot", "-"], "depot: a ledger, `-o` and `--svg` name a file; `-` is no file here\n"),
    ];
    let before = folder.list();
    for (args, err) in rows {
        let ran = run(&folder, args);
        assert_eq!((ran.status, ran.out.as_str()), (2, ""), "{args:?}");
        assert!(ran.err.starts_with(err), "{args:?}\n{}", ran.err);
    }
    assert_eq!(folder.list(), before);
}

/// Every command's help has an example; what the examples show is what the program says.
#[test]
fn help() {
    let folder = folder("help");
    let commands = ["plan", "check", "book", "words", "tidy", "open", "request", "show", "replay", "page", "test"];
    let overview = run(&folder, &["--help"]);
    for command in commands {
        let ran = run(&folder, &[command, "--help"]);
        assert_eq!((ran.status, ran.err.as_str()), (0, ""), "{command}");
        assert!(ran.out.starts_with(&format!("depot {command} FILE")) || ran.out.contains("BOOK"), "{command}");
        assert!(ran.out.contains(&format!("\n  $ depot {command} ")), "{command}");
        assert!(ran.out.lines().all(|line| line.chars().count() <= 90), "{command}");
        assert_eq!(run(&folder, &["help", command]).out, ran.out, "{command}");
        assert_eq!(run(&folder, &[command, "pilot.depot", "-h"]).out, ran.out, "{command}");
        assert!(overview.out.contains(&format!("\n  depot {command} ")), "{command}");
    }
    for args in [&[][..], &["-h"], &["help"]] {
        let ran = run(&folder, args);
        assert_eq!((ran.status, ran.out.as_str(), ran.err.as_str()), (0, overview.out.as_str(), ""), "{args:?}");
    }
    assert!(overview.out.contains("the words and pictures beside them are not"), "what is not proved");
    assert_eq!(run(&folder, &["--version"]).out, format!("depot {}\n", env!("CARGO_PKG_VERSION")));
    assert_eq!(run(&folder, &["help", "json"]).out, run(&folder, &["help", "JSON"]).out);
    // The examples' answers.
    let shift = ["request", "pilot.depot", "pilot.ledger", "shift assigns Ana to returns"];
    let lanes = ["request", "pilot.depot", "pilot.ledger", "lanes adds lane control to Ana"];
    let rows: &[(&str, &[&str])] = &[
        ("plan", &["plan", "pilot.depot"]),
        ("check", &["check", "typo.depot"]),
        ("request", &lanes),
        ("show", &["show", "pilot.depot", "pilot.ledger", "Ana"]),
    ];
    assert_eq!(run(&folder, &shift).status, 0);
    for (command, args) in rows {
        let help = run(&folder, &["help", command]).out;
        let example = help.split_once("  $ depot ").expect("an example").1;
        let shown: String = example.lines().skip(1).take_while(|line| !line.starts_with("Many")).collect();
        let ran = run(&folder, args);
        let words = |text: &str| text.split_whitespace().map(str::to_string).collect::<Vec<_>>();
        let (shown, said) = (words(&shown), words(&(ran.out + &ran.err)));
        assert!(!shown.is_empty() && said.starts_with(&shown), "{command}\n{shown:?}\n{said:?}");
    }
}

/// The notation's page has an example, which is a good file with the answer of the pilot depot.
#[test]
fn the_example_of_the_notation() {
    let folder = folder("notation");
    for topic in ["NOTATION", "notation"] {
        let page = run(&folder, &["help", topic]).out;
        let example = page.split_once("\nEXAMPLE\n").expect("an example").1;
        let file: String =
            example.lines().map(|line| format!("{}\n", line.strip_prefix("  ").unwrap_or(line))).collect();
        folder.put("example.depot", file);
        let ran = run(&folder, &["plan", "example.depot"]);
        assert_eq!((ran.status, ran.err.as_str()), (0, ""));
        assert_eq!(run(&folder, &["book", "example.depot"]).out, book(PILOT_BOOK));
        let lines = [("line 10,", "line 9,"), ("line 11:", "line 10:"), ("line 12:", "line 11:")];
        let expected = lines.into_iter().fold(PILOT_PLAN.to_string(), |text, (old, new)| text.replace(old, new));
        assert_eq!(ran.out, expected);
    }
}

/// Several files are answered one after the other, and the highest status counts.
#[test]
fn several_files() {
    let folder = folder("several");
    let files = ["pilot.depot", "noway.depot", "typo.depot", "nofile", "pilot.book"];
    let args: Vec<&str> = ["plan"].into_iter().chain(files).collect();
    let ran = run(&folder, &args);
    assert_eq!(ran.status, 3);
    let heads: Vec<&str> = ran.out.lines().filter(|line| line.starts_with('#')).collect();
    assert_eq!(heads, ["# pilot.depot", "# noway.depot", "# pilot.book"]);
    assert!(ran.out.contains(PILOT_PLAN));
    assert!(ran.err.starts_with("typo.depot:11:24: ") && ran.err.ends_with("nofile: there is no such file\n"));
    let (_, objects) = json(&folder, &args);
    let told: Vec<(&str, usize)> =
        objects.iter().map(|object| (object.get("file").text(), object.get("status").number())).collect();
    assert_eq!(told, [("pilot.depot", 0), ("noway.depot", 1), ("typo.depot", 3), ("nofile", 2), ("pilot.book", 0)]);
    for (args, status) in [
        (&["plan", "pilot.depot", "pilot.book"], 0),
        (&["plan", "noway.depot", "pilot.book"], 1),
        (&["plan", "nofile", "noway.depot"], 2),
        (&["check", "pilot.depot", "noway.depot"], 0),
        (&["check", "refused.book", "nofile"], 3),
        (&["test", "met.depot", "missed.depot"], 1),
        (&["book", "pilot.depot", "pilot.book"], 0),
        (&["words", "pilot.book", "pilot.depot"], 0),
        (&["tidy", "pilot.book", "editor.book"], 0),
    ] {
        assert_eq!(run(&folder, args).status, status, "{args:?}");
        assert_eq!(json(&folder, args).1.len(), 2, "{args:?}");
    }
    // Pages of several files go into a folder.
    let ran = run(&folder, &["page", "pilot.depot", "noway.depot", "-o", "sub"]);
    assert_eq!(ran.status, 0, "{}", ran.err);
    assert!(folder.0.join("sub/pilot.html").is_file() && folder.0.join("sub/noway.html").is_file());
    folder.put("sub/pilot.depot", PILOT);
    assert_eq!(run(&folder, &["page", "pilot.depot", "sub/pilot.depot", "-o", "sub"]).status, 2);
    let ran = run(&folder, &["page", "pilot.depot", "noway.depot", "-o", "nowhere"]);
    assert_eq!(ran.status, 2);
    assert!(ran.err.contains("with several files `-o` names a folder, and there is none of this name"));
}

/// `-` is standard input; behind `--` stand files alone.
#[test]
fn standard_input() {
    let folder = folder("input");
    assert_eq!(run_with(&folder, &["plan", "-"], PILOT.as_bytes()).out, PILOT_PLAN);
    assert_eq!(run_with(&folder, &["book", "-"], PILOT.as_bytes()).out, book(PILOT_BOOK));
    assert_eq!(run_with(&folder, &["plan", "-"], book(PILOT_BOOK).as_bytes()).status, 0);
    assert_eq!(run_with(&folder, &["check", "pilot.depot", "-"], PILOT.as_bytes()).status, 0);
    assert_eq!(run_with(&folder, &["show", "-", "--start", "Ana"], PILOT.as_bytes()).status, 0);
    assert_eq!(run_with(&folder, &["replay", "pilot.depot", "-"], b"0500000000\n").status, 1);
    let ran = run_with(&folder, &["check", "-"], b"persons Ana\nAna in low\n");
    assert_eq!(ran.status, 3);
    assert!(ran.err.contains("-:2:8: no crew is called `low`\n"), "{}", ran.err);
    assert_eq!(run_with(&folder, &["plan", "-"], b"").status, 3);
    folder.put("-o", PILOT);
    assert_eq!(run(&folder, &["plan", "--", "-o"]).out, PILOT_PLAN);
    let piped = run(&folder, &["plan", "pilot.depot", "--json"]).out;
    let read = run_with(&folder, &["plan", "-", "--json"], PILOT.as_bytes()).out;
    assert_eq!(read, piped.replace("pilot.depot", "-"));
}

/// What options write.
#[test]
fn options_that_write() {
    let folder = folder("writes");
    let before = folder.list();
    let ran = run(&folder, &["plan", "pilot.depot", "-o", "made.txt", "--svg=made.svg"]);
    assert_eq!((ran.status, ran.out.as_str(), ran.err.as_str()), (0, PILOT_PLAN, ""));
    let moves = String::from_utf8(folder.get("made.txt")).expect("text");
    assert_eq!(moves.lines().next(), Some("# may Ana ever have lane control by shift quality lanes"));
    assert_eq!(moves.lines().count(), 4);
    assert_eq!(run(&folder, &["replay", "pilot.depot", "made.txt"]).status, 0);
    let svg = String::from_utf8(folder.get("made.svg")).expect("text");
    assert!(svg.starts_with("<?xml") && svg.trim_end().ends_with("</svg>") && !svg.contains("<script"));
    // No plan, so nothing is written, and that is said.
    let ran = run(&folder, &["plan", "noway.depot", "-o", "none.txt", "--svg", "none.svg"]);
    assert_eq!((ran.status, ran.err.as_str()), (1, "noway.depot: there is no plan, so none is written\n"));
    let ran = run(&folder, &["book", "pilot.depot", "-o", "made.book"]);
    assert_eq!((ran.status, ran.out.as_str(), folder.get("made.book")), (0, "", book(PILOT_BOOK).into_bytes()));
    let ran = run(&folder, &["words", "made.book", "--names", "pilot.depot", "-o", "made.depot"]);
    assert_eq!((ran.status, ran.out.as_str()), (0, ""));
    assert_eq!(run(&folder, &["book", "made.depot"]).out, book(PILOT_BOOK));
    let ran = run(&folder, &["tidy", "editor.book", "-o", "tidied.book"]);
    assert_eq!((ran.status, ran.out.as_str(), folder.get("tidied.book")), (0, "", book(PILOT_BOOK).into_bytes()));
    assert!(ran.err.contains("ended with CR LF"), "{}", ran.err);
    let ran = run(&folder, &["page", "pilot.depot", "-o", "made.html"]);
    assert_eq!(ran.status, 0);
    let page = String::from_utf8(folder.get("made.html")).expect("text");
    assert_eq!(page, run(&folder, &["page", "pilot.depot"]).out);
    for word in ["<script", "http://www.example", "https://", "<link", "@import", "src="] {
        assert!(!page.contains(word), "{word}");
    }
    let made = ["made.book", "made.depot", "made.html", "made.svg", "made.txt", "tidied.book"];
    let after: Vec<String> = folder.list().into_iter().filter(|name| !before.contains(name)).collect();
    assert_eq!(after, made);
    // A file in names, handed to `tidy -o` by a slip, stays.
    run(&folder, &["tidy", "pilot.depot", "-o", "pilot.depot"]);
    assert_eq!(folder.get("pilot.depot"), PILOT.as_bytes());
    // So does the depot's own file, by whatever it would be overwritten.
    let own: [&[&str]; 5] = [
        &["open", "pilot.depot", "pilot.depot"],
        &["plan", "pilot.depot", "-o", "pilot.depot"],
        &["plan", "pilot.depot", "--svg", "./pilot.depot"],
        &["book", "pilot.depot", "-o", "pilot.depot"],
        &["page", "pilot.depot", "-o", "pilot.depot"],
    ];
    for args in own {
        assert_eq!((run(&folder, args).status, folder.get("pilot.depot")), (2, PILOT.as_bytes().to_vec()), "{args:?}");
    }
}

/// `--all`: the library's own plan; without it no move that is not one of these, in their order, and the others are told of.
#[test]
fn all_moves() {
    let folder = folder("all");
    // Whatever plan the library finds, one move is enough.
    let spare = "persons Ana\ncrews low mid top\nleads shift\nattribute grade clerk\nAna in low\n\
                 shift may add grade clerk to crews\nmay Ana ever have grade clerk by shift\n";
    folder.put("spare.depot", spare);
    for (file, needed) in [("pilot.depot", 3), ("pilot.book", 3), ("grows.depot", 3), ("spare.depot", 1)] {
        let requests = |object: &Json, key: &str| -> Vec<String> {
            let digits = |item: &Json| item.find_text("bytes").unwrap_or_else(|| item.text().to_string());
            object.get(key).list().iter().map(digits).collect()
        };
        let (_, all) = json(&folder, &["plan", file, "--all"]);
        assert_eq!(requests(&all[0], "moves"), requests(&all[0], "plan"), "{file}");
        let (_, short) = json(&folder, &["plan", file]);
        let (moves, plan) = (requests(&short[0], "moves"), requests(&short[0], "plan"));
        assert_eq!((moves.len(), &plan), (needed, &requests(&all[0], "plan")), "{file}");
        let mut rest = plan.iter();
        assert!(moves.iter().all(|one| rest.any(|other| other == one)), "{file}");
        assert_eq!(short[0].get("replay").text(), "reaches", "{file}");
        let told = run(&folder, &["plan", file]).out.contains("`--all` tells");
        assert_eq!(told, moves.len() < plan.len(), "{file}");
        assert!(!run(&folder, &["plan", file, "--all"]).out.contains("these are needed"), "{file}");
    }
}

/// `--names` gives a hexadecimal book its names back.
#[test]
fn names_of_another_file() {
    let folder = folder("names");
    let plain = run(&folder, &["plan", "pilot.book"]).out;
    let named = run(&folder, &["plan", "pilot.book", "--names", "pilot.depot"]).out;
    assert!(plain.contains("lead-0 assigns person-0 to crew-0"), "{plain}");
    // The lines are those of the book.
    let lines = [("line 10,", "line 3,"), ("line 11:", "line 4:"), ("line 12:", "line 5:")];
    let expected = lines.into_iter().fold(PILOT_PLAN.to_string(), |text, (old, new)| text.replace(old, new));
    assert_eq!(named, expected);
    let ran = run(&folder, &["show", "pilot.book", "--names=pilot.depot", "--start", "Ana"]);
    assert_eq!(ran.out, "Ana has nothing, and is in no crew.\n");
    let ran = run(&folder, &["request", "pilot.book", "--start", "lead-0 assigns person-0 to crew-0"]);
    assert_eq!(ran.status, 0, "{}", ran.err);
}

/// A depot in which requests fail in each way.
const RULES: &str = "\
persons Ana Ben
crews low top
leads shift quality
attribute grade trainee sorter clerk
top over low
Ana in top
low has grade trainee
Ben has grade clerk
shift may add grade sorter to persons if has grade trainee and directly has grade clerk
shift may add grade sorter to persons if directly has grade trainee
quality may assign to low if in low and directly in low
quality may assign to top if has grade sorter or higher
quality may add grade clerk to crews if directly has grade trainee
quality may delete grade trainee from crews
shift may remove from top if in low
may Ana ever have grade clerk by shift quality
";

/// A ledger is changed by a permitted request alone, and just as the library changes it; a refused one has the library's
/// number, rule and term, the line and the condition's words.
#[test]
fn requests_on_a_ledger() {
    let folder = folder("ledger");
    folder.put("rules.depot", RULES);
    let characters = run(&folder, &["book", "rules.depot"]).out.into_bytes();
    assert_eq!(run(&folder, &["open", "rules.depot", "rules.ledger"]).status, 0);
    let mut ledger = folder.get("rules.ledger");
    let mut opened = vec![0; LEDGER_SIZE];
    bytes::open(&characters, &mut opened).expect("a good book");
    assert_eq!(ledger, opened);
    // A request, its bytes, and of a refusal the line and the condition, or nothing for no rule.
    type Asked<'a> = (&'a str, [u8; 5], Option<(usize, &'a str)>);
    let rows: &[Asked<'_>] = &[
        ("shift adds grade sorter to Ana", [1, 0, 0, 0, 1], Some((9, "directly has grade clerk"))),
        ("shift adds grade sorter to Ben", [1, 0, 1, 0, 1], Some((9, "has grade trainee"))),
        ("quality assigns Ana to low", [5, 1, 0, 0, 0], Some((11, "directly in low"))),
        ("quality assigns Ben to low", [5, 1, 1, 0, 0], Some((11, "in low"))),
        ("quality assigns Ana to top", [5, 1, 0, 1, 0], Some((12, "has grade sorter or higher"))),
        ("quality adds grade clerk to crew top", [3, 1, 1, 0, 2], Some((13, "directly has grade trainee"))),
        ("quality adds grade clerk to top", [3, 1, 1, 0, 2], Some((13, "directly has grade trainee"))),
        ("shift removes Ben from top", [6, 0, 1, 1, 0], Some((15, "in low"))),
        ("shift adds grade clerk to Ana", [1, 0, 0, 0, 2], None),
        ("quality deletes grade clerk from Ben", [2, 1, 1, 0, 2], None),
        ("quality assigns Ben to top", [5, 1, 1, 1, 0], None),
        ("quality adds grade clerk to crew low", [3, 1, 0, 0, 2], None),
        ("quality deletes grade trainee from crew top", [4, 1, 1, 0, 0], None),
        ("quality deletes grade trainee from low", [4, 1, 0, 0, 0], None),
        ("shift removes Ana from top", [6, 0, 0, 1, 0], None),
        ("0600000100", [6, 0, 0, 1, 0], Some((15, "in low"))),
    ];
    let mut counts = [0; 3];
    for (words, request, refused) in rows {
        let answer = bytes::request(&characters, &mut ledger, request);
        let (status, objects) = json(&folder, &["request", "rules.depot", "rules.ledger", words]);
        let object = &objects[0];
        let digits: String = request.iter().map(|byte| format!("{byte:02X}")).collect();
        assert_eq!(object.get("request").get("bytes").text(), digits, "{words}");
        assert_eq!(folder.get("rules.ledger"), ledger, "{words}");
        match answer {
            Ok(()) => {
                counts[0] += 1;
                assert_eq!((status, object.get("answer").text()), (0, "done"), "{words}");
            }
            Err(refusal) => {
                assert_eq!((status, object.get("answer").text()), (1, "not permitted"), "{words}");
                assert_eq!(object.get("refusal").number(), usize::from(refusal.number()), "{words}");
                let ran = run(&folder, &["request", "rules.depot", "rules.ledger", words]);
                let said = ran.out.replace('\n', " ");
                assert!(said.contains(&format!("(refusal {})", refusal.number())), "{words}\n{said}");
                assert!(said.starts_with("NOT PERMITTED: "), "{words}\n{said}");
                assert_eq!(said.trim_end(), format!("NOT PERMITTED: {}", object.get("text").text()));
                if let Refusal::UnmetTerm { rule, term } = refusal {
                    counts[1] += 1;
                    let (line, condition) = refused.unwrap_or_else(|| panic!("{words}: {refusal}"));
                    assert_eq!(object.get("rule").number(), usize::from(rule), "{words}");
                    assert_eq!(object.get("term").number(), usize::from(term), "{words}");
                    assert_eq!(object.get("line").number(), line, "{words}");
                    assert!(said.contains(&format!("line {line} (rule {rule}) lets ")), "{words}\n{said}");
                    assert!(said.contains(&format!("`if {condition}`")), "{words}\n{said}");
                } else {
                    counts[2] += 1;
                    assert_eq!((refusal.number(), refused.is_none()), (13, true), "{words}");
                }
                assert_eq!(folder.get("rules.ledger"), ledger, "{words}");
            }
        }
    }
    // Of the rows: permitted, a condition that does not hold, no rule.
    assert_eq!(counts, [5, 9, 2]);
    // With `--start` nothing is written, and a ledger that is not of this book is left as it is.
    for args in [
        &["request", "rules.depot", "--start", "shift removes Ana from top"][..],
        &["request", "rules.depot", "rules.ledger", "shift removes Ann from top"],
        &["request", "pilot.depot", "rules.ledger", "shift assigns Ana to returns"],
    ] {
        run(&folder, args);
        assert_eq!(folder.get("rules.ledger"), ledger, "{args:?}");
    }
    let again = run(&folder, &["request", "rules.depot", "--start", "shift removes Ben from low"]);
    assert_eq!(again.status, 1, "{}", again.out);
}

/// A ledger keeps its place and who may read it.
#[test]
#[cfg(unix)]
fn a_ledger_behind_a_link() {
    use std::os::unix::fs::{symlink, PermissionsExt as _};
    let folder = folder("link");
    let path = folder.0.join("pilot.ledger");
    std::fs::set_permissions(&path, std::fs::Permissions::from_mode(0o600)).expect("its owner may");
    symlink("pilot.ledger", folder.0.join("link.ledger")).expect("a link can be made");
    let ran = run(&folder, &["request", "pilot.depot", "link.ledger", "shift assigns Ana to returns"]);
    assert_eq!(ran.status, 0, "{}", ran.err);
    // Behind 1,536 stand the crews of person 0, high byte first.
    assert_eq!(folder.get("link.ledger")[1_536..1_540], [0, 0, 0, 1]);
    assert_eq!(folder.get("pilot.ledger")[1_536..1_540], [0, 0, 0, 1]);
    assert!(folder.0.join("link.ledger").is_symlink());
    assert_eq!(std::fs::metadata(&path).expect("it is there").permissions().mode() & 0o777, 0o600);
}

/// What was so already is said, and the ledger stays.
#[test]
fn a_request_that_changes_nothing() {
    let folder = folder("already");
    let args = ["request", "pilot.depot", "pilot.ledger", "shift assigns Ana to returns"];
    let first = run(&folder, &args);
    assert_eq!(first.out, "DONE: shift assigns Ana to returns  (line 10, no condition).\n");
    let ledger = folder.get("pilot.ledger");
    let second = run(&folder, &args);
    assert_eq!(second.out, "DONE: shift assigns Ana to returns  (line 10, no condition). It was so already.\n");
    assert_eq!((second.status, folder.get("pilot.ledger")), (0, ledger));
    let ran = run(&folder, &["show", "pilot.depot", "pilot.ledger", "Ana"]);
    assert_eq!(ran.out, "Ana has grade trainee (through returns), and is in returns.\n");
}

/// Names of any letters, and names that HTML would read, go through every command.
#[test]
fn names_of_any_letters() {
    let folder = folder("letters");
    for (person, crew, lead, attribute, value) in [
        ("Zoë", "réception", "chef-d’équipe", "clé", "entrepôt-nº1"),
        ("ليلى", "المرتجعات", "الوردية", "درجة", "فارز"),
        ("王小明", "退货组", "班长", "等级", "分拣员"),
        ("👩🏽‍🔧", "Å\u{30A}", "ß", "ﬁ", "𝔘"),
        ("<b>Ana</b>", "a&amp;b", "\"shift\"", "'key'", "</title><script>x</script>"),
        ("\\n\"\\", "C:\\temp", "{}", "[\"]", "%s$HOME`id`"),
    ] {
        let file = format!(
            "persons {person}\ncrews {crew}\nleads {lead}\nattribute {attribute} x {value}\n{crew} has {attribute} x\n\
             {lead} may assign to {crew}\n{lead} may add {attribute} {value} to persons if has {attribute} x\n\
             may {person} ever have {attribute} {value} by {lead}\n"
        );
        folder.put("letters.depot", &file);
        let ran = run(&folder, &["plan", "letters.depot", "--svg", "letters.svg"]);
        assert_eq!(ran.status, 0, "{}", ran.err);
        let first = format!("YES: {person} can come to have {attribute} {value}, in 2 moves by {lead}.");
        assert_eq!(ran.out.split("\n\n").next().map(|line| line.replace('\n', " ")), Some(first));
        assert!(ran.out.contains(&format!("1. {lead} assigns {person} to {crew}")), "{}", ran.out);
        let (_, objects) = json(&folder, &["plan", "letters.depot"]);
        let last = &objects[0].get("moves").list()[1];
        let keys = [("person", person), ("lead", lead), ("attribute", attribute), ("value", value)];
        keys.into_iter().for_each(|(key, name)| assert_eq!(last.get(key).text(), name));
        assert_eq!(objects[0].get("moves").list()[0].get("crew").text(), crew);
        let ran = run(&folder, &["show", "letters.depot", "--start", person]);
        assert_eq!(ran.out, format!("{person} has nothing, and is in no crew.\n"));
        let ran = run(&folder, &["words", "letters.depot", "-o", "again.depot"]);
        assert_eq!(ran.status, 0, "{}", ran.err);
        assert_eq!(run(&folder, &["book", "again.depot"]).out, run(&folder, &["book", "letters.depot"]).out);
        let request = format!("{lead} assigns {person} to {crew}");
        let ran = run(&folder, &["request", "letters.depot", "--start", &request]);
        assert_eq!(
            ran.out,
            format!("PERMITTED at the start: {request}  (line 6, no condition). Nothing is written.\n")
        );
        let page = run(&folder, &["page", "letters.depot"]).out;
        let svg = String::from_utf8(folder.get("letters.svg")).expect("text");
        for text in [page, svg] {
            let escaped = person.replace('&', "&amp;").replace('<', "&lt;").replace('>', "&gt;").replace('"', "&quot;");
            assert!(text.contains(person) || text.contains(&escaped), "{person}");
            assert!(!text.contains("<b>Ana") && !text.contains("<script"), "{person}");
        }
        // A word that is not there is underlined in cells.
        folder.put("wrong.depot", file.replace(&format!("may assign to {crew}"), &format!("may assign to {crew}x")));
        let ran = run(&folder, &["check", "wrong.depot"]);
        assert_eq!(ran.status, 3);
        assert!(ran.err.contains(&format!("no crew is called `{crew}x`\n")), "{}", ran.err);
        assert!(ran.err.contains(&format!("did you mean `{crew}`?")), "{}", ran.err);
    }
}

/// Files that are no depot: of no bytes, of a million, of any bytes. An error, never a panic, and soon.
#[test]
fn files_of_all_kinds() {
    const MILLION: usize = 1_000_000;
    let folder = folder("kinds");
    let mut chance = Chance::new(7);
    let random: Vec<u8> = (0..MILLION).map(|_| chance.any() as u8).collect();
    let long_name = [b"persons Ana\n", b"z".repeat(MILLION).as_slice(), b" may assign to low\n"].concat();
    let files: &[(&str, Vec<u8>)] = &[
        ("zero", Vec::new()),
        ("letters", b"a".repeat(MILLION)),
        ("zeros", b"0".repeat(MILLION)),
        ("lines", b"\n".repeat(MILLION)),
        ("carriage", b"\r".repeat(MILLION)),
        ("random", random),
        ("persons", b"persons ".repeat(MILLION / 8)),
        ("statements", b"x\n".repeat(MILLION / 2)),
        ("commas", b",".repeat(MILLION)),
        ("hashes", b"#".repeat(MILLION)),
        ("nul", vec![0; 4_096]),
        ("long-name", long_name),
        ("half", b"persons Ana\xC3".to_vec()),
        ("frames", b"0101000101\n".repeat(6_000)),
    ];
    for (name, bytes) in files {
        for ending in [".depot", ".book", ""] {
            let file = format!("{name}{ending}");
            folder.put(&file, bytes);
            let commands: &[&str] = match ending {
                ".depot" => &["plan", "check", "words", "test", "book", "page"],
                ".book" => &["plan", "tidy", "words"],
                _ => &["check", "tidy"],
            };
            for command in commands {
                // Each run is judged: no panic, status 0 to 3, within two seconds.
                let ran = run(&folder, &[command, &file]);
                assert_eq!(ran.status, 3, "{command} {file}");
                assert!(!ran.err.is_empty(), "{command} {file}");
                assert!(ran.err.len() < 20_000, "{command} {file}: {} bytes", ran.err.len());
            }
            if ending == ".depot" {
                json(&folder, &["plan", &file]);
            }
        }
        // As a ledger, a plan and names.
        for args in [
            &["request", "pilot.depot", name, "shift assigns Ana to returns"][..],
            &["show", "pilot.depot", name, "Ana"],
            &["plan", "pilot.book", "--names", name],
        ] {
            assert_eq!(run(&folder, args).status, 3, "{args:?}");
        }
        // Nothing is a plan of no request, which ends short; a frame of ten digits is a request, which stops.
        let plan = matches!(*name, "zero" | "lines" | "carriage" | "commas" | "hashes" | "frames");
        assert_eq!(run(&folder, &["replay", "pilot.depot", name]).status, if plan { 1 } else { 3 }, "{name}");
    }
    // As standard input.
    assert_eq!(run_with(&folder, &["plan", "-"], &b"a".repeat(MILLION)).status, 3);
    // A file that is too long to be read: one byte over 16 MB.
    let huge = std::fs::File::create(folder.0.join("huge.depot")).expect("a file can be made");
    huge.set_len((16 << 20) + 1).expect("it can be long");
    for command in ["plan", "tidy"] {
        let ran = run(&folder, &[command, "huge.depot"]);
        assert_eq!((ran.status, ran.err.as_str()), (2, "huge.depot: over 16 MB: no depot is so long\n"), "{command}");
    }
    huge.set_len(16 << 20).expect("it can be shorter");
    assert_eq!(run(&folder, &["plan", "huge.depot"]).status, 3);
}

/// A reader that goes away is no panic.
#[test]
fn a_closed_pipe() {
    let folder = folder("pipe");
    for args in [&["plan", "-"][..], &["plan", "-", "--json"], &["page", "-"], &["book", "-", "pilot.depot"]] {
        let mut child = Command::new(env!("CARGO_BIN_EXE_depot"))
            .args(args)
            .current_dir(&folder.0)
            .stdin(Stdio::piped())
            .stdout(Stdio::piped())
            .stderr(Stdio::piped())
            .spawn()
            .expect("the program runs");
        // The program waits for its input, so the reader is gone before it writes.
        drop(child.stdout.take());
        child.stdin.take().expect("a pipe").write_all(PILOT.as_bytes()).expect("it reads");
        let Output { status, stderr, .. } = child.wait_with_output().expect("the program ends");
        let err = String::from_utf8_lossy(&stderr);
        assert!(matches!(status.code(), Some(0..=3)) && !err.contains("panicked"), "{args:?}: {status}\n{err}");
    }
}

/// A full device: what can't be told is not done.
#[test]
#[cfg(target_os = "linux")]
fn a_full_device() {
    let folder = folder("full");
    for args in [&["book", "pilot.depot"][..], &["plan", "pilot.depot"], &["help"]] {
        let full = std::fs::OpenOptions::new().write(true).open("/dev/full").expect("the device");
        let output = Command::new(env!("CARGO_BIN_EXE_depot"))
            .args(args)
            .current_dir(&folder.0)
            .stdout(full)
            .output()
            .expect("the program runs");
        let err = String::from_utf8_lossy(&output.stderr);
        assert!(!err.contains("panicked"), "{args:?}\n{err}");
        assert_eq!(output.status.code(), Some(2), "{args:?}");
        assert!(err.contains("the answer can't be written"), "{args:?}\n{err}");
    }
}

/// A ledger has numbers alone: it is refused with a file in which a name has another number, and taken where names were
/// only added behind the others. One that is there is not replaced.
#[test]
fn names_of_a_ledger() {
    let folder = folder("names-of-a-ledger");
    assert_eq!(run(&folder, &["open", "pilot.depot", "a.ledger"]).status, 0);
    let names = "persons Ana\ncrews returns\nleads shift quality lanes\nattribute grade trainee sorter\nattribute lane control\n";
    assert_eq!(folder.get("a.ledger.names"), names.as_bytes());
    let again = run(&folder, &["open", "pilot.depot", "a.ledger"]);
    assert_eq!(again.status, 2);
    assert!(again.err.starts_with("a.ledger: it is there, and a ledger in use is not replaced"), "{}", again.err);
    let rows = [
        ("persons    Ana", "persons    Ana Ben", None),
        ("crews      returns", "crews      returns night", None),
        ("trainee sorter", "trainee sorter clerk", None),
        ("leads      shift", "leads      boss shift", None),
        ("persons    Ana", "persons    Aaron Ana", Some("person 0 was `Ana`, and now it is `Aaron`")),
        ("crews      returns", "crews      night returns", Some("crew 0 was `returns`, and now it is `night`")),
        (
            "crews      returns",
            "crews      returns night\nreturns over night",
            Some("crew 0 was `returns`, and now it is `night`"),
        ),
        ("attribute  lane", "attribute  cage", Some("attribute 1 was `lane`, and now it is `cage`")),
        ("trainee sorter", "learner trainee sorter", Some("value 0 was `trainee`, and now it is `learner`")),
    ];
    for (old, new, differs) in rows {
        let changed = PILOT
            .replace(old, new)
            .replace("lane control", if new.contains("cage") { "cage control" } else { "lane control" });
        folder.put("other.depot", changed);
        let before = folder.get("a.ledger");
        for args in [
            &["show", "other.depot", "a.ledger", "Ana"][..],
            &["request", "other.depot", "a.ledger", "shift assigns Ana to returns"],
        ] {
            let ran = run(&folder, args);
            assert_eq!(ran.status, if differs.is_some() { 3 } else { 0 }, "{new}: {args:?}\n{}", ran.err);
            if let Some(differs) = differs {
                let said = format!("a.ledger: it was opened with other names than other.depot has: {differs}\n");
                assert!(ran.err.starts_with(&said), "{new}\n{}", ran.err);
                assert_eq!(folder.get("a.ledger"), before, "{new}");
            }
        }
    }
    // Without names beside it, it is taken as it is: the library writes none.
    std::fs::remove_file(folder.0.join("a.ledger.names")).expect("it is there");
    assert_eq!(
        run(&folder, &["show", "pilot.depot", "a.ledger"]).out,
        "Ana has grade trainee (through returns), and is in returns.\n"
    );
}

/// What is no ledger of a depot, and why.
#[test]
fn bad_ledgers() {
    let folder = folder("bad-ledgers");
    folder.put("long.ledger", [0; 1_793]);
    let mut foreign = [0; 1_792];
    foreign[0] = 1;
    folder.put("foreign.ledger", foreign);
    for (ledger, said) in [
        ("short.ledger", "this is no ledger: it has 9 bytes, and a ledger has 1,792 (refusal 11)\n"),
        ("long.ledger", "this is no ledger: it has more bytes, and a ledger has 1,792 (refusal 11)\n"),
        (
            "foreign.ledger",
            "it has persons, crews or values that this depot lacks: another depot's ledger? (refusal 11)\n",
        ),
    ] {
        for args in
            [&["show", "pilot.depot", ledger][..], &["request", "pilot.depot", ledger, "shift assigns Ana to returns"]]
        {
            let ran = run(&folder, args);
            assert_eq!((ran.status, ran.err), (3, format!("{ledger}: {said}")), "{args:?}");
        }
    }
}

/// What a good file perhaps does not mean, and how a refusal 13 and a wrong person are told.
#[test]
fn remarks_and_hints() {
    let folder = folder("remarks");
    let slip = PILOT
        .replace("leads      shift", "leads      shfit shift")
        .replace("crews      returns", "crews      returns yard");
    folder.put("slip.depot", slip.replace("\nshift    may", "\nshfit    may"));
    let remarks = "Is this meant? lead shift has no rule.\n";
    let crews = "Is this meant? nobody is in crew yard, and no rule assigns to it or to a crew above it.\n";
    assert!(run(&folder, &["check", "slip.depot"]).out.ends_with(&format!("{remarks}{crews}")));
    let ran = run(&folder, &["plan", "slip.depot"]);
    assert_eq!(ran.status, 1);
    assert!(ran.out.starts_with("NO WAY. ") && ran.out.ends_with(remarks), "{}", ran.out);
    assert!(!run(&folder, &["check", "pilot.depot"]).out.contains("meant"));
    let ran = run(&folder, &["request", "pilot.depot", "--start", "quality adds grade sorter to returns"]);
    let said = "NOT PERMITTED: no rule lets quality do this, to whatever crew (refusal 13). Line 11 lets quality do\n\
                it to persons, and this is a crew.\n";
    assert_eq!((ran.status, ran.out.as_str()), (1, said));
    for (name, said) in [
        ("Anna", "depot show: `Anna` is no person\n  did you mean `Ana`?\n"),
        ("returns", "depot show: `returns` is a crew, and persons are shown\n  known: Ana\n"),
    ] {
        let ran = run(&folder, &["show", "pilot.depot", "--start", name]);
        assert_eq!((ran.status, ran.err.as_str()), (3, said));
    }
}
