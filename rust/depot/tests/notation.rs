//! The notation: each form with its book, each error with its place, several errors at once, and files drawn at random.
//!
//! The digits are worked out by hand from docs/BOOK.md; blanks part their fields.

mod support;

use std::panic::{catch_unwind, AssertUnwindSafe};
use std::time::{Duration, Instant};

use bixorgun::{bytes, LEDGER_SIZE};
use depot::compile::compile;
use depot::fault::{show_all, Fault};
use depot::load::{load_bytes, Loaded, Trouble};
use depot::model::Said;
use depot::paint::Paint;
use depot::source::split;
use support::{book, Chance, PILOT, PILOT_BOOK};

/// Names for most rows: persons Ana 0, Ben 1; crews low 0, mid 1, top 2; leads shift 0, quality 1, lanes 2; attributes
/// grade 0 (trainee 0, sorter 1, clerk 2), lane 1 (control 0). Five lines, so what stands behind begins in line 6.
const NAMES: &str = "\
persons Ana Ben
crews low mid top
leads shift quality lanes
attribute grade trainee sorter clerk
attribute lane control
";
/// Their frame 01: two persons, three crews, two attributes with three values and one.
const SIZES: &str = "01 02 03 02 03 01";

/// A question in mode 01, by role 2, with one set: of attribute 1 the value 0.
const QUESTION: &str = "may Ana ever have lane control by lanes\n";
const QUESTION_FRAME: &str = "05 01 00 0004 01 01 0001";

/// A question in mode 03, by the same role, with no crew.
const DIRECT: &str = "may Ana ever directly have lane control by lanes\n";
const DIRECT_FRAME: &str = "05 03 00 0004 01 01 0001 00000000";

/// A file in names, handed over as the program does.
fn load(text: impl AsRef<[u8]>) -> Result<Loaded, Trouble> {
    load_bytes("a.depot", text.as_ref(), true)
}

/// The characters of the book that a good file has.
fn compiled(text: &str) -> String {
    match load(text) {
        Ok(loaded) => String::from_utf8(loaded.book.expect("a question").characters).expect("digits"),
        Err(trouble) => panic!("{text}\n{trouble:?}"),
    }
}

/// What is wrong with a file.
fn faults(text: impl AsRef<[u8]>) -> Vec<Fault> {
    faults_of(load(text.as_ref()), text.as_ref())
}

fn faults_of(loaded: Result<Loaded, Trouble>, text: &[u8]) -> Vec<Fault> {
    match loaded {
        Err(Trouble::Faults { faults, refused, .. }) => {
            assert!(!refused, "a file in names is refused before its book is");
            faults
        }
        other => panic!("{}\n{other:?}", String::from_utf8_lossy(text)),
    }
}

/// The number by which the library refuses a book; nothing where it takes it.
fn refusal(characters: &str) -> Option<u8> {
    bytes::open(characters.as_bytes(), &mut [0; LEDGER_SIZE]).err().map(|refusal| refusal.number())
}

// Forms.

/// Statements behind `NAMES` and before `QUESTION`, each with its frame.
const STATEMENTS: &[(&str, &str)] = &[
    // Facts of persons, of crews, and persons in crews.
    ("Ana has grade trainee", "04 01 00 00 00"),
    ("Ana has grade clerk", "04 01 00 00 02"),
    ("Ben has lane control", "04 01 01 01 00"),
    ("low has grade trainee", "04 02 00 00 00"),
    ("top has grade sorter", "04 02 02 00 01"),
    ("mid has lane control", "04 02 01 01 00"),
    ("Ana in low", "04 03 00 00 00"),
    ("Ben in top", "04 03 01 02 00"),
    // Edges.
    ("mid over low", "02 01 00"),
    ("top over low", "02 02 00"),
    ("top over mid", "02 02 01"),
    // Commas, tabs, many blanks and blanks around; a comment behind; blanks that are not ASCII.
    ("Ana, has, grade, clerk", "04 01 00 00 02"),
    ("\tAna\thas \t grade   clerk\t", "04 01 00 00 02"),
    ("  Ben in top  # since Monday, has #1", "04 03 01 02 00"),
    ("Ben in top #", "04 03 01 02 00"),
    ("Ben\u{A0}in\u{3000}top", "04 03 01 02 00"),
    (",,Ben,in,,top,", "04 03 01 02 00"),
    // Rules without a condition are in the table of rules; here several conditions, in their order.
    (
        "shift may assign to top if has grade sorter and directly has lane control and in low and directly in mid",
        "03 05 00 02 00 04 02 00 01 01 01 00 04 00 00 03 01 00",
    ),
    (
        "quality may delete grade clerk from crews if has grade trainee or higher and has lane control",
        "03 04 01 00 02 02 05 00 00 02 01 00",
    ),
    // Eight conditions, the same one over and over.
    (
        "lanes may remove from mid if in low and in low and in low and in low and in low and in low and in low and in low",
        "03 06 02 01 00 08 040000 040000 040000 040000 040000 040000 040000 040000",
    ),
];

#[test]
fn statements_become_frames() {
    for (words, frame) in STATEMENTS {
        let text = format!("{NAMES}{words}\n{QUESTION}");
        assert_eq!(compiled(&text), book(&[SIZES, frame, QUESTION_FRAME]), "{words}");
    }
}

/// What a rule lets do: its words, and its op, role, a and v.
const CHANGES: &[(&str, &str)] = &[
    ("shift may add grade sorter to persons", "01 00 00 01"),
    ("quality may delete lane control from persons", "02 01 01 00"),
    ("lanes may add grade clerk to crews", "03 02 00 02"),
    ("shift may delete grade trainee from crews", "04 00 00 00"),
    ("quality may assign to mid", "05 01 01 00"),
    ("lanes may remove from top", "06 02 02 00"),
];

/// Conditions: the words, the term's bytes, and whether it says "not".
const CONDITIONS: &[(&str, &str, bool)] = &[
    ("directly has grade clerk", "01 00 02", false),
    ("has lane control", "02 01 00", false),
    ("directly in top", "03 02 00", false),
    ("in mid", "04 01 00", false),
    ("has grade sorter or higher", "05 00 01", false),
    ("has grade clerk or higher", "05 00 02", false),
    ("not directly has grade trainee", "81 00 00", true),
    ("not directly in low", "83 00 00", true),
];

/// Each change with each condition, and with none: where the library takes the book, the file is good and has that book;
/// where it refuses, the file has a fault with the same number.
#[test]
fn changes_with_conditions() {
    let mut counts = [0, 0];
    for (change, bytes) in CHANGES {
        let bare = format!("03 {bytes} 00");
        assert_eq!(
            compiled(&format!("{NAMES}{change}\n{QUESTION}")),
            book(&[SIZES, &bare, QUESTION_FRAME]),
            "{change}"
        );
        for (condition, term, not) in CONDITIONS {
            let (question, last) = if *not { (DIRECT, DIRECT_FRAME) } else { (QUESTION, QUESTION_FRAME) };
            let text = format!("{NAMES}{change} if {condition}\n{question}");
            let characters = book(&[SIZES, &format!("03 {bytes} 01 {term}"), last]);
            match refusal(&characters) {
                None => assert_eq!(compiled(&text), characters, "{change} if {condition}"),
                Some(number) => {
                    let found = faults(&text);
                    assert_eq!(found.len(), 1, "{change} if {condition}: {found:?}");
                    assert_eq!(found[0].refusal, Some(number), "{change} if {condition}");
                }
            }
            counts[usize::from(refusal(&characters).is_some())] += 1;
        }
    }
    // Terms on crews with the first four ops are 7 (3 x 4); "not" with ops 02, 04 and 06 is 16 (3, and 83 with 06).
    assert_eq!(counts, [48 - 16, 16]);
}

/// Questions behind `NAMES`, each with its frame 05.
const QUESTIONS: &[(&str, &str)] = &[
    // Mode 01.
    ("have lane control by lanes", "05 01 00 0004 01 01 0001"),
    ("have grade clerk by shift", "05 01 00 0001 01 00 0004"),
    ("have grade sorter and lane control by shift quality lanes", "05 01 00 0007 02 00 0002 01 0001"),
    ("have lane control and grade sorter by quality", "05 01 00 0002 02 00 0002 01 0001"),
    ("have lane control and have grade clerk and grade trainee by quality", "05 01 00 0002 02 00 0005 01 0001"),
    ("have lane control by lanes, shift", "05 01 00 0005 01 01 0001"),
    ("have lane control by shift and quality and lanes", "05 01 00 0007 01 01 0001"),
    ("have lane control by nobody", "05 01 00 0000 01 01 0001"),
    ("have at least nothing by shift", "05 01 00 0001 00"),
    ("have at least nothing by nobody", "05 01 00 0000 00"),
    ("have at least nothing of grade by shift", "05 01 00 0001 01 00 0000"),
    ("have at least nothing of lane and grade clerk by shift", "05 01 00 0001 02 00 0004 01 0000"),
    ("have grade clerk and at least nothing of lane by shift", "05 01 00 0001 02 00 0004 01 0000"),
    // Mode 02.
    ("be exactly in low by shift", "05 02 00 0001 00 00000001"),
    ("be exactly in top, low by shift", "05 02 00 0001 00 00000005"),
    ("be exactly in low mid and top by shift", "05 02 00 0001 00 00000007"),
    ("be exactly in no crew by nobody", "05 02 00 0000 00 00000000"),
    ("be exactly in no crew with lane exactly control by lanes", "05 02 00 0004 01 01 0001 00000000"),
    ("be exactly in no crew with lane exactly nothing by lanes", "05 02 00 0004 01 01 0000 00000000"),
    ("be exactly in mid with grade exactly clerk, trainee by lanes", "05 02 00 0004 01 00 0005 00000002"),
    (
        "be exactly in mid with lane exactly nothing with grade exactly trainee and sorter and clerk by lanes",
        "05 02 00 0004 02 00 0007 01 0000 00000002",
    ),
    (
        "be exactly in low and top and with grade exactly nothing and with lane exactly control by shift and lanes",
        "05 02 00 0005 02 00 0000 01 0001 00000005",
    ),
];

/// Questions in mode 03, behind a rule that says "not".
const DIRECT_QUESTIONS: &[(&str, &str)] = &[
    ("directly have lane control by lanes", "05 03 00 0004 01 01 0001 00000000"),
    ("directly be in mid by shift", "05 03 00 0001 00 00000002"),
    ("directly be in top and be in low by shift", "05 03 00 0001 00 00000005"),
    ("directly be in top low by shift", "05 03 00 0001 00 00000005"),
    ("directly be in top, mid and low and have lane control by shift", "05 03 00 0001 01 01 0001 00000007"),
    ("directly have grade clerk and have lane control by shift", "05 03 00 0001 02 00 0004 01 0001 00000000"),
    ("directly be in mid and have grade clerk and have grade trainee by nobody", "05 03 00 0000 01 00 0005 00000002"),
    ("directly have at least nothing by shift", "05 03 00 0001 00 00000000"),
    ("directly have at least nothing of lane and be in low by shift", "05 03 00 0001 01 01 0000 00000001"),
];

#[test]
fn questions_become_frames() {
    let not = ("shift may assign to low if not directly in mid\n", "03 05 00 00 00 01 83 01 00");
    for (words, frame) in QUESTIONS {
        assert_eq!(compiled(&format!("{NAMES}may Ana ever {words}\n")), book(&[SIZES, frame]), "{words}");
        // The same of the other person, and as an expectation.
        let other = frame.replacen(" 00 ", " 01 ", 1);
        assert_eq!(compiled(&format!("{NAMES}may Ben ever {words}\n")), book(&[SIZES, &other]), "{words}");
        expected(&format!("{NAMES}expect yes: may Ben ever {words}\n"), true, &book(&[SIZES, &other]));
        expected(&format!("{NAMES}expect no way: may Ben ever {words}\n"), false, &book(&[SIZES, &other]));
    }
    for (words, frame) in DIRECT_QUESTIONS {
        let text = format!("{NAMES}{}may Ana ever {words}\n", not.0);
        assert_eq!(compiled(&text), book(&[SIZES, not.1, frame]), "{words}");
        let text = format!("{NAMES}expect yes: may Ana ever {words}\n{}", not.0);
        expected(&text, true, &book(&[SIZES, not.1, frame]));
    }
}

/// A file for `test` with one expectation, and the book of its question.
fn expected(text: &str, yes: bool, characters: &str) {
    let loaded = load_bytes("a.depot", text.as_bytes(), false).unwrap_or_else(|trouble| panic!("{text}\n{trouble:?}"));
    assert!(loaded.book.is_none() && loaded.depot.question.is_none(), "{text}");
    let [said] = loaded.depot.expectations.as_slice() else { panic!("{text}\none expectation") };
    assert_eq!(said.what.yes, yes, "{text}");
    let question = Said { line: said.line, what: said.what.question.clone() };
    assert_eq!(String::from_utf8_lossy(&compile(&loaded.depot, &question).characters), characters, "{text}");
    assert_eq!(refusal(characters), None, "{text}");
}

/// Crews named senior first: the numbers follow in an expectation's set, too.
#[test]
fn expectations_have_the_crews_numbers() {
    let names = "persons Ana\ncrews top mid low\nattribute key gold\ntop over mid\nmid over low\n";
    let text = format!("{names}expect yes: may Ana ever be exactly in top by nobody\n");
    expected(&text, true, &book(&["01 01 03 01 01", "02 02 01", "02 01 00", "05 02 00 0000 00 00000004"]));
}

/// The ways to write an expectation's first words.
#[test]
fn expectations_begin_in_several_ways() {
    for (words, yes) in [
        ("expect yes:", true),
        ("expect yes", true),
        ("expect yes :", true),
        ("expect no way:", false),
        ("expect no way", false),
        ("expect no way :", false),
        ("expect, no, way,", false),
    ] {
        expected(&format!("{NAMES}{words} {QUESTION}"), yes, &book(&[SIZES, QUESTION_FRAME]));
    }
}

/// Whole files, each with its book.
const FILES: &[(&str, &str, &[&str])] = &[
    (
        "the pilot depot",
        PILOT,
        PILOT_BOOK,
    ),
    (
        "the smallest: one person, one attribute with one value",
        "persons Ana\nattribute key gold\nmay Ana ever have key gold by nobody",
        &["01 01 00 01 01", "05 01 00 0000 01 00 0001"],
    ),
    (
        "statements before their names, the question first, in the file's order otherwise",
        "may Ben ever be exactly in low by shift
Ben in low
shift may remove from low if directly in low
Ana has key gold
attribute key iron gold
leads shift
crews low
persons Ana Ben
",
        &["01 02 01 01 02", "04 03 01 00 00", "03 06 00 00 00 01 03 00 00", "04 01 00 00 01", "05 02 01 0001 00 00000001"],
    ),
    (
        "several lines of names add up, and one name may be said alone",
        "person Ana
persons Ben, Cem
crew low
crews mid top
lead shift
leads quality
attribute key gold
Cem in top
may Cem ever have key gold by quality
",
        &["01 03 03 01 01", "04 03 02 02 00", "05 01 02 0002 01 00 0001"],
    ),
    (
        "lines that end with CR LF",
        "persons Ana\r\ncrews low\r\nattribute key gold\r\n\r\n# a comment\r\nAna in low\r\nmay Ana ever have key gold by nobody\r\n",
        &["01 01 01 01 01", "04 03 00 00 00", "05 01 00 0000 01 00 0001"],
    ),
    (
        "the mark that some editors put first",
        "\u{FEFF}persons Ana\nattribute key gold\nmay Ana ever have key gold by nobody\n",
        &["01 01 00 01 01", "05 01 00 0000 01 00 0001"],
    ),
    (
        "names of any letters; case counts; the same name as a lead, attribute and value",
        "persons Zoë zoë ليلى 王小明 Łukasz
crews été
leads ليلى Zoë
attribute grade grade Grade
attribute 等级 初级 高级
王小明 in été
ليلى has grade Grade
ليلى may add 等级 高级 to persons if has grade grade
may zoë ever have 等级 初级 by Zoë
",
        &[
            "01 05 01 02 02 02",
            "04 03 03 00 00",
            "04 01 02 00 01",
            "03 01 00 01 01 01 02 00 00",
            "05 01 01 0002 01 01 0001",
        ],
    ),
    (
        "words that begin a line are good names of attributes and values; so are the other words",
        "persons ever have be add
attribute persons crew at
attribute at least
leads no of
ever has at least
no may add persons crew to persons if has at least
may ever ever have at least by no
",
        &["01 04 00 02 02 01", "04 01 00 01 00", "03 01 00 00 00 01 02 01 00", "05 01 00 0001 01 01 0001"],
    ),
    (
        "own ranges: sixteen values, and one",
        "persons Ana
attribute lane l0 l1 l2 l3 l4 l5 l6 l7 l8 l9 l10 l11 l12 l13 l14 l15
attribute key gold
leads shift
Ana has lane l15
shift may add lane l14 to persons if has lane l9 or higher
may Ana ever have lane l15 and lane l0 and key gold by shift
",
        &["01 01 00 02 10 01", "04 01 00 00 0F", "03 01 00 00 0E 01 05 00 09", "05 01 00 0001 02 00 8001 01 0001"],
    ),
    (
        "crews named senior first: the numbers follow in edges, facts, rules, terms and the question's set",
        "persons Ana Ben
crews top mid low
leads shift
attribute grade trainee sorter
top over mid
mid over low
top has grade trainee
Ana in mid
shift may assign to low if in top and directly in mid
shift may remove from top
may Ana ever be exactly in top low by shift
",
        &[
            "01 02 03 01 02",
            "02 02 01",
            "02 01 00",
            "04 02 02 00 00",
            "04 03 00 01 00",
            "03 05 00 00 00 02 04 02 00 03 01 00",
            "03 06 00 02 00 00",
            "05 02 00 0001 00 00000005",
        ],
    ),
    (
        "the same with \"not\", and the edges behind",
        "persons Ana
crews top low
leads shift
attribute grade trainee
shift may assign to top if not directly in low and directly in top
may Ana ever directly be in top by shift
top over low
",
        &["01 01 02 01 01", "03 05 00 01 00 02 83 00 00 03 01 00", "02 01 00", "05 03 00 0001 00 00000002"],
    ),
    (
        "crews otherwise keep the file's order: b before d before its senior a; c is free",
        "persons Ana
crews a b c d
attribute key gold
a over d
Ana in a
Ana in b
Ana in c
Ana in d
may Ana ever have key gold by nobody
",
        // The first crew whose juniors are numbered comes next: b 0, c 1, d 2, a 3.
        &[
            "01 01 04 01 01",
            "02 03 02",
            "04 03 00 03 00",
            "04 03 00 00 00",
            "04 03 00 01 00",
            "04 03 00 02 00",
            "05 01 00 0000 01 00 0001",
        ],
    ),
    (
        "the same statement twice does no harm",
        "persons Ana
crews a b
attribute key gold
leads shift
b over a
b over a
Ana has key gold
Ana has key gold
shift may assign to a
shift may assign to a
may Ana ever have key gold by shift
",
        &[
            "01 01 02 01 01",
            "02 01 00",
            "02 01 00",
            "04 01 00 00 00",
            "04 01 00 00 00",
            "03 05 00 00 00 00",
            "03 05 00 00 00 00",
            "05 01 00 0001 01 00 0001",
        ],
    ),
];

#[test]
fn files_become_books() {
    for (what, text, lines) in FILES {
        assert_eq!(compiled(text), book(lines), "{what}");
        assert_eq!(refusal(&book(lines)), None, "{what}");
    }
}

/// Names up to each limit: 64 persons, 32 crews, 16 leads, 8 attributes of 16 values, 512 rules.
#[test]
fn as_much_as_a_book_can_have() {
    let mut text = format!("persons {}\ncrews {}\nleads {}\n", names("p", 64), names("c", 32), names("l", 16));
    for attribute in 0..8 {
        text += &format!("attribute a{attribute} {}\n", names("v", 16));
    }
    for _ in 0..512 {
        text += "l15 may add a7 v15 to persons\n";
    }
    text += "may p63 ever be exactly in c31 c0 with a7 exactly v15 v0 by l15 l0\n";
    let mut lines = vec!["01 40 20 08 10 10 10 10 10 10 10 10"];
    lines.extend(["03 01 0F 07 0F 00"; 512]);
    lines.push("05 02 3F 8001 01 07 8001 80000001");
    assert_eq!(compiled(&text), book(&lines));
}

/// A name of 64 characters, each of several bytes.
#[test]
fn as_long_as_a_name_can_be() {
    let name = "é".repeat(64);
    let text = format!("persons {name}\nattribute key gold\nmay {name} ever have key gold by nobody\n");
    assert_eq!(compiled(&text), book(&["01 01 00 01 01", "05 01 00 0000 01 00 0001"]));
}

/// `p0 p1 ..`.
fn names(letter: &str, count: usize) -> String {
    (0..count).map(|number| format!("{letter}{number}")).collect::<Vec<_>>().join(" ")
}

// Errors.

/// A fault: line, column, width, text, help, and the refusal's number or 0.
type Row = (usize, usize, usize, &'static str, &'static str, u8);

fn row(fault: &Fault) -> (usize, usize, usize, &str, &str, u8) {
    (fault.line, fault.column, fault.width, &fault.text, &fault.help, fault.refusal.unwrap_or(0))
}

fn assert_faults(text: &[u8], found: &[Fault], expected: &[Row]) {
    let found: Vec<_> = found.iter().map(row).collect();
    assert_eq!(found, expected, "{}", String::from_utf8_lossy(text));
}

const CREWS: &str = "known: low, mid, top";
const GRADES: &str = "known: trainee, sorter, clerk";
const VERBS: &str = "`shift` where `add` or `delete` or `assign` or `remove` is expected";

/// Statements behind `NAMES`, in line 6, before `QUESTION`: each with its one fault (column, width, text, help).
const BAD_STATEMENTS: &[(&str, usize, usize, &str, &str)] = &[
    // The first word.
    ("Ann has grade sorter", 1, 3, "`Ann` begins no statement: it is no person, crew or lead", "did you mean `Ana`?"),
    ("zebra", 1, 5, "`zebra` begins no statement: it is no person, crew or lead", ""),
    ("  Persons Cem", 3, 7, "`Persons` begins no statement: it is no person, crew or lead", "did you mean `persons`?"),
    (
        "attributes key gold",
        1,
        10,
        "`attributes` begins no statement: it is no person, crew or lead",
        "did you mean `attribute`?",
    ),
    ("shift", 7, 1, "behind the lead `shift` comes `may`", ""),
    ("shift assign to low", 7, 6, "behind the lead `shift` comes `may`", ""),
    // Rules.
    ("shft may assign to low", 1, 4, "no lead is called `shft`", "did you mean `shift`?"),
    ("Ana may assign to low", 1, 3, "no lead is called `Ana`", "known: shift, quality, lanes"),
    ("shift may", 11, 1, "`add` or `delete` or `assign` or `remove` is missing here", ""),
    ("shift may shift Ana", 11, 5, VERBS, ""),
    ("shift may assign low", 18, 3, "`low` where `to` is expected", ""),
    ("shift may assign from low", 18, 4, "`from` where `to` is expected", ""),
    ("shift may remove to low", 18, 2, "`to` where `from` is expected", ""),
    ("shift may assign", 18, 1, "`to` is missing here", ""),
    ("shift may assign to", 21, 1, "the name of a crew is missing here", CREWS),
    ("shift may assign to lov", 21, 3, "no crew is called `lov`", "did you mean `low`?"),
    ("shift may assign to Low", 21, 3, "no crew is called `Low`", "did you mean `low`?"),
    ("shift may assign to zebra", 21, 5, "no crew is called `zebra`", CREWS),
    ("shift may add", 15, 1, "the name of an attribute is missing here", "known: grade, lane"),
    ("shift may add grde sorter to persons", 15, 4, "no attribute is called `grde`", "did you mean `grade`?"),
    ("shift may add grade", 21, 1, "the name of a value of grade is missing here", GRADES),
    ("shift may add grade sortr to persons", 21, 5, "no value of grade is called `sortr`", "did you mean `sorter`?"),
    ("shift may add lane sorter to persons", 20, 6, "no value of lane is called `sorter`", "known: control"),
    ("shift may add grade sorter from persons", 28, 4, "`from` where `to` is expected", ""),
    ("shift may delete grade sorter to persons", 31, 2, "`to` where `from` is expected", ""),
    ("shift may add grade sorter to", 31, 1, "`persons` or `crews` is missing here", ""),
    (
        "shift may add grade sorter to Ana",
        31,
        3,
        "`Ana` where `persons` or `crews` is expected",
        "a rule names nobody: it is for all of whom its conditions hold",
    ),
    ("shift may assign to low mid", 25, 3, "`mid` where `if` or the line's end is expected", ""),
    ("shift may assign to low has grade sorter", 25, 3, "`has` where `if` or the line's end is expected", ""),
    // Conditions.
    ("shift may assign to low if", 28, 1, "`has` or `in` is missing here", ""),
    ("shift may assign to low if grade sorter", 28, 5, "`grade` where `has` or `in` is expected", ""),
    ("shift may assign to low if directly", 37, 1, "`has` or `in` is missing here", ""),
    ("shift may assign to low if in", 31, 1, "the name of a crew is missing here", CREWS),
    (
        "shift may assign to low if has grade sorter or lane control",
        48,
        4,
        "`lane` where `higher` is expected",
        "there is no `or` between conditions: write a second rule",
    ),
    (
        "shift may assign to low if has grade sorter or",
        48,
        1,
        "`higher` is missing here",
        "there is no `or` between conditions: write a second rule",
    ),
    (
        "shift may assign to low if has grade sorter, has lane control",
        46,
        3,
        "`has` where `and` or the line's end is expected",
        "",
    ),
    ("shift may assign to low if has grade sorter and", 49, 1, "`has` or `in` is missing here", ""),
    (
        "shift may assign to low if not has grade sorter",
        32,
        3,
        "behind `not` comes `directly`: what is not held through crews can't be asked",
        "",
    ),
    (
        "shift may assign to low if not in mid",
        32,
        2,
        "behind `not` comes `directly`: what is not held through crews can't be asked",
        "",
    ),
    (
        "shift may assign to low if directly has grade sorter or higher",
        54,
        2,
        "`or higher` looks at all that is held: leave out `directly`",
        "",
    ),
    // Facts and edges.
    ("Ana", 5, 1, "`has` or `in` is missing here", ""),
    ("Ana is in low", 5, 2, "`is` where `has` or `in` is expected", "did you mean `in`?"),
    ("Ana over Ben", 5, 4, "`over` where `has` or `in` is expected", ""),
    ("Ana in", 8, 1, "the name of a crew is missing here", CREWS),
    ("Ana in Ben", 8, 3, "no crew is called `Ben`", CREWS),
    ("Ana in low mid", 12, 3, "`mid` is too much here", "one statement a line, of one fact"),
    ("Ana has grade sorter clerk", 22, 5, "`clerk` is too much here", "one statement a line, of one fact"),
    ("Ana has grade", 15, 1, "the name of a value of grade is missing here", GRADES),
    ("low", 5, 1, "`has` or `over` is missing here", ""),
    ("low in top", 5, 2, "`in` where `has` or `over` is expected", ""),
    ("low over Ana", 10, 3, "no crew is called `Ana`", CREWS),
    ("low over", 10, 1, "the name of a crew is missing here", CREWS),
    ("mid over low top", 14, 3, "`top` is too much here", "one statement a line, of one fact"),
    // Expectations.
    ("expect", 8, 1, "behind `expect` comes `yes:` or `no way:`, and then a question", ""),
    ("expect maybe: may Ana", 8, 6, "behind `expect` comes `yes:` or `no way:`, and then a question", ""),
    ("expect no: may Ana", 8, 3, "behind `expect` comes `yes:` or `no way:`, and then a question", ""),
    ("expect yes:", 13, 1, "`may` is missing here", ""),
    ("expect yes: Ana in low", 13, 3, "`Ana` where `may` is expected", ""),
    (
        "expect yes: may Ana ever have lane contrl by lanes",
        36,
        6,
        "no value of lane is called `contrl`",
        "did you mean `control`?",
    ),
    ("expect no way: may Ana ever have lane control", 47, 1, "`by LEAD..` is missing here", ""),
    // Names.
    ("persons", 9, 1, "a name is missing here", ""),
    ("crews # none", 7, 1, "a name is missing here", ""),
    ("leads,", 7, 1, "a name is missing here", ""),
    ("attribute", 11, 1, "the attribute's name is missing here", ""),
    ("persons in", 9, 2, "`in` is a word of the notation and no name", ""),
    ("crews persons", 7, 7, "`persons` is a word of the notation and no name", ""),
    ("leads may", 7, 3, "`may` is a word of the notation and no name", ""),
    ("attribute with gold", 11, 4, "`with` is a word of the notation and no name", ""),
    ("attribute key nothing", 15, 7, "`nothing` is a word of the notation and no name", ""),
    (
        "persons ÄÄÄÄÄÄÄÄÄÄÄÄÄÄÄÄÄÄÄÄÄÄÄÄÄÄÄÄÄÄÄÄÄÄÄÄÄÄÄÄÄÄÄÄÄÄÄÄÄÄÄÄÄÄÄÄÄÄÄÄÄÄÄÄÄ",
        9,
        65,
        "a name has at most 64 characters, and this has 65",
        "",
    ),
    ("persons Cem Ana", 13, 3, "a person called `Ana` is there already", ""),
    ("crews low", 7, 3, "a crew called `low` is there already", ""),
    ("leads shift", 7, 5, "a lead called `shift` is there already", ""),
    ("attribute lane left", 11, 4, "an attribute called `lane` is there already", ""),
    ("attribute key gold gold", 20, 4, "a value of key called `gold` is there already", ""),
    ("persons low", 9, 3, "`low` is a person and a crew: their names have to differ", ""),
    ("crews Ana", 7, 3, "`Ana` is a person and a crew: their names have to differ", ""),
    // Characters.
    (
        "Ana has grade sor#ter",
        18,
        1,
        "`#` begins a comment, and here it stands in a word",
        "put a blank before it, or leave it out of the name",
    ),
    ("Ana in lo\u{200B}w", 10, 1, "the invisible character U+200B stands in a word", "leave it out"),
    ("Ana in \u{202E}low", 8, 1, "the invisible character U+202E stands in a word", "leave it out"),
    // Columns count characters, not bytes, and a tab is one.
    ("\tAna\tin\tlöw", 9, 3, "no crew is called `löw`", "did you mean `low`?"),
];

#[test]
fn bad_statements() {
    for &(words, column, width, text, help) in BAD_STATEMENTS {
        for (end, question) in [("\n", QUESTION), ("\r\n", QUESTION), ("\n", &QUESTION[..QUESTION.len() - 1])] {
            let file = format!("{NAMES}{words}{end}{question}");
            assert_faults(file.as_bytes(), &faults(&file), &[(6, column, width, text, help, 0)]);
        }
        // The column is that of the words meant, or behind the line, and one blank is between.
        let length = words.chars().count();
        assert!(column + width <= length + 3, "{words}");
    }
}

const PERSONS: &str = "known: Ana, Ben";
const LEADS: &str = "known: shift, quality, lanes";

/// Questions behind `NAMES`, in line 6: each with its one fault.
const BAD_QUESTIONS: &[(&str, usize, usize, &str, &str)] = &[
    ("may", 5, 1, "the name of a person is missing here", PERSONS),
    ("may Anna ever have lane control by lanes", 5, 4, "no person is called `Anna`", "did you mean `Ana`?"),
    ("may low ever have lane control by lanes", 5, 3, "no person is called `low`", PERSONS),
    ("may Ana have lane control by lanes", 9, 4, "`have` where `ever` is expected", ""),
    ("may Ana", 9, 1, "`ever` is missing here", ""),
    ("may Ana ever", 14, 1, "`have` or `be` or `directly` is missing here", ""),
    ("may Ana ever hold lane control by lanes", 14, 4, "`hold` where `have` or `be` or `directly` is expected", ""),
    ("may Ana ever have", 19, 1, "the name of an attribute is missing here", "known: grade, lane"),
    ("may Ana ever have lan control by lanes", 19, 3, "no attribute is called `lan`", "did you mean `lane`?"),
    ("may Ana ever have lane contrl by lanes", 24, 6, "no value of lane is called `contrl`", "did you mean `control`?"),
    ("may Ana ever have lane by lanes", 24, 2, "the name of a value of lane is missing here", "known: control"),
    ("may Ana ever have lane control", 32, 1, "`by LEAD..` is missing here", ""),
    ("may Ana ever have lane control lanes", 32, 5, "`lanes` where `and` or `by` is expected", ""),
    ("may Ana ever have lane control and lane control by lanes", 36, 4, "this is asked for twice", ""),
    ("may Ana ever have at least nothing of lane and lane control by lanes", 48, 4, "this is asked for twice", ""),
    (
        "may Ana ever have at least nothing of lan by lanes",
        39,
        3,
        "no attribute is called `lan`",
        "did you mean `lane`?",
    ),
    ("may Ana ever have at least nothing and lane control by lanes", 36, 3, "`and` where `by` is expected", ""),
    // By whom.
    ("may Ana ever have lane control by", 35, 1, "the name of a lead is missing here", LEADS),
    ("may Ana ever have lane control by Ana", 35, 3, "no lead is called `Ana`", LEADS),
    ("may Ana ever have lane control by lane", 35, 4, "no lead is called `lane`", "did you mean `lanes`?"),
    ("may Ana ever have lane control by lanes shift lanes", 47, 5, "this lead is named twice", ""),
    ("may Ana ever have lane control by lanes and", 45, 1, "the name of a lead is missing here", LEADS),
    ("may Ana ever have lane control by nobody lanes", 42, 5, "`lanes` is too much here", ""),
    ("may Ana ever have lane control by lanes nobody", 41, 6, "no lead is called `nobody`", LEADS),
    // Exactly.
    ("may Ana ever be in low by lanes", 17, 2, "`in` where `exactly` is expected", ""),
    ("may Ana ever be exactly low by lanes", 25, 3, "`low` where `in` is expected", ""),
    ("may Ana ever be exactly in by lanes", 28, 2, "the name of a crew is missing here", CREWS),
    ("may Ana ever be exactly in low lov by lanes", 32, 3, "no crew is called `lov`", "did you mean `low`?"),
    ("may Ana ever be exactly in low mid low by lanes", 36, 3, "this crew is named twice", ""),
    ("may Ana ever be exactly in low with lane control by lanes", 42, 7, "`control` where `exactly` is expected", ""),
    (
        "may Ana ever be exactly in low with lane exactly control control by lanes",
        58,
        7,
        "this value is named twice",
        "",
    ),
    (
        "may Ana ever be exactly in low with lane exactly control with lane exactly nothing by lanes",
        63,
        4,
        "this attribute has its `exactly` already",
        "",
    ),
    (
        "may Ana ever be exactly in no crew lane exactly control by lanes",
        36,
        4,
        "`lane` where `with` or `by` is expected",
        "",
    ),
    // Directly.
    ("may Ana ever directly lane control by lanes", 23, 4, "`lane` where `have` or `be` is expected", ""),
    ("may Ana ever directly be low by lanes", 26, 3, "`low` where `in` is expected", ""),
    ("may Ana ever directly be in low and be in low by lanes", 43, 3, "this crew is named twice", ""),
    ("may Ana ever directly be in low and lane control by lanes", 37, 4, "`lane` where `have` or `be` is expected", ""),
];

#[test]
fn bad_questions() {
    for &(words, column, width, text, help) in BAD_QUESTIONS {
        let file = format!("{NAMES}{words}\n");
        assert_faults(file.as_bytes(), &faults(&file), &[(6, column, width, text, help, 0)]);
        // As an expectation it has the same fault, further to the right.
        let file = format!("{NAMES}expect yes: {words}\n{QUESTION}");
        assert_faults(file.as_bytes(), &faults(&file), &[(6, column + 12, width, text, help, 0)]);
    }
}

/// Faults that a book can have too: what stands behind `NAMES`, the faults, and a book with the same fault, which the
/// library refuses by the same number.
const REFUSED: &[(&str, &str, &[Row], &[&str])] = &[
    (
        "an attribute without values",
        "attribute key\nmay Ana ever have lane control by lanes",
        &[(6, 15, 1, "the values of key are missing here", "", 5)],
        &["01 02 03 03 03 01 00", QUESTION_FRAME],
    ),
    (
        "no question",
        "",
        &[(6, 0, 0, "the question is missing", "write, say, `may PERSON ever have ATTRIBUTE VALUE by LEAD..`", 3)],
        &[SIZES],
    ),
    (
        "two questions",
        "may Ana ever have lane control by lanes\n\nmay Ben ever have lane control by lanes",
        &[(8, 1, 3, "a second question: the first is in line 6", "", 3)],
        &[SIZES, QUESTION_FRAME, "05 01 01 0004 01 01 0001"],
    ),
    (
        "a condition on crews in the wrong place",
        "quality may add grade sorter to persons if in low\nmay Ana ever have lane control by lanes",
        &[(
            6,
            44,
            2,
            "a condition on crews stands only with `assign` and `remove`",
            "ask for a value that the crew has",
            7,
        )],
        &[SIZES, "03 01 01 00 01 01 04 00 00", QUESTION_FRAME],
    ),
    (
        "the same, directly, behind another condition",
        "quality may delete lane control from crews if has grade clerk and directly in low\n\
         may Ana ever have lane control by lanes",
        &[(
            6,
            67,
            8,
            "a condition on crews stands only with `assign` and `remove`",
            "ask for a value that the crew has",
            7,
        )],
        &[SIZES, "03 04 01 01 00 02 02 00 02 03 00 00", QUESTION_FRAME],
    ),
    (
        "nine conditions",
        "shift may assign to low if in low and in low and in low and in low and in low and in low and in low and in low \
         and in low\nmay Ana ever have lane control by lanes",
        &[(6, 116, 2, "a rule has at most 8 conditions", "", 5)],
        &[
            SIZES,
            "03 05 00 00 00 09 040000 040000 040000 040000 040000 040000 040000 040000 040000",
            QUESTION_FRAME,
        ],
    ),
    (
        "a circle of three",
        "low over mid\nmid over top\ntop over low\nmay Ana ever have lane control by lanes",
        &[(
            8,
            5,
            4,
            "low over mid over top over low: crews in a circle",
            "leave out one of these lines: a crew is over its juniors alone",
            6,
        )],
        &[SIZES, "02 00 01", "02 01 02", "02 02 00", QUESTION_FRAME],
    ),
    (
        "a crew over itself",
        "mid over mid\nmay Ana ever have lane control by lanes",
        &[(
            6,
            5,
            4,
            "mid over mid: crews in a circle",
            "leave out one of these lines: a crew is over its juniors alone",
            6,
        )],
        &[SIZES, "02 01 01", QUESTION_FRAME],
    ),
    (
        "a circle below a crew that is not in it",
        "low over mid\nmid over top\n# back\ntop over mid\nmay Ana ever have lane control by lanes",
        &[(
            9,
            5,
            4,
            "mid over top over mid: crews in a circle",
            "leave out one of these lines: a crew is over its juniors alone",
            6,
        )],
        &[SIZES, "02 00 01", "02 01 02", "02 02 01", QUESTION_FRAME],
    ),
    (
        "with `not`: a rule that deletes",
        "shift may assign to low if not directly in mid\n\
         quality may delete grade sorter from persons\n\
         may Ana ever directly have lane control by lanes",
        &[(7, 13, 6, "a depot with `not` only grows: nothing is deleted, nobody removed", "", 16)],
        &[SIZES, "03 05 00 00 00 01 83 01 00", "03 02 01 00 01 00", DIRECT_FRAME],
    ),
    (
        "with `not`: a rule that removes",
        "lanes may remove from top\n\
         shift may assign to low if not directly has grade clerk\n\
         may Ana ever directly have lane control by lanes",
        &[(6, 11, 6, "a depot with `not` only grows: nothing is deleted, nobody removed", "", 16)],
        &[SIZES, "03 06 02 02 00 00", "03 05 00 00 00 01 81 00 02", DIRECT_FRAME],
    ),
    (
        "with `not`: a condition that looks through crews, in another rule",
        "shift may assign to low if not directly in mid\n\
         lanes may add lane control to persons if has grade sorter\n\
         may Ana ever directly have lane control by lanes",
        &[(7, 42, 16, "in a depot with `not` each condition says `directly`", "", 16)],
        &[SIZES, "03 05 00 00 00 01 83 01 00", "03 01 02 01 00 01 02 00 01", DIRECT_FRAME],
    ),
    (
        "with `not`: `in` and `or higher` in the same rule",
        "shift may assign to low if not directly in mid and in top and has grade sorter or higher\n\
         may Ana ever directly have lane control by lanes",
        &[
            (6, 52, 6, "in a depot with `not` each condition says `directly`", "", 16),
            (6, 63, 26, "in a depot with `not` each condition says `directly`", "", 16),
        ],
        &[SIZES, "03 05 00 00 00 03 83 01 00 04 02 00 05 00 01", DIRECT_FRAME],
    ),
    (
        "with `not`: two rules for one change",
        "shift may assign to low if not directly in mid\n\
         quality may assign to low\n\
         may Ana ever directly have lane control by lanes",
        &[(7, 13, 6, "line 6 has a rule for this: with `not` there is one for each change", "", 16)],
        &[SIZES, "03 05 00 00 00 01 83 01 00", "03 05 01 00 00 00", DIRECT_FRAME],
    ),
    (
        "with `not`: a question in another mode",
        "shift may assign to low if not directly in mid\nmay Ana ever have lane control by lanes",
        &[(7, 14, 4, "a depot with `not` is asked `may PERSON ever directly ..`", "", 17)],
        &[SIZES, "03 05 00 00 00 01 83 01 00", QUESTION_FRAME],
    ),
    (
        "with `not`: a question for exactly something",
        "shift may assign to low if not directly in mid\nmay Ana ever be exactly in low by shift",
        &[(7, 14, 2, "a depot with `not` is asked `may PERSON ever directly ..`", "", 17)],
        &[SIZES, "03 05 00 00 00 01 83 01 00", "05 02 00 0001 00 00000001"],
    ),
    (
        "without `not`: a question in mode 03",
        "may Ana ever directly have lane control by lanes",
        &[(
            6,
            14,
            8,
            "`may PERSON ever directly ..` is for a depot with a `not`: leave out `directly`",
            "",
            17,
        )],
        &[SIZES, DIRECT_FRAME],
    ),
];

#[test]
fn faults_that_a_book_has_too() {
    for (what, words, expected, lines) in REFUSED {
        let file = format!("{NAMES}{words}");
        assert_faults(file.as_bytes(), &faults(&file), expected);
        let number = refusal(&book(lines));
        assert!(expected.iter().all(|(.., own)| Some(*own) == number), "{what}: {number:?}");
    }
}

/// An expectation in the wrong mode has the fault of a question.
#[test]
fn expectations_in_the_wrong_mode() {
    let file = format!("{NAMES}expect yes: {DIRECT}{QUESTION}");
    let text = "`may PERSON ever directly ..` is for a depot with a `not`: leave out `directly`";
    assert_faults(file.as_bytes(), &faults(&file), &[(6, 26, 8, text, "", 17)]);
    let file = format!("{NAMES}  expect no way: {QUESTION}shift may assign to low if not directly in mid\n{DIRECT}");
    let text = "a depot with `not` is asked `may PERSON ever directly ..`";
    assert_faults(file.as_bytes(), &faults(&file), &[(6, 31, 4, text, "", 17)]);
}

/// Too many of anything: the first that is too much is the fault, and the library has the same number for it.
#[test]
fn too_many() {
    let start = "persons Ana\nattribute key gold\nmay Ana ever have key gold by nobody\n";
    let question = "05 01 00 0000 01 00 0001";
    let rules = format!("leads shift\ncrews low\n{}", "shift may assign to low\n".repeat(514));
    let many_rules: Vec<&str> = [["01 01 01 01 01"].as_slice(), &["03 05 00 00 00 00"; 513], &[question]].concat();
    let nine: String = (0..8).map(|number| format!("attribute a{number} v\n")).collect();
    let rows: Vec<(String, Row, Vec<&str>)> = vec![
        (
            format!("persons {}\n", names("p", 65)),
            (4, 251, 3, "`p63` is one too many: a depot has 64 persons at most", "", 5),
            vec!["01 41 00 01 01", question],
        ),
        (
            format!("crews {}\n", names("c", 34)),
            (4, 125, 3, "`c32` is one too many: a depot has 32 crews at most", "", 5),
            vec!["01 01 21 01 01", question],
        ),
        (
            format!("leads {}\n", names("l", 18)),
            (4, 61, 3, "`l16` is one too many: a depot has 16 leads at most", "", 5),
            vec!["01 01 00 01 01", "03 01 10 00 00 00", question],
        ),
        (
            nine,
            (11, 11, 2, "`a7` is one too many: a depot has 8 attributes at most", "", 5),
            vec!["01 01 00 09 01 01 01 01 01 01 01 01 01", question],
        ),
        (
            format!("attribute lane {}\n", names("v", 18)),
            (4, 70, 3, "`v16` is one too many: an attribute has 16 values at most", "", 5),
            vec!["01 01 00 02 01 11", question],
        ),
        (rules, (518, 1, 5, "this is rule 513: a book has at most 512", "", 8), many_rules),
    ];
    for (words, row, lines) in rows {
        let file = format!("{start}{words}");
        let mut expected = vec![row];
        if row.5 == 8 {
            expected.push((519, 1, 5, row.3, "", 8));
        }
        assert_faults(file.as_bytes(), &faults(&file), &expected);
        assert_eq!(refusal(&book(&lines)), Some(row.5), "{}", row.3);
    }
}

/// Over 65,536 characters: the file is good, and its book is not.
#[test]
fn a_book_too_long() {
    let edges = "top over low\n".repeat(9_400);
    let file = format!("{NAMES}{edges}{QUESTION}");
    // 13 characters in line 1, 7 in each edge, 19 in the last.
    let text = "the book of this file has 65,832 characters, and 65,536 at most are taken";
    let help = "leave out repeats, and rules of leads that the question does not name";
    assert_faults(file.as_bytes(), &faults(&file), &[(0, 0, 0, text, help, 1)]);
    let mut lines = vec![SIZES];
    lines.extend(["02 02 00"; 9_400]);
    lines.push(QUESTION_FRAME);
    assert_eq!((book(&lines).len(), refusal(&book(&lines))), (65_832, Some(1)));
}

/// Faults of whole files, each a file for `test`, which needs no question.
#[test]
fn bad_files() {
    let nothing: Row = (0, 0, 0, "the file says nothing", "`depot help NOTATION` shows how to write one", 3);
    let no_person: Row = (0, 0, 0, "no person is named", "write `persons NAME..`", 5);
    let no_attribute: Row =
        (0, 0, 0, "no attribute is named", "write `attribute NAME VALUE..`, the lowest value first", 5);
    let utf_16: Row = (0, 0, 0, "the file is UTF-16", "save it as UTF-8", 0);
    let rows: &[(&[u8], &[Row], &[&str])] = &[
        (b"", &[nothing], &[]),
        (b"\n", &[nothing], &[]),
        (b"# only a comment\n\n , \t\n", &[nothing], &[]),
        (b"\xEF\xBB\xBF", &[nothing], &[]),
        (b"attribute key gold\n", &[no_person], &["01 00 00 01 01", "05 01 00 0000 00"]),
        (b"persons Ana\n", &[no_attribute], &["01 01 00 00", "05 01 00 0000 00"]),
        (b"leads shift\n", &[no_person, no_attribute], &["01 00 00 00", "05 01 00 0000 00"]),
        (b"\xFF\xFEp\0e\0", &[utf_16], &[]),
        (b"\xFE\xFF\0p\0e", &[utf_16], &[]),
        (b"persons Ana\ncrews l\xF6w\n", &[(2, 8, 1, "the byte F6 is no UTF-8 text", "save it as UTF-8", 0)], &[]),
        // The column counts characters: two of two bytes stand before.
        (b"persons \xC3\xA9\xC3\xA9\xC3", &[(1, 11, 1, "the byte C3 is no UTF-8 text", "save it as UTF-8", 0)], &[]),
        (b"persons A\0na\n", &[(1, 10, 1, "the control character U+0000 is no text", "", 0)], &[]),
        (b"persons Ana\n\n\x1B[31m\n", &[(3, 1, 1, "the control character U+001B is no text", "", 0)], &[]),
        (b"persons Ana\x0Cb\n", &[(1, 12, 1, "the control character U+000C is no text", "", 0)], &[]),
        (b"persons Ana\xC2\x85b\n", &[(1, 12, 1, "the control character U+0085 is no text", "", 0)], &[]),
    ];
    for (text, expected, lines) in rows {
        let found = faults_of(load_bytes("a.depot", text, false), text);
        assert_faults(text, &found, expected);
        let (number, own) = (refusal(&book(lines)), expected[0].5);
        assert!(own == 0 || number == Some(own), "{number:?} {expected:?}");
    }
}

/// Where nothing or much is known: the names that there are.
#[test]
fn what_is_known() {
    let file = "persons Ana\nattribute key gold\nmay Ana ever have key gold by lanes\n";
    assert_eq!(row(&faults(file)[0]), (3, 31, 5, "no lead is called `lanes`", "none is named yet", 0));
    let file = format!("persons Ana\nattribute key gold\ncrews {}\nAna in zebra\n", names("crew-", 14));
    let help =
        "known: crew-0, crew-1, crew-2, crew-3, crew-4, crew-5, crew-6, crew-7, crew-8, crew-9, crew-10, crew-11 \
                and 2 more";
    assert_eq!(row(&faults(file)[0]), (4, 8, 5, "no crew is called `zebra`", help, 0));
}

/// Several faults in one file: all are told, in the file's order, each line at most once.
#[test]
fn several_faults() {
    let file = "\
persons Ana Ana in
crews low mid
leads shift
attribute grade trainee sorter
attribute lane
Ana has grade sortr
mid over low
low over mid
shift may assign to lov if has grade boss
shift may add grade sorter to persons if in low
Bob in low

may Ana ever have grade sorter by shift
may Ana ever have grade sorter by shift
";
    let expected: &[Row] = &[
        (1, 13, 3, "a person called `Ana` is there already", "", 0),
        (1, 17, 2, "`in` is a word of the notation and no name", "", 0),
        (5, 16, 1, "the values of lane are missing here", "", 5),
        (6, 15, 5, "no value of grade is called `sortr`", "did you mean `sorter`?", 0),
        (
            8,
            5,
            4,
            "low over mid over low: crews in a circle",
            "leave out one of these lines: a crew is over its juniors alone",
            6,
        ),
        (9, 21, 3, "no crew is called `lov`", "did you mean `low`?", 0),
        (
            10,
            42,
            2,
            "a condition on crews stands only with `assign` and `remove`",
            "ask for a value that the crew has",
            7,
        ),
        (11, 1, 3, "`Bob` begins no statement: it is no person, crew or lead", "", 0),
        (14, 1, 3, "a second question: the first is in line 13", "", 3),
    ];
    assert_faults(file.as_bytes(), &faults(file), expected);
    let shown = show_all(&faults(file), "a.depot", file, Paint(false));
    let places: Vec<&str> = shown.lines().filter(|line| line.starts_with("a.depot:")).collect();
    assert_eq!(places.len(), 9);
    assert!(shown.contains(
        "a.depot:6:15: no value of grade is called `sortr`\n  \
         Ana has grade sortr\n                ^^^^^ did you mean `sorter`?\n"
    ));
}

/// A thousand faults, and very many: some are told, soon, and how many more there are.
#[test]
fn very_many_faults() {
    let begun = Instant::now();
    let words = ["zebra has grade sorter\n", "persons persons persons\n", "shft may assign to low\n", "a#b\n"];
    for (line, count) in words.into_iter().flat_map(|line| [(line, 1_000), (line, 50_000)]) {
        let file = format!("{NAMES}{}{QUESTION}", line.repeat(count));
        let found = faults(&file);
        assert_eq!(found.len(), 200, "{line}");
        assert_eq!(found[0].line, 6, "{line}");
        assert!(found.windows(2).all(|two| (two[0].line, two[0].column) <= (two[1].line, two[1].column)));
        let shown = show_all(&found, "a.depot", &file, Paint(false));
        assert_eq!(shown.lines().filter(|line| line.starts_with("a.depot:") && !line.ends_with("more")).count(), 20);
        assert!(shown.ends_with("a.depot: at least 180 errors more\n"), "{line}");
    }
    assert!(begun.elapsed() < Duration::from_secs(20), "{:?}", begun.elapsed());
}

/// The shown fault: the line, the word underlined, tabs kept, wide characters two cells, long lines cut.
#[test]
fn faults_are_shown() {
    let show = |file: &str| show_all(&faults(file), "a.depot", file, Paint(false));
    let rows = [
        (
            "\tshift\tmay assign to lov",
            "a.depot:6:22: no crew is called `lov`\n  \tshift\tmay assign to lov\n  \t     \t              ^^^ did you mean `low`?\n",
        ),
        (
            "Ana has 等级 高级",
            "a.depot:6:9: no attribute is called `等级`\n  Ana has 等级 高级\n          ^^^^ known: grade, lane\n",
        ),
        (
            "王 in lov\npersons 王",
            "a.depot:6:6: no crew is called `lov`\n  王 in lov\n        ^^^ did you mean `low`?\n",
        ),
        ("Ana", "a.depot:6:5: `has` or `in` is missing here\n  Ana\n     ^\n"),
    ];
    for (words, expected) in rows {
        assert_eq!(show(&format!("{NAMES}{words}\n{QUESTION}")), expected, "{words}");
    }
    let long = format!("{NAMES}Ana has grade {} sortr\n{QUESTION}", ",".repeat(1_000));
    let shown = show(&long);
    let lines: Vec<&str> = shown.lines().collect();
    assert_eq!(lines[0], "a.depot:6:1016: no value of grade is called `sortr`");
    assert!(lines[1].chars().count() < 130 && lines[1].contains("sortr"), "{shown}");
    let (word, mark) = (lines[1].find("sortr"), lines[2].find("^^^^^"));
    // Before the word stands one `…`, of three bytes.
    assert_eq!(word.map(|at| at - 2), mark, "{shown}");
}

// Files drawn at random.

/// The words of the grammar, and names.
const WORDS: &str = "\
    persons crews leads attribute over has in may add delete assign remove to from if and or higher not directly \
    ever have be exactly with no crew nothing nobody at least of by expect yes: way: Ana Ben low mid top shift \
    quality lanes grade trainee sorter clerk lane control ليلى 王小明 # , é x#y";

/// Good lines, to be put together in any order.
const LINES: &[&str] = &[
    "Ana has grade sorter",
    "low has lane control",
    "Ben in top",
    "mid over low",
    "low over top",
    "top over mid",
    "shift may assign to low",
    "quality may remove from top if in mid and has grade trainee or higher",
    "lanes may add lane control to persons if directly has grade sorter",
    "lanes may delete grade clerk from crews if has lane control",
    "shift may assign to top if not directly in low and not directly has grade clerk",
    "may Ana ever have lane control and grade clerk by shift quality",
    "may Ben ever be exactly in low top with grade exactly clerk trainee by nobody",
    "may Ben ever directly be in low and have grade trainee by lanes",
    "expect yes: may Ana ever be exactly in no crew with lane exactly nothing by lanes",
    "expect no way: may Ana ever directly have at least nothing of grade by shift",
    "# a comment",
    "",
];

/// A file of chance: words in any order, good lines in any order, or a good file damaged.
fn drawn(chance: &mut Chance) -> Vec<u8> {
    let words: Vec<&str> = WORDS.split(' ').collect();
    let mut text = String::new();
    match chance.below(4) {
        0 => {
            for _ in 0..1 + chance.below(12) {
                for _ in 0..chance.below(12) {
                    text += words[chance.below(words.len())];
                    text.push(' ');
                }
                text.push('\n');
            }
            return text.into_bytes();
        }
        1 => text += FILES[chance.below(FILES.len())].1,
        2 => {
            text += NAMES;
            for _ in 0..1 + chance.below(8) {
                text += LINES[chance.below(LINES.len())];
                text.push('\n');
            }
            if chance.below(2) == 0 {
                text += QUESTION;
            }
        }
        _ => {
            text = format!("{NAMES}{}\n", chance.of(STATEMENTS).0);
            let questions = if chance.below(3) == 0 { DIRECT_QUESTIONS } else { QUESTIONS };
            text += &format!("may Ana ever {}\n", chance.of(questions).0);
        }
    }
    damaged(text, chance)
}

/// A text with words deleted, doubled, swapped or changed, lines cut, or bytes put in.
fn damaged(text: String, chance: &mut Chance) -> Vec<u8> {
    let mut lines: Vec<Vec<String>> = text.lines().map(|line| line.split(' ').map(str::to_string).collect()).collect();
    for _ in 0..chance.below(4) {
        let at = chance.below(lines.len());
        let count = lines[at].len();
        if count == 0 {
            continue;
        }
        let (one, other) = (chance.below(count), chance.below(count));
        match chance.below(7) {
            0 => drop(lines[at].remove(one)),
            1 => {
                let word = lines[at][one].clone();
                lines[at].insert(other, word);
            }
            2 => lines[at].swap(one, other),
            3 => {
                lines[at][one] = {
                    let words: Vec<&str> = WORDS.split(' ').collect();
                    words[chance.below(words.len())].to_string()
                }
            }
            4 => lines[at].truncate(one),
            5 => {
                let line = lines[at].clone();
                lines.insert(at, line);
            }
            _ => {
                let to = chance.below(lines.len());
                lines.swap(at, to);
            }
        }
    }
    let joined: Vec<String> = lines.iter().map(|words| words.join(" ")).collect();
    let mut bytes = (joined.join("\n") + "\n").into_bytes();
    if chance.below(8) == 0 {
        for _ in 0..1 + chance.below(3) {
            let at = chance.below(bytes.len() + 1);
            let byte = *chance.of(&[0u8, 9, 10, 13, 32, 35, 44, 48, 65, 127, 0xC3, 0xA9, 0xFF, 0xEF]);
            bytes.insert(at, byte);
        }
    }
    bytes
}

/// Of a file that is not good: each fault stands in the file, or just behind it, and can be shown.
fn assert_placed(bytes: &[u8], faults: &[Fault]) {
    let source = String::from_utf8_lossy(bytes).trim_start_matches('\u{FEFF}').to_string();
    let lines: Vec<usize> = split(&source).map(|line| line.chars().count()).collect();
    assert!(!faults.is_empty(), "{source}");
    for fault in faults {
        assert!(fault.line <= lines.len() + 1, "{source}\n{fault:?}");
        let length = fault.line.checked_sub(1).and_then(|at| lines.get(at)).copied().unwrap_or(0);
        assert!(fault.column <= length + 2, "{source}\n{fault:?}");
        assert!(fault.column == 0 || fault.column + fault.width <= length + 3, "{source}\n{fault:?}");
        assert!(fault.column == 0 || fault.width > 0, "{source}\n{fault:?}");
        assert!(!fault.text.is_empty(), "{source}\n{fault:?}");
        assert!(fault.refusal.is_none_or(|number| matches!(number, 1..=9 | 16 | 17)), "{source}\n{fault:?}");
    }
    let shown = show_all(faults, "a.depot", &source, Paint(false));
    assert!(shown.starts_with("a.depot:") && !shown.contains('\u{1B}'), "{source}\n{shown}");
}

/// Of a good file: the library takes its book and those of its expectations, and it can be written and read again.
fn assert_good(source: &[u8], loaded: &Loaded) {
    let text = String::from_utf8_lossy(source);
    let questions =
        loaded.depot.question.iter().cloned().chain(
            loaded.depot.expectations.iter().map(|said| Said { line: said.line, what: said.what.question.clone() }),
        );
    for question in questions {
        let characters = compile(&loaded.depot, &question).characters;
        let opened = bytes::open(&characters, &mut [0; LEDGER_SIZE]);
        assert!(opened.is_ok(), "{text}\n{}\n{opened:?}", String::from_utf8_lossy(&characters));
    }
    let words = depot::words::words(&loaded.depot);
    let again = load_bytes("a.depot", words.as_bytes(), false).unwrap_or_else(|t| panic!("{text}\n{words}\n{t:?}"));
    assert_eq!(
        again.book.map(|book| book.characters),
        loaded.book.as_ref().map(|book| book.characters.clone()),
        "{text}\n{words}"
    );
}

#[test]
fn files_of_chance() {
    let mut chance = Chance::new(20_26);
    let (mut good, mut bad) = (0, 0);
    for _ in 0..20_000 {
        let file = drawn(&mut chance);
        let needs_question = chance.below(4) > 0;
        let judged = catch_unwind(AssertUnwindSafe(|| match load_bytes("a.depot", &file, needs_question) {
            Ok(loaded) => {
                assert_good(&file, &loaded);
                true
            }
            Err(Trouble::Faults { faults, refused, .. }) => {
                assert!(!refused);
                assert_placed(&file, &faults);
                false
            }
            Err(Trouble::Unread(why)) => panic!("{why}"),
        }));
        match judged {
            Ok(true) => good += 1,
            Ok(false) => bad += 1,
            Err(_) => panic!("this file:\n{}", String::from_utf8_lossy(&file)),
        }
    }
    assert!(good > 2_000 && bad > 8_000, "{good} good, {bad} bad");
}
