//! `examples/c/plan_book.c`, built by the C compiler (`CC`, else `cc`) against the header and the archive, says of each
//! stored book what this crate says and lists its page, tells a lead why a request is refused, says 16 and 17 in words,
//! and has this crate's version. By the header's inline functions a second program reads rule and term out of answers, a third reckons the
//! plan's buffer, and a fourth reads every bit of a page.

use std::env;
use std::fmt::Write as _;
use std::fs::{self, File};
use std::path::{Path, PathBuf};
use std::process::{Command, Output};
use std::sync::OnceLock;

use bixorgun::{bytes, Answer, Book, Person, Refusal, View, LEDGER_SIZE, PAGE_SIZE};

fn repository() -> PathBuf {
    [env!("CARGO_MANIFEST_DIR"), "..", ".."].iter().collect()
}

/// The example's program, built once for all tests.
fn program() -> &'static Path {
    static PROGRAM: OnceLock<PathBuf> = OnceLock::new();
    PROGRAM.get_or_init(|| built("plan_book", &repository().join("examples/c/plan_book.c")))
}

/// Builds a program with every warning an error; its path.
fn built(name: &str, source: &Path) -> PathBuf {
    let program = Path::new(env!("CARGO_TARGET_TMPDIR")).join(name);
    let compiler = env::var_os("CC").unwrap_or_else(|| "cc".into());
    let made = Command::new(&compiler)
        .args(["-std=c11", "-Wall", "-Wextra", "-Wpedantic", "-Werror", "-I"])
        .arg(repository().join("include"))
        .arg(source)
        .arg(env!("BIXORGUN_ARCHIVE"))
        .arg("-o")
        .arg(&program)
        .output()
        .unwrap_or_else(|error| panic!("the C compiler {compiler:?}: {error}"));
    assert!(made.status.success(), "{}", String::from_utf8_lossy(&made.stderr));
    program
}

/// The program of a source that is given as text.
fn written(name: &str, text: &str) -> PathBuf {
    let source = Path::new(env!("CARGO_TARGET_TMPDIR")).join(name).with_extension("c");
    fs::write(&source, text).expect("the source is written");
    built(name, &source)
}

/// The query's person: the third byte of the book's last line.
fn query_person(book: &str) -> Person {
    let query = book.lines().next_back().expect("an accepted book has lines");
    Person(u8::from_str_radix(&query[4..6], 16).expect("an accepted book has digits"))
}

fn shown(person: Person, view: &View) -> String {
    let sets: String = view.sets().map(|(_, set)| format!(" {:04X}", set.bits())).collect();
    format!("person {}: sets{sets}, crews {:08X}\n", person.0, view.crews().bits())
}

/// What the example prints of an accepted book, by this crate's calls.
fn said(characters: &str) -> Result<String, Refusal> {
    let book = Book::new(characters);
    let Answer::Plan(plan) = book.plan()? else { return Ok("no way\n".to_owned()) };
    let mut text = format!("plan of {}\n", plan.len());
    for request in &plan {
        writeln!(text, "{request}").expect("a string takes all");
    }
    writeln!(text, "replay: {}", book.replay(&plan)?).expect("a string takes all");
    let person = query_person(characters);
    let mut ledger = book.open()?;
    text += &shown(person, &ledger.show(&book, person)?);
    for request in &plan {
        ledger.request(&book, request)?;
    }
    text += &shown(person, &ledger.show(&book, person)?);
    Ok(text)
}

/// What the example lists of an accepted book's page, by the bytes of the table.
fn listed(characters: &str) -> Result<String, Refusal> {
    let mut table = [0xA5; PAGE_SIZE];
    bytes::page(characters.as_bytes(), &mut table)?;
    let mut text = String::new();
    for (place, two) in table.chunks_exact(2).enumerate() {
        let set = u16::from_be_bytes([two[0], two[1]]);
        if set != 0 {
            let (person, attr) = (place / 8, place % 8);
            let values: String = (0..16).filter(|value| set >> value & 1 == 1).map(|v| format!(" {v}")).collect();
            writeln!(text, "person {person}, attribute {attr}: values{values}").expect("a string takes all");
        }
    }
    Ok(if text.is_empty() { "nobody\n".to_owned() } else { text })
}

/// Sees that the example printed what is said here, or the refusal of an operation.
fn compare(name: &str, operation: &str, said: Result<String, Refusal>, ran: &Output) {
    let (out, err) = (String::from_utf8_lossy(&ran.stdout), String::from_utf8_lossy(&ran.stderr));
    match said {
        Ok(text) => assert_eq!((ran.status.code(), &*out, &*err), (Some(0), &*text, ""), "{name}"),
        Err(refusal) => {
            let line = refusal.line().unwrap_or(0);
            let text = match refusal {
                // In words, as this crate has them.
                Refusal::BeyondNot { .. } | Refusal::WrongMode { .. } => format!("{operation}: {refusal}\n"),
                _ => format!("{operation}: result 1, refusal {}, line {line}\n", refusal.number()),
            };
            assert_eq!((ran.status.code(), &*out, &*err), (Some(1), "", &*text), "{name}");
        }
    }
}

/// The stored books that are planned, with their paths.
fn stored() -> Vec<(PathBuf, String)> {
    let data = repository().join("crates/books/data");
    let mut paths: Vec<PathBuf> =
        fs::read_dir(&data).expect("the stored books").map(|entry| entry.expect("a name").path()).collect();
    paths.retain(|path| path.extension().is_some_and(|end| end == "book"));
    paths.sort();
    assert!(paths.len() >= 140, "{} books", paths.len());
    let read = |path: PathBuf| (path.clone(), fs::read_to_string(path).expect("a stored book"));
    paths.into_iter().map(read).collect()
}

#[test]
fn c_says_the_same_of_each_stored_book() {
    for (path, book) in stored() {
        let ran = Command::new(program()).arg(&path).output().expect("the example runs");
        compare(&path.display().to_string(), "plan", said(&book), &ran);
    }
}

#[test]
fn c_lists_the_same_page_of_each_stored_book() {
    let (mut nobody, mut lines, mut refused) = (0, 0, 0);
    for (path, book) in stored() {
        let ran = Command::new(program()).arg("--page").arg(&path).output().expect("the example runs");
        let listed = listed(&book);
        match &listed {
            Ok(text) if text == "nobody\n" => nobody += 1,
            Ok(text) => lines += text.lines().count(),
            Err(_) => refused += 1,
        }
        compare(&path.display().to_string(), "page", listed, &ran);
    }
    assert!(nobody > 0 && lines > 0 && refused > 0, "{nobody} of nobody, {lines} lines, {refused} refused");

    let pilot = repository().join("crates/books/data/pilot.book");
    let from_input = Command::new(program()).arg("--page").stdin(File::open(pilot).expect("a stored book")).output();
    let text = "person 0, attribute 0: values 0 1\nperson 0, attribute 1: values 0\n";
    assert_eq!(from_input.expect("the example runs").stdout, text.as_bytes());
}

/// The pilot depot of README.md. By rule 1 role 0 assigns to the crew, which holds grade 0; by rule 2 role 1 adds grade
/// 1 to who effectively holds grade 0; by rule 3 role 2 adds lane control to who directly holds grade 1. Roles 2 and 1
/// ask too soon, and role 3 has no rule.
#[test]
fn c_tells_a_lead_why_a_request_is_refused() {
    let path = repository().join("crates/books/data/pilot.book");
    let requests = [
        ([1, 2, 0, 1, 0], Err(Refusal::UnmetTerm { rule: 3, term: 1 })),
        ([1, 1, 0, 0, 1], Err(Refusal::UnmetTerm { rule: 2, term: 1 })),
        ([1, 3, 0, 1, 0], Err(Refusal::NoRule)),
        ([5, 0, 0, 0, 0], Ok(())),
        ([1, 2, 0, 1, 0], Err(Refusal::UnmetTerm { rule: 3, term: 1 })),
        ([1, 1, 0, 0, 1], Ok(())),
        ([1, 2, 0, 1, 0], Ok(())),
    ];
    let digits = requests.map(|(five, _)| five.map(|byte| format!("{byte:02X}")).concat());
    let ran = Command::new(program()).arg(&path).args(&digits).output().expect("the example runs");
    let out = String::from_utf8_lossy(&ran.stdout);
    assert_eq!((ran.status.code(), ran.stderr), (Some(0), Vec::new()), "{out}");

    let mut lines = out.lines();
    for ((_, answer), digits) in requests.iter().zip(&digits) {
        let words = answer.map_or_else(|refusal| refusal.to_string(), |()| "done".to_owned());
        assert_eq!(lines.next(), Some(&*format!("request {digits}: {words}")));
    }
    assert_eq!(lines.next(), Some("person 0: sets 0003 0001 0000 0000 0000 0000 0000 0000, crews 00000001"));
    assert_eq!(lines.next(), None);

    let book = fs::read(&path).expect("a stored book");
    let mut ledger = [0; LEDGER_SIZE];
    bytes::open(&book, &mut ledger).expect("an accepted book");
    assert_eq!(requests.map(|(five, _)| (five, bytes::request(&book, &mut ledger, &five))), requests);
}

/// Prints the rule and the term of each answer, in hexadecimal, that it is given.
const RULE_AND_TERM: &str = r#"
#include <stdio.h>
#include <stdlib.h>
#include "bixorgun.h"

int main(int argc, char **argv)
{
    for (int i = 1; i < argc; i++) {
        uint64_t answer = strtoull(argv[i], NULL, 16);
        printf("%u %u\n", bixorgun_rule(answer), bixorgun_term(answer));
    }
    return 0;
}
"#;

/// Rule and term stand in the answers REFUSED with 15 alone: the line of another refusal, the count of a plan and the
/// place at which replay stops are none.
#[test]
fn c_reads_rule_and_term_out_of_an_answer() {
    let program = written("rule_and_term", RULE_AND_TERM);
    let mut cases = Vec::new();
    for (rule, term) in [(1, 1), (1, 8), (3, 2), (255, 8), (256, 1), (511, 7), (512, 1), (512, 8)] {
        cases.push((1 | 15 << 8 | (256 * rule + term) << 16, format!("{rule} {term}\n")));
    }
    let line = |number| if matches!(number, 2..=9 | 16 | 17) { 0x0301 << 16 } else { 0 };
    let refused = (1..=17).filter(|&number| number != 15).map(|number| 1 | number << 8 | line(number));
    let others = [0, 2, 3 | 0x0301 << 16, 4, 5 | 0x0301 << 16, 6, 7];
    cases.extend(refused.chain(others).map(|answer: u64| (answer, "0 0\n".to_owned())));
    let (answers, lines): (Vec<u64>, Vec<String>) = cases.into_iter().unzip();
    let ran = Command::new(program).args(answers.iter().map(|answer| format!("{answer:X}"))).output().expect("it runs");
    assert_eq!(String::from_utf8_lossy(&ran.stdout), lines.concat());
}

/// Prints the bytes of the plan's buffer for each pair, crews and values, that it is given.
const PLAN_SIZE: &str = r#"
#include <stdio.h>
#include <stdlib.h>
#include "bixorgun.h"

int main(int argc, char **argv)
{
    for (int i = 1; i + 1 < argc; i += 2)
        printf("%zu\n", bixorgun_plan_size(strtoul(argv[i], NULL, 10), strtoul(argv[i + 1], NULL, 10)));
    printf("%d\n", BIXORGUN_PLAN_MAX);
    return 0;
}
"#;

/// 10 x F, with F = (1 + G) x the sum of the counts, plus G; the largest is the longest buffer.
#[test]
fn c_reckons_the_plans_buffer() {
    let program = written("plan_size", PLAN_SIZE);
    let pairs = [(0, 1), (0, 4), (1, 2), (2, 3 + 16), (9, 84), (32, 1), (32, 128)];
    let arguments = pairs.iter().flat_map(|(crews, values)| [crews, values]).map(|n: &usize| n.to_string());
    let ran = Command::new(program).args(arguments).output().expect("it runs");
    let expected: String =
        pairs.iter().map(|&(crews, values)| format!("{}\n", bixorgun::plan_size(crews, values))).collect();
    assert_eq!(String::from_utf8_lossy(&ran.stdout), format!("{expected}42560\n"));
}

/// Reads a page on its standard input and prints each set and then its bits, a line for each person; beyond the last
/// person, attribute and value too.
const PAGE_BITS: &str = r#"
#include <stdio.h>
#include "bixorgun.h"

int main(void)
{
    static uint8_t table[BIXORGUN_PAGE_SIZE];
    if (fread(table, 1, sizeof table, stdin) != sizeof table)
        return 1;
    for (unsigned person = 0; person < 66; person++) {
        for (unsigned attr = 0; attr < 10; attr++) {
            printf("%04X", bixorgun_page_set(table, person, attr));
            for (unsigned value = 0; value < 40; value++)
                putchar('0' + bixorgun_page_has(table, person, attr, value));
        }
        putchar('\n');
    }
    return 0;
}
"#;

/// A table in which every set is another one. What is absent is 0.
#[test]
fn c_reads_every_bit_of_a_page() {
    let table: Vec<u8> = (0..512_u16).flat_map(|place| place.wrapping_mul(40_503).to_be_bytes()).collect();
    let path = Path::new(env!("CARGO_TARGET_TMPDIR")).join("page");
    fs::write(&path, &table).expect("the table is written");
    let program = written("page_bits", PAGE_BITS);
    let ran = Command::new(program).stdin(File::open(path).expect("the table")).output().expect("it runs");
    let mut text = String::new();
    for person in 0..66 {
        for attr in 0..10 {
            let two = (person < 64 && attr < 8).then(|| &table[16 * person + 2 * attr..][..2]);
            let set = two.map_or(0, |two| u16::from_be_bytes([two[0], two[1]]));
            let bits: String = (0..40).map(|value| if u64::from(set) >> value & 1 == 1 { '1' } else { '0' }).collect();
            write!(text, "{set:04X}{bits}").expect("a string takes all");
        }
        text.push('\n');
    }
    assert_eq!(String::from_utf8_lossy(&ran.stdout), text);
}

/// A "not" book with a second rule for a value, one asked by mode 01, and a good one, whose page is refused.
#[test]
fn c_says_16_and_17_in_words() {
    let book = |more: &str, query: &str| format!("0101000102\n030100000001810001\n{more}{query}\n");
    let at_least = "05030000010100000100000000";
    let beyond = (book("030101000000\n", at_least), Refusal::BeyondNot { line: 4 });
    let wrong = (book("", "050100000101000001"), Refusal::WrongMode { line: 3 });
    let good = book("", at_least);
    let path = Path::new(env!("CARGO_TARGET_TMPDIR")).join("not");
    let run = |text: &str, operation: &str| {
        fs::write(&path, text).expect("the book is written");
        let mut command = Command::new(program());
        match operation {
            "page" => command.arg("--page").arg(&path),
            "open" => command.arg(&path).arg("0100000000"),
            _ => command.arg(&path),
        };
        command.output().expect("the example runs")
    };
    for (text, refusal) in [&beyond, &wrong] {
        for operation in ["plan", "open", "page"] {
            compare(text, operation, Err(*refusal), &run(text, operation));
        }
    }
    compare(&good, "page", Err(Refusal::WrongMode { line: 3 }), &run(&good, "page"));
    let ran = run(&good, "plan");
    assert_eq!(ran.stdout, said(&good).expect("an accepted book").as_bytes());
    assert!(ran.stdout.starts_with(b"plan of 1\n0100000000\n"));
}

#[test]
fn c_says_its_version() {
    let ran = Command::new(program()).arg("--version").output().expect("the example runs");
    let out = String::from_utf8_lossy(&ran.stdout);
    assert_eq!((ran.status.code(), &*out), (Some(0), &*format!("{}\n", bixorgun::VERSION)));
}
