//! Hexadecimal books written in the notation, by number and with names.

use depot::hex;
use depot::model::{Attribute, Depot, Expectation, Mode, Question, Said};
use depot::words::{rename, words};

const EXAMPLE: &[u8] = b"010202020310\n020100\n0401000000\n0402000001\n030501010001010000\n030102000201020001\n\
    030103010002010002020001\n050100000E01010001\n";

fn read(book: &[u8]) -> Depot {
    hex::read(book).expect("a good book")
}

fn list(names: &str) -> Vec<String> {
    names.split(' ').filter(|name| !name.is_empty()).map(String::from).collect()
}

/// The names of the example.
fn names() -> Depot {
    let lanes = (0..16).map(|lane| format!("lane{lane}")).collect();
    Depot {
        persons: list("Ana Dov"),
        crews: list("returns night"),
        leads: list("office shifts training lanes standby"),
        attributes: vec![
            Attribute { name: "grade".into(), values: list("trainee sorter foreman") },
            Attribute { name: "lane".into(), values: lanes },
        ],
        ..Depot::default()
    }
}

#[test]
fn by_number() {
    let expected = "\
persons person-0 person-1
crews crew-0 crew-1
leads lead-0 lead-1 lead-2 lead-3
attribute attribute-0 value-0 value-1 value-2
attribute attribute-1 value-0 value-1 value-2 value-3 value-4 value-5 value-6 value-7 value-8 value-9 value-10 \
value-11 value-12 value-13 value-14 value-15

crew-1 over crew-0
person-0 has attribute-0 value-0
crew-0 has attribute-0 value-1
lead-1 may assign to crew-1 if directly has attribute-0 value-0
lead-2 may add attribute-0 value-2 to persons if has attribute-0 value-1
lead-3 may add attribute-1 value-0 to persons if directly has attribute-0 value-2 and has attribute-0 value-1

may person-0 ever have attribute-1 value-0 by lead-1 lead-2 lead-3
";
    assert_eq!(words(&read(EXAMPLE)), expected);
}

#[test]
fn with_names() {
    let mut depot = read(EXAMPLE);
    assert_eq!(rename(&mut depot, &names()), Ok(()));
    let text = words(&depot);
    let lines: Vec<&str> = text.lines().collect();
    assert_eq!(
        lines[..4],
        [
            "persons Ana Dov",
            "crews returns night",
            "leads office shifts training lanes standby",
            "attribute grade trainee sorter foreman"
        ]
    );
    assert_eq!(
        lines[6..],
        [
            "night over returns",
            "Ana has grade trainee",
            "returns has grade sorter",
            "shifts may assign to night if directly has grade trainee",
            "training may add grade foreman to persons if has grade sorter",
            "lanes may add lane lane0 to persons if directly has grade foreman and has grade sorter",
            "",
            "may Ana ever have lane lane0 by shifts training lanes",
        ]
    );
}

/// Every op, kind of term and mode, the empty sets too.
#[test]
fn all_forms() {
    let rules = b"0101020102\n0403000100\n030100000101050000\n030200000100\n030300000101020001\n030400000100\n\
        030500010002040000030000\n030600010000\n05020000010100000000000002\n";
    let lines: Vec<String> = words(&read(rules)).lines().skip(5).map(String::from).collect();
    assert_eq!(
        lines,
        [
            "person-0 in crew-1",
            "lead-0 may add attribute-0 value-1 to persons if has attribute-0 value-0 or higher",
            "lead-0 may delete attribute-0 value-1 from persons",
            "lead-0 may add attribute-0 value-1 to crews if has attribute-0 value-1",
            "lead-0 may delete attribute-0 value-1 from crews",
            "lead-0 may assign to crew-1 if in crew-0 and directly in crew-0",
            "lead-0 may remove from crew-1",
            "",
            "may person-0 ever be exactly in crew-1 with attribute-0 exactly nothing by lead-0",
        ]
    );
    let grows = b"0101020101\n030500010002830000810000\n05030000030100000000000003\n";
    let lines: Vec<String> = words(&read(grows)).lines().skip(5).map(String::from).collect();
    assert_eq!(lines, [
        "lead-0 may assign to crew-1 if not directly in crew-0 and not directly has attribute-0 value-0",
        "",
        "may person-0 ever directly have at least nothing of attribute-0 and be in crew-0 and be in crew-1 by lead-0 lead-1",
    ]);
}

/// Without crews, leads, statements: no word of them, and no two empty lines.
#[test]
fn the_least() {
    let mut depot = read(b"0101000101\n050100000000\n");
    let front = "persons person-0\nattribute attribute-0 value-0\n\n";
    assert_eq!(words(&depot), format!("{front}may person-0 ever have at least nothing by nobody\n"));
    let question = Question { mode: Mode::AtLeast, person: 0, leads: 0, wants: vec![(0, 1)], crews: 0 };
    let expect = |yes| Said { line: 9, what: Expectation { yes, question: question.clone() } };
    depot.expectations = vec![expect(false), expect(true)];
    depot.question = None;
    let asked = "may person-0 ever have attribute-0 value-0 by nobody";
    assert_eq!(words(&depot), format!("{front}expect no way: {asked}\nexpect yes: {asked}\n"));
}

#[test]
fn many_names() {
    let depot = read(b"0140200101\n050100000000\n");
    let text = words(&depot);
    let of = |word: &str| text.lines().filter(|line| line.starts_with(word)).collect::<Vec<_>>();
    let persons = of("persons ");
    assert!(persons.len() > 5 && persons.iter().all(|line| line.len() <= 100 && line.len() > 20), "{persons:?}");
    let all: Vec<&str> = persons.iter().flat_map(|line| line.split(' ').skip(1)).collect();
    assert_eq!(all, depot.persons);
    let crews: Vec<&str> = of("crews ").iter().flat_map(|line| line.split(' ').skip(1)).collect();
    assert_eq!(crews, depot.crews);

    let mut long = depot;
    long.crews[3] = "x".repeat(64);
    long.crews[4] = "y".repeat(64);
    assert!(words(&long).lines().all(|line| line.chars().count() <= 100));
}

#[test]
fn other_names() {
    let refused = |change: fn(&mut Depot)| {
        let (mut depot, mut names) = (read(EXAMPLE), names());
        change(&mut names);
        let told = rename(&mut depot, &names).expect_err("other names");
        assert_eq!(depot, read(EXAMPLE));
        told
    };
    assert_eq!(refused(|names| names.persons = list("Ana")), "the book has 2 persons, the names 1");
    assert_eq!(refused(|names| names.crews = list("a b c")), "the book has 2 crews, the names 3");
    assert_eq!(refused(|names| names.attributes.truncate(1)), "the book has 2 attributes, the names 1");
    assert_eq!(
        refused(|names| names.attributes[0].values.truncate(2)),
        "attribute 00 has 3 values in the book, `grade` has 2"
    );
    assert_eq!(refused(|names| names.leads.truncate(3)), "the book needs 4 leads, the names have 3");
    let both = refused(|names| {
        names.persons.clear();
        names.leads.clear();
    });
    assert_eq!(both, "the book has 2 persons, the names 0; the book needs 4 leads, the names have 0");
}
