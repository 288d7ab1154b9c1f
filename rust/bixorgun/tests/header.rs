//! `include/bixorgun.h` and this crate have the same version, the same sizes and the same numbers of refusals, and
//! Cargo.toml the same version.

use std::collections::BTreeMap;
use std::fs;
use std::path::PathBuf;

use bixorgun::{Refusal, BOOK_MAX, LEDGER_SIZE, PAGE_SIZE, PLAN_MAX, REQUEST_SIZE, STACK, VIEW_SIZE};
use bixorgun::{VERSION, VERSION_MAJOR, VERSION_MINOR, VERSION_PATCH};

/// What the header defines, by the name behind `BIXORGUN_`: the first word of each definition, without comments.
fn defined() -> BTreeMap<String, String> {
    let path: PathBuf = [env!("CARGO_MANIFEST_DIR"), "..", "..", "include", "bixorgun.h"].iter().collect();
    let header = fs::read_to_string(path).expect("the header");
    let definition = |line: &str| {
        let (name, value) = line.strip_prefix("#define BIXORGUN_")?.split_once(' ')?;
        Some((name.to_owned(), value.split_whitespace().next()?.to_owned()))
    };
    header.lines().filter_map(definition).collect()
}

#[test]
fn the_version_is_the_same_in_c_rust_and_cargo() {
    let header = defined();
    let parts = [("VERSION_MAJOR", VERSION_MAJOR), ("VERSION_MINOR", VERSION_MINOR), ("VERSION_PATCH", VERSION_PATCH)];
    for (name, part) in parts {
        assert_eq!(header[name], part.to_string(), "{name}");
    }
    assert_eq!(header["VERSION"], format!("\"{VERSION}\""));
    assert_eq!(VERSION, parts.map(|(_, part)| part.to_string()).join("."));
    assert_eq!(VERSION, env!("CARGO_PKG_VERSION"));
}

#[test]
fn the_sizes_are_the_same_in_c_and_rust() {
    let header = defined();
    let sizes = [
        ("BOOK_MAX", BOOK_MAX),
        ("LEDGER_SIZE", LEDGER_SIZE),
        ("REQUEST_SIZE", REQUEST_SIZE),
        ("VIEW_SIZE", VIEW_SIZE),
        ("PAGE_SIZE", PAGE_SIZE),
        ("PLAN_MAX", PLAN_MAX),
        ("STACK", STACK),
    ];
    for (name, size) in sizes {
        assert_eq!(header[name], size.to_string(), "{name}");
    }
}

#[test]
fn the_refusals_are_the_same_in_c_and_rust() {
    let header = defined();
    let line = 1;
    let refusals = [
        ("BOOK_TOO_LONG", Refusal::BookTooLong),
        ("BAD_LINE", Refusal::BadLine { line }),
        ("BAD_FRAME", Refusal::BadFrame { line }),
        ("BAD_LENGTH", Refusal::BadLength { line }),
        ("BAD_FIELD", Refusal::BadField { line }),
        ("BAD_EDGE", Refusal::BadEdge { line }),
        ("BAD_TERM", Refusal::BadTerm { line }),
        ("TOO_MANY_RULES", Refusal::TooManyRules { line }),
        ("NOT_RISING", Refusal::NotRising { line }),
        ("SHORT_PLAN_BUFFER", Refusal::ShortPlanBuffer),
        ("BAD_LEDGER", Refusal::BadLedger),
        ("BAD_REQUEST", Refusal::BadRequest),
        ("NO_RULE", Refusal::NoRule),
        ("BAD_PLAN_LENGTH", Refusal::BadPlanLength),
        ("UNMET_TERM", Refusal::UnmetTerm { rule: 1, term: 1 }),
        ("BEYOND_NOT", Refusal::BeyondNot { line }),
        ("WRONG_MODE", Refusal::WrongMode { line }),
    ];
    for (name, refusal) in refusals {
        assert_eq!(header[name], refusal.number().to_string(), "{name}");
    }
    assert!(refusals.iter().map(|(_, refusal)| refusal.number()).eq(1..=17));
}
