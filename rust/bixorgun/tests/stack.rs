//! Each operation runs on a thread of the documented stack. A thread whose stack is too small ends the whole process,
//! and so this test.
//!
//! The buffers are on the heap, so that the stack is the library's but for a few small frames.

use std::fmt::Debug;
use std::fs;
use std::path::PathBuf;
use std::sync::Arc;
use std::thread;

use bixorgun::bytes::{self, Planned};
use bixorgun::{Person, BOOK_MAX, LEDGER_SIZE, PAGE_SIZE, PLAN_MAX, REQUEST_SIZE, STACK, VIEW_SIZE};

/// The stack of a thread with whose answers those of the documented stack are compared.
const LARGE: usize = 16 << 20;

/// A book, the ledger of its starting facts and a list of requests: its plan, or one request where it has none.
struct Case {
    name: String,
    book: Vec<u8>,
    ledger: Vec<u8>,
    list: Vec<u8>,
}

impl Case {
    fn new(name: &str, book: Vec<u8>) -> Self {
        let mut ledger = vec![0; LEDGER_SIZE];
        let _ = bytes::open(&book, &mut ledger);
        let mut list = vec![0; PLAN_MAX];
        match bytes::plan_into(&book, &mut list) {
            Ok(Planned::Plan(count)) => list.truncate(REQUEST_SIZE * count),
            _ => list = vec![1, 0, 0, 0, 0],
        }
        Case { name: name.to_owned(), book, ledger, list }
    }
}

/// What an operation answered, and the bytes of the buffer that it was lent.
type Done = (String, Vec<u8>);
type Operation = fn(&Case) -> Done;

/// Lends a buffer to a call.
fn lent<T: Debug>(mut buffer: Vec<u8>, call: impl FnOnce(&mut [u8]) -> T) -> Done {
    let answer = format!("{:?}", call(&mut buffer));
    (answer, buffer)
}

fn open(case: &Case) -> Done {
    lent(vec![0xA5; LEDGER_SIZE], |ledger| bytes::open(&case.book, ledger))
}

/// Requests of the list, the last ones backwards, so that some come too soon, and then the first ones; each also by
/// role 15, which mostly has no rule.
fn request(case: &Case) -> Done {
    let list = || case.list.chunks(REQUEST_SIZE).map(|five| five.try_into().expect("five bytes"));
    let some = list().rev().take(64).chain(list().take(64));
    let some = some.flat_map(|five @ [op, _, subject, a, v]: [u8; REQUEST_SIZE]| [five, [op, 15, subject, a, v]]);
    lent(case.ledger.clone(), |ledger| some.map(|five| bytes::request(&case.book, ledger, &five)).collect::<Vec<_>>())
}

/// Every person that a book can have, and one more.
fn show(case: &Case) -> Done {
    let shown = |person, view: &mut [u8]| bytes::show_into(&case.book, &case.ledger, Person(person), view);
    lent(vec![0xA5; 65 * VIEW_SIZE], |views| {
        (0..).zip(views.chunks_mut(VIEW_SIZE)).map(|(p, view)| shown(p, view)).collect::<Vec<_>>()
    })
}

fn replay(case: &Case) -> Done {
    lent(Vec::new(), |_| bytes::replay(&case.book, &case.list))
}

fn plan(case: &Case) -> Done {
    lent(vec![0xA5; PLAN_MAX], |out| bytes::plan_into(&case.book, out))
}

fn page(case: &Case) -> Done {
    lent(vec![0xA5; PAGE_SIZE], |table| bytes::page(&case.book, table))
}

const OPERATIONS: [(&str, Operation); 6] =
    [("open", open), ("request", request), ("show", show), ("replay", replay), ("plan", plan), ("page", page)];

/// Runs an operation on a thread of its own.
fn on_stack(stack: usize, operation: Operation, case: &Arc<Case>) -> Done {
    let case = Arc::clone(case);
    let thread = thread::Builder::new().stack_size(stack).spawn(move || operation(&case)).expect("a thread");
    thread.join().expect("no panic")
}

/// The stored books that are planned, two refused ones among them.
fn stored() -> Vec<Case> {
    let data: PathBuf = [env!("CARGO_MANIFEST_DIR"), "..", "..", "crates", "books", "data"].iter().collect();
    let paths = fs::read_dir(data).expect("the stored books").map(|entry| entry.expect("a name").path());
    let planned = paths.filter(|path| path.extension().is_some_and(|end| end == "book"));
    planned.map(|path| Case::new(&path.display().to_string(), fs::read(&path).expect("a stored book"))).collect()
}

/// A chain of all 32 crews. The person is in the topmost and in the lowest, gets 16 values by terms on what the lowest
/// holds, and leaves the lowest. By a rule of role 15 no crew of the chain holds what the second term asks for.
fn deep_chain() -> Case {
    let edges: String = (1..32).map(|crew| format!("02{crew:02X}{:02X}\n", crew - 1)).collect();
    let rules: String = (0..16).map(|value| format!("03010001{value:02X}02020000020700\n")).collect();
    let facts = "0403001F00\n0403000000\n0402000000\n0402000700\n";
    let query = "050200FFFF0101FFFF80000000";
    let unmet = "03010F010002020000020701\n";
    let book = format!("014020081010101010101010\n{edges}{facts}{rules}{unmet}030600000001040000\n{query}\n");
    let case = Case::new("a chain of crews", book.into_bytes());
    assert_eq!(case.list.len(), 17 * REQUEST_SIZE);
    case
}

/// Books that are refused late or are long.
fn refused() -> Vec<Case> {
    let rules = format!("0101010102\n{}", "030100000000\n".repeat(513));
    let not = format!("030100000008{}\n", "810001".repeat(8));
    let twice = format!("0101010102\n{}050300FFFF0000000000\n", not.repeat(512));
    vec![
        Case::new("too long", vec![b'0'; BOOK_MAX + 1]),
        Case::new("one line without an end", vec![b'0'; BOOK_MAX]),
        Case::new("one empty line after the other", vec![b'\n'; BOOK_MAX]),
        Case::new("513 rules", rules.into_bytes()),
        Case::new("no query", b"014020081010101010101010\n".to_vec()),
        Case::new("a rule with \"not\" terms 512 times", twice.into_bytes()),
    ]
}

#[test]
fn each_operation_runs_on_the_documented_stack() {
    let stored = stored();
    assert!(stored.len() >= 140, "{} books", stored.len());
    assert!(stored.iter().any(|case| case.book.len() > BOOK_MAX - 100), "the longest book");
    assert!(stored.iter().any(|case| case.list.len() > 8_000 * REQUEST_SIZE), "the longest plan");
    let cases = stored.into_iter().chain(refused()).chain([deep_chain()]).map(Arc::new);
    let (mut runs, mut answers) = (0, String::new());
    for case in cases {
        for (name, operation) in OPERATIONS {
            let small = on_stack(STACK, operation, &case);
            assert!(small == on_stack(LARGE, operation, &case), "{name}, {}: {}", case.name, small.0);
            answers += &small.0;
            runs += 1;
        }
    }
    for refusal in ["NoRule", "UnmetTerm { rule: 17, term: 2 }", "BeyondNot { line: 514 }", "WrongMode { line: 290 }"] {
        assert!(answers.contains(refusal), "{refusal}");
    }
    println!("{runs} runs on threads of {STACK} bytes of stack");
}
