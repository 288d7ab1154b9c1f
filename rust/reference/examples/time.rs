//! Times reading, planning and replay of books: `time [repeats] files...`; the least of the repeats, in microseconds.

use std::time::{Duration, Instant};

use reference::ledger::Request;
use reference::plan::closure;
use reference::{book, replay};

fn least<T>(repeats: usize, mut run: impl FnMut() -> T) -> (T, Duration) {
    let mut timed = || {
        let began = Instant::now();
        let result = run();
        (result, began.elapsed())
    };
    (1..repeats).fold(timed(), |best, _| {
        let next = timed();
        if next.1 < best.1 {
            next
        } else {
            best
        }
    })
}

fn main() {
    let mut arguments = std::env::args().skip(1).peekable();
    let repeats = arguments.next_if(|first| first.parse::<usize>().is_ok()).map_or(20, |n| n.parse().unwrap_or(20));
    println!("{:>9} {:>9} {:>9}  answer", "read", "plan", "replay");
    for path in arguments {
        let text = std::fs::read(&path).unwrap_or_else(|error| panic!("{path}: {error}"));
        let (book, read) = least(repeats, || book::read(&text));
        let Ok(book) = book else {
            println!("{:9.1} {:>9} {:>9}  refused  {path}", micros(read), "-", "-");
            continue;
        };
        let (plan, planned) = least(repeats, || closure::plan(&book));
        let Some(plan) = plan else {
            println!("{:9.1} {:9.1} {:>9}  no way   {path}", micros(read), micros(planned), "-");
            continue;
        };
        let bytes: Vec<u8> = plan.iter().flat_map(Request::to_bytes).collect();
        let (verdict, replayed) = least(repeats, || replay::judge(&book, &bytes, |_, _| ()));
        assert_eq!(verdict, replay::Verdict::Reaches);
        println!("{:9.1} {:9.1} {:9.1}  {:<8} {path}", micros(read), micros(planned), micros(replayed), plan.len());
    }
}

fn micros(time: Duration) -> f64 {
    time.as_secs_f64() * 1e6
}
