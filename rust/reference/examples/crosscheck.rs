//! Compares the two planning methods on random small depots: `crosscheck [depots] [seed]`.

use std::process::ExitCode;
use std::time::Instant;

use reference::book;
use reference::gen::{self, Rng};
use reference::plan::compare::Counts;

fn main() -> ExitCode {
    let mut arguments = std::env::args().skip(1).map(|argument| argument.parse::<u64>());
    let depots = arguments.next().unwrap_or(Ok(200_000)).expect("a number of depots");
    let seed = arguments.next().unwrap_or(Ok(1)).expect("a seed");
    let began = Instant::now();
    let mut rng = Rng::new(seed);
    let mut counts = Counts::default();
    let mut differing = 0;
    for _ in 0..depots {
        let draft = match rng.below(11) {
            0..=2 => gen::small_book(&mut rng),
            3..=5 => gen::small_aimed_book(&mut rng),
            6 => gen::tangled_book(&mut rng, (2, 2, 2)),
            7 => gen::zigzag_book(&mut rng, 0, 5),
            8 | 9 => gen::small_not_book(&mut rng),
            _ => gen::graded_book(&mut rng, (1, 2, 4)),
        };
        let text = draft.text();
        let book = book::read(&text).expect("a good book");
        if let Err(difference) = counts.compare(&book) {
            differing += 1;
            println!("{difference}\n{}", String::from_utf8_lossy(&text));
        }
    }
    println!("{counts:#?}\n{differing} differ, {:.1} s", began.elapsed().as_secs_f64());
    if differing == 0 {
        ExitCode::SUCCESS
    } else {
        ExitCode::FAILURE
    }
}
