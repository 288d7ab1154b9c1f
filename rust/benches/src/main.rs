//! The library and the reference side by side.
//!
//! `benches compare ROOT PLAN REFERENCE` measures the repository's books and the growing series, prints the tables, and
//! writes docs/PERFORMANCE.md and docs/performance.svg below ROOT; PLAN and REFERENCE are the two programs that plan a book
//! on standard input. `benches child TASK BOOK LIST` is what it runs under callgrind.

#![forbid(unsafe_code)]

mod agree;
mod callgrind;
mod calls;
mod job;
mod measure;
mod plot;
mod report;
mod series;
mod table;

use std::fs;
use std::path::{Path, PathBuf};
use std::process::ExitCode;

use callgrind::Task;
use job::{Buffers, Job, Operation, Side};
use report::{MeasuredSeries, Profiled, Results};
use table::{Cost, Measured, Row};

/// The calls whose functions are listed.
const PROFILED: [(Operation, &str); 18] = [
    (Operation::Plan, START),
    (Operation::Plan, TYPICAL),
    (Operation::Plan, MAXIMAL),
    (Operation::Plan, LONGEST),
    (Operation::Plan, LARGEST_PLAN),
    (Operation::Plan, "sweep-128"),
    (Operation::Plan, "rounds-60x32"),
    (Operation::Open, TYPICAL),
    (Operation::Request, TYPICAL),
    (Operation::Show, TYPICAL),
    (Operation::Show, LARGEST_PLAN),
    (Operation::Show, "rounds-15x32"),
    (Operation::Replay, TYPICAL),
    (Operation::Replay, MAXIMAL),
    (Operation::Replay, LARGEST_PLAN),
    (Operation::Page, TYPICAL),
    (Operation::Page, MAXIMAL),
    (Operation::Page, "sweep-128"),
];
const TYPICAL: &str = "typical-m1-yes-1";
const MAXIMAL: &str = "maximal-m1-yes";
const LONGEST: &str = "read-65536";
const LARGEST_PLAN: &str = "maxplan-8448";
/// The book whose cost is the start-up.
const START: &str = "trivial";
/// The books whose calls are listed whole.
const LISTED: [&str; 4] = [TYPICAL, MAXIMAL, LONGEST, LARGEST_PLAN];

fn main() -> ExitCode {
    let arguments: Vec<String> = std::env::args().skip(1).collect();
    let arguments: Vec<&str> = arguments.iter().map(String::as_str).collect();
    let done = match arguments[..] {
        ["compare", root, plan, reference] => compare(Path::new(root), Path::new(plan), Path::new(reference)),
        ["child", task, book, list] => child(task, book, list),
        _ => Err("benches compare ROOT PLAN REFERENCE, or benches child TASK BOOK LIST".to_owned()),
    };
    match done {
        Ok(()) => ExitCode::SUCCESS,
        Err(why) => {
            eprintln!("error: {why}");
            ExitCode::FAILURE
        }
    }
}

fn read(path: impl AsRef<Path>) -> Result<Vec<u8>, String> {
    fs::read(&path).map_err(|why| format!("{}: {why}", path.as_ref().display()))
}

fn child(task: &str, book: &str, list: &str) -> Result<(), String> {
    let task = Task::named(task).ok_or("no such task")?;
    let job = Job::with_list(read(book)?, read(list)?).map_err(|refusal| refusal.to_string())?;
    callgrind::child(task, &job);
    Ok(())
}

fn compare(root: &Path, plan: &Path, reference: &Path) -> Result<(), String> {
    let data = root.join("crates/books/data");
    let trivial = data.join(format!("{START}.book"));
    let results = Results {
        processes: [callgrind::process(plan, &trivial)?, callgrind::process(reference, &trivial)?],
        clearing: clearing(read(&trivial)?)?,
        books: books(&data)?,
        profiles: profiles(&data)?,
        series: growing()?,
        listed: &LISTED,
    };
    write(root, &results)
}

/// What clearing the caller's buffer first adds to the library's plan of a book.
fn clearing(text: Vec<u8>) -> Result<Cost, String> {
    let job = Job::new(text).map_err(|refusal| refusal.to_string())?;
    let profile = callgrind::profile(Task::All, &job)?;
    let more = profile.cleared_plan()? as f64 - profile.of(Side::Ours, Operation::Plan)? as f64;
    Ok(Cost { instructions: more, micros: measure::clearing_micros(&job, &mut Buffers::new()) })
}

/// The stored books that are accepted, the trivial one first.
fn books(data: &Path) -> Result<Vec<Measured>, String> {
    let entries = fs::read_dir(data).map_err(|why| format!("{}: {why}", data.display()))?;
    let mut paths: Vec<PathBuf> = entries.filter_map(|entry| entry.ok().map(|entry| entry.path())).collect();
    paths.retain(|path| path.extension().is_some_and(|end| end == "book"));
    paths.sort_by_key(|path| (report::rank(&path.file_stem().unwrap_or_default().to_string_lossy()), path.clone()));
    let mut books = Vec::new();
    for path in paths {
        let name = path.file_stem().unwrap_or_default().to_string_lossy().into_owned();
        // A refused book has nothing to measure but its reading.
        if let Ok(job) = Job::new(read(&path)?) {
            books.push(measured(name, &job)?);
        }
    }
    Ok(books)
}

fn profiles(data: &Path) -> Result<Vec<Profiled>, String> {
    let profile = |(operation, book): (Operation, &'static str)| {
        let job = Job::new(read(data.join(format!("{book}.book")))?).map_err(|refusal| refusal.to_string())?;
        Ok(Profiled { operation, book, profile: callgrind::profile(Task::One(operation), &job)? })
    };
    PROFILED.into_iter().map(profile).collect()
}

fn growing() -> Result<Vec<MeasuredSeries>, String> {
    let mut all = Vec::new();
    for series in series::all() {
        let mut points = Vec::new();
        for (number, job) in &series.points {
            points.push((*number, measured(format!("{} {number}", series.title), job)?));
        }
        all.push(MeasuredSeries { title: series.title, plotted: series.plotted, points });
    }
    Ok(all)
}

/// Sees that both agree on a job, times it and counts it.
fn measured(name: String, job: &Job) -> Result<Measured, String> {
    let found = agree::check(job).map_err(|why| format!("{name}: {why}"))?;
    eprintln!("{name}: {found:?}");
    let profile = callgrind::profile(Task::All, job)?;
    let mut buffers = Buffers::new();
    let mut rows = [Row::default(); 6];
    for operation in Operation::ALL {
        let micros = measure::micros(operation, job, &mut buffers);
        for side in Side::ALL {
            let instructions = profile.of(side, operation)? as f64 / job.calls(operation) as f64;
            rows[operation as usize].0[side as usize] = Cost { instructions, micros: micros[side as usize] };
        }
    }
    Ok(Measured { name, rows })
}

/// Prints the tables, and writes them and the plot into the documents.
fn write(root: &Path, results: &Results) -> Result<(), String> {
    let path = root.join("docs/PERFORMANCE.md");
    let mut document = String::from_utf8(read(&path)?).map_err(|why| why.to_string())?;
    for (name, text) in results.parts() {
        println!("{name}\n\n{text}");
        document = report::replace(&document, name, &text)?;
    }
    let put = |path: &Path, text: &str| fs::write(path, text).map_err(|why| format!("{}: {why}", path.display()));
    put(&path, &document)?;
    put(&root.join("docs/performance.svg"), &results.plot())
}
