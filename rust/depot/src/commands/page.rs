//! `depot page`: the whole depot as one HTML file.

use std::io::Write as _;
use std::path::Path;
use std::time::{Duration, Instant};

use super::{refused, usage, Answered, Context};
use crate::compile::Compiled;
use crate::fault::Fault;
use crate::hex;
use crate::html::{self, Cell, Sheet};
use crate::json::Json;
use crate::model::{members, Depot};
use crate::reply::{Reply, YES};
use crate::say::counted;
use crate::sheet::{self, Unmade};
use crate::wrap::wrap;

/// Writes the page of a file.
pub fn page(context: &Context<'_>, file: &str) -> Answered<Reply> {
    let (depot, book, hexadecimal) = context.load_book(file)?;
    let leads = depot.question.as_ref().expect("a book has a question").what.leads;
    let to = target(context, file)?;
    let progress = Progress { begun: Instant::now(), shown: context.terminal, of: depot.persons.len() };
    let rows = sheet::rows(&depot, &book.characters, leads, &|done| progress.tell(done));
    progress.end();
    let rows = rows.map_err(|unmade| unmade_page(file, (&depot, &book), hexadecimal, unmade))?;
    let name = Path::new(file).file_name().map_or(file.into(), |name| name.to_string_lossy());
    let sheet = Sheet { depot: &depot, file: &name, leads, rows };
    let text = html::page(&sheet);
    let counts = counts(&sheet.rows);
    let mut more = vec![
        ("leads", Json::list(members(leads.into()).map(|lead| Json::text(depot.lead(lead))))),
        ("persons", cells(&depot, &sheet.rows)),
    ];
    more.extend(KINDS.into_iter().zip(counts).map(|(kind, count)| (kind, Json::Number(count))));
    let mut reply = Reply::new(YES, "page", String::new(), more);
    match to {
        None if context.args.json => reply.more.push(("page", Json::Text(text))),
        None => reply.out = text,
        Some(to) => {
            context.write(&to, text.as_bytes())?;
            let [has, through, reach, never] = counts;
            let said = format!(
                "{to}: {} {}: {has} held, {through} held through a crew, {reach} that can be come to, {never} \
                 with no way.",
                counted(depot.persons.len(), "person"),
                depot.by_leads(leads),
            );
            reply.out = wrap(&said);
            reply.more.push(("written", Json::Text(to)));
        }
    }
    Ok(reply)
}

/// The reply where there is no page.
fn unmade_page(file: &str, (depot, book): (&Depot, &Compiled), hexadecimal: bool, unmade: Unmade) -> Box<Reply> {
    let refusal = match unmade {
        Unmade::Refused(refusal) => refusal,
        Unmade::Differ { person, attribute, value } => {
            let (who, what) = (depot.person(person), depot.value(attribute, value));
            let text = format!("the library's page and its plan differ on {who} and {what}: do not rely on either");
            return refused(file, Fault::of_file(text));
        }
    };
    let mut fault = hex::explain_page(&book.characters, &refusal);
    if let (false, Some(line)) = (hexadecimal, depot.not_line()) {
        fault.text = format!("a depot with a `not` (line {line}) has no page");
    }
    fault.line = refusal.line().and_then(|line| book.lines.get(line.wrapping_sub(1))).copied().unwrap_or(0);
    fault.column = 0;
    refused(file, fault)
}

/// Keys of the counts.
const KINDS: [&str; 4] = ["held", "through", "reached", "never"];

fn counts(rows: &[sheet::Row]) -> [usize; 4] {
    let mut counts = [0; 4];
    rows.iter().flatten().flatten().for_each(|cell| counts[kind(cell)] += 1);
    counts
}

fn kind(cell: &Cell) -> usize {
    match cell {
        Cell::Has => 0,
        Cell::Through(_) => 1,
        Cell::Reach(_) => 2,
        Cell::NoWay => 3,
    }
}

/// The cells for machines.
fn cells(depot: &Depot, rows: &[sheet::Row]) -> Json {
    let cell = |a: usize, v: usize, cell: &Cell| {
        let mut members = vec![
            ("attribute", Json::text(depot.attribute(a as u8))),
            ("value", Json::text(depot.value_alone(a as u8, v as u8))),
            ("cell", Json::text(["has", "through a crew", "can come to", "no way"][kind(cell)])),
        ];
        match cell {
            Cell::Through(crew) => members.push(("through", Json::text(depot.crew(*crew)))),
            Cell::Reach(story) => members.push(("moves", Json::Number(story.moves.len()))),
            _ => {}
        }
        Json::Object(members)
    };
    Json::list(rows.iter().enumerate().map(|(person, row)| {
        let all = row.iter().enumerate().flat_map(|(a, set)| set.iter().enumerate().map(move |(v, it)| cell(a, v, it)));
        Json::Object(vec![("person", Json::text(depot.person(person as u8))), ("cells", Json::list(all))])
    }))
}

/// The file that `-o` names; with several files a folder's, one for each.
fn target(context: &Context<'_>, file: &str) -> Answered<Option<String>> {
    let several = context.args.rest.len() > 1;
    match &context.args.out {
        Some(out) if Path::new(out).is_dir() => {
            let stem = |file: &str| {
                Path::new(file).file_stem().map_or("depot".into(), |stem| stem.to_string_lossy().into_owned())
            };
            let before = context.args.rest.iter().take_while(|other| *other != file);
            if before.map(|other| stem(other)).any(|other| other == stem(file)) {
                return Err(usage(file, "another file of this name has its page in that folder"));
            }
            let stem = stem(file);
            Ok(Some(Path::new(out).join(format!("{stem}.html")).to_string_lossy().into_owned()))
        }
        Some(out) if several => {
            Err(usage(out, "with several files `-o` names a folder, and there is none of this name"))
        }
        out => Ok(out.clone()),
    }
}

/// How far a page is, on a terminal, where it takes over a second.
struct Progress {
    begun: Instant,
    shown: bool,
    of: usize,
}

impl Progress {
    fn late(&self) -> bool {
        self.shown && self.begun.elapsed() > Duration::from_secs(1)
    }

    fn tell(&self, done: usize) {
        if self.late() {
            let _ = write!(std::io::stderr(), "\r{done} of {} persons", self.of);
        }
    }

    fn end(&self) {
        if self.late() {
            let _ = write!(std::io::stderr(), "\r\x1b[K");
        }
    }
}
