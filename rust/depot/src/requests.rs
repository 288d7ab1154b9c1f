//! Requests in words: `quality adds grade sorter to Ana`; or their ten digits.

use bixorgun::Request;

use crate::cursor::{cut, known, near, Cursor};
use crate::fault::Fault;
use crate::model::{request_of, Depot, Op};
use crate::names::Names;
use crate::source::{lines, Line};

/// Reads one request.
pub fn request(depot: &Depot, text: &str) -> Result<Request, Fault> {
    match list(depot, text)?.as_slice() {
        [request] => Ok(*request),
        [] => Err(Fault::of_file("a request is missing").with_help(SHAPE)),
        _ => Err(Fault::of_file("this is more than one request").with_help(SHAPE)),
    }
}

const SHAPE: &str = "write, say, `LEAD adds ATTRIBUTE VALUE to PERSON` or `LEAD assigns PERSON to CREW`";

/// Reads a list of requests, one a line: in words, as ten digits, or as the program `plan` prints them, behind a line with
/// their count.
pub fn list(depot: &Depot, text: &str) -> Result<Vec<Request>, Fault> {
    let names = Names::of(depot);
    let mut faults = Vec::new();
    let lines = lines(text, &mut faults);
    if let Some(fault) = faults.into_iter().next() {
        return Err(fault);
    }
    let mut requests = Vec::new();
    for (at, line) in lines.iter().enumerate() {
        if at == 0 && is_count(line, lines.len() - 1) {
            continue;
        }
        requests.push(one(&names, line)?);
    }
    Ok(requests)
}

/// Whether a line is the count that the program `plan` prints before so many requests.
fn is_count(line: &Line<'_>, count: usize) -> bool {
    let word = line.words[0].text;
    line.words.len() == 1 && word.len() == 6 && word == format!("81{count:04X}")
}

fn one(names: &Names, line: &Line<'_>) -> Result<Request, Fault> {
    let mut c = Cursor::new(line);
    if let ([word], Some(bytes)) = (line.words.as_slice(), digits(line.words[0].text)) {
        let unknown = Fault::at(line.number, word.column, word.width(), "no request has these bytes").refused(12);
        return Request::from_bytes(bytes).ok_or(unknown);
    }
    let lead = c.name("lead", &names.leads)?;
    let verb = c.expect(&["adds", "deletes", "assigns", "removes"])?;
    let joint = if matches!(verb, "adds" | "assigns") { "to" } else { "from" };
    let request = if matches!(verb, "assigns" | "removes") {
        let person = c.name("person", &names.persons)?;
        c.expect(&[joint])?;
        c.eat("crew");
        let op = if verb == "assigns" { Op::Assign } else { Op::Remove };
        request_of(op, lead, person, c.name("crew", &names.crews)?, 0)
    } else {
        let (attribute, value) = names.value(&mut c)?;
        c.expect(&[joint])?;
        let (on_crew, subject) = subject(names, &mut c)?;
        let op = match (verb, on_crew) {
            ("adds", false) => Op::AddToPerson,
            ("adds", true) => Op::AddToCrew,
            (_, false) => Op::DeleteFromPerson,
            (_, true) => Op::DeleteFromCrew,
        };
        request_of(op, lead, subject, attribute, value)
    };
    c.end()?;
    Ok(request)
}

/// A person's or a crew's name, and whether it is a crew's.
fn subject(names: &Names, c: &mut Cursor<'_>) -> Result<(bool, u8), Fault> {
    let crew = c.eat("crew");
    if crew || c.peek().is_some_and(|word| names.crews.iter().any(|name| name == word)) {
        return Ok((true, c.name("crew", &names.crews)?));
    }
    c.eat("person");
    Ok((false, c.name("person", &names.persons)?))
}

/// Five bytes of ten digits.
fn digits(word: &str) -> Option<[u8; 5]> {
    if word.len() != 10 || !word.bytes().all(|c| c.is_ascii_hexdigit()) {
        return None;
    }
    let mut bytes = [0; 5];
    for (byte, at) in bytes.iter_mut().zip((0..10).step_by(2)) {
        *byte = u8::from_str_radix(&word[at..at + 2], 16).ok()?;
    }
    Some(bytes)
}

/// A person's number by name.
pub fn person(depot: &Depot, name: &str) -> Result<u8, Fault> {
    let found = depot.persons.iter().position(|person| person == name);
    // A book has at most 64.
    found.map(|person| person as u8).ok_or_else(|| {
        let help = near(name, depot.persons.iter().map(String::as_str)).unwrap_or_else(|| known(&depot.persons));
        let crew = depot.crews.iter().any(|crew| crew == name);
        let what = if crew { "is a crew, and persons are shown" } else { "is no person" };
        Fault::of_file(format!("`{}` {what}", cut(name))).with_help(help)
    })
}
