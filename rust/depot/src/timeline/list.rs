//! A plan of many moves: a list, with runs of moves folded.

use std::fmt::Write;

use bixorgun::{Act, Request};

use super::{bar_paths, bar_pieces, grouped, labels, path, pieces, rectangle, stretch, subject_name};
use super::{Drawing, Label, INDENT, MARGIN, MOST_LABEL, ROW, SIZE, THICK};
use crate::lettering::{width, Piece};
use crate::model::{members, Depot};
use crate::say::by_number;
use crate::story::{Bar, Story};

/// The most rows that a list has.
const MOST_ROWS: usize = 56;

/// Consecutive moves, by their places: from, and up to before.
type Run = (usize, usize);

/// The crew that a move is on.
fn crew_of(request: &Request) -> Option<u8> {
    match request.act {
        Act::Assign(_, crew) | Act::Remove(_, crew) => Some(crew.0),
        Act::AddToCrew(crew, ..) | Act::DeleteFromCrew(crew, ..) => Some(crew.0),
        _ => None,
    }
}

/// The person that a move is on.
fn person_of(request: &Request) -> Option<u8> {
    match request.act {
        Act::Assign(person, _) | Act::Remove(person, _) => Some(person.0),
        Act::AddToPerson(person, ..) | Act::DeleteFromPerson(person, ..) => Some(person.0),
        _ => None,
    }
}

/// Whom a move is on: a crew, where it names one, or a person with 0x80.
fn key_of(request: &Request) -> u8 {
    crew_of(request).or(person_of(request).map(|person| 0x80 | person)).unwrap_or(u8::MAX)
}

/// Neighbours on the same crew, from three on, are put together, and from `least` on those on the same person; the
/// others stand alone.
fn folded(story: &Story, least: usize) -> Vec<Run> {
    let key = |place: usize| key_of(&story.moves[place].request);
    let count = story.moves.len();
    let mut runs = Vec::new();
    let mut from = 0;
    while from < count {
        let to = (from + 1..count).find(|place| key(*place) != key(from)).unwrap_or(count);
        if to - from >= if key(from) < 0x80 { 3 } else { least } {
            runs.push((from, to));
        } else {
            runs.extend((from..to).map(|place| (place, place + 1)));
        }
        from = to;
    }
    runs
}

/// The rows of a list: folded by crew; where these are too many, long runs on a person too, then shorter ones; at last
/// evenly.
fn runs(story: &Story) -> Vec<Run> {
    let mut runs = Vec::new();
    for least in [usize::MAX, 16, 8, 4, 2] {
        runs = folded(story, least);
        if runs.len() <= MOST_ROWS {
            return runs;
        }
    }
    let together = runs.len().div_ceil(MOST_ROWS);
    runs.chunks(together).filter_map(|chunk| Some((chunk.first()?.0, chunk.last()?.1))).collect()
}

/// What folded moves are, in words: `46 moves on crew returns by shift and quality`.
fn folded_pieces(depot: &Depot, story: &Story, (from, to): Run) -> Vec<Piece> {
    let requests = || story.moves[from..to].iter().map(|step| &step.request);
    let crews = requests().filter_map(crew_of).fold(0u32, |set, crew| set | 1 << crew);
    let alone = |request: &&Request| crew_of(request).is_none();
    let persons = requests().filter(alone).filter_map(person_of).fold(0u64, |set, person| set | 1 << person);
    let leads = requests().fold(0u32, |set, request| set | 1 << request.role.0);
    let mut on: Vec<(&str, String)> = members(crews)
        .map(|crew| (if depot.crew(crew) == by_number("crew", crew) { "" } else { "crew " }, depot.crew(crew)))
        .collect();
    on.extend((0..64).filter(|person| persons >> person & 1 == 1).map(|person| ("", depot.person(person))));
    let by = members(leads).map(|lead| ("", depot.lead(lead))).collect();
    let mut said = vec![Piece::Name((to - from).to_string()), Piece::Word(" moves on ")];
    few(&mut said, on);
    said.push(Piece::Word(" by "));
    few(&mut said, by);
    said
}

/// Names listed; of more than three the first two.
fn few(said: &mut Vec<Piece>, mut names: Vec<(&'static str, String)>) {
    if names.len() > 3 {
        let others = format!("{} others", names.len() - 2);
        names.truncate(2);
        names.push(("", others));
    }
    let last = names.len().saturating_sub(1);
    for (place, (word, name)) in names.into_iter().enumerate() {
        let glue = if place == 0 {
            ""
        } else if place == last {
            " and "
        } else {
            ", "
        };
        said.extend([Piece::Word(glue), Piece::Word(word), Piece::Name(name)]);
    }
}

/// Room for the text of a list's row.
const MOST_TEXT: usize = 470;

/// A long plan: one line for each move or run of moves, then bars for what the question asks for.
pub(super) fn drawing(depot: &Depot, story: &Story) -> Drawing {
    let runs = runs(story);
    let lead_of = |place: usize| Label::name(depot.lead(story.moves[place].request.role.0), 130);
    let leads: Vec<Label> = runs.iter().map(|run| lead_of(run.0)).collect();
    let numbers = MARGIN + INDENT + width(&format!("{0}–{0}", story.moves.len()), SIZE);
    let lead = numbers + 16;
    let said = lead + leads.iter().map(|label| width(&label.text, SIZE)).max().unwrap_or(0) + 16;
    let (mut stripes, mut texts) = (String::new(), String::new());
    let right = said + MOST_TEXT + INDENT;
    let mut y = 4;
    for (row, (&(from, to), label)) in runs.iter().zip(&leads).enumerate() {
        if row % 2 == 0 {
            rectangle(&mut stripes, MARGIN, right, y, 24);
        }
        let number = if to - from == 1 { to.to_string() } else { format!("{}–{to}", from + 1) };
        let _ = write!(texts, "<text class=\"u\" x=\"{numbers}\" y=\"{}\">{number}</text>", y + 17);
        if to - from == 1 {
            label.write(&mut texts, lead, y + 17);
            Label::new(&pieces(depot, &story.moves[from].request), MOST_TEXT).write(&mut texts, said, y + 17);
        } else {
            let room = right - INDENT - lead;
            Label::new(&folded_pieces(depot, story, (from, to)), room).write(&mut texts, lead, y + 17);
        }
        y += 24;
    }
    let mut body = String::new();
    path(&mut body, "e", &stripes);
    body.push_str(&texts);
    let height = bars(depot, story, &mut body, y, right);
    Drawing { width: right + MARGIN, height, body, list: true }
}

/// The bars of what the question asks for, over the whole time; gives the height of all.
fn bars(depot: &Depot, story: &Story, out: &mut String, mut y: usize, right: usize) -> usize {
    let times = story.moves.len() + 1;
    let wanted = story.bars.iter().enumerate().filter(|(_, bar)| bar.wanted);
    let mut paths: [String; 6] = Default::default();
    let (mut texts, mut grounds) = (String::new(), String::new());
    let left = MARGIN + INDENT + MOST_LABEL + 20;
    let at = |time: usize| left + (right - left) * time.min(times) / times;
    for (subject, bars) in grouped(wanted) {
        y += 12;
        let heading = Label::name(subject_name(depot, subject), MOST_LABEL - 40);
        labels(&mut texts, "s", MARGIN, [(&heading, y + THICK / 2)].into_iter());
        y += ROW;
        for bar in bars.into_iter().map(|bar| &story.bars[bar]) {
            let mut said = bar_pieces(depot, bar);
            said.extend(since(bar));
            labels(&mut texts, "c", MARGIN + INDENT, [(&Label::new(&said, MOST_LABEL), y + THICK / 2)].into_iter());
            rectangle(&mut grounds, left, right, y, THICK);
            for &(from, to) in &bar.spans {
                stretch(&mut paths, bar, at(from), at(to).max(at(from) + 3), y);
            }
            y += ROW;
        }
    }
    path(out, "o", &grounds);
    bar_paths(out, &paths);
    out.push_str(&texts);
    y + 6
}

/// Behind which move a bar begins at last: `, from move 57`.
fn since(bar: &Bar) -> Vec<Piece> {
    match bar.spans.last() {
        Some(&(from, _)) if from > 0 => vec![Piece::Word(", from move "), Piece::Name(from.to_string())],
        _ => vec![Piece::Word(", from the start")],
    }
}
