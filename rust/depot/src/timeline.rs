//! A plan drawn: a lane for each lead, a box for each move, a bar for each fact from the move that brings it to the one
//! that takes it away, and an arrow from the facts that a move rests on. A long plan is a list.

mod chart;
mod list;

use std::fmt::Write;

use bixorgun::{Act, Request};

use crate::lettering::{clean, dressed, escape, escaped, fitted, phrase, short, width, Piece};
use crate::model::Depot;
use crate::story::{Bar, Holding, Story, Subject};

/// Plans with more moves are drawn as lists.
pub const MOST_BOXES: usize = 40;

/// The rules of style that every picture needs. They touch nothing outside of elements of class `tl`.
pub const STYLE: &str = "\
.tl{font:13px system-ui,sans-serif;fill:#1c2733;background:#fff}\
.tl .e{fill:#f4f6fb}.tl .o{fill:#eaeef7}\
.tl .a{fill:#34465a}\
.tl .b{fill:#fff;stroke:#2f4d73}.tl .b rect{rx:6px}\
.tl .n{stroke:#2f4d73;stroke-width:20;stroke-linecap:round}\
.tl .m{fill:#fff;font-size:11px;font-weight:700;text-anchor:middle}\
.tl .d{fill:none;stroke:#8b96a3;stroke-dasharray:2 3}\
.tl .s{font-weight:700;fill:#22364d}\
.tl .q,.tl .v,.tl .w{stroke:#86c2ad;stroke-width:14}.tl .v{stroke:#7db0e0}.tl .w{stroke:#c766a0}\
.tl .x{fill:#e6f3ee;stroke:#3f8069;stroke-dasharray:5 3}\
.tl .y{fill:#e3effa;stroke:#3a72ad;stroke-dasharray:5 3}\
.tl .z{fill:#f7e3ef;stroke:#a03c79;stroke-dasharray:5 3}\
.tl .r{fill:none;stroke:#b45309;stroke-width:2}\
.tl .h{fill:#b45309}\
.tl .k{stroke:#b45309;stroke-width:7;stroke-linecap:round}\
.tl .u{fill:#556270;text-anchor:end}\
.tl .f{fill:#4f5b68;font-size:12px}\
.tl .t{font-size:20px;font-weight:700}";

/// Classes of bars: in a crew, a value, what the question asks for; then the same through a crew.
const BARS: [&str; 6] = ["q", "v", "w", "x", "y", "z"];

const SIZE: usize = 13;
const MARGIN: usize = 16;
/// Left of the labels of lanes and bars.
const INDENT: usize = 12;
/// The widest label.
const MOST_LABEL: usize = 300;
const ROW: usize = 26;
const THICK: usize = 14;

/// A finished drawing whose upper left corner is 0, 0.
struct Drawing {
    width: usize,
    height: usize,
    body: String,
    list: bool,
}

/// The picture of a plan as a file of its own.
pub fn svg(depot: &Depot, story: &Story, title: &str) -> String {
    let drawing = draw(&dressed(depot), story);
    let legend = legend(drawing.list);
    let wide = drawing.width.max(legend.width).max(560);
    let title = clean(title);
    let lines = title_lines(&title, wide - 2 * MARGIN);
    let top = 22 + 26 * lines.len();
    let height = top + drawing.height + legend.height;
    let mut out = String::from("<?xml version=\"1.0\" encoding=\"UTF-8\"?>\n");
    let _ = writeln!(
        out,
        "<svg xmlns=\"http://www.w3.org/2000/svg\" class=\"tl\" role=\"img\" width=\"{wide}\" height=\"{height}\" \
         viewBox=\"0 0 {wide} {height}\">\n<title>{}</title>\n<style>svg{{max-width:100%;height:auto}}{STYLE}</style>\n\
         <path fill=\"#fff\" d=\"M0 0h{wide}v{height}h-{wide}z\"/>",
        escaped(&title)
    );
    for (number, line) in lines.iter().enumerate() {
        let _ = writeln!(out, "<text class=\"t\" x=\"{MARGIN}\" y=\"{}\">{}</text>", 34 + 26 * number, escaped(line));
    }
    let _ = writeln!(out, "<g transform=\"translate(0 {top})\">{}</g>", drawing.body);
    let _ = writeln!(out, "<g transform=\"translate(0 {})\">{}</g>\n</svg>", top + drawing.height, legend.body);
    out
}

/// The picture of a plan as a part of a page that has [`STYLE`].
pub fn figure(depot: &Depot, story: &Story) -> String {
    figure_of(&dressed(depot), story)
}

/// As [`figure`], of a depot whose names are fit for a page already.
pub(crate) fn figure_of(depot: &Depot, story: &Story) -> String {
    let Drawing { width, height, body, .. } = draw(depot, story);
    format!("<svg class=\"tl\" role=\"img\" width=\"{width}\" height=\"{height}\" viewBox=\"0 0 {width} {height}\">{body}</svg>")
}

fn draw(depot: &Depot, story: &Story) -> Drawing {
    if story.moves.len() > MOST_BOXES {
        list::drawing(depot, story)
    } else {
        chart::drawing(depot, story)
    }
}

/// The title over lines of this width; letters of size 20, bold.
fn title_lines(title: &str, most: usize) -> Vec<String> {
    let wide = |text: &str| width(text, 22);
    let mut lines: Vec<String> = Vec::new();
    for word in title.split(' ') {
        let word = short(word, most, 22);
        match lines.last_mut() {
            Some(line) if wide(line) + wide(" ") + wide(&word) <= most => {
                line.push(' ');
                line.push_str(&word);
            }
            _ => lines.push(word.into_owned()),
        }
    }
    lines
}

/// What the colours mean, in one line.
fn legend(list: bool) -> Drawing {
    let mut body = String::from("<g class=\"f\">");
    let mut x = MARGIN;
    let items: &[(&str, &str)] = match list {
        true => &[("w", "when the question’s value is held, from the start to the last move")],
        false => &[
            ("v", "has a value"),
            ("q", "is in a crew"),
            ("w", "the question"),
            ("y", "through a crew"),
            ("", "what a move rests on"),
        ],
    };
    for (class, text) in items {
        match *class {
            "" => {
                let _ = write!(
                    body,
                    "<path class=\"r\" d=\"M{} 26V16\"/><path class=\"h\" d=\"M{} 8l-4 8h8z\"/>",
                    x + 8,
                    x + 8
                );
                let _ = write!(body, "<path class=\"k\" d=\"M{} 26h0\"/>", x + 8);
                x += 20;
            }
            class => {
                let shape = if class == "y" { "11h26v12h-26z" } else { "17h26" };
                let _ = write!(body, "<path class=\"{class}\" d=\"M{x} {shape}\"/>");
                x += 33;
            }
        }
        let _ = write!(body, "<text x=\"{x}\" y=\"21\">{text}</text>");
        x += width(text, 12) + 22;
    }
    body.push_str("</g>");
    Drawing { width: x - 22 + MARGIN, height: 40, body, list }
}

/// What a move does, without its lead: `adds grade sorter to Ana`.
fn pieces(depot: &Depot, request: &Request) -> Vec<Piece> {
    use Piece::{Name, Word};
    let value =
        |start, a: u8, v: u8| vec![Word(start), Name(depot.attribute(a)), Word(" "), Name(depot.value_alone(a, v))];
    let (mut said, word, name) = match request.act {
        Act::AddToPerson(p, a, v) => (value("adds ", a.0, v.0), " to ", depot.person(p.0)),
        Act::DeleteFromPerson(p, a, v) => (value("deletes ", a.0, v.0), " from ", depot.person(p.0)),
        Act::AddToCrew(c, a, v) => (value("adds ", a.0, v.0), " to crew ", depot.crew(c.0)),
        Act::DeleteFromCrew(c, a, v) => (value("deletes ", a.0, v.0), " from crew ", depot.crew(c.0)),
        Act::Assign(p, c) => (vec![Word("assigns "), Name(depot.person(p.0))], " to ", depot.crew(c.0)),
        Act::Remove(p, c) => (vec![Word("removes "), Name(depot.person(p.0))], " from ", depot.crew(c.0)),
    };
    said.extend([Word(word), Name(name)]);
    said
}

/// What a bar shows: `grade trainee, through returns (the question)`.
fn bar_pieces(depot: &Depot, bar: &Bar) -> Vec<Piece> {
    use Piece::{Name, Word};
    let mut said = match bar.holding {
        Holding::Value { attribute, value } => {
            vec![Name(depot.attribute(attribute)), Word(" "), Name(depot.value_alone(attribute, value))]
        }
        Holding::In(crew) => vec![Word("in "), Name(depot.crew(crew))],
    };
    if let Some(crew) = bar.through {
        said.extend([Word(", through "), Name(depot.crew(crew))]);
    }
    if bar.wanted {
        said.push(Word(" (the question)"));
    }
    said
}

fn subject_name(depot: &Depot, subject: Subject) -> String {
    match subject {
        Subject::Person(person) => depot.person(person),
        Subject::Crew(crew) => depot.the_crew(crew),
    }
}

/// A text and, where it has been shortened, the whole.
struct Label {
    text: String,
    whole: Option<String>,
}

impl Label {
    fn new(pieces: &[Piece], most: usize) -> Label {
        let text = fitted(pieces, most, SIZE);
        let whole = phrase(pieces, None, SIZE);
        Label { whole: (whole != text).then_some(whole), text }
    }

    fn name(name: String, most: usize) -> Label {
        Label::new(&[Piece::Name(name)], most)
    }

    /// Writes it at a place.
    fn write(&self, out: &mut String, x: usize, y: usize) {
        text(out, x, y, &self.text, self.whole.as_deref());
    }
}

/// Writes a text at a place, with the whole as its tip; x 0 goes without saying.
fn text(out: &mut String, x: usize, y: usize, text: &str, whole: Option<&str>) {
    let _ = match x {
        0 => write!(out, "<text y=\"{y}\">"),
        x => write!(out, "<text x=\"{x}\" y=\"{y}\">"),
    };
    if let Some(whole) = whole {
        out.push_str("<title>");
        escape(out, whole);
        out.push_str("</title>");
    }
    escape(out, text);
    out.push_str("</text>");
}

/// A path of one class; nothing where it is empty.
fn path(out: &mut String, class: &str, d: &str) {
    if !d.is_empty() {
        let _ = write!(out, "<path class=\"{class}\" d=\"{d}\"/>");
    }
}

/// A path's rectangle, from x to x.
fn rectangle(d: &mut String, from: usize, to: usize, y: usize, high: usize) {
    let _ = write!(d, "M{from} {y}H{to}v{high}H{from}z");
}

/// A bar's stretch in the path of its class: a broad line, or an outline where it comes through a crew.
fn stretch(paths: &mut [String; 6], bar: &Bar, from: usize, to: usize, y: usize) {
    let class = class_of(bar);
    if bar.through.is_some() {
        rectangle(&mut paths[class], from, to, y, THICK);
    } else {
        let _ = write!(paths[class], "M{from} {}H{to}", y + THICK / 2);
    }
}

/// The paths of bars, by class.
fn bar_paths(out: &mut String, paths: &[String; 6]) {
    BARS.iter().zip(paths).for_each(|(class, d)| path(out, class, d));
}

/// Labels of one class, one below the other, each with its middle at a height.
fn labels<'l>(out: &mut String, class: &str, x: usize, labels: impl Iterator<Item = (&'l Label, usize)>) {
    let mut labels = labels.peekable();
    if labels.peek().is_none() {
        return;
    }
    let _ = write!(out, "<g class=\"{class}\" transform=\"translate({x})\">");
    labels.for_each(|(label, middle)| label.write(out, 0, middle + 5));
    out.push_str("</g>");
}

/// A class of bars by its place in [`BARS`].
fn class_of(bar: &Bar) -> usize {
    let kind = match (bar.wanted, bar.holding) {
        (true, _) => 2,
        (false, Holding::In(_)) => 0,
        (false, Holding::Value { .. }) => 1,
    };
    kind + if bar.through.is_some() { 3 } else { 0 }
}

/// The bars of each subject, persons first, in their order.
fn grouped<'a>(bars: impl Iterator<Item = (usize, &'a Bar)> + Clone) -> Vec<(Subject, Vec<usize>)> {
    let mut groups: Vec<(Subject, Vec<usize>)> = Vec::new();
    for (place, bar) in bars {
        match groups.iter_mut().find(|(subject, _)| *subject == bar.subject) {
            Some((_, places)) => places.push(place),
            None => groups.push((bar.subject, vec![place])),
        }
    }
    groups.sort_by_key(|(subject, _)| matches!(subject, Subject::Crew(_)));
    groups
}
