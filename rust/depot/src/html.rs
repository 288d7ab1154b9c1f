//! The whole depot as one page: persons by values, and behind each value that a person can come to, the plan.

use std::fmt::Write;

use crate::lettering::{clean, dressed, escape, escaped, short, width};
use crate::model::Depot;
use crate::say::{counted, grouped, listed};
use crate::story::{Move, Story};
use crate::timeline::{self, MOST_BOXES};
use crate::why;
use bixorgun::Judgement;

/// What a page shows.
pub struct Sheet<'a> {
    /// The depot.
    pub depot: &'a Depot,
    /// Its file's name, for the heading.
    pub file: &'a str,
    /// The leads that act: bit r is lead r.
    pub leads: u16,
    /// By person, attribute and value.
    pub rows: Vec<Vec<Vec<Cell>>>,
}

/// A person and a value.
pub enum Cell {
    /// The person directly has it.
    Has,
    /// The person has it through this crew.
    Through(u8),
    /// The person can come to it, by this plan.
    Reach(Box<Story>),
    /// No chain of requests leads to it.
    NoWay,
}

/// With more values, or a table wider than this, the page is folded by attribute.
const MOST_COLUMNS: usize = 24;
const MOST_WIDTH: usize = 1240;
/// With more columns a table's letters are smaller.
const ROOMY: usize = 10;
/// With more plans, only the tables are printed.
const MOST_PRINTED: usize = 40;
/// With more moves in all plans together, their pictures are left out.
const MOST_MOVES: usize = 120_000;

const SIZE: usize = 13;

/// How many cells of each kind: has, through a crew, can come to it, no way.
#[derive(Clone, Copy, Default)]
struct Counts([usize; 4]);

/// The classes of cells, by kind.
const CLASSES: [&str; 4] = ["h", "t", "r", "n"];
/// Names of kinds in counts.
const KINDS: [&str; 4] = ["has", "through a crew", "can come to it", "no way"];
/// Names of kinds above narrow columns.
const SHORT_KINDS: [&str; 4] = ["has", "crew", "can", "no"];

impl Cell {
    fn kind(&self) -> usize {
        match self {
            Cell::Has => 0,
            Cell::Through(_) => 1,
            Cell::Reach(_) => 2,
            Cell::NoWay => 3,
        }
    }
}

impl Counts {
    fn of<'c>(cells: impl Iterator<Item = &'c Cell>) -> Counts {
        let mut counts = Counts::default();
        cells.for_each(|cell| counts.0[cell.kind()] += 1);
        counts
    }

    /// `2 has · 1 through a crew · 5 can come to it · 8 no way`, without those that do not occur.
    fn words(&self) -> String {
        let some = self.0.iter().zip(KINDS).filter(|(count, _)| **count > 0);
        some.map(|(count, kind)| format!("{} {kind}", grouped(*count))).collect::<Vec<_>>().join(" · ")
    }
}

/// What the parts of a page share.
struct Page<'a> {
    /// With names fit for a page.
    depot: Depot,
    sheet: &'a Sheet<'a>,
    pictures: bool,
}

/// The whole depot as one HTML file, which needs neither a script nor anything from elsewhere.
pub fn page(sheet: &Sheet) -> String {
    let moves = || plans(sheet).map(|(_, story)| story.moves.len());
    let pictures = moves().sum::<usize>() <= MOST_MOVES;
    let counts = Counts::of(sheet.rows.iter().flatten().flatten());
    let page = Page { depot: dressed(sheet.depot), sheet, pictures };
    let mut out = String::with_capacity(32 * 1024);
    let few = counts.0[2] <= MOST_PRINTED;
    page.head(&mut out, few);
    page.intro(&mut out, counts, few);
    out.push_str("<main>\n");
    if page.is_wide() {
        page.folded(&mut out);
    } else {
        let all: Vec<usize> = (0..page.depot.attributes.len()).collect();
        page.table(&mut out, &all);
    }
    out.push_str("</main>\n");
    for (place, story) in plans(sheet) {
        page.plan(&mut out, place, story);
    }
    out.push_str("</body>\n</html>\n");
    out
}

/// Person, attribute and value.
type Place = (usize, usize, usize);

/// The plans in the order of the table.
fn plans<'a>(sheet: &'a Sheet) -> impl Iterator<Item = (Place, &'a Story)> {
    sheet.rows.iter().enumerate().flat_map(|(person, row)| {
        row.iter().enumerate().flat_map(move |(attribute, cells)| {
            cells.iter().enumerate().filter_map(move |(value, cell)| match cell {
                Cell::Reach(story) => Some(((person, attribute, value), &**story)),
                _ => None,
            })
        })
    })
}

/// A number that the depot's names are asked with.
fn number(place: usize) -> u8 {
    u8::try_from(place).unwrap_or(u8::MAX)
}

/// Writes a name, shortened, with the whole as its tip where it is; `tag` is the element's start without its `>`.
fn named(out: &mut String, tag: &str, name: &str, most: usize) {
    let shown = short(name, most, SIZE);
    out.push_str(tag);
    if shown != name {
        out.push_str(" title=\"");
        escape(out, name);
        out.push('"');
    }
    out.push('>');
    escape(out, &shown);
}

impl Page<'_> {
    /// `pilot.depot: the whole depot, by the leads shift, quality and lanes`.
    fn title(&self) -> String {
        format!("{}: the whole depot, {}", clean(self.sheet.file), self.depot.by_leads(self.sheet.leads))
    }

    fn head(&self, out: &mut String, few: bool) {
        out.push_str(
            "<!DOCTYPE html>\n<html lang=\"en\">\n<head>\n<meta charset=\"utf-8\"/>\n\
             <meta http-equiv=\"Content-Security-Policy\" content=\"default-src 'none'; style-src 'unsafe-inline'\"/>\n\
             <meta name=\"viewport\" content=\"width=device-width, initial-scale=1\"/>\n<title>",
        );
        escape(out, &self.title());
        out.push_str("</title>\n<style>\n");
        out.push_str(STYLE);
        out.push_str(timeline::STYLE);
        let _ = writeln!(out, "\n</style>\n</head>\n<body{}>", if few { " class=\"few\"" } else { "" });
    }

    /// Heading, legend and counts.
    fn intro(&self, out: &mut String, counts: Counts, few: bool) {
        let _ = writeln!(out, "<header>\n<h1>{}</h1>", escaped(&self.title()));
        let samples = [
            ("has", "The person has the value at the start, directly."),
            ("through …", "The person has it at the start, through a crew, which the cell names."),
            ("3 moves", "The person can come to it: so many requests by these leads, each permitted, lead there. The cell opens them."),
            ("no way", "No chain of requests by these leads, of whatever length and on any persons and crews, ever gives it."),
        ];
        out.push_str("<table class=\"legend\">\n");
        for (kind, (sample, meaning)) in samples.into_iter().enumerate() {
            let class = CLASSES[kind];
            let _ = writeln!(
                out,
                "<tr><td><b class=\"{class}\">{sample}</b></td><td class=\"c\">{}</td><td>{meaning}</td></tr>",
                grouped(counts.0[kind])
            );
        }
        let cells = match counts.0.iter().sum() {
            1 => "1 cell".to_string(),
            count => format!("{} cells", grouped(count)),
        };
        let _ = writeln!(
            out,
            "</table>\n<p>{} and {}: {} in all. Which kind a cell is, “no way” above all, is the answer of Bixorgun’s \
             library, which is proved; the words and pictures beside it are not proved.</p>",
            counted(self.depot.persons.len(), "person"),
            counted(self.depot.attributes.iter().map(|a| a.values.len()).sum(), "value"),
            cells
        );
        self.who_acts(out);
        if !few {
            out.push_str(
                "<p class=\"paper\">The plans are not printed, since there are many: the file itself has them.</p>\n",
            );
        }
        if !self.pictures {
            out.push_str("<p>The plans have no pictures here, since there are too many.</p>\n");
        }
        out.push_str("</header>\n");
    }

    /// The leads that count, and those that do not.
    fn who_acts(&self, out: &mut String) {
        let all = 0..number(self.depot.leads.len());
        let (act, rest): (Vec<u8>, Vec<u8>) = all.partition(|lead| self.sheet.leads >> lead & 1 == 1);
        // The heading has said so.
        if rest.is_empty() && !self.depot.leads_of(self.sheet.leads).starts_with("all ") {
            return;
        }
        let names = |leads: Vec<u8>| escaped(&listed(leads.into_iter().map(|lead| self.depot.lead(lead)), "nobody"));
        let _ = write!(out, "<p>Who acts: {}.", names(act));
        if !rest.is_empty() {
            let _ = write!(out, " Not counted, since the file’s question does not name them: {}.", names(rest));
        }
        out.push_str("</p>\n");
    }

    /// Whether one table of all would be too wide.
    fn is_wide(&self) -> bool {
        let columns: usize = self.depot.attributes.iter().map(|a| a.values.len()).sum();
        let values = self.depot.attributes.iter().flat_map(|a| &a.values);
        let names = values.map(|name| width(name, SIZE).clamp(76, most_heading(columns)) + 19);
        columns > MOST_COLUMNS || names.sum::<usize>() + 160 > MOST_WIDTH
    }

    /// An overview, then each attribute by itself.
    fn folded(&self, out: &mut String) {
        self.overview(out);
        for attribute in 0..self.depot.attributes.len() {
            let counts = Counts::of(self.sheet.rows.iter().filter_map(|row| row.get(attribute)).flatten());
            let open = if attribute == 0 { " open=\"open\"" } else { "" };
            let _ = write!(out, "<details{open}><summary><h2");
            named(out, "", &self.depot.attribute(number(attribute)), 400);
            let values = counted(self.depot.attributes[attribute].values.len(), "value");
            let _ = writeln!(out, "</h2> {values}: {}</summary>", counts.words());
            self.table(out, &[attribute]);
            out.push_str("</details>\n");
        }
    }

    /// Persons by attributes, with the counts of each kind.
    fn overview(&self, out: &mut String) {
        out.push_str("<table class=\"over\">\n<thead><tr class=\"g\"><td></td>");
        for attribute in 0..self.depot.attributes.len() {
            let _ = write!(out, "<th colspan=\"4\" scope=\"colgroup\"><a href=\"#a{attribute}\"");
            named(out, "", &self.depot.attribute(number(attribute)), 110);
            out.push_str("</a></th>");
        }
        out.push_str("</tr>\n<tr><th>person</th>");
        for _ in 0..self.depot.attributes.len() {
            SHORT_KINDS.iter().for_each(|kind| out.extend(["<th scope=\"col\">", kind, "</th>"]));
        }
        out.push_str("</tr></thead>\n<tbody>\n");
        for (person, row) in self.sheet.rows.iter().enumerate() {
            named(out, "<tr><th scope=\"row\"", &self.depot.person(number(person)), 170);
            out.push_str("</th>");
            for (attribute, cells) in row.iter().enumerate() {
                for (kind, count) in Counts::of(cells.iter()).0.into_iter().enumerate() {
                    let class = if count == 0 { "z" } else { CLASSES[kind] };
                    let start = if kind == 0 { " s" } else { "" };
                    let _ =
                        write!(out, "<td class=\"{class}{start}\"><a href=\"#r{person}a{attribute}\">{count}</a></td>");
                }
            }
            out.push_str("</tr>\n");
        }
        out.push_str("</tbody></table>\n");
    }

    /// Persons by the values of these attributes.
    fn table(&self, out: &mut String, attributes: &[usize]) {
        let columns = attributes.iter().map(|a| self.depot.attributes[*a].values.len()).sum();
        let dense = if columns > ROOMY { " dense" } else { "" };
        let _ =
            write!(out, "<table class=\"cells{dense}\" id=\"a{}\">\n<thead>", attributes.first().copied().unwrap_or(0));
        self.table_head(out, attributes, most_heading(columns));
        out.push_str("</thead>\n<tbody>\n");
        let first = attributes.first().copied().unwrap_or(0);
        for (person, row) in self.sheet.rows.iter().enumerate() {
            let tag = format!("<tr id=\"r{person}a{first}\"><th scope=\"row\"");
            named(out, &tag, &self.depot.person(number(person)), 170);
            out.push_str("</th>");
            for &attribute in attributes {
                for (value, cell) in row.get(attribute).into_iter().flatten().enumerate() {
                    self.cell(out, (person, attribute, value), cell);
                }
            }
            out.push_str("</tr>\n");
        }
        out.push_str("</tbody></table>\n");
    }

    fn table_head(&self, out: &mut String, attributes: &[usize], most: usize) {
        out.push_str("<tr class=\"g\"><td></td>");
        for &attribute in attributes {
            let values = self.depot.attributes[attribute].values.len();
            let tag = format!("<th colspan=\"{values}\" scope=\"colgroup\"");
            named(out, &tag, &self.depot.attribute(number(attribute)), values * (most.min(76) + 16));
            out.push_str("</th>");
        }
        out.push_str("</tr>\n<tr><th>person</th>");
        for &attribute in attributes {
            for value in &self.depot.attributes[attribute].values {
                named(out, "<th scope=\"col\"", value, most);
                out.push_str("</th>");
            }
        }
        out.push_str("</tr>");
    }

    fn cell(&self, out: &mut String, (person, attribute, value): Place, cell: &Cell) {
        match cell {
            Cell::Has => out.push_str("<td class=\"h\">has</td>"),
            Cell::Through(crew) => {
                let crew = self.depot.crew(*crew);
                out.push_str("<td class=\"t\">through <span");
                named(out, "", &crew, 84);
                out.push_str("</span></td>");
            }
            Cell::Reach(story) => {
                let place = format!("{person}a{attribute}v{value}");
                let moves = counted(story.moves.len(), "move");
                let _ = write!(out, "<td class=\"r\" id=\"c{place}\"><a href=\"#p{place}\">{moves}</a></td>");
            }
            Cell::NoWay => out.push_str("<td class=\"n\">no way</td>"),
        }
    }

    /// A plan, which is hidden until a cell's link leads to it.
    fn plan(&self, out: &mut String, (person, attribute, value): Place, story: &Story) {
        let place = format!("{person}a{attribute}v{value}");
        let _ = write!(
            out,
            "<section class=\"p\" id=\"p{place}\"><a class=\"back\" href=\"#c{place}\">back to the table</a><h2>"
        );
        escape(out, &self.depot.person(number(person)));
        out.push_str(" can come to have ");
        escape(out, &self.depot.value(number(attribute), number(value)));
        let _ = write!(out, ": {}</h2>", counted(story.moves.len(), "move"));
        if story.whole > story.moves.len() {
            let whole = counted(story.whole, "move");
            let _ = write!(out, "<p>The library’s plan has {whole}; the others are not needed.</p>");
        }
        if story.replay != Judgement::Reaches {
            let _ = write!(out, "<p>Replayed from the starting facts: {}.</p>", story.replay);
        }
        let long = story.moves.len() > MOST_BOXES;
        if long && self.pictures {
            self.picture(out, story);
            let _ = write!(out, "<details><summary>all {} in words</summary>", counted(story.moves.len(), "move"));
        }
        self.moves(out, &story.moves);
        if long && self.pictures {
            out.push_str("</details>");
        }
        if !long && self.pictures {
            self.picture(out, story);
        }
        out.push_str("</section>\n");
    }

    fn picture(&self, out: &mut String, story: &Story) {
        out.push_str("<figure>");
        out.push_str(&timeline::figure_of(&self.depot, story));
        out.push_str("</figure>");
    }

    /// The moves in words, with their reasons.
    fn moves(&self, out: &mut String, moves: &[Move]) {
        if moves.is_empty() {
            return;
        }
        out.push_str("<ol>");
        for step in moves {
            out.push_str("<li>");
            escape(out, &self.depot.request(&step.request));
            if let Some(reason) = &step.reason {
                out.push_str(" <i>— ");
                escape(out, &why::reason(&self.depot, &step.request, reason));
                out.push_str("</i>");
            }
            out.push_str("</li>");
        }
        out.push_str("</ol>");
    }
}

/// The widest heading of a column in a table with so many.
fn most_heading(columns: usize) -> usize {
    if columns <= ROOMY {
        120
    } else {
        76
    }
}

/// The page's own rules of style.
const STYLE: &str = include_str!("page.css");
