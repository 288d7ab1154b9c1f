//! A plan of few moves: lanes, boxes, bars and arrows.

use std::fmt::Write;

use bixorgun::Request;

use super::{bar_paths, bar_pieces, grouped, labels, path, pieces, rectangle, stretch, subject_name, text};
use super::{Drawing, Label, INDENT, MARGIN, MOST_LABEL, ROW, SIZE, THICK};
use crate::lettering::{phrase, width, wrapped, Piece, STEPS};
use crate::model::{members, Depot};
use crate::say::by_number;
use crate::story::Story;

/// Room between two boxes, for arrows.
const GUTTER: usize = 22;
/// From a box's left edge to the middle of its number, which is the time of its move.
const DISC: usize = 17;
/// From a box's left edge to its text.
const TEXT: usize = 33;
const LINE: usize = 16;

/// Draws it.
pub(super) fn drawing(depot: &Depot, story: &Story) -> Drawing {
    Chart::new(depot, story).drawing()
}

/// A move's box.
struct Column {
    x: usize,
    wide: usize,
    lines: Vec<String>,
    whole: Option<String>,
    lane: usize,
}

/// A lead's lane.
struct Lane {
    label: Label,
    y: usize,
    high: usize,
}

/// A subject's heading, or a bar.
struct Row {
    label: Label,
    y: usize,
    bar: Option<usize>,
}

/// Where everything of a timeline stands.
struct Chart<'a> {
    story: &'a Story,
    columns: Vec<Column>,
    lanes: Vec<Lane>,
    rows: Vec<Row>,
    /// Time 0.
    left: usize,
    /// Behind the last move.
    right: usize,
    height: usize,
}

impl<'a> Chart<'a> {
    fn new(depot: &Depot, story: &'a Story) -> Chart<'a> {
        let acting = story.moves.iter().fold(0u32, |set, step| set | 1 << step.request.role.0);
        let leads: Vec<u8> = members(acting).collect();
        let columns = columns(depot, story, &leads);
        let mut y = 4;
        let lanes = lanes(depot, &leads, &columns, &mut y);
        if lanes.is_empty() {
            y += 32;
        }
        let rows = rows(depot, story, &mut y);
        let labels = lanes.iter().map(|lane| &lane.label).chain(rows.iter().map(|row| &row.label));
        let widest = labels.map(|label| width(&label.text, SIZE)).max().unwrap_or(0);
        let left = MARGIN + INDENT + widest.max(60) + 20;
        let mut chart = Chart { story, columns, lanes, rows, left, right: left + 320, height: y + 6 };
        chart.place();
        chart
    }

    /// Gives each column its place.
    fn place(&mut self) {
        let mut x = self.left + GUTTER;
        for column in &mut self.columns {
            column.x = x;
            x += column.wide + GUTTER;
        }
        if !self.columns.is_empty() {
            self.right = x - GUTTER + MARGIN;
        }
    }

    /// Where a time begins: time 0 at the left edge, time i at move i.
    fn at(&self, time: usize) -> usize {
        match time {
            0 => self.left,
            time => self.columns.get(time - 1).map_or(self.right, |column| column.x + DISC),
        }
    }

    /// Where a move's box stands: top and height.
    fn box_of(&self, column: &Column) -> (usize, usize) {
        let lane = &self.lanes[column.lane];
        let high = 16 + LINE * column.lines.len();
        (lane.y + (lane.high - high) / 2, high)
    }

    fn drawing(self) -> Drawing {
        let mut body = String::new();
        self.draw_lanes(&mut body);
        self.draw_drops(&mut body);
        self.draw_bars(&mut body);
        self.draw_arrows(&mut body);
        self.draw_boxes(&mut body);
        if self.columns.is_empty() {
            text(&mut body, MARGIN, 24, "no move is needed: it is so at the start", None);
        }
        Drawing { width: self.right + MARGIN, height: self.height, body, list: false }
    }

    fn draw_lanes(&self, out: &mut String) {
        let mut stripes = [String::new(), String::new()];
        for (number, lane) in self.lanes.iter().enumerate() {
            rectangle(&mut stripes[number % 2], MARGIN, self.right, lane.y, lane.high);
        }
        path(out, "e", &stripes[0]);
        path(out, "o", &stripes[1]);
        let middles = self.lanes.iter().map(|lane| (&lane.label, lane.y + lane.high / 2));
        labels(out, "a", MARGIN + INDENT, middles);
    }

    /// The dotted line from a move down to what it changes.
    fn draw_drops(&self, out: &mut String) {
        let mut lowest = vec![0; self.columns.len() + 2];
        for row in &self.rows {
            let Some(bar) = row.bar else { continue };
            for time in self.story.bars[bar].spans.iter().flat_map(|&(from, to)| [from, to]) {
                if let Some(y) = lowest.get_mut(time) {
                    *y = row.y;
                }
            }
        }
        let mut d = String::new();
        for (column, y) in self.columns.iter().zip(&lowest[1..]) {
            let (top, high) = self.box_of(column);
            if *y > 0 {
                let _ = write!(d, "M{} {}V{y}", column.x + DISC, top + high);
            }
        }
        path(out, "d", &d);
    }

    fn draw_bars(&self, out: &mut String) {
        let mut paths: [String; 6] = Default::default();
        for row in &self.rows {
            let Some(bar) = row.bar.map(|bar| &self.story.bars[bar]) else { continue };
            for &(from, to) in bar.spans.iter().filter(|(from, to)| from < to) {
                stretch(&mut paths, bar, self.at(from), self.at(to), row.y);
            }
        }
        bar_paths(out, &paths);
        let rows = |heading: bool| {
            let some = self.rows.iter().filter(move |row| row.bar.is_none() == heading);
            some.map(|row| (&row.label, row.y + THICK / 2))
        };
        labels(out, "s", MARGIN, rows(true));
        labels(out, "c", MARGIN + INDENT, rows(false));
    }

    /// From the bars that a move rests on, one stem up to the move.
    fn draw_arrows(&self, out: &mut String) {
        let (mut stems, mut heads, mut dots) = (String::new(), String::new(), String::new());
        let mut heights = vec![0; self.story.bars.len()];
        for row in &self.rows {
            if let Some(bar) = row.bar {
                heights[bar] = row.y + THICK / 2;
            }
        }
        for (column, step) in self.columns.iter().zip(&self.story.moves) {
            let grounds = step.reason.iter().flat_map(|reason| &reason.grounds);
            let mut bars: Vec<usize> = grounds.filter_map(|ground| ground.bar).filter(|b| *b < heights.len()).collect();
            bars.sort_unstable();
            bars.dedup();
            let Some(lowest) = bars.iter().map(|bar| heights[*bar]).max() else { continue };
            let stem = column.x - 9;
            for bar in bars {
                let _ = write!(dots, "M{stem} {}h0", heights[bar]);
            }
            let (top, high) = self.box_of(column);
            let (foot, tip) = (top + high, column.x + 6);
            let _ = write!(stems, "M{stem} {lowest}V{}c0-14 15-7 15-22", foot + 31);
            let _ = write!(heads, "M{tip} {}l-4 8h8z", foot + 2);
        }
        path(out, "r", &stems);
        path(out, "h", &heads);
        path(out, "k", &dots);
    }

    fn draw_boxes(&self, out: &mut String) {
        if self.columns.is_empty() {
            return;
        }
        let (mut boxes, mut discs) = (String::from("<g class=\"b\">"), String::new());
        let mut numbers = String::from("<g class=\"m\">");
        let mut texts = String::new();
        for (number, column) in self.columns.iter().enumerate() {
            let (top, high) = self.box_of(column);
            let Column { x, wide, .. } = column;
            let _ = write!(boxes, "<rect x=\"{x}\" y=\"{top}\" width=\"{wide}\" height=\"{high}\"/>");
            let (x, middle) = (column.x + DISC, top + high / 2);
            let _ = write!(discs, "M{x} {middle}h0");
            text(&mut numbers, x, middle + 4, &(number + 1).to_string(), None);
            let first = top + 8 + 12;
            for (line, said) in column.lines.iter().enumerate() {
                text(&mut texts, column.x + TEXT, first + LINE * line, said, column.whole.as_deref());
            }
        }
        out.push_str(&boxes);
        out.push_str("</g>");
        path(out, "n", &discs);
        out.push_str(&numbers);
        out.push_str("</g>");
        out.push_str(&texts);
    }
}

/// The boxes, not yet placed.
fn columns(depot: &Depot, story: &Story, leads: &[u8]) -> Vec<Column> {
    let one_line = if story.moves.len() <= 5 { 190 } else { 96 };
    let column = |request: &Request| {
        let said = pieces(depot, request);
        let (lines, shortened) = box_lines(&said, one_line);
        let wide = TEXT + lines.iter().map(|line| width(line, SIZE)).max().unwrap_or(0) + 10;
        let whole = shortened.then(|| phrase(&said, None, SIZE));
        Column { x: 0, wide, lines, whole, lane: leads.iter().position(|l| *l == request.role.0).unwrap_or(0) }
    };
    story.moves.iter().map(|step| column(&step.request)).collect()
}

/// A box's text over up to three lines, and whether names are shortened.
fn box_lines(said: &[Piece], one_line: usize) -> (Vec<String>, bool) {
    let wide = |lines: &[String]| lines.iter().map(|line| width(line, SIZE)).max().unwrap_or(0);
    let mut best = Vec::new();
    for step in STEPS {
        let text = phrase(said, step, SIZE);
        for (count, most) in [(1, one_line), (2, 150), (3, 165)] {
            best = wrapped(&text, count, SIZE);
            if wide(&best) <= most {
                return (best, step.is_some() && text.contains('…'));
            }
        }
    }
    (best, true)
}

/// The lanes from `y` on, each as high as its highest box demands.
fn lanes(depot: &Depot, leads: &[u8], columns: &[Column], y: &mut usize) -> Vec<Lane> {
    let lane = |(number, lead): (usize, &u8)| {
        let lines = columns.iter().filter(|column| column.lane == number).map(|column| column.lines.len()).max();
        let high = 16 + LINE * lines.unwrap_or(1) + 14;
        let name = depot.lead(*lead);
        let word = if name == by_number("lead", *lead) { "" } else { "lead " };
        let label = Label::new(&[Piece::Word(word), Piece::Name(name)], MOST_LABEL);
        let lane = Lane { label, y: *y, high };
        *y += high + 6;
        lane
    };
    leads.iter().enumerate().map(lane).collect()
}

/// Headings and bars from `y` on.
fn rows(depot: &Depot, story: &Story, y: &mut usize) -> Vec<Row> {
    let mut rows = Vec::new();
    *y += 12;
    for (subject, bars) in grouped(story.bars.iter().enumerate()) {
        *y += 6;
        let heading = subject_name(depot, subject);
        rows.push(Row { label: Label::name(heading, MOST_LABEL - 40), y: *y, bar: None });
        *y += ROW;
        for bar in bars {
            let label = Label::new(&bar_pieces(depot, &story.bars[bar]), MOST_LABEL);
            rows.push(Row { label, y: *y, bar: Some(bar) });
            *y += ROW;
        }
    }
    rows
}
