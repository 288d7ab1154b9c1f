//! The tables of docs/PERFORMANCE.md, and where they stand in it.

use std::collections::BTreeSet;

use crate::callgrind::Profile;
use crate::job::{Operation, Side};
use crate::plot::{self, Line, Panel};
use crate::table::{markdown, short, thousands, Cost, Measured, Ratio, Row};

/// The ratio that is aimed at.
const AIM: f64 = 4.0;
/// A function is listed from this share of some book's instructions on, in percent.
const LISTED: f64 = 2.0;
/// The characters of the document's longest line, tables aside.
const COLUMNS: usize = 120;
/// So many of the stored books are listed as the dearest to plan.
const DEAREST: usize = 6;

/// Everything that was measured.
pub struct Results {
    /// The stored books, the trivial one first.
    pub books: Vec<Measured>,
    pub series: Vec<MeasuredSeries>,
    /// Calls of the library whose functions are listed.
    pub profiles: Vec<Profiled>,
    /// The books whose calls are listed whole.
    pub listed: &'static [&'static str],
    /// What clearing the caller's buffer first adds to the library's plan of the trivial book.
    pub clearing: Cost,
    /// The whole processes on the trivial book: the program `plan`, then the reference's.
    pub processes: [u64; 2],
}

/// A call of the library by its functions.
pub struct Profiled {
    pub operation: Operation,
    pub book: &'static str,
    pub profile: Profile,
}

impl Profiled {
    /// The instructions within a function itself, in percent of the call's.
    fn share(&self, function: &str) -> f64 {
        100.0 * self.profile.own.get(function).copied().unwrap_or(0) as f64 / self.profile.total() as f64
    }
}

pub struct MeasuredSeries {
    pub title: &'static str,
    pub plotted: &'static [Operation],
    pub points: Vec<(usize, Measured)>,
}

impl Results {
    fn start(&self, operation: Operation) -> &Row {
        self.books[0].row(operation)
    }

    fn net(&self, measured: &Measured, operation: Operation) -> Option<Ratio> {
        measured.row(operation).net(self.start(operation))
    }

    /// Each part's name and text.
    pub fn parts(&self) -> Vec<(&'static str, String)> {
        vec![
            ("start-up", self.start_up()),
            ("net", self.ratios(false, |measured, operation| self.net(measured, operation))),
            ("whole", self.ratios(true, |measured, operation| Some(measured.row(operation).whole()))),
            ("calls", self.calls()),
            ("series", self.growing()),
            ("aim", self.aim()),
            ("dearest", self.dearest()),
            ("functions", self.functions(|call| call.operation == Operation::Plan)),
            ("other functions", self.functions(|call| call.operation != Operation::Plan)),
        ]
    }

    fn start_up(&self) -> String {
        let row = |operation: Operation| {
            let row = self.start(operation);
            let (ours, theirs) = (row.of(Side::Ours), row.of(Side::Reference));
            let whole = row.whole();
            vec![
                operation.name().to_owned(),
                thousands(ours.instructions),
                thousands(theirs.instructions),
                short(whole.instructions),
                format!("{:.2}", ours.micros),
                format!("{:.2}", theirs.micros),
                short(whole.time),
            ]
        };
        let mut rows: Vec<Vec<String>> = Operation::ALL.into_iter().map(row).collect();
        let Cost { instructions, micros } = self.clearing;
        let clearing = [
            "clearing the caller's plan buffer adds",
            &thousands(instructions),
            "",
            "",
            &format!("{micros:.2}"),
            "",
            "",
        ];
        rows.push(clearing.map(str::to_owned).to_vec());
        let [ours, theirs] = self.processes.map(|count| count as f64);
        let process =
            ["the whole process that plans", &thousands(ours), &thousands(theirs), &short(ours / theirs), "", "", ""];
        rows.push(process.map(str::to_owned).to_vec());
        let head =
            ["the trivial book", "ours, instr.", "reference", "ratio", "ours, µs", "reference, µs", "ratio of time"];
        markdown(&head, &rows)
    }

    /// A table of the stored books. Those of a few lines, if asked for, are one row with their largest ratios.
    fn ratios(&self, small: bool, ratio: impl Fn(&Measured, Operation) -> Option<Ratio>) -> String {
        let cell = |ratio: Option<Ratio>| ratio.map_or("-".to_owned(), Ratio::cell);
        let named = |name: String, cells: [String; 6]| [name].into_iter().chain(cells).collect::<Vec<String>>();
        let mut rows = Vec::new();
        let few = || self.books.iter().filter(|book| is_small(&book.name));
        if small {
            let largest = Operation::ALL.map(|operation| {
                let ratios = few().filter_map(|book| ratio(book, operation));
                cell(ratios.max_by(|a, b| a.instructions.total_cmp(&b.instructions)))
            });
            rows.push(named(format!("the largest of {} books of a few lines", few().count()), largest));
        }
        for book in self.large() {
            rows.push(named(book.name.clone(), Operation::ALL.map(|operation| cell(ratio(book, operation)))));
        }
        markdown(&heads("book"), &rows)
    }

    fn large(&self) -> impl Iterator<Item = &Measured> {
        self.books.iter().filter(|book| !is_small(&book.name))
    }

    /// The whole calls of the books whose functions are listed.
    fn calls(&self) -> String {
        let mut rows = Vec::new();
        for book in self.books.iter().filter(|book| self.listed.contains(&book.name.as_str())) {
            for operation in Operation::ALL {
                let row = book.row(operation);
                let [ours, theirs, kept] = Side::ALL.map(|side| row.of(side));
                rows.push(vec![
                    format!("{}, {}", book.name, operation.name()),
                    thousands(ours.instructions),
                    thousands(theirs.instructions),
                    thousands(kept.instructions),
                    short(row.whole().instructions),
                    self.net(book, operation).map_or("-".to_owned(), |net| short(net.instructions)),
                    short(ours.micros),
                    short(theirs.micros),
                    short(kept.micros),
                    short(row.whole().time),
                    self.net(book, operation).map_or("-".to_owned(), |net| short(net.time)),
                ]);
            }
        }
        let head = [
            "book and operation",
            "ours, instr.",
            "reference",
            "book kept",
            "ratio",
            "net",
            "ours, µs",
            "reference",
            "book kept",
            "ratio",
            "net",
        ];
        markdown(&head, &rows)
    }

    fn growing(&self) -> String {
        let mut rows = Vec::new();
        for series in &self.series {
            for (number, measured) in &series.points {
                let cells = Operation::ALL.map(|operation| {
                    let plotted = series.plotted.contains(&operation);
                    self.net(measured, operation).filter(|_| plotted).map_or("-".to_owned(), Ratio::cell)
                });
                let name = format!("{}: {}", series.title, thousands(*number as f64));
                rows.push([name].into_iter().chain(cells).collect());
            }
        }
        markdown(&heads("series"), &rows)
    }

    /// How often the aim is met on the stored books, and where it is not.
    fn aim(&self) -> String {
        let mut text = String::new();
        for (measure, of) in [("instructions", instructions as fn(Ratio) -> f64), ("time", time)] {
            let nets = || {
                let each = |book| Operation::ALL.map(|operation| (book, operation, self.net(book, operation)));
                self.large().flat_map(each).filter_map(|(book, op, net)| net.map(|net| (book, op, of(net))))
            };
            let mut over: Vec<_> = nets().filter(|&(.., net)| net > AIM).collect();
            over.sort_by(|a, b| b.2.total_cmp(&a.2));
            let all = nets().count();
            let mut paragraph = format!(
                "By {measure}, {} of the {all} ratios of the larger stored books are within {AIM} times.",
                all - over.len()
            );
            let list = over.iter().map(|(book, op, net)| format!("{} {} {}", book.name, op.name(), short(*net)));
            let list: Vec<String> = list.collect();
            if !list.is_empty() {
                paragraph += &format!(" Over: {}.", list.join(", "));
            }
            text += &format!("{}\n\n", wrapped(&paragraph));
        }
        text.trim_end().to_owned() + "\n"
    }

    /// The stored books that are the dearest to plan.
    fn dearest(&self) -> String {
        let plan = |book: &Measured| book.row(Operation::Plan).of(Side::Ours);
        let mut books: Vec<&Measured> = self.large().collect();
        books.sort_by(|a, b| plan(b).instructions.total_cmp(&plan(a).instructions));
        let row = |book: &&Measured| {
            let Cost { instructions, micros } = plan(book);
            vec![book.name.clone(), thousands(instructions), thousands(micros)]
        };
        let rows: Vec<Vec<String>> = books.iter().take(DEAREST).map(row).collect();
        markdown(&["book", "plan, instr.", "µs"], &rows)
    }

    /// The functions of some calls with their shares.
    fn functions(&self, wanted: impl Fn(&Profiled) -> bool) -> String {
        let calls: Vec<&Profiled> = self.profiles.iter().filter(|call| wanted(call)).collect();
        let names: BTreeSet<&String> = calls.iter().flat_map(|call| call.profile.own.keys()).collect();
        let shares = |name| calls.iter().map(|call| call.share(name)).collect::<Vec<f64>>();
        let mut listed: Vec<(&String, Vec<f64>)> = names.into_iter().map(|name| (name, shares(name))).collect();
        listed.retain(|(_, shares)| shares.iter().any(|&share| share >= LISTED));
        listed.sort_by(|a, b| b.1.iter().sum::<f64>().total_cmp(&a.1.iter().sum()));
        let mut rows: Vec<Vec<String>> = Vec::new();
        for (name, shares) in listed {
            let cells = shares.iter().map(|share| format!("{share:.1}"));
            rows.push([format!("`{name}`")].into_iter().chain(cells).collect());
        }
        let totals = calls.iter().map(|call| thousands(call.profile.total() as f64));
        rows.push(["instructions".to_owned()].into_iter().chain(totals).collect());
        let heads: Vec<String> = calls.iter().map(|call| format!("{} {}", call.operation.name(), call.book)).collect();
        markdown(&["percent"].into_iter().chain(heads.iter().map(String::as_str)).collect::<Vec<_>>(), &rows)
    }

    /// The plot of the series.
    pub fn plot(&self) -> String {
        plot::svg(
            "The library's cost as a multiple of the reference's, each net of its start-up",
            &[("By instructions", self.panels(instructions)), ("By wall time", self.panels(time))],
        )
    }

    fn panels(&self, of: fn(Ratio) -> f64) -> Vec<Panel> {
        let panel = |series: &MeasuredSeries| {
            let line = |&operation: &Operation| Line {
                name: operation.name(),
                ratios: series.points.iter().map(|(_, m)| self.net(m, operation).map(of)).collect(),
            };
            Panel {
                title: series.title,
                numbers: series.points.iter().map(|&(number, _)| number).collect(),
                lines: series.plotted.iter().map(line).collect(),
            }
        };
        self.series.iter().map(panel).collect()
    }
}

/// The head of a table with a column for each operation.
fn heads(first: &'static str) -> Vec<&'static str> {
    [first].into_iter().chain(Operation::ALL.map(Operation::name)).collect()
}

fn instructions(ratio: Ratio) -> f64 {
    ratio.instructions
}

fn time(ratio: Ratio) -> f64 {
    ratio.time
}

/// The larger books in the order of the tables, by how their names begin.
const LARGE: [&str; 9] = ["typical", "maximal", "dense", "read", "maxplan", "sweep", "rounds", "curve", "grow"];

/// Whether a book is one of a few lines: the examples D1 to D12, the pilot depot, the trivial book.
fn is_small(name: &str) -> bool {
    !LARGE.iter().any(|start| name.starts_with(start))
}

/// A book's place among the others: the trivial one, the others of a few lines, the larger ones.
pub fn rank(name: &str) -> usize {
    match LARGE.iter().position(|start| name.starts_with(start)) {
        Some(place) => place + 2,
        None => usize::from(name != "trivial"),
    }
}

/// A paragraph in lines of at most [`COLUMNS`] characters.
fn wrapped(paragraph: &str) -> String {
    let (mut text, mut width) = (String::new(), 0);
    for word in paragraph.split_whitespace() {
        let length = word.chars().count();
        let fits = width + 1 + length <= COLUMNS;
        match width {
            0 => {}
            _ if fits => text.push(' '),
            _ => text.push('\n'),
        }
        width = if width > 0 && fits { width + 1 + length } else { length };
        text += word;
    }
    text
}

/// Puts a text between `<!-- measured: NAME -->` and the next `<!-- end -->`.
pub fn replace(document: &str, name: &str, text: &str) -> Result<String, String> {
    let first = format!("<!-- measured: {name} -->\n");
    let missing = || format!("the document has no part {name}");
    let from = document.find(&first).ok_or_else(missing)? + first.len();
    let to = from + document[from..].find("<!-- end -->").ok_or_else(missing)?;
    Ok(format!("{}\n{text}\n{}", &document[..from], &document[to..]))
}

#[cfg(test)]
mod tests {
    use super::*;

    #[test]
    fn a_part_is_replaced_and_the_rest_kept() {
        let document = "a\n<!-- measured: x -->\nold\n<!-- end -->\nb\n";
        let new = replace(document, "x", "new").expect("there");
        assert_eq!(new, "a\n<!-- measured: x -->\n\nnew\n<!-- end -->\nb\n");
        assert_eq!(replace(&new, "x", "new"), Ok(new.clone()));
        assert!(replace(document, "y", "").is_err());
    }

    #[test]
    fn a_paragraph_is_wrapped_between_words() {
        let long = "four ".repeat(60);
        let text = wrapped(&long);
        assert!(text.lines().all(|line| line.len() <= COLUMNS) && text.lines().count() == 3, "{text}");
        assert!(text.split_whitespace().eq(long.split_whitespace()));
        assert_eq!(wrapped("By time."), "By time.");
        assert_eq!(wrapped(""), "");
    }

    /// A book on which the operations cost the library once, twice and so on to six times what they cost the reference.
    fn measured(name: &str, cost: f64) -> Measured {
        let times = |n: f64| Cost { instructions: n * cost, micros: n * cost / 1_000.0 };
        let rows =
            Operation::ALL.map(|operation| Row([times(f64::from(operation as u8) + 1.0), times(1.0), times(0.5)]));
        Measured { name: name.to_owned(), rows }
    }

    #[test]
    fn every_operation_stands_in_every_table() {
        let points = vec![(64, measured("persons 64", 500.0))];
        let results = Results {
            books: vec![measured("trivial", 100.0), measured("typical", 300.0)],
            series: vec![MeasuredSeries { title: "persons", plotted: &[Operation::Page], points }],
            profiles: Vec::new(),
            listed: &["typical"],
            clearing: Cost::default(),
            processes: [1, 1],
        };
        let parts = results.parts();
        let part = |name: &str| parts.iter().find(|part| part.0 == name).map_or("", |part| &part.1);
        let cells = |row: &str| row.split('|').map(|cell| cell.trim().to_owned()).collect::<Vec<_>>().join("|");
        for (name, first) in [("net", "book"), ("whole", "book"), ("series", "series")] {
            let head = format!("|{first}|open|request|show|replay|plan|page|");
            assert_eq!(part(name).lines().next().map(cells), Some(head));
        }
        let typical = "|typical|1.0 / 1.0|2.0 / 2.0|3.0 / 3.0|4.0 / 4.0|5.0 / 5.0|6.0 / 6.0|";
        for name in ["net", "whole"] {
            assert_eq!(part(name).lines().last().map(cells).as_deref(), Some(typical));
        }
        assert_eq!(part("series").lines().last().map(cells).as_deref(), Some("|persons: 64|-|-|-|-|-|6.0 / 6.0|"));
        for operation in Operation::ALL {
            assert!(part("start-up").contains(&format!("| {} ", operation.name())));
            assert!(part("calls").contains(&format!("| typical, {} ", operation.name())));
        }
        assert!(part("aim").starts_with("By instructions, 4 of the 6 ratios"));
        assert!(part("aim").contains("Over: typical page 6.0, typical plan 5.0."));
        assert!(results.plot().contains(">persons</text>"));
    }

    #[test]
    fn small_books() {
        assert!(["trivial", "d1", "d10-senior", "pilot-two-leads"].into_iter().all(is_small));
        assert!(!["dense496-m1", "typical-m1-no-1"].into_iter().any(is_small));
    }
}
