//! The plot: for each series the ratio, ours by the reference's, on a scale of powers of two.

use std::fmt::Write as _;

/// A line of a panel: a ratio for each of the panel's numbers, where there is one.
pub struct Line {
    pub name: &'static str,
    pub ratios: Vec<Option<f64>>,
}

/// One series.
pub struct Panel {
    pub title: &'static str,
    pub numbers: Vec<usize>,
    pub lines: Vec<Line>,
}

const COLUMNS: usize = 4;
/// A panel with its margins.
const CELL: (f64, f64) = (310.0, 216.0);
/// A panel's axes.
const INNER: (f64, f64) = (250.0, 160.0);
/// Where they begin in the cell.
const AXES: (f64, f64) = (46.0, 12.0);
const LEFT: f64 = 12.0;
const WIDTH: f64 = LEFT + CELL.0 * COLUMNS as f64;
/// The title and the legend.
const TOP: f64 = 84.0;
/// A section's heading.
const HEADING: f64 = 30.0;
const AIM: f64 = 4.0;
const TEXT: &str = "#222222";
const GRID: &str = "#DDDDDD";

/// The lines' colours, told apart by the colour-blind too, and their dashes.
const STYLES: [(&str, &str, &str); 6] = [
    ("open", "#0072B2", "none"),
    ("request", "#E69F00", "6 3"),
    ("show", "#009E73", "2 3"),
    ("replay", "#CC79A7", "9 3 2 3"),
    ("plan", "#D55E00", "none"),
    ("page", "#56B4E9", "12 4"),
];

fn style(name: &str) -> (&'static str, &'static str) {
    STYLES.iter().find(|style| style.0 == name).map_or((TEXT, "none"), |style| (style.1, style.2))
}

/// The powers of two that all ratios of a section lie between.
fn range(panels: &[Panel]) -> (i32, i32) {
    let ratios = panels.iter().flat_map(|panel| &panel.lines).flat_map(|line| &line.ratios).flatten();
    let (low, high) = ratios.fold((1.0_f64, AIM), |(low, high), &ratio| (low.min(ratio), high.max(ratio)));
    (low.max(1.0 / 64.0).log2().floor() as i32, high.log2().ceil() as i32)
}

/// The whole drawing: sections of panels, each section with its heading.
pub fn svg(title: &str, sections: &[(&str, Vec<Panel>)]) -> String {
    let tall = |panels: &[Panel]| HEADING + CELL.1 * panels.len().div_ceil(COLUMNS) as f64;
    let height = TOP + sections.iter().map(|(_, panels)| tall(panels)).sum::<f64>();
    let mut out = format!(
        "<svg xmlns=\"http://www.w3.org/2000/svg\" viewBox=\"0 0 {WIDTH} {height}\" width=\"{WIDTH}\" height=\"{height}\" \
         font-family=\"sans-serif\" font-size=\"12\" fill=\"{TEXT}\">\n\
         <rect width=\"{WIDTH}\" height=\"{height}\" fill=\"#FFFFFF\"/>\n"
    );
    out += &text(LEFT, 28.0, "start", 17, title);
    out += &legend();
    let mut top = TOP;
    for (heading, panels) in sections {
        out += &text(LEFT, top + 20.0, "start", 15, heading);
        out += &section(panels, top + HEADING);
        top += tall(panels);
    }
    out + "</svg>\n"
}

fn section(panels: &[Panel], top: f64) -> String {
    let mut out = String::new();
    let range = range(panels);
    for (k, panel) in panels.iter().enumerate() {
        let at = (LEFT + CELL.0 * (k % COLUMNS) as f64, top + CELL.1 * (k / COLUMNS) as f64);
        // Writing to a string does not fail.
        let _ = writeln!(out, "<g transform=\"translate({:.1} {:.1})\">", at.0 + AXES.0, at.1 + AXES.1);
        out += &axes(panel, range);
        for line in &panel.lines {
            out += &curve(line, panel.numbers.len(), range);
        }
        out += "</g>\n";
    }
    out
}

fn legend() -> String {
    let mut out = String::new();
    for (k, (name, colour, dash)) in STYLES.iter().enumerate() {
        let x = LEFT + 110.0 * k as f64;
        out += &stroke((x, 56.0), (x + 34.0, 56.0), colour, dash, 2.0);
        out += &dot(x + 17.0, 56.0, colour);
        out += &text(x + 42.0, 60.0, "start", 13, name);
    }
    let x = LEFT + 110.0 * STYLES.len() as f64;
    out + &stroke((x, 56.0), (x + 34.0, 56.0), TEXT, "4 4", 1.0)
        + &text(x + 42.0, 60.0, "start", 13, "4 times, the aim")
}

fn height_of(ratio: f64, (low, high): (i32, i32)) -> f64 {
    let part = (ratio.log2() - f64::from(low)) / f64::from(high - low);
    INNER.1 * (1.0 - part.clamp(0.0, 1.0))
}

fn place_of(k: usize, points: usize) -> f64 {
    INNER.0 * (k as f64 + 0.5) / points as f64
}

fn axes(panel: &Panel, range: (i32, i32)) -> String {
    let mut out = String::new();
    let step = (range.1 - range.0) / 8 + 1;
    for power in (range.0..=range.1).filter(|power| power.rem_euclid(step) == 0) {
        let y = height_of(2.0_f64.powi(power), range);
        out += &stroke((0.0, y), (INNER.0, y), GRID, "none", 1.0);
        let label = if power < 0 { format!("1/{}", 1 << -power) } else { (1_u64 << power).to_string() };
        out += &text(-6.0, y + 4.0, "end", 11, &label);
    }
    let aim = height_of(AIM, range);
    out += &stroke((0.0, aim), (INNER.0, aim), TEXT, "4 4", 1.0);
    out += &stroke((0.0, 0.0), (0.0, INNER.1), TEXT, "none", 1.0);
    out += &stroke((0.0, INNER.1), (INNER.0, INNER.1), TEXT, "none", 1.0);
    for (k, number) in panel.numbers.iter().enumerate() {
        let x = place_of(k, panel.numbers.len());
        out += &stroke((x, INNER.1), (x, INNER.1 + 4.0), TEXT, "none", 1.0);
        out += &text(x, INNER.1 + 17.0, "middle", 11, &number.to_string());
    }
    out + &text(INNER.0 / 2.0, INNER.1 + 34.0, "middle", 12, panel.title)
}

fn curve(line: &Line, points: usize, range: (i32, i32)) -> String {
    let (colour, dash) = style(line.name);
    let there = line.ratios.iter().enumerate().filter_map(|(k, ratio)| ratio.map(|ratio| (k, ratio)));
    let places: Vec<(f64, f64)> = there.map(|(k, ratio)| (place_of(k, points), height_of(ratio, range))).collect();
    let path: Vec<String> = places.iter().map(|(x, y)| format!("{x:.1},{y:.1}")).collect();
    let mut out = format!(
        "<polyline points=\"{}\" fill=\"none\" stroke=\"{colour}\" stroke-width=\"2\" stroke-dasharray=\"{dash}\"/>\n",
        path.join(" ")
    );
    for (x, y) in places {
        out += &dot(x, y, colour);
    }
    out
}

fn stroke(from: (f64, f64), to: (f64, f64), colour: &str, dash: &str, width: f64) -> String {
    format!(
        "<line x1=\"{:.1}\" y1=\"{:.1}\" x2=\"{:.1}\" y2=\"{:.1}\" stroke=\"{colour}\" stroke-width=\"{width}\" \
         stroke-dasharray=\"{dash}\"/>\n",
        from.0, from.1, to.0, to.1
    )
}

fn dot(x: f64, y: f64, colour: &str) -> String {
    format!("<circle cx=\"{x:.1}\" cy=\"{y:.1}\" r=\"3\" fill=\"{colour}\"/>\n")
}

fn text(x: f64, y: f64, anchor: &str, size: u8, words: &str) -> String {
    let words = words.replace('&', "&amp;").replace('<', "&lt;");
    format!("<text x=\"{x:.1}\" y=\"{y:.1}\" text-anchor=\"{anchor}\" font-size=\"{size}\">{words}</text>\n")
}

#[cfg(test)]
mod tests {
    use super::*;
    use crate::job::Operation;

    fn panels() -> Vec<Panel> {
        let line = |name, ratios| Line { name, ratios };
        let lines = vec![line("open", vec![Some(0.5), Some(3.0)]), line("plan", vec![None, Some(900.0)])];
        vec![Panel { title: "a < b & c", numbers: vec![32, 64], lines }]
    }

    #[test]
    fn elements_are_closed_and_words_escaped() {
        let drawing = svg("title", &[("one", panels()), ("two", panels())]);
        assert!(drawing.starts_with("<svg ") && drawing.ends_with("</svg>\n"));
        assert!(drawing.contains("a &lt; b &amp; c"));
        for line in drawing.lines().filter(|line| line.starts_with("<text")) {
            assert!(line.ends_with("</text>"), "{line}");
        }
        assert_eq!(drawing.matches("<g ").count(), drawing.matches("</g>").count());
        assert_eq!(drawing.matches('"').count() % 2, 0);
        assert!(!drawing.contains("NaN") && !drawing.contains("inf"));
    }

    #[test]
    fn each_operation_has_a_style_of_its_own() {
        assert_eq!(STYLES.map(|style| style.0), Operation::ALL.map(Operation::name));
        for (k, (name, colour, _)) in STYLES.iter().enumerate() {
            assert!(STYLES[..k].iter().all(|style| style.1 != *colour), "{name}");
            assert!(svg("title", &[]).contains(&format!(">{name}</text>")));
        }
    }

    #[test]
    fn the_scale_holds_every_ratio() {
        assert_eq!(range(&panels()), (-1, 10));
        assert_eq!(height_of(1024.0, (-1, 10)), 0.0);
        assert_eq!(height_of(0.5, (-1, 10)), INNER.1);
    }
}
