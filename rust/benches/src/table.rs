//! Costs, ratios and tables.

use crate::job::{Operation, Side};

/// What one call costs.
#[derive(Clone, Copy, Debug, Default, PartialEq)]
pub struct Cost {
    pub instructions: f64,
    pub micros: f64,
}

impl Cost {
    fn minus(self, start: Cost) -> Cost {
        Cost { instructions: self.instructions - start.instructions, micros: self.micros - start.micros }
    }
}

/// Ours by the reference's.
#[derive(Clone, Copy, Debug, PartialEq)]
pub struct Ratio {
    /// Of instructions.
    pub instructions: f64,
    /// Of wall time.
    pub time: f64,
}

impl Ratio {
    fn of(ours: Cost, reference: Cost) -> Self {
        Ratio { instructions: ours.instructions / reference.instructions, time: ours.micros / reference.micros }
    }

    /// Both, in a cell.
    pub fn cell(self) -> String {
        format!("{} / {}", short(self.instructions), short(self.time))
    }
}

/// One operation on one book, by each side.
#[derive(Clone, Copy, Debug, Default, PartialEq)]
pub struct Row(pub [Cost; 3]);

impl Row {
    pub fn of(&self, side: Side) -> Cost {
        self.0[side as usize]
    }

    /// The ratio of whole calls.
    pub fn whole(&self) -> Ratio {
        Ratio::of(self.of(Side::Ours), self.of(Side::Reference))
    }

    /// The ratio once each side's cost of the trivial book is taken off; none where the reference spends less on the
    /// book than twice that, since the rest is then too small to compare, and none where either side has no rest.
    pub fn net(&self, start: &Row) -> Option<Ratio> {
        let net = |side| self.of(side).minus(start.of(side));
        let (ours, rest, started) = (net(Side::Ours), net(Side::Reference), start.of(Side::Reference));
        let enough = rest.instructions >= started.instructions;
        let remain = ours.instructions > 0.0 && ours.micros > 0.0 && rest.micros > 0.0;
        (enough && remain).then(|| Ratio::of(ours, rest))
    }
}

/// The six operations on one book.
#[derive(Clone, Debug)]
pub struct Measured {
    pub name: String,
    pub rows: [Row; 6],
}

impl Measured {
    pub fn row(&self, operation: Operation) -> &Row {
        &self.rows[operation as usize]
    }
}

/// A number in two or three digits; one that would be 0.0 keeps two places.
pub fn short(number: f64) -> String {
    if number.abs() < 0.05 {
        format!("{number:.2}")
    } else if number.abs() < 9.95 {
        format!("{number:.1}")
    } else {
        thousands(number)
    }
}

/// A whole number with its thousands set off.
pub fn thousands(number: f64) -> String {
    let digits = format!("{:.0}", number.abs());
    let mut text = String::new();
    for (k, digit) in digits.chars().enumerate() {
        if k > 0 && (digits.len() - k).is_multiple_of(3) {
            text.push(',');
        }
        text.push(digit);
    }
    if number <= -0.5 {
        text.insert(0, '-');
    }
    text
}

/// A table in Markdown, its columns padded to line up as plain text too; the first column is the row's name.
pub fn markdown(head: &[&str], rows: &[Vec<String>]) -> String {
    let width = |k: usize| {
        let cells = rows.iter().map(|row| row[k].chars().count());
        cells.chain([head[k].chars().count(), 3]).max().unwrap_or(3)
    };
    let widths: Vec<usize> = (0..head.len()).map(width).collect();
    let line = |cells: Vec<&str>| {
        let padded = cells.iter().zip(&widths).enumerate().map(|(k, (cell, &width))| {
            if k == 0 {
                format!("{cell:<width$}")
            } else {
                format!("{cell:>width$}")
            }
        });
        format!("| {} |\n", padded.collect::<Vec<_>>().join(" | "))
    };
    let rules: Vec<String> =
        widths.iter().enumerate().map(|(k, &w)| if k == 0 { "-".repeat(w) } else { "-".repeat(w - 1) + ":" }).collect();
    let body: String = rows.iter().map(|row| line(row.iter().map(String::as_str).collect())).collect();
    line(head.to_vec()) + &line(rules.iter().map(String::as_str).collect()) + &body
}

#[cfg(test)]
mod tests {
    use super::*;

    fn row(ours: f64, reference: f64) -> Row {
        let cost = |n: f64| Cost { instructions: n, micros: n / 1_000.0 };
        Row([cost(ours), cost(reference), cost(0.0)])
    }

    #[test]
    fn ratios_whole_and_net() {
        let (start, book) = (row(1_000.0, 100.0), row(4_000.0, 1_600.0));
        assert_eq!(book.whole().instructions, 2.5);
        let net = book.net(&start).expect("enough");
        assert_eq!(net.instructions, 2.0);
        assert!((net.time - 2.0).abs() < 1e-9);
        assert_eq!(row(4_000.0, 199.0).net(&start), None);
        assert_eq!(row(1_000.0, 1_600.0).net(&start), None);
        assert_eq!(row(900.0, 1_600.0).net(&start), None);
    }

    #[test]
    fn numbers_and_tables() {
        assert_eq!([1.25, 9.96, 1_234.5, -2_000.0].map(short), ["1.2", "10", "1,234", "-2,000"]);
        assert_eq!([0.1, 0.06, 0.04, 0.014].map(short), ["0.1", "0.1", "0.04", "0.01"]);
        let table = markdown(&["book", "n"], &[vec!["a".into(), "12".into()]]);
        assert_eq!(table, "| book |   n |\n| ---- | --: |\n| a    |  12 |\n");
    }
}
