//! Sentences broken into lines.

use crate::fault::width;

/// Lines have at most so many cells, where words allow.
const LINE: usize = 100;

/// A sentence in lines, each ended.
pub fn wrap(text: &str) -> String {
    let mut lines = String::new();
    let mut filled = 0;
    for word in text.split(' ') {
        let cells = width(word);
        if filled > 0 && filled + 1 + cells > LINE {
            lines.push('\n');
            filled = 0;
        } else if filled > 0 {
            lines.push(' ');
            filled += 1;
        }
        lines.push_str(word);
        filled += cells;
    }
    lines.push('\n');
    lines
}
