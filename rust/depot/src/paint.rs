//! Colour, where the reader is a terminal.

/// Whether to colour.
#[derive(Clone, Copy, Debug, PartialEq, Eq)]
pub struct Paint(pub bool);

impl Paint {
    /// What is wrong, or "no way".
    pub fn bad(self, text: &str) -> String {
        self.with("31", text)
    }

    /// What is found.
    pub fn good(self, text: &str) -> String {
        self.with("32", text)
    }

    /// What stands beside.
    pub fn faint(self, text: &str) -> String {
        self.with("2", text)
    }

    fn with(self, code: &str, text: &str) -> String {
        if self.0 && !text.is_empty() {
            format!("\x1b[{code}m{text}\x1b[0m")
        } else {
            text.to_string()
        }
    }
}
