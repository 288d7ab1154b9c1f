//! The names of a file: persons, crews, leads, attributes and their values.

use crate::cursor::{a, near, Cursor};
use crate::fault::Fault;
use crate::model::{Attribute, Depot, MOST_ATTRIBUTES, MOST_CREWS, MOST_LEADS, MOST_PERSONS, MOST_VALUES};
use crate::source::{Line, Word};

/// A name has at most so many characters, so that it can be shown.
const LONGEST: usize = 64;
/// More names of a kind are not kept: numbers are bytes.
const KEPT: usize = 256;

/// The words that begin a line of the notation: no person, crew or lead has such a name.
pub const HEADS: [&str; 9] = ["persons", "person", "crews", "crew", "leads", "lead", "attribute", "may", "expect"];
/// The words that join others: nothing has such a name.
pub const JOINTS: [&str; 16] = [
    "over", "has", "in", "if", "and", "or", "not", "directly", "by", "with", "exactly", "nothing", "nobody", "to",
    "from", "may",
];

/// The names of a file, in its order.
#[derive(Clone, Debug, Default)]
pub struct Names {
    /// In the file's order, which is that of their numbers.
    pub persons: Vec<String>,
    /// In the file's order, which need not be that of their numbers.
    pub crews: Vec<String>,
    /// In the file's order.
    pub leads: Vec<String>,
    /// In the file's order, with their values.
    pub attributes: Vec<Attribute>,
    /// The attributes' names alone.
    attribute_names: Vec<String>,
}

/// Whether a line declares names.
pub fn declares(line: &Line<'_>) -> bool {
    matches!(line.words[0].text, "persons" | "person" | "crews" | "crew" | "leads" | "lead" | "attribute")
}

/// Reads the names of all lines that declare some.
pub fn read(lines: &[Line<'_>], faults: &mut Vec<Fault>) -> Names {
    let mut names = Names::default();
    for line in lines.iter().filter(|line| declares(line)) {
        let (head, rest) = (line.words[0].text, &line.words[1..]);
        if rest.is_empty() {
            let what = if head == "attribute" { "the attribute's name" } else { "a name" };
            faults.push(Cursor::new(line).fault_at(1, format!("{what} is missing here")));
            continue;
        }
        let add = Adding { line: line.number, faults };
        match head {
            "persons" | "person" => add.all(rest, "person", MOST_PERSONS, &mut names.persons, &names.crews),
            "crews" | "crew" => add.all(rest, "crew", MOST_CREWS, &mut names.crews, &names.persons),
            "leads" | "lead" => add.all(rest, "lead", MOST_LEADS, &mut names.leads, &[]),
            _ => names.attribute(line, faults),
        }
    }
    names
}

impl Names {
    /// The names of a depot, crews by number.
    pub fn of(depot: &Depot) -> Names {
        let Depot { persons, crews, leads, attributes, .. } = depot.clone();
        let attribute_names = attributes.iter().map(|attribute| attribute.name.clone()).collect();
        Names { persons, crews, leads, attributes, attribute_names }
    }

    fn attribute(&mut self, line: &Line<'_>, faults: &mut Vec<Fault>) {
        let (name, values) = (&line.words[1..2], &line.words[2..]);
        let before = self.attribute_names.len();
        let add = Adding { line: line.number, faults };
        add.all(name, "attribute", MOST_ATTRIBUTES, &mut self.attribute_names, &[]);
        if values.is_empty() {
            let text = format!("the values of {} are missing here", name[0].text);
            faults.push(Cursor::new(line).fault_at(2, text).refused(5));
        }
        let mut kept = Vec::new();
        let add = Adding { line: line.number, faults };
        add.all(values, &format!("value of {}", name[0].text), MOST_VALUES, &mut kept, &[]);
        if self.attribute_names.len() > before {
            self.attributes.push(Attribute { name: name[0].text.into(), values: kept });
        }
    }

    /// What every book has: a person and an attribute.
    pub fn missing(&self, faults: &mut Vec<Fault>) {
        if self.persons.is_empty() {
            let fault = Fault::of_file("no person is named").refused(5);
            faults.push(fault.with_help("write `persons NAME..`"));
        }
        if self.attribute_names.is_empty() {
            let fault = Fault::of_file("no attribute is named").refused(5);
            faults.push(fault.with_help("write `attribute NAME VALUE..`, the lowest value first"));
        }
    }

    /// Passes an attribute's name and one of its values.
    pub fn value(&self, c: &mut Cursor<'_>) -> Result<(u8, u8), Fault> {
        let attribute = self.attribute_name(c)?;
        Ok((attribute, self.value_of(attribute, c)?))
    }

    /// Passes an attribute's name.
    pub fn attribute_name(&self, c: &mut Cursor<'_>) -> Result<u8, Fault> {
        c.name("attribute", &self.attribute_names)
    }

    /// Passes the name of one of an attribute's values.
    pub fn value_of(&self, attribute: u8, c: &mut Cursor<'_>) -> Result<u8, Fault> {
        let Attribute { name, values } = &self.attributes[usize::from(attribute)];
        c.name(&format!("value of {name}"), values)
    }

    /// Whether a word is a crew's name.
    pub fn is_crew(&self, word: Option<&str>) -> bool {
        word.is_some_and(|word| self.crews.iter().any(|name| name == word))
    }

    /// A fault of a rule, with what to do where it stands at a person's name.
    pub fn nobody(&self, c: &Cursor<'_>, fault: Fault) -> Fault {
        if c.peek().is_some_and(|word| self.persons.iter().any(|name| name == word)) {
            return fault.with_help("a rule names nobody: it is for all of whom its conditions hold");
        }
        fault
    }

    /// "did you mean", for the first word of a statement.
    pub fn near_head(&self, word: &str) -> Option<String> {
        let names = [&self.leads, &self.persons, &self.crews].into_iter().flatten().map(String::as_str);
        near(word, names.chain(HEADS))
    }
}

/// Adds names of one line.
struct Adding<'f> {
    line: usize,
    faults: &'f mut Vec<Fault>,
}

impl Adding<'_> {
    /// Adds names to those of their kind; `others` are those of another kind that must differ from them.
    fn all(self, words: &[Word<'_>], what: &str, most: usize, names: &mut Vec<String>, others: &[String]) {
        for word in words {
            let fault = |text: String| Fault::at(self.line, word.column, word.width(), text);
            let head = matches!(what, "person" | "crew" | "lead") && HEADS.contains(&word.text);
            if head || JOINTS.contains(&word.text) {
                self.faults.push(fault(format!("`{}` is a word of the notation and no name", word.text)));
            } else if word.width() > LONGEST {
                self.faults
                    .push(fault(format!("a name has at most {LONGEST} characters, and this has {}", word.width())));
            } else if names.iter().any(|name| name == word.text) {
                self.faults.push(fault(format!("{} called `{}` is there already", a(what), word.text)));
            } else if others.iter().any(|name| name == word.text) {
                let text = format!("`{}` is a person and a crew: their names have to differ", word.text);
                self.faults.push(fault(text));
            } else {
                if names.len() == most {
                    let text = format!("`{}` is one too many: {} at most", word.text, most_of(what, most));
                    self.faults.push(fault(text).refused(5));
                }
                if names.len() < KEPT {
                    names.push(word.text.into());
                }
            }
        }
    }
}

/// The limit in words.
fn most_of(what: &str, most: usize) -> String {
    match what {
        "person" | "crew" | "lead" | "attribute" => format!("a depot has {most} {what}s"),
        _ => format!("an attribute has {most} values"),
    }
}
