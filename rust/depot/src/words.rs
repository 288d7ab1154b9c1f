//! A depot written in the notation, and a hexadecimal book given names.

use crate::model::{Depot, Expectation};
use crate::say::counted;

/// Names that belong together go on in a new line from about here.
const WIDTH: usize = 100;

/// A depot in the notation: the names, the statements in their order, the question and what is expected.
pub fn words(depot: &Depot) -> String {
    let parts = [names(depot), statements(depot), questions(depot)];
    let parts = parts.into_iter().filter(|lines| !lines.is_empty());
    let parts: Vec<String> = parts.map(|lines| lines.join("\n") + "\n").collect();
    parts.join("\n")
}

/// The names of a depot in the notation.
pub fn declarations(depot: &Depot) -> String {
    names(depot).join("\n") + "\n"
}

/// Who and what there is. Each crew stands behind its juniors, so a reader gives it the number that it has here.
fn names(depot: &Depot) -> Vec<String> {
    let lists = [("persons", &depot.persons), ("crews", &depot.crews), ("leads", &depot.leads)];
    let mut lines: Vec<String> = lists.iter().flat_map(|(word, names)| wrapped(word, names)).collect();
    lines.extend(depot.attributes.iter().map(|a| format!("attribute {} {}", a.name, a.values.join(" "))));
    lines
}

/// A word and names behind it, over as many lines as it takes, each with the word again.
fn wrapped(word: &str, names: &[String]) -> Vec<String> {
    let mut lines: Vec<String> = Vec::new();
    for name in names {
        match lines.last_mut() {
            Some(line) if line.chars().count() + 1 + name.chars().count() <= WIDTH => {
                line.push(' ');
                line.push_str(name);
            }
            _ => lines.push(format!("{word} {name}")),
        }
    }
    lines
}

fn statements(depot: &Depot) -> Vec<String> {
    depot.statements.iter().map(|said| depot.statement(&said.what)).collect()
}

fn questions(depot: &Depot) -> Vec<String> {
    let question = depot.question.iter().map(|said| depot.question(&said.what));
    let expected = depot.expectations.iter().map(|said| {
        let Expectation { yes, question } = &said.what;
        format!("expect {}: {}", if *yes { "yes" } else { "no way" }, depot.question(question))
    });
    question.chain(expected).collect()
}

/// Gives a depot the names of another. All leads are taken, also those that the depot does not know of: a hexadecimal
/// book does not tell how many there are.
///
/// # Errors
///
/// What differs, in words, where the other has another number of persons, crews, attributes or values, or fewer leads.
/// The depot then keeps its names.
pub fn rename(depot: &mut Depot, names: &Depot) -> Result<(), String> {
    let differences = differences(depot, names);
    if !differences.is_empty() {
        return Err(differences.join("; "));
    }
    depot.persons.clone_from(&names.persons);
    depot.crews.clone_from(&names.crews);
    depot.attributes.clone_from(&names.attributes);
    depot.leads.clone_from(&names.leads);
    Ok(())
}

fn differences(depot: &Depot, names: &Depot) -> Vec<String> {
    let sizes = [
        ("person", depot.persons.len(), names.persons.len()),
        ("crew", depot.crews.len(), names.crews.len()),
        ("attribute", depot.attributes.len(), names.attributes.len()),
    ];
    let sizes = sizes.into_iter().filter(|(_, book, names)| book != names);
    let mut told: Vec<String> =
        sizes.map(|(what, book, names)| format!("the book has {}, the names {names}", counted(book, what))).collect();
    // Of which attributes the values are compared is clear only where there are as many.
    if depot.attributes.len() == names.attributes.len() {
        let both = depot.attributes.iter().zip(&names.attributes).enumerate();
        let others = both.filter(|(_, (book, names))| book.values.len() != names.values.len());
        told.extend(others.map(|(number, (book, names))| {
            let (values, other) = (counted(book.values.len(), "value"), names.values.len());
            format!("attribute {number:02X} has {values} in the book, `{}` has {other}", names.name)
        }));
    }
    if names.leads.len() < depot.leads.len() {
        let leads = counted(depot.leads.len(), "lead");
        told.push(format!("the book needs {leads}, the names have {}", names.leads.len()));
    }
    told
}
