//! Questions, expectations and terms, as the notation writes them.

use crate::cursor::{cut, Cursor};
use crate::fault::Fault;
use crate::model::{Expectation, Kind, Mode, Question, Said, Term};
use crate::names::Names;

/// `may PERSON ever ..`.
pub fn question(names: &Names, c: &mut Cursor<'_>) -> Result<Question, Fault> {
    c.expect(&["may"])?;
    let person = c.name("person", &names.persons)?;
    c.expect(&["ever"])?;
    let mut question = Question { mode: Mode::AtLeast, person, leads: 0, wants: Vec::new(), crews: 0 };
    match c.expect(&["have", "be", "directly"])? {
        "have" => at_least(names, c, &mut question)?,
        "be" => exactly(names, c, &mut question)?,
        _ => directly(names, c, &mut question)?,
    }
    question.wants.sort_unstable();
    let expected = match question.mode {
        Mode::Exactly => "`with` or `by`",
        _ if question.wants.is_empty() && question.crews == 0 => "`by`",
        _ => "`and` or `by`",
    };
    question.leads = leads(names, c, expected)?;
    Ok(question)
}

/// `expect yes: may ..`, `expect no way: may ..`.
pub fn expectation(names: &Names, c: &mut Cursor<'_>) -> Result<Said<Expectation>, Fault> {
    c.at += 1;
    let no_way = [["no", "way:"].as_slice(), &["no", "way"], &["no", "way", ":"]];
    let yes = if ["yes:", "yes"].into_iter().any(|word| c.eat(word)) {
        c.eat(":");
        true
    } else if no_way.into_iter().any(|words| c.eat_all(words)) {
        c.eat(":");
        false
    } else {
        return Err(c.fault("behind `expect` comes `yes:` or `no way:`, and then a question"));
    };
    let question = question(names, c)?;
    Ok(Said { line: c.number(), what: Expectation { yes, question } })
}

/// Mode 01, behind `have`.
fn at_least(names: &Names, c: &mut Cursor<'_>, question: &mut Question) -> Result<(), Fault> {
    if !c.sees(&["at", "least", "nothing", "of"]) && c.eat_all(&["at", "least", "nothing"]) {
        return Ok(());
    }
    loop {
        want(names, c, question)?;
        if !c.eat("and") {
            return Ok(());
        }
        c.eat("have");
    }
}

/// `ATTRIBUTE VALUE`, or `at least nothing of ATTRIBUTE`, an empty set.
fn want(names: &Names, c: &mut Cursor<'_>, question: &mut Question) -> Result<(), Fault> {
    let from = c.at;
    let (attribute, set) = if c.eat_all(&["at", "least", "nothing", "of"]) {
        (names.attribute_name(c)?, 0)
    } else {
        let (attribute, value) = names.value(c)?;
        (attribute, 1u16.checked_shl(value.into()).unwrap_or(0))
    };
    match question.wants.iter_mut().find(|(a, _)| *a == attribute) {
        None => question.wants.push((attribute, set)),
        Some((_, before)) if set == 0 || *before == 0 || *before & set != 0 => {
            return Err(c.fault_at(from, "this is asked for twice"));
        }
        Some((_, before)) => *before |= set,
    }
    Ok(())
}

/// Mode 02, behind `be`.
fn exactly(names: &Names, c: &mut Cursor<'_>, question: &mut Question) -> Result<(), Fault> {
    question.mode = Mode::Exactly;
    c.expect(&["exactly"])?;
    c.expect(&["in"])?;
    if c.eat_all(&["no", "crew"]) {
        c.at += usize::from(c.sees(&["and", "with"]));
    } else {
        loop {
            crew(names, c, question)?;
            if !more(c) {
                break;
            }
        }
    }
    while c.eat("with") {
        let from = c.at;
        let attribute = names.attribute_name(c)?;
        if question.wants.iter().any(|(a, _)| *a == attribute) {
            return Err(c.fault_at(from, "this attribute has its `exactly` already"));
        }
        c.expect(&["exactly"])?;
        question.wants.push((attribute, exact_values(names, attribute, c)?));
    }
    Ok(())
}

/// The values behind `with ATTRIBUTE exactly`.
fn exact_values(names: &Names, attribute: u8, c: &mut Cursor<'_>) -> Result<u16, Fault> {
    if c.eat("nothing") {
        c.at += usize::from(c.sees(&["and", "with"]));
        return Ok(0);
    }
    let mut set = 0u16;
    loop {
        let bit = 1u16.checked_shl(names.value_of(attribute, c)?.into()).unwrap_or(0);
        if set & bit != 0 {
            return Err(c.fault_at(c.at - 1, "this value is named twice"));
        }
        set |= bit;
        if !more(c) {
            return Ok(set);
        }
    }
}

/// Whether a list goes on. `and` may stand between two of its names, and before the next `with`.
fn more(c: &mut Cursor<'_>) -> bool {
    let and = c.eat("and");
    c.peek() != Some("with") && (and || !matches!(c.peek(), None | Some("by")))
}

/// Mode 03, behind `directly`.
fn directly(names: &Names, c: &mut Cursor<'_>, question: &mut Question) -> Result<(), Fault> {
    question.mode = Mode::Directly;
    if !c.sees(&["have", "at", "least", "nothing", "of"]) && c.eat_all(&["have", "at", "least", "nothing"]) {
        return Ok(());
    }
    loop {
        match c.expect(&["have", "be"])? {
            "have" => want(names, c, question)?,
            _ => {
                c.expect(&["in"])?;
                crew(names, c, question)?;
                // More crews may be listed, with `and` or without.
                while names.is_crew(c.peek())
                    || (c.peek() == Some("and") && names.is_crew(c.word(c.at + 1)) && !next_wish(c))
                {
                    c.eat("and");
                    crew(names, c, question)?;
                }
            }
        }
        if !c.eat("and") {
            return Ok(());
        }
    }
}

/// Whether behind `and` another wish begins, and no crew that is called like its first word.
fn next_wish(c: &Cursor<'_>) -> bool {
    c.sees(&["and", "be", "in"]) || c.sees(&["and", "have"])
}

/// Passes a crew's name and puts the crew into the question's set.
fn crew(names: &Names, c: &mut Cursor<'_>, question: &mut Question) -> Result<(), Fault> {
    let bit = 1u32.checked_shl(c.name("crew", &names.crews)?.into()).unwrap_or(0);
    if question.crews & bit != 0 {
        return Err(c.fault_at(c.at - 1, "this crew is named twice"));
    }
    question.crews |= bit;
    Ok(())
}

/// `by LEAD..`, or `by nobody`.
fn leads(names: &Names, c: &mut Cursor<'_>, expected: &str) -> Result<u16, Fault> {
    match c.peek() {
        Some("by") => c.at += 1,
        Some(word) => return Err(c.fault(format!("`{}` where {expected} is expected", cut(word)))),
        None => return Err(c.fault("`by LEAD..` is missing here")),
    }
    if c.eat("nobody") {
        return Ok(0);
    }
    let mut set = 0u16;
    loop {
        let bit = 1u16.checked_shl(c.name("lead", &names.leads)?.into()).unwrap_or(0);
        if set & bit != 0 {
            return Err(c.fault_at(c.at - 1, "this lead is named twice"));
        }
        set |= bit;
        if !c.eat("and") && c.peek().is_none() {
            return Ok(set);
        }
    }
}

/// A condition of a rule.
pub fn term(names: &Names, c: &mut Cursor<'_>) -> Result<Term, Fault> {
    let not = c.eat("not");
    let direct = c.eat("directly");
    if not && !direct {
        return Err(c.fault("behind `not` comes `directly`: what is not held through crews can't be asked"));
    }
    if c.expect(&["has", "in"]).map_err(|fault| names.nobody(c, fault))? == "in" {
        let kind = match (not, direct) {
            (true, _) => Kind::InNot,
            (_, true) => Kind::InDirectly,
            _ => Kind::In,
        };
        return Ok(Term { kind, a: c.name("crew", &names.crews)?, v: 0 });
    }
    let (a, v) = names.value(c)?;
    let from = c.at;
    let kind = match (not, direct, c.eat("or")) {
        (_, true, true) => {
            return Err(c.fault_at(from, "`or higher` looks at all that is held: leave out `directly`"));
        }
        (_, _, true) => {
            let no_or = |fault: Fault| fault.with_help("there is no `or` between conditions: write a second rule");
            c.expect(&["higher"]).map_err(no_or)?;
            Kind::HasOrHigher
        }
        (true, ..) => Kind::HasNot,
        (_, true, _) => Kind::HasDirectly,
        _ => Kind::Has,
    };
    Ok(Term { kind, a, v })
}
