//! The notation's reader: a file's text becomes a depot, or all that is wrong with it.
//!
//! First the names, so that a statement may stand before the names that it uses; then the statements, each of which has at
//! most one fault; then the crews' numbers, juniors first; last what holds of the whole file.

use crate::cursor::{cut, Cursor};
use crate::fault::{Fault, MOST_FAULTS};
use crate::limits::{self, Places};
use crate::model::{Depot, Fact, Op, Rule, Said, Statement, MOST_RULES, MOST_TERMS};
use crate::names::{self, Names};
use crate::order;
use crate::questions::{self, term};
use crate::source::{lines, split, Line};

/// Where the words of a rule stand that the limits of a book with "not" may forbid.
#[derive(Clone, Debug)]
pub struct RulePlace {
    /// The rule's line.
    pub line: usize,
    /// Column and width of its verb.
    pub verb: (usize, usize),
    /// Column and width of each term.
    pub terms: Vec<(usize, usize)>,
}

/// Reads a file's text. A file for `test` needs no question of its own.
pub fn read(text: &str, needs_question: bool) -> Result<Depot, Vec<Fault>> {
    let mut faults = Vec::new();
    let lines = lines(text, &mut faults);
    let names = names::read(&lines, &mut faults);
    let mut reader =
        Reader { names: &names, depot: Depot::default(), rules: Vec::new(), asked: Vec::new(), overs: Vec::new() };
    for line in lines.iter().filter(|line| !line.bad && !names::declares(line)) {
        if faults.len() >= MOST_FAULTS {
            break;
        }
        faults.extend(reader.line(line).err());
    }
    let Reader { mut depot, rules, asked, overs, .. } = reader;
    names.missing(&mut faults);
    let asked_one = lines.iter().any(|line| line.words[0].text == "may");
    if needs_question && !asked_one {
        let behind = split(text).count() + 1;
        let fault = Fault::at(behind, 0, 0, "the question is missing").refused(3);
        faults.push(fault.with_help("write, say, `may PERSON ever have ATTRIBUTE VALUE by LEAD..`"));
    }
    faults.extend(order::number_crews(&mut depot, &names, &overs));
    let not_said = lines.iter().any(|line| line.words.iter().any(|word| word.text == "not"));
    limits::judge(&depot, &Places { rules, asked, not_said }, &mut faults);
    if faults.is_empty() {
        depot.persons = names.persons;
        depot.attributes = names.attributes;
        depot.leads = names.leads;
        return Ok(depot);
    }
    faults.sort_by_key(|fault| (fault.line, fault.column));
    faults.truncate(MOST_FAULTS);
    Err(faults)
}

struct Reader<'n> {
    names: &'n Names,
    depot: Depot,
    rules: Vec<RulePlace>,
    /// Line, and column and width of the word behind `ever`, of each question.
    asked: Vec<(usize, (usize, usize))>,
    /// Column and width of the word `over` of each edge.
    overs: Vec<(usize, usize)>,
}

impl Reader<'_> {
    fn line(&mut self, line: &Line<'_>) -> Result<(), Fault> {
        let mut c = Cursor::new(line);
        match c.peek() {
            Some("may") => self.question(&mut c)?,
            Some("expect") => {
                let said = questions::expectation(self.names, &mut c)?;
                self.depot.expectations.push(said);
            }
            _ => {
                let what = self.statement(&mut c)?;
                c.end().map_err(|fault| fault.with_help("one statement a line, of one fact"))?;
                if let Statement::Over { .. } = what {
                    self.overs.push(c.place(1));
                }
                self.depot.statements.push(Said { line: line.number, what });
                return Ok(());
            }
        }
        c.end()?;
        // The word behind `ever` tells how the question is meant.
        let ever = line.words.iter().position(|word| word.text == "ever");
        self.asked.push((line.number, c.place(ever.map_or(0, |ever| ever + 1))));
        Ok(())
    }

    fn question(&mut self, c: &mut Cursor<'_>) -> Result<(), Fault> {
        if let Some(first) = &self.depot.question {
            return Err(c.fault(format!("a second question: the first is in line {}", first.line)).refused(3));
        }
        let what = questions::question(self.names, c)?;
        self.depot.question = Some(Said { line: c.number(), what });
        Ok(())
    }

    /// An edge, a rule or a fact, by its first word and the one behind it.
    fn statement(&mut self, c: &mut Cursor<'_>) -> Result<Statement, Fault> {
        let names = self.names;
        let head = c.peek().unwrap_or_default();
        let is = |names: &[String]| names.iter().any(|name| name == head);
        if c.word(1) == Some("may") {
            return self.rule(c).map(Statement::Rule);
        }
        if is(&names.persons) {
            return person_fact(names, c).map(Statement::Fact);
        }
        if is(&names.crews) {
            return crew_statement(names, c);
        }
        if is(&names.leads) {
            return Err(c.fault_at(1, format!("behind the lead `{head}` comes `may`")));
        }
        let text = format!("`{}` begins no statement: it is no person, crew or lead", cut(head));
        Err(c.fault(text).with_help(names.near_head(head).unwrap_or_default()))
    }

    fn rule(&mut self, c: &mut Cursor<'_>) -> Result<Rule, Fault> {
        let names = self.names;
        if self.rules.len() == MOST_RULES {
            return Err(c
                .fault(format!("this is rule {}: a book has at most {MOST_RULES}", MOST_RULES + 1))
                .refused(8));
        }
        let lead = c.name("lead", &names.leads)?;
        c.expect(&["may"])?;
        let verb = c.place(c.at);
        let (op, a, v) = change(names, c)?;
        let (terms, places) = if c.eat("if") { terms(names, c, op)? } else { Default::default() };
        if let (Some(word), true) = (c.peek(), terms.is_empty()) {
            return Err(c.fault(format!("`{}` where `if` or the line's end is expected", cut(word))));
        }
        self.rules.push(RulePlace { line: c.number(), verb, terms: places });
        Ok(Rule { op, lead, a, v, terms })
    }
}

/// What a rule lets do.
fn change(names: &Names, c: &mut Cursor<'_>) -> Result<(Op, u8, u8), Fault> {
    let verb = c.expect(&["add", "delete", "assign", "remove"])?;
    if verb == "assign" || verb == "remove" {
        c.expect(&[if verb == "assign" { "to" } else { "from" }]).map_err(|fault| names.nobody(c, fault))?;
        let op = if verb == "assign" { Op::Assign } else { Op::Remove };
        return Ok((op, c.name("crew", &names.crews)?, 0));
    }
    let (a, v) = names.value(c)?;
    c.expect(&[if verb == "add" { "to" } else { "from" }])?;
    let whom = c.expect(&["persons", "crews"]).map_err(|fault| names.nobody(c, fault))?;
    let op = match (verb, whom) {
        ("add", "persons") => Op::AddToPerson,
        ("add", _) => Op::AddToCrew,
        (_, "persons") => Op::DeleteFromPerson,
        _ => Op::DeleteFromCrew,
    };
    Ok((op, a, v))
}

/// A rule's terms, and the column and width of each.
type Terms = (Vec<crate::model::Term>, Vec<(usize, usize)>);

/// The terms behind `if`.
fn terms(names: &Names, c: &mut Cursor<'_>, op: Op) -> Result<Terms, Fault> {
    let (mut terms, mut places) = Terms::default();
    loop {
        let from = c.at;
        let term = term(names, c)?;
        if term.kind.names_crew() && !op.names_crew() {
            let fault = c.fault_at(from, "a condition on crews stands only with `assign` and `remove`").refused(7);
            return Err(fault.with_help("ask for a value that the crew has"));
        }
        if terms.len() == MOST_TERMS {
            return Err(c.fault_at(from, format!("a rule has at most {MOST_TERMS} conditions")).refused(5));
        }
        let (first, (last, width)) = (c.place(from).0, c.place(c.at - 1));
        terms.push(term);
        places.push((first, last + width - first));
        match c.peek() {
            None => return Ok((terms, places)),
            Some("and") => c.at += 1,
            Some(word) => return Err(c.fault(format!("`{}` where `and` or the line's end is expected", cut(word)))),
        }
    }
}

fn person_fact(names: &Names, c: &mut Cursor<'_>) -> Result<Fact, Fault> {
    let person = c.name("person", &names.persons)?;
    if c.expect(&["has", "in"])? == "in" {
        return Ok(Fact::PersonIn { person, crew: c.name("crew", &names.crews)? });
    }
    let (attribute, value) = names.value(c)?;
    Ok(Fact::PersonHas { person, attribute, value })
}

fn crew_statement(names: &Names, c: &mut Cursor<'_>) -> Result<Statement, Fault> {
    let crew = c.name("crew", &names.crews)?;
    if c.expect(&["has", "over"])? == "over" {
        return Ok(Statement::Over { senior: crew, junior: c.name("crew", &names.crews)? });
    }
    let (attribute, value) = names.value(c)?;
    Ok(Statement::Fact(Fact::CrewHas { crew, attribute, value }))
}
