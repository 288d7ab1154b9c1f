//! Phrases: names, statements in the notation, requests in words.

use bixorgun::{Act, Request};

use crate::model::{members, Depot, Fact, Kind, Mode, Op, Question, Rule, Statement, Term};

impl Depot {
    /// A person's name.
    pub fn person(&self, person: u8) -> String {
        named(&self.persons, person, "person")
    }

    /// A crew's name.
    pub fn crew(&self, crew: u8) -> String {
        named(&self.crews, crew, "crew")
    }

    /// A crew, called one: `crew returns`.
    pub fn the_crew(&self, crew: u8) -> String {
        let name = self.crew(crew);
        if name == by_number("crew", crew) {
            name
        } else {
            format!("crew {name}")
        }
    }

    /// A lead's name.
    pub fn lead(&self, lead: u8) -> String {
        named(&self.leads, lead, "lead")
    }

    /// An attribute's name.
    pub fn attribute(&self, attribute: u8) -> String {
        self.attributes
            .get(usize::from(attribute))
            .map_or_else(|| by_number("attribute", attribute), |a| a.name.clone())
    }

    /// The name of a value, without its attribute's.
    pub fn value_alone(&self, attribute: u8, value: u8) -> String {
        let values = self.attributes.get(usize::from(attribute)).map(|a| a.values.as_slice());
        named(values.unwrap_or_default(), value, "value")
    }

    /// Attribute and value: `grade sorter`.
    pub fn value(&self, attribute: u8, value: u8) -> String {
        format!("{} {}", self.attribute(attribute), self.value_alone(attribute, value))
    }

    /// Who acts: `by the leads shift, quality and lanes`, `by all 16 leads`.
    pub fn by_leads(&self, set: u16) -> String {
        let leads = self.leads_of(set);
        match set.count_ones() {
            0 => "where no lead acts".into(),
            1 => format!("by the lead {leads}"),
            _ if leads.starts_with("all ") => format!("by {leads}"),
            _ => format!("by the leads {leads}"),
        }
    }

    /// The leads of a set: `shift, quality and lanes`, `all 16 leads`, or `nobody`.
    pub fn leads_of(&self, set: u16) -> String {
        let count = set.count_ones() as usize;
        if count > LISTED_LEADS && count == self.leads.len() {
            return format!("all {count} leads");
        }
        listed(members(set.into()).map(|lead| self.lead(lead)), "nobody")
    }

    /// A request, as the notation writes it: `shift assigns Ana to returns`.
    pub fn request(&self, request: &Request) -> String {
        let lead = self.lead(request.role.0);
        match request.act {
            Act::AddToPerson(p, a, v) => format!("{lead} adds {} to {}", self.value(a.0, v.0), self.person(p.0)),
            Act::DeleteFromPerson(p, a, v) => {
                format!("{lead} deletes {} from {}", self.value(a.0, v.0), self.person(p.0))
            }
            Act::AddToCrew(c, a, v) => format!("{lead} adds {} to {}", self.value(a.0, v.0), self.the_crew(c.0)),
            Act::DeleteFromCrew(c, a, v) => {
                format!("{lead} deletes {} from {}", self.value(a.0, v.0), self.the_crew(c.0))
            }
            Act::Assign(p, c) => format!("{lead} assigns {} to {}", self.person(p.0), self.crew(c.0)),
            Act::Remove(p, c) => format!("{lead} removes {} from {}", self.person(p.0), self.crew(c.0)),
        }
    }

    /// A term, as the notation writes it.
    pub fn term(&self, term: &Term) -> String {
        let Term { kind, a, v } = *term;
        match kind {
            Kind::HasDirectly => format!("directly has {}", self.value(a, v)),
            Kind::Has => format!("has {}", self.value(a, v)),
            Kind::InDirectly => format!("directly in {}", self.crew(a)),
            Kind::In => format!("in {}", self.crew(a)),
            Kind::HasOrHigher => format!("has {} or higher", self.value(a, v)),
            Kind::HasNot => format!("not directly has {}", self.value(a, v)),
            Kind::InNot => format!("not directly in {}", self.crew(a)),
        }
    }

    /// A rule, as the notation writes it.
    pub fn rule(&self, rule: &Rule) -> String {
        let lead = self.lead(rule.lead);
        let to = match rule.op {
            Op::AddToPerson => format!("add {} to persons", self.value(rule.a, rule.v)),
            Op::DeleteFromPerson => format!("delete {} from persons", self.value(rule.a, rule.v)),
            Op::AddToCrew => format!("add {} to crews", self.value(rule.a, rule.v)),
            Op::DeleteFromCrew => format!("delete {} from crews", self.value(rule.a, rule.v)),
            Op::Assign => format!("assign to {}", self.crew(rule.a)),
            Op::Remove => format!("remove from {}", self.crew(rule.a)),
        };
        let terms: Vec<String> = rule.terms.iter().map(|term| self.term(term)).collect();
        let condition = if terms.is_empty() { String::new() } else { format!(" if {}", terms.join(" and ")) };
        format!("{lead} may {to}{condition}")
    }

    /// An edge, a rule or a fact, as the notation writes it.
    pub fn statement(&self, statement: &Statement) -> String {
        match statement {
            Statement::Over { senior, junior } => format!("{} over {}", self.crew(*senior), self.crew(*junior)),
            Statement::Rule(rule) => self.rule(rule),
            Statement::Fact(fact) => match *fact {
                Fact::PersonHas { person, attribute, value } => {
                    format!("{} has {}", self.person(person), self.value(attribute, value))
                }
                Fact::CrewHas { crew, attribute, value } => {
                    format!("{} has {}", self.crew(crew), self.value(attribute, value))
                }
                Fact::PersonIn { person, crew } => format!("{} in {}", self.person(person), self.crew(crew)),
            },
        }
    }

    /// A question, as the notation writes it.
    pub fn question(&self, question: &Question) -> String {
        let (person, goal) = (self.person(question.person), self.goal(question));
        let leads: Vec<String> = members(question.leads.into()).map(|lead| self.lead(lead)).collect();
        format!("may {person} ever {goal} by {}", if leads.is_empty() { "nobody".into() } else { leads.join(" ") })
    }

    /// What a question asks for: `have lane control`.
    pub fn goal(&self, question: &Question) -> String {
        let crews = || members(question.crews).map(|crew| self.crew(crew));
        let at_least = |(attribute, set): &(u8, u16)| -> Vec<String> {
            match set {
                0 => vec![format!("at least nothing of {}", self.attribute(*attribute))],
                _ => members((*set).into()).map(|value| self.value(*attribute, value)).collect(),
            }
        };
        match question.mode {
            Mode::AtLeast => {
                let wants: Vec<String> = question.wants.iter().flat_map(at_least).collect();
                format!("have {}", if wants.is_empty() { "at least nothing".into() } else { wants.join(" and ") })
            }
            Mode::Exactly => {
                let crews = crews().collect::<Vec<_>>().join(" ");
                let exactly = question.wants.iter().map(|&(attribute, set)| {
                    let values: Vec<String> = members(set.into()).map(|v| self.value_alone(attribute, v)).collect();
                    let values = if values.is_empty() { "nothing".into() } else { values.join(" ") };
                    format!(" with {} exactly {values}", self.attribute(attribute))
                });
                let exactly: String = exactly.collect();
                format!("be exactly in {}{exactly}", if crews.is_empty() { "no crew".into() } else { crews })
            }
            Mode::Directly => {
                let have = question.wants.iter().flat_map(at_least).map(|value| format!("have {value}"));
                let wants: Vec<String> = have.chain(crews().map(|crew| format!("be in {crew}"))).collect();
                format!(
                    "directly {}",
                    if wants.is_empty() { "have at least nothing".into() } else { wants.join(" and ") }
                )
            }
        }
    }
}

/// Where all leads are meant, and they are more than so many, their names say nothing.
const LISTED_LEADS: usize = 5;

fn named(names: &[String], number: u8, what: &str) -> String {
    names.get(usize::from(number)).cloned().unwrap_or_else(|| by_number(what, number))
}

/// The name of what has none: `person-0`.
pub fn by_number(what: &str, number: u8) -> String {
    format!("{what}-{number}")
}

/// `a`, `a and b`, `a, b and c`; `none` where there is nothing.
pub fn listed(names: impl Iterator<Item = String>, none: &str) -> String {
    let mut names: Vec<String> = names.collect();
    match names.pop() {
        None => none.to_string(),
        Some(last) if names.is_empty() => last,
        Some(last) => format!("{} and {last}", names.join(", ")),
    }
}

/// `1 move`, `2 moves`.
pub fn counted(count: usize, what: &str) -> String {
    format!("{count} {what}{}", if count == 1 { "" } else { "s" })
}

/// A count with a comma before each three digits: `8,192`.
pub fn grouped(count: usize) -> String {
    match count {
        0..=999 => count.to_string(),
        _ => format!("{},{:03}", grouped(count / 1000), count % 1000),
    }
}
