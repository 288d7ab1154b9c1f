//! Depots and plans for pictures, made by hand: a plan's bars come from making its moves one after the other, with one
//! level of crews.

use bixorgun::{Act, Judgement, Request, LEDGER_SIZE};
use depot::html::Cell;
use depot::model::{request_of, Attribute, Depot, Kind, Op, Term};
use depot::story::{Bar, Ground, Holding, Move, Reason, Rest, Story, Subject};

pub type Fact = (Subject, Holding);

/// A depot of these names; an attribute is its name and then its values.
pub fn depot(persons: &str, crews: &str, attributes: &[&str], leads: &str) -> Depot {
    let names = |text: &str| text.split(' ').filter(|name| !name.is_empty()).map(String::from).collect::<Vec<_>>();
    let attribute = |text: &&str| {
        let mut values = names(text);
        Attribute { name: values.remove(0), values }
    };
    Depot {
        persons: names(persons),
        crews: names(crews),
        attributes: attributes.iter().map(attribute).collect(),
        leads: names(leads),
        ..Depot::default()
    }
}

pub fn pilot() -> Depot {
    depot("Ana", "returns", &["grade trainee sorter", "lane control"], "shift quality lanes")
}

pub fn value(attribute: u8, value: u8) -> Holding {
    Holding::Value { attribute, value }
}

/// The pilot's three moves.
pub fn pilot_story() -> Story {
    let moves = [
        request_of(Op::Assign, 0, 0, 0, 0),
        request_of(Op::AddToPerson, 1, 0, 0, 1),
        request_of(Op::AddToPerson, 2, 0, 1, 0),
    ];
    told(0, &[(Subject::Crew(0), value(0, 0))], &moves, &[value(1, 0)], 1)
}

/// A request's change: whether it adds, of whom, what.
fn change(request: &Request) -> (bool, Fact) {
    let person = Subject::Person;
    let crew = Subject::Crew;
    match request.act {
        Act::AddToPerson(p, a, v) => (true, (person(p.0), value(a.0, v.0))),
        Act::DeleteFromPerson(p, a, v) => (false, (person(p.0), value(a.0, v.0))),
        Act::AddToCrew(c, a, v) => (true, (crew(c.0), value(a.0, v.0))),
        Act::DeleteFromCrew(c, a, v) => (false, (crew(c.0), value(a.0, v.0))),
        Act::Assign(p, c) => (true, (person(p.0), Holding::In(c.0))),
        Act::Remove(p, c) => (false, (person(p.0), Holding::In(c.0))),
    }
}

/// All that holds, with the crew that it comes through.
fn holding(facts: &[Fact]) -> Vec<(Fact, Option<u8>)> {
    let mut all: Vec<(Fact, Option<u8>)> = facts.iter().map(|fact| (*fact, None)).collect();
    for (subject, held) in facts {
        let Holding::In(crew) = *held else { continue };
        let of_crew = facts.iter().filter(|(subject, _)| *subject == Subject::Crew(crew));
        all.extend(of_crew.map(|(_, held)| ((*subject, *held), Some(crew))));
    }
    all
}

fn bars(person: u8, times: &[Vec<Fact>], wanted: &[Holding]) -> Vec<Bar> {
    let mut bars: Vec<Bar> = Vec::new();
    for (time, facts) in times.iter().enumerate() {
        for ((subject, held), through) in holding(facts) {
            if matches!(subject, Subject::Person(other) if other != person) {
                continue;
            }
            let same = |bar: &&mut Bar| bar.subject == subject && bar.holding == held && bar.through == through;
            match bars.iter_mut().find(same) {
                Some(bar) => match bar.spans.last_mut() {
                    Some(span) if span.1 == time => span.1 = time + 1,
                    _ => bar.spans.push((time, time + 1)),
                },
                None => {
                    let wanted = subject == Subject::Person(person) && wanted.contains(&held);
                    bars.push(Bar { subject, holding: held, through, wanted, spans: vec![(time, time + 1)] });
                }
            }
        }
    }
    bars.sort_by_key(|bar| matches!(bar.subject, Subject::Crew(_)));
    bars
}

/// The last `most` bars that began before a move, of its subject.
fn grounds(bars: &[Bar], time: usize, subject: Subject, most: usize) -> Vec<Ground> {
    let holds = |bar: &Bar| bar.subject == subject && bar.spans.iter().any(|&(from, to)| from <= time && time < to);
    let mut held: Vec<usize> = (0..bars.len()).filter(|place| holds(&bars[*place])).collect();
    held.sort_by_key(|place| bars[*place].spans.iter().map(|span| span.0).filter(|from| *from <= time).max());
    let start = held.len().saturating_sub(most);
    let ground = |place: &usize| {
        let (kind, a, v, rest) = match (bars[*place].holding, bars[*place].through) {
            (Holding::Value { attribute, value }, None) => (Kind::HasDirectly, attribute, value, Rest::Value(value)),
            (Holding::Value { attribute, value }, Some(crew)) => {
                (Kind::Has, attribute, value, Rest::ValueThrough { value, crew })
            }
            (Holding::In(crew), _) => (Kind::In, crew, 0, Rest::Member),
        };
        Ground { term: Term { kind, a, v }, rest, bar: Some(*place) }
    };
    held[start..].iter().map(ground).collect()
}

/// A plan's story; every move rests on up to `most` facts.
pub fn told(person: u8, start: &[Fact], moves: &[Request], wanted: &[Holding], most: usize) -> Story {
    let mut times = vec![start.to_vec()];
    for request in moves {
        let mut facts = times.last().cloned().unwrap_or_default();
        let (adds, fact) = change(request);
        facts.retain(|other| *other != fact);
        if adds {
            facts.push(fact);
        }
        times.push(facts);
    }
    let bars = bars(person, &times, wanted);
    let step = |(time, request): (usize, &Request)| {
        let grounds = grounds(&bars, time, change(request).1 .0, most);
        Move { request: *request, reason: Some(Reason { rule: time + 1, line: time + 10, grounds }) }
    };
    let moves: Vec<Move> = moves.iter().enumerate().map(step).collect();
    Story { whole: moves.len(), moves, replay: Judgement::Reaches, bars, last: [0; LEDGER_SIZE] }
}

/// Three persons, three crews, more values.
pub fn yard() -> Depot {
    depot(
        "Ana Ben Cleo",
        "returns night dock",
        &["grade trainee sorter clerk", "lane control inspection", "key gate cage"],
        "shift quality lanes keys",
    )
}

/// Twelve moves: crews changed, values deleted and added again.
pub fn yard_story() -> Story {
    use Op::*;
    let moves = [
        request_of(Assign, 0, 0, 0, 0),
        request_of(AddToCrew, 1, 0, 0, 1),
        request_of(AddToPerson, 1, 0, 1, 0),
        request_of(Remove, 0, 0, 0, 0),
        request_of(AddToPerson, 1, 0, 0, 2),
        request_of(DeleteFromPerson, 2, 0, 1, 0),
        request_of(Assign, 0, 0, 1, 0),
        request_of(AddToCrew, 3, 1, 2, 0),
        request_of(AddToPerson, 2, 0, 1, 0),
        request_of(DeleteFromCrew, 1, 0, 0, 1),
        request_of(Assign, 0, 0, 0, 0),
        request_of(AddToPerson, 3, 0, 2, 1),
    ];
    let mut story =
        told(0, &[(Subject::Crew(0), value(0, 0)), (Subject::Person(0), value(0, 0))], &moves, &[value(2, 1)], 3);
    story.whole = 103;
    story
}

/// So many moves in a depot of three persons at least; behind the first ten a run of `run` moves on one crew.
pub fn long_story(depot: &Depot, count: usize, run: usize) -> Story {
    let (values, leads) = (depot.attributes[0].values.len() as u8, depot.leads.len() as u8);
    let step = |place: usize| {
        let turn = place as u8;
        let lead = turn % leads;
        match place {
            place if (10..10 + run).contains(&place) => match place % 2 {
                0 => request_of(Op::AddToCrew, lead.min(1), 0, 0, turn / 2 % values),
                _ => request_of(Op::Assign, lead.min(1), turn % 3, 0, 0),
            },
            place if place % 5 == 3 => request_of(Op::Assign, lead, 0, turn / 5 % depot.crews.len() as u8, 0),
            place if place % 5 == 4 => request_of(Op::DeleteFromPerson, lead, 0, 0, (turn - 4) % values),
            _ => request_of(Op::AddToPerson, lead, 0, turn / 3 % depot.attributes.len() as u8, turn % 2),
        }
    };
    let mut moves: Vec<Request> = (0..count - 1).map(step).collect();
    let last = depot.attributes.len() as u8 - 1;
    moves.push(request_of(Op::AddToPerson, leads - 1, 0, last, 1));
    told(0, &[(Subject::Crew(0), value(0, 0))], &moves, &[value(last, 1)], 2)
}

/// The largest depot.
pub fn full() -> Depot {
    let names = |what: &str, count: usize| (0..count).map(|n| format!("{what}-{n}")).collect::<Vec<_>>();
    let mut depot = Depot { persons: names("person", 64), crews: names("crew", 32), ..pilot() };
    depot.attributes = ["grade", "lane", "key", "gate", "shift", "cage", "scanner", "vehicle"]
        .map(|name| Attribute { name: name.into(), values: names("value", 16) })
        .into();
    depot.leads = names("lead", 16);
    depot
}

/// A plan of `count` moves to a value: crews by turns, values that rest on them, the value at last.
pub fn cell_story(person: u8, attribute: u8, v: u8, count: usize) -> Story {
    let step = |place: usize| {
        let turn = place as u8;
        match place % 2 {
            0 => request_of(Op::Assign, turn % 16, person, (turn + v) % 32, 0),
            _ => request_of(Op::AddToPerson, turn % 16, person, (attribute + turn) % 8, turn % 16),
        }
    };
    let mut moves: Vec<Request> = (0..count - 1).map(step).collect();
    moves.push(request_of(Op::AddToPerson, 3, person, attribute, v));
    told(person, &[(Subject::Crew(v), value(attribute, 0))], &moves, &[value(attribute, v)], 1)
}

/// Cells of a depot; about `percent` of them can be come to.
pub fn rows(depot: &Depot, percent: usize, story: impl Fn(u8, u8, u8) -> Story) -> Vec<Vec<Vec<Cell>>> {
    let cell = |person: u8, attribute: u8, value: u8| {
        let draw = (usize::from(person) * 37 + usize::from(attribute) * 61 + usize::from(value) * 89) % 100;
        match draw {
            draw if draw < percent => Cell::Reach(Box::new(story(person, attribute, value))),
            draw if draw % 5 == 1 => Cell::Has,
            draw if draw % 5 == 2 && !depot.crews.is_empty() => Cell::Through(value % depot.crews.len() as u8),
            _ => Cell::NoWay,
        }
    };
    let of = |person: usize, attribute: usize| {
        let values = depot.attributes[attribute].values.len();
        (0..values).map(|value| cell(person as u8, attribute as u8, value as u8)).collect()
    };
    (0..depot.persons.len()).map(|p| (0..depot.attributes.len()).map(|a| of(p, a)).collect()).collect()
}

/// Names of 64 characters.
pub fn long_names() -> Depot {
    let name = |start: &str| format!("{start}{}", "_abcdefghi".repeat(7))[..64].to_string();
    let mut depot = yard();
    let names = depot.persons.iter_mut().chain(&mut depot.crews).chain(&mut depot.leads);
    names.for_each(|old| *old = name(old));
    for attribute in &mut depot.attributes {
        attribute.name = name(&attribute.name);
        attribute.values.iter_mut().for_each(|value| *value = name(value));
    }
    depot
}

/// Names that a page must not take for its own marks.
pub fn sharp_names() -> Depot {
    depot(
        "<b>Ana</b> \"Ben\" Cleo'&amp; \u{202E}Dora\u{7}",
        "</text><script>x</script> A&B ]]>",
        &["<grade \"a\" 'b' &lt;", "lane> </td> <!--", "key ${x} %00"],
        "<shift> qual&ity \"lanes\" keys",
    )
}

/// Names in several scripts.
pub fn scripts() -> Depot {
    depot(
        "مريم 王小明 Zoë-Šimůnková Дарья Ιφιγένεια שרה",
        "المرتجعات 退货组 Rücknahme",
        &["等级 实习生 分拣员 主管", "ممر مراقبة تفتيش", "Schlüssel Tor Käfig"],
        "الوردية 质量 voies ключи",
    )
}
