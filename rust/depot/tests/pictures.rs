//! Pictures and pages: well-formed, without anything from elsewhere, complete, of bounded size.

mod samples;

use std::collections::HashMap;
use std::time::Instant;

use depot::html::{page, Cell, Sheet};
use depot::model::{request_of, Depot, Kind, Op, Term};
use depot::story::{Ground, Reason, Rest, Story, Subject};
use depot::timeline::{figure, svg, STYLE};
use depot::why::reason;
use samples::*;

fn sheet(depot: &Depot, percent: usize, story: impl Fn(u8, u8, u8) -> Story) -> Sheet<'_> {
    let leads = ((1u32 << depot.leads.len()) - 1) as u16;
    Sheet { depot, file: "pilot.depot", leads, rows: rows(depot, percent, story) }
}

fn pictures() -> Vec<(&'static str, Depot, Story)> {
    let nothing = told(0, &[(Subject::Person(0), value(1, 0))], &[], &[value(1, 0)], 1);
    vec![
        ("none", pilot(), nothing),
        ("three", pilot(), pilot_story()),
        ("twelve", yard(), yard_story()),
        ("forty", yard(), long_story(&yard(), 40, 0)),
        ("forty-one", yard(), long_story(&yard(), 41, 0)),
        ("hundred", yard(), long_story(&yard(), 100, 46)),
        ("two-hundred", yard(), long_story(&yard(), 200, 0)),
        ("long", long_names(), yard_story()),
        ("long-list", long_names(), long_story(&long_names(), 100, 46)),
        ("sharp", sharp_names(), yard_story()),
        ("scripts", scripts(), yard_story()),
        ("scripts-list", scripts(), long_story(&scripts(), 60, 20)),
    ]
}

fn pages() -> Vec<(&'static str, Depot, usize)> {
    vec![
        ("one-person", pilot(), 100),
        ("no-way", pilot(), 0),
        ("yard", yard(), 40),
        ("long-names", long_names(), 40),
        ("sharp-names", sharp_names(), 40),
        ("many-scripts", scripts(), 40),
        ("long-plans", Depot { persons: vec!["Ana".into(); 30], ..yard() }, 50),
        ("full-tenth", full(), 10),
    ]
}

fn sample_story(depot: &Depot, (person, attribute, value): (u8, u8, u8)) -> Story {
    match depot.persons.len() {
        1 => pilot_story(),
        30 => long_story(depot, 60, 20),
        64 => cell_story(person, attribute, value, 7 + usize::from(value) % 7),
        _ => yard_story(),
    }
}

fn sample_page(depot: &Depot, percent: usize) -> String {
    page(&sheet(depot, percent, |person, attribute, value| sample_story(depot, (person, attribute, value))))
}

/// Writes all samples into the build's directory, to be looked at.
#[test]
#[ignore = "writes files to be looked at"]
fn written() {
    let to = std::path::Path::new(env!("CARGO_TARGET_TMPDIR"));
    let write = |name: String, text: String| std::fs::write(to.join(name), text).expect("written");
    for (name, depot, story) in pictures() {
        write(format!("{name}.svg"), svg(&depot, &story, &format!("{} can come to have it", depot.person(0))));
    }
    for (name, depot, percent) in pages().into_iter().chain([("full-all", full(), 100)]) {
        write(format!("{name}.html"), sample_page(&depot, percent));
    }
}

/// The characters of a name of an element or attribute.
fn is_name(text: &str) -> bool {
    !text.is_empty() && text.chars().all(|c| c.is_ascii_alphanumeric() || "-:_".contains(c))
}

/// Whether a text is as it must be, or what is wrong with it.
type Checked = Result<(), String>;

fn must(holds: bool, wrong: &str, text: &str) -> Checked {
    holds.then_some(()).ok_or_else(|| format!("{wrong}: {text}"))
}

/// Whether every `&` begins one of the references that are used, and nothing else needs one.
fn check_text(text: &str) -> Checked {
    must(!text.contains('<'), "bare <", text)?;
    for after in text.split('&').skip(1) {
        let known = ["amp;", "lt;", "gt;", "quot;", "#39;"].iter().any(|reference| after.starts_with(reference));
        must(known, "bare &", after)?;
    }
    must(!text.chars().any(|c| c.is_control() && c != '\n'), "a control", text)
}

/// Whether attributes are `name="value"`, each once, with a blank before each.
fn check_attributes(mut rest: &str) -> Checked {
    let mut seen = Vec::new();
    while !rest.is_empty() {
        let wrong = || format!("an attribute: {rest}");
        let (name, body) = rest.strip_prefix(' ').and_then(|body| body.split_once("=\"")).ok_or_else(wrong)?;
        let (value, next) = body.split_once('"').ok_or_else(wrong)?;
        must(is_name(name) && !seen.contains(&name), "a name", name)?;
        seen.push(name);
        check_text(value)?;
        rest = next;
    }
    Ok(())
}

/// A tag opens an element, closes the last one that is open, or stands alone.
fn check_tag<'f>(tag: &'f str, open: &mut Vec<&'f str>) -> Checked {
    if let Some(name) = tag.strip_prefix('/') {
        return must(open.pop() == Some(name), "closes nothing", name);
    }
    let bare = tag.strip_suffix('/').unwrap_or(tag);
    let name = bare.split(' ').next().unwrap_or("");
    must(is_name(name), "an element", tag)?;
    if bare.len() == tag.len() {
        open.push(name);
    }
    check_attributes(&bare[name.len()..])
}

/// Whether a file is well-formed: one element, each closed in its order, attributes quoted, the rest escaped.
fn check(file: &str) -> Checked {
    let body = file.strip_prefix("<?xml version=\"1.0\" encoding=\"UTF-8\"?>").unwrap_or(file);
    let body = body.strip_prefix("<!DOCTYPE html>").unwrap_or(body);
    let mut open: Vec<&str> = Vec::new();
    let mut roots = 0;
    let mut parts = body.split('<');
    must(parts.next().map(str::trim) == Some(""), "text before", body)?;
    for part in parts {
        let (tag, text) = part.split_once('>').ok_or_else(|| format!("not closed: {part}"))?;
        roots += usize::from(open.is_empty());
        check_tag(tag, &mut open)?;
        must(!open.is_empty() || text.trim().is_empty(), "text outside", text)?;
        check_text(text)?;
    }
    must(open.is_empty() && roots == 1, "not one element", &open.join(" "))
}

/// Whether a file needs nothing from elsewhere.
fn check_alone(file: &str) {
    let file = file.replace("xmlns=\"http://www.w3.org/2000/svg\"", "");
    for word in ["<script", "http:", "https:", "url(", "@import", "javascript:", " on", "src=", "<link"] {
        let found = file.match_indices(word).find(|(at, _)| word != " on" || is_handler(&file[*at..]));
        assert!(found.is_none(), "{word}");
    }
}

/// Whether ` on` begins an attribute like ` onload="`.
fn is_handler(text: &str) -> bool {
    let name: String = text[1..].chars().take_while(char::is_ascii_alphabetic).collect();
    text[1 + name.len()..].starts_with("=\"")
}

#[test]
fn checker_refuses() {
    for wrong in
        ["<a>", "<a></b>", "<a b=c></a>", "<a b=\"c\" b=\"d\"></a>", "<a>&</a>", "<a>&x;</a>", "<a/><b/>", "<a"]
    {
        assert!(check(wrong).is_err(), "{wrong}");
    }
    assert_eq!(check("<a b=\"c &amp; d\">e<f/>\n</a>\n"), Ok(()));
}

#[test]
fn pictures_are_well_formed() {
    for (_, depot, story) in pictures() {
        let file = svg(&depot, &story, "<&>\" \u{7}");
        assert_eq!(check(&file), Ok(()));
        check_alone(&file);
        assert!(file.contains("<style>") && file.contains(STYLE) && file.contains("viewBox"));
        assert!(file.contains("&lt;&amp;&gt;&quot; \u{FFFD}</text>"));
        let part = figure(&depot, &story);
        assert_eq!(check(&part), Ok(()));
        assert!(part.starts_with("<svg class=\"tl\""));
        for word in ["<style", " id=", "xmlns", "<?xml", "http"] {
            assert!(!part.contains(word), "{word}");
        }
    }
}

#[test]
fn pages_are_well_formed() {
    for (_, depot, percent) in pages() {
        let file = sample_page(&depot, percent);
        assert_eq!(check(&file), Ok(()));
        check_alone(&file);
        assert!(file.contains("<html lang=\"en\">") && file.contains("name=\"viewport\""));
        assert!(file.contains("content=\"default-src 'none'; style-src 'unsafe-inline'\""));
    }
}

/// The text of a file's element, from its start on, without tags.
fn text_of(element: &str) -> String {
    let inner = element.split_once('>').map_or("", |(_, inner)| inner);
    inner.split('<').map(|part| part.split_once('>').map_or(part, |(_, text)| text)).collect()
}

#[test]
fn every_cell_has_text() {
    for (name, depot, percent) in pages() {
        let sheet = sheet(&depot, percent, |person, attribute, value| sample_story(&depot, (person, attribute, value)));
        let file = page(&sheet);
        let tables = file.split("<table class=\"cells").skip(1).map(|rest| rest.split("</table>").next().unwrap_or(""));
        let bodies = tables.filter_map(|table| table.split_once("<tbody>")).map(|(_, body)| body);
        let cells: Vec<String> = bodies
            .flat_map(|body| body.split("<td").skip(1).map(|cell| text_of(cell.split("</td>").next().unwrap_or(""))))
            .collect();
        assert_eq!(cells.len(), sheet.rows.iter().flatten().flatten().count(), "{name}");
        assert!(cells.iter().all(|cell| {
            cell == "has" || cell == "no way" || cell.starts_with("through ") || cell.ends_with(" moves")
        }));
        let reached = sheet.rows.iter().flatten().flatten().filter(|cell| matches!(cell, Cell::Reach(_))).count();
        assert_eq!(cells.iter().filter(|cell| cell.ends_with(" moves")).count(), reached);
    }
}

#[test]
fn every_link_has_one_target() {
    for (name, depot, percent) in pages() {
        let file = sample_page(&depot, percent);
        let after = |mark: &str| -> Vec<String> {
            file.split(mark).skip(1).filter_map(|rest| Some(rest.split_once('"')?.0.to_string())).collect()
        };
        let mut targets: HashMap<String, usize> = HashMap::new();
        after(" id=\"").into_iter().for_each(|id| *targets.entry(id).or_default() += 1);
        assert!(targets.values().all(|count| *count == 1), "{name}: an id twice");
        let links = after(" href=\"#");
        assert_eq!(links.len(), file.matches(" href=").count(), "{name}: links lead into the page alone");
        for link in &links {
            assert!(targets.contains_key(link), "{name}: {link}");
        }
        let plans = file.matches("<section class=\"p\"").count();
        assert_eq!(links.iter().filter(|link| link.starts_with('p')).count(), plans);
    }
}

#[test]
fn names_are_escaped() {
    let depot = sharp_names();
    for file in [sample_page(&depot, 40), svg(&depot, &yard_story(), "x"), figure(&depot, &yard_story())] {
        assert!(file.contains("&lt;b&gt;Ana&lt;/b&gt;"));
        assert!(!file.contains("<b>") && !file.contains('\u{202E}') && !file.contains('\u{7}'));
    }
    assert!(sample_page(&depot, 40).contains("\u{FFFD}Dora\u{FFFD}"));
}

#[test]
fn long_names_are_shortened_and_whole_in_tips() {
    let depot = long_names();
    let whole = &depot.persons[0];
    let file = svg(&depot, &yard_story(), "x");
    assert!(file.contains('…') && file.contains(&format!("to {whole}</title>")));
    assert!(sample_page(&depot, 40).contains(&format!("title=\"{whole}\"")));
}

#[test]
fn directions_stay_inside_names() {
    let file = sample_page(&scripts(), 40);
    assert_eq!(file.matches('\u{2068}').count(), file.matches('\u{2069}').count());
    assert!(file.contains("\u{2068}مريم\u{2069} can come to have"));
}

#[test]
fn pilot_in_words() {
    let depot = pilot();
    let file = sample_page(&depot, 100);
    for words in [
        "<h1>pilot.depot: the whole depot, by the leads shift, quality and lanes</h1>",
        "<h2>Ana can come to have lane control: 3 moves</h2>",
        "<li>shift assigns Ana to returns <i>— line 10, no condition</i></li>",
        "<li>quality adds grade sorter to Ana <i>— line 11: Ana has grade trainee, through returns</i></li>",
        "<li>lanes adds lane control to Ana <i>— line 12: Ana directly has grade sorter</i></li>",
        "<a href=\"#p0a1v0\">3 moves</a>",
        "of whatever length and on any persons and crews",
        "not proved",
    ] {
        assert!(file.contains(words), "{words}");
    }
    let picture = svg(&depot, &pilot_story(), "Ana can come to have lane control: 3 moves");
    for words in
        ["lead shift", "assigns Ana to returns", "grade trainee, through returns", "lane control (the question)"]
    {
        assert!(picture.contains(&format!(">{words}</text>")), "{words}");
    }
}

#[test]
fn boxes_say_what_requests_say() {
    let depot = yard();
    let story = yard_story();
    let picture = figure(&depot, &story);
    for step in &story.moves {
        let words = depot.request(&step.request);
        let (lead, words) = words.split_once(' ').expect("a lead and more");
        assert!(picture.contains(&format!(">lead {lead}</text>")));
        let joined = picture.replace("</text><text", "\n<text");
        let lines: Vec<&str> = joined.split('\n').filter_map(|line| Some(line.split_once('>')?.1)).collect();
        let pairs = lines.windows(2).map(|pair| pair.join(" "));
        let texts: Vec<String> = pairs.chain(lines.iter().map(|line| line.to_string())).collect();
        assert!(texts.iter().any(|text| text.trim_end_matches("</text></svg>") == words), "{words}");
    }
}

#[test]
fn nothing_to_do() {
    let (_, depot, story) = pictures().remove(0);
    assert!(svg(&depot, &story, "x").contains("no move is needed: it is so at the start"));
}

#[test]
fn notes_beside_a_plan() {
    let depot = yard();
    let mut story = yard_story();
    story.replay = bixorgun::Judgement::Stops(2);
    let file = page(&sheet(&depot, 40, |_, _, _| story.clone()));
    assert!(file.contains("The library’s plan has 103 moves; the others are not needed."));
    assert!(file.contains("Replayed from the starting facts: stops at request 2."));
    let nobody = Sheet { leads: 0, ..sheet(&depot, 0, |_, _, _| pilot_story()) };
    assert!(page(&nobody).contains("<h1>pilot.depot: the whole depot, where no lead acts</h1>"));
}

#[test]
fn reasons_in_words() {
    let depot = yard();
    let add = request_of(Op::AddToPerson, 0, 0, 0, 0);
    let ground = |kind, a, v, rest| Ground { term: Term { kind, a, v }, rest, bar: None };
    let said = |grounds: Vec<Ground>| reason(&depot, &add, &Reason { rule: 1, line: 9, grounds });
    let through = Rest::ValueThrough { value: 2, crew: 0 };
    let cases = [
        (ground(Kind::Has, 0, 0, Rest::Value(0)), "Ana has grade trainee"),
        (ground(Kind::HasDirectly, 0, 1, Rest::Value(1)), "Ana directly has grade sorter"),
        (ground(Kind::Has, 0, 2, through), "Ana has grade clerk, through returns"),
        (ground(Kind::HasOrHigher, 0, 1, Rest::Value(1)), "Ana has grade sorter"),
        (ground(Kind::HasOrHigher, 0, 1, Rest::Value(2)), "Ana has grade clerk, which is sorter or higher"),
        (ground(Kind::HasOrHigher, 0, 1, through), "Ana has grade clerk, which is sorter or higher, through returns"),
        (ground(Kind::In, 0, 0, Rest::Member), "Ana is in returns"),
        (ground(Kind::InDirectly, 0, 0, Rest::Member), "Ana is directly in returns"),
        (ground(Kind::In, 0, 0, Rest::MemberThrough(1)), "Ana is in returns, through night (above it)"),
        (ground(Kind::InNot, 0, 0, Rest::Lacking), "Ana is not directly in returns"),
        (ground(Kind::HasNot, 0, 1, Rest::Lacking), "Ana does not directly have grade sorter"),
    ];
    for (ground, words) in cases {
        assert_eq!(said(vec![ground]), format!("line 9: {words}"));
    }
    assert_eq!(said(vec![]), "line 9, no condition");
    assert_eq!(said(vec![cases[0].0, cases[6].0]), "line 9: Ana has grade trainee; is in returns");
    let crew = request_of(Op::AddToCrew, 0, 1, 0, 0);
    let lacks = Reason { rule: 1, line: 3, grounds: vec![cases[10].0] };
    assert_eq!(reason(&depot, &crew, &lacks), "line 3: crew night does not directly have grade sorter");
}

#[test]
fn long_plans_are_folded() {
    let depot = yard();
    for (count, run) in [(41, 0), (57, 0), (100, 46), (200, 0), (240, 100)] {
        let picture = figure(&depot, &long_story(&depot, count, run));
        let numbers: Vec<&str> = picture.split("<text class=\"u\"").skip(1).collect();
        assert!(numbers.len() < 60, "{count}: {} rows", numbers.len());
        let mut next = 1;
        for number in numbers {
            let range = number.split(['>', '<']).nth(1).expect("a number");
            let (from, to) = range.split_once('–').unwrap_or((range, range));
            assert_eq!(from.parse(), Ok(next));
            next = to.parse::<usize>().expect("a number") + 1;
        }
        assert_eq!(next, count + 1);
        assert!(!picture.contains("<rect"), "no boxes");
    }
    let folded = figure(&depot, &long_story(&depot, 100, 46));
    assert!(
        folded.contains(">11–56</text>") && folded.contains(">46 moves on crew returns by shift and quality</text>")
    );
    assert!(figure(&depot, &long_story(&depot, 40, 0)).contains("<rect"));
}

#[test]
fn wide_depots_are_folded() {
    let file = sample_page(&full(), 10);
    assert_eq!(file.matches("<details").count(), 8);
    assert_eq!(file.matches("<details open=\"open\">").count(), 1);
    assert_eq!(file.matches("<table class=\"over\">").count(), 1);
    assert!(!sample_page(&yard(), 40).contains("<details"));
}

#[test]
fn pages_are_small_and_the_same_each_time() {
    let depot = full();
    let tenth = sample_page(&depot, 10);
    assert!(tenth.len() < 5_000_000, "{}", tenth.len());
    assert!(tenth == sample_page(&depot, 10));
    let all = sheet(&depot, 100, |person, attribute, value| sample_story(&depot, (person, attribute, value)));
    let start = Instant::now();
    let file = page(&all);
    println!("8,192 plans: {} bytes in {:?}; 821 plans: {} bytes", file.len(), start.elapsed(), tenth.len());
    assert!(file.len() < 42_000_000, "{}", file.len());
    assert!(file == page(&all));
}

#[test]
fn too_many_moves_go_without_pictures() {
    let depot = full();
    let story = cell_story(0, 0, 0, 16);
    let file = page(&sheet(&depot, 100, |_, _, _| story.clone()));
    assert!(!file.contains("<svg") && file.contains("no pictures here"));
    assert!(file.len() < 20_000_000, "{}", file.len());
}
