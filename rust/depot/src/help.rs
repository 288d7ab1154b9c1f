//! The program's own pages.

use crate::args::COMMANDS;

/// Help on a command, on the notation, on JSON, or on all; nothing for what there is no help on.
pub fn on(topic: Option<&str>) -> Option<String> {
    let Some(topic) = topic else { return Some(OVERVIEW.into()) };
    let page = match topic {
        "plan" => PLAN,
        "check" => CHECK,
        "book" => BOOK,
        "words" => WORDS,
        "tidy" => TIDY,
        "open" => OPEN,
        "request" => REQUEST,
        "show" => SHOW,
        "replay" => REPLAY,
        "page" => PAGE,
        "test" => TEST,
        "help" => OVERVIEW,
        _ if topic.eq_ignore_ascii_case("notation") => NOTATION,
        _ if topic.eq_ignore_ascii_case("json") => JSON,
        _ => return None,
    };
    debug_assert!(COMMANDS.contains(&topic) || page == NOTATION || page == JSON);
    let example = if page == NOTATION { indented(PILOT) } else { String::new() };
    Some(format!("{page}{example}"))
}

/// The example of the notation: the stored pilot depot.
const PILOT: &str = include_str!("../../../examples/depots/pilot.depot");

/// A text two blanks to the right, without its comments.
fn indented(text: &str) -> String {
    let lines = text.lines().filter(|line| !line.starts_with('#'));
    lines.map(|line| if line.is_empty() { "\n".into() } else { format!("  {line}\n") }).collect()
}

const OVERVIEW: &str = "\
depot: may this person ever come to hold that right, and by which moves?

A depot is written in names, and answered in words. The answers are those of the
library Bixorgun, which is proved; the words and pictures beside them are not.

  depot plan FILE..              answer the file's question: a plan, or no way
  depot check FILE..             only judge the file, and count what it has
  depot page FILE -o PAGE.html   the whole depot: who can come to hold what
  depot test FILE..              the file's lines `expect yes:`, `expect no way:`
  depot open FILE LEDGER         write the ledger of the starting facts
  depot request FILE LEDGER 'quality adds grade sorter to Ana'
                                 carry out a request, or say why it is not permitted
  depot show FILE LEDGER [PERSON..]
                                 what persons hold
  depot replay FILE PLAN         judge a list of requests
  depot book FILE..              the book that the library reads, in hexadecimal
  depot words BOOK..             a hexadecimal book in names
  depot tidy BOOK..              a hexadecimal book from an editor, put right
  depot help NOTATION            how to write a file, with an example
  depot help JSON                what --json prints
  depot COMMAND --help           a command's options, with an example

A FILE is a depot in names or a hexadecimal book; `-` is standard input.
--json     one JSON object for each file, a line each
--names F  gives a hexadecimal book the names of the file F

Exit status, the highest of all files: 0 a plan, done, reaches, all expectations
met; 1 no way, not permitted, stops or ends short, an expectation missed; 2 the
command is wrong, or a file can't be read or written; 3 refused, or an error in
the file.
";

const PLAN: &str = "\
depot plan FILE.. [--json] [--all] [--svg PICTURE.svg] [-o MOVES] [--names FILE]

Answers the question of each file. YES: the moves, each with the line of the rule
that permits it and what its conditions rest on; status 0. NO WAY: no chain of
requests whatever leads there; status 1. Moves of the library's plan that are not
needed are left out; --all tells them too. --svg draws the plan as a timeline; -o
writes the moves as `depot replay` takes them.

  $ depot plan pilot.depot
  YES: Ana can come to have lane control, in 3 moves by shift, quality and lanes.

    1. shift assigns Ana to returns      line 10, no condition
    2. quality adds grade sorter to Ana  line 11: Ana has grade trainee, through returns
    3. lanes adds lane control to Ana    line 12: Ana directly has grade sorter

Many depots, four at a time, one JSON object a line:

  find depots -name '*.depot' -print0 | xargs -0 -n 50 -P 4 depot plan --json
";

const CHECK: &str = "\
depot check FILE.. [--json] [--names FILE]

Judges each file and counts what it has. Of a file in names the first error of each
line is told, with line, column and the word underlined (20 at most; --json has up to
200); of a hexadecimal book the library's one refusal, with the column and the reason.
Good files get remarks where a lead has no rule, or nobody comes into a crew.

  $ depot check typo.depot
  typo.depot:11:24: no value of grade is called `sortr`
    quality  may add grade sortr  to persons  if has grade trainee
                           ^^^^^ did you mean `sorter`?
";

const BOOK: &str = "\
depot book FILE.. [--json] [-o BOOK]

Writes the book that the library reads: docs/BOOK.md has its format.

  $ depot book pilot.depot -o pilot.book
";

const WORDS: &str = "\
depot words BOOK.. [--json] [-o FILE] [--names FILE]

Tells a hexadecimal book in the notation, so that it can be read and changed. With
--names it has the names of another file, whose sizes have to be the same; else
numbers: person-0, crew-0, lead-0, attribute-0, value-0. `depot book` of what it
writes is the same book.

  $ depot words pilot.book --names pilot.depot
";

const TIDY: &str = "\
depot tidy BOOK.. [--json] [-o BOOK]

Puts right what an editor does to a hexadecimal book: lower case, CR LF, blanks,
comments, empty lines, a BOM, a last line without its end. What it changed goes to
standard error. Status 3 where the library refuses the book still.

  $ depot tidy pilot.book -o pilot.book
";

const OPEN: &str = "\
depot open FILE LEDGER [--json]

Writes the ledger of the file's starting facts, 1,792 bytes, and LEDGER.names, the
names in it. A ledger has numbers alone: `request` and `show` refuse it with a file
in which a name has another number by now, so add names behind the others. A ledger
that is there is not replaced.

  $ depot open pilot.depot pilot.ledger
";

const REQUEST: &str = "\
depot request FILE LEDGER REQUEST [--json]
depot request FILE --start REQUEST

Carries out a lead's request on a ledger: status 0, and the file LEDGER is changed.
One that is not permitted is told why: 13, the lead has no rule for it; 15, a rule
is there and one of its conditions does not hold; status 1, and the ledger is as it
was. With --start it is tried on the starting facts, and nothing is written. Of two
requests at once the second waits.

  LEAD adds ATTRIBUTE VALUE to PERSON|CREW     LEAD assigns PERSON to CREW
  LEAD deletes ATTRIBUTE VALUE from PERSON|CREW    LEAD removes PERSON from CREW

  $ depot request pilot.depot pilot.ledger 'lanes adds lane control to Ana'
  NOT PERMITTED: line 12 (rule 3) lets lanes do this `if directly has grade sorter`,
  and that does not hold of Ana (refusal 15).
";

const SHOW: &str = "\
depot show FILE LEDGER [PERSON..] [--json] [--names FILE]
depot show FILE --start [PERSON..]

Tells what persons have and are in, through crews too; all of them where none is
named.

  $ depot show pilot.depot pilot.ledger Ana
  Ana has grade trainee (through returns), and is in returns.
";

const REPLAY: &str = "\
depot replay FILE PLAN [--json]

Judges a list of requests from the starting facts: reaches (status 0), stops or
ends short (1). PLAN has one request a line, in words or ten digits.

  $ depot plan pilot.depot -o moves.txt
  $ depot replay pilot.depot moves.txt
";

const PAGE: &str = "\
depot page FILE -o PAGE.html [--json] [--names FILE]

Writes the whole depot as one HTML file without script, fonts or network: each
person by each value: has it, through a crew, can come to it in so many moves by
the leads of the file's question, or no way. Behind each that can be come to stands
its plan. With several files -o names a folder.

  $ depot page pilot.depot -o pilot.html
";

const TEST: &str = "\
depot test FILE.. [--json]

Asks each question that the file expects an answer to. Status 1 where one is
missed. Such a file needs no question of its own.

  expect yes: may Ana ever have lane control by shift quality lanes
  expect no way: may Ana ever have lane control by shift quality

  $ depot test pilot.depot
";

const NOTATION: &str = "\
NOTATION

One statement a line, in any order. `#` begins a comment. Commas are blanks. A name
is a word of at most 64 characters; capitals count. Persons and crews have different
names; leads, attributes and each attribute's values may share them. A statement's
own words (has, in, over, may, if, and, or, not, directly, by, with, exactly,
nothing, nobody, to, from) are no names; nor are persons, crews and leads called like
a line's first word (persons, crews, leads, attribute, expect, person, crew, lead).

NAMES
  persons NAME..                   at most 64; several such lines add up
  crews NAME..                     at most 32
  leads NAME..                     at most 16: who acts
  attribute NAME VALUE..           at most 8, with 16 values each, lowest first

FACTS AT THE START
  PERSON has ATTRIBUTE VALUE       CREW has ATTRIBUTE VALUE
  PERSON in CREW                   CREW over CREW: it has what that one has, and who
                                   is in it is in that one

RULES, at most 512: who may do what, to whom the conditions hold of
  LEAD may add ATTRIBUTE VALUE to persons|crews [if CONDITION and CONDITION..]
  LEAD may delete ATTRIBUTE VALUE from persons|crews [if ..]
  LEAD may assign to CREW [if ..]
  LEAD may remove from CREW [if ..]

CONDITIONS, at most 8 in a rule
  has ATTRIBUTE VALUE              itself or through a crew
  directly has ATTRIBUTE VALUE     itself
  has ATTRIBUTE VALUE or higher    that value or one named behind it
  in CREW, directly in CREW        only with assign and remove
  not directly has ATTRIBUTE VALUE, not directly in CREW
                                   in a depot that only grows: no delete or remove,
                                   each condition `directly`, one rule a change, and
                                   a question `directly`

THE QUESTION, one a file
  may PERSON ever have ATTRIBUTE VALUE [and ATTRIBUTE VALUE..] by LEAD..
  may PERSON ever be exactly in CREW..|no crew
      [with ATTRIBUTE exactly VALUE..|nothing].. by LEAD..
  may PERSON ever directly have ATTRIBUTE VALUE [and ..] and be in CREW.. by LEAD..
                                   of a depot that only grows
  `by nobody` is no lead; `have at least nothing of ATTRIBUTE` asks for no value.

EXPECTATIONS, for `depot test`
  expect yes: may ..               expect no way: may ..

EXAMPLE
";

const JSON: &str = "\
JSON

With --json each file is answered by one object on one line, with these keys first:

  command   the command's name
  file      the file's name as it was given
  status    0 to 3, as the exit status
  answer    plan: plan, no way. check: good. book, words, tidy: the same word. open:
            done. request: done, permitted (with --start), not permitted. show: shown.
            replay: reaches, stops, ends short. page: page. test: passed, failed. All:
            error (in the file), refused (by the library), unread, usage (a file that
            does not fit)
  errors    a list, of {file, line, column, text, help, refusal}: a line, column, help
            or refusal that there is none of is null. file: this one, or another of the
            command line, or `request`

and then, where there is an answer:

  plan      question, book; with no way: remarks; with a plan: moves, plan, holds,
            replay. A move: lead, op (add, delete, assign, remove), person or crew or
            both, attribute, value, words, bytes, rule (from 1), line, because. plan:
            the library's plan, ten digits a request
  check     persons, crews, attributes, values, leads, edges, rules, facts,
            expectations, characters: counts; remarks: a list
  book      book          words     words          tidy      book, changes
  open      ledger        show      persons: {person, holds}
  request   request, and where it is not permitted refusal, rule, line, term, text
  replay    question, count, and where it stops: stops, text
  page      leads: a list, persons: {person, cells: {attribute, value, cell, through or
            moves}}, held, through, reached, never; written or page
  test      passed, failed, expectations: {line, expected, question, found, passed}

  holds     {values: [{attribute, value, through}], crews: [{crew, through}]};
            through: the crews that it comes through, [] where it is held directly

  $ depot plan pilot.depot --json
";
