//! Seeded books, ledgers, requests and lists, good and damaged.
//!
//! A damage is aimed at one number of the table; the expected line is given with it.

use crate::book::{op, read, Attr, Book, Crew, Fact, Person, Role, Sizes, Term, Value, Way, What};
use crate::book::{MOST_ATTRS, MOST_CHARACTERS, MOST_CREWS, MOST_PERSONS, MOST_RULES, MOST_TERMS, MOST_VALUES, ROLES};
use crate::ledger::{Depot, Ledger, Request, LEDGER_BYTES, REQUEST_BYTES};

/// A small xorshift generator; the same seed gives the same numbers on every machine.
#[derive(Clone, Debug)]
pub struct Rng(u64);

impl Rng {
    /// A generator from a seed.
    #[must_use]
    pub fn new(seed: u64) -> Self {
        // Spread the seed's bits, and keep off zero, which xorshift never leaves.
        Rng((seed ^ 0x9E37_79B9_7F4A_7C15).wrapping_mul(0xBF58_476D_1CE4_E5B9) | 1)
    }

    /// The next 64 bits.
    pub fn bits(&mut self) -> u64 {
        self.0 ^= self.0 >> 12;
        self.0 ^= self.0 << 25;
        self.0 ^= self.0 >> 27;
        self.0.wrapping_mul(0x2545_F491_4F6C_DD1D)
    }

    /// A number below `end`, which is not 0.
    pub fn below(&mut self, end: usize) -> usize {
        ((self.bits() >> 32) as usize) % end
    }

    /// A byte in `first..=last`.
    pub fn byte(&mut self, first: u8, last: u8) -> u8 {
        first + self.below(usize::from(last - first) + 1) as u8
    }

    /// True so many times in a hundred.
    pub fn percent(&mut self, times: usize) -> bool {
        self.below(100) < times
    }

    /// One of several.
    pub fn pick<T: Copy>(&mut self, from: &[T]) -> T {
        from[self.below(from.len())]
    }
}

/// A book as its frames, the first and the last among them.
#[derive(Clone, Debug)]
pub struct Draft {
    /// The sizes in its first frame.
    pub sizes: Sizes,
    /// All frames.
    pub frames: Vec<Vec<u8>>,
}

/// The line of a frame.
fn line(frame: &[u8]) -> Vec<u8> {
    const DIGITS: &[u8; 16] = b"0123456789ABCDEF";
    let digits = frame.iter().flat_map(|byte| [DIGITS[usize::from(byte >> 4)], DIGITS[usize::from(byte & 15)]]);
    digits.chain([b'\n']).collect()
}

/// "Frame 01 becomes P G A, then one count of 1-16 for each attribute."
#[must_use]
pub fn first_frame(sizes: &Sizes) -> Vec<u8> {
    let attrs = sizes.attrs();
    [&[1, sizes.persons, sizes.crews, attrs], &sizes.counts[..attrs.into()]].concat()
}

impl Draft {
    /// The book's characters.
    #[must_use]
    pub fn text(&self) -> Vec<u8> {
        self.frames.iter().flat_map(|frame| line(frame)).collect()
    }

    /// The same book with another query.
    pub fn ask(&mut self, query: Vec<u8>) {
        if let Some(last) = self.frames.last_mut() {
            *last = query;
        }
    }

    /// Whether some rule has a "not" term.
    #[must_use]
    pub fn has_not(&self) -> bool {
        let rules = self.frames.iter().filter(|frame| frame[0] == 3);
        rules.flat_map(|frame| frame[6..].chunks_exact(3)).any(|term| NOT_KINDS.contains(&term[0]))
    }

    /// Puts a frame anywhere between the first and the last; gives its line.
    fn put(&mut self, rng: &mut Rng, frame: Vec<u8>) -> usize {
        let at = 1 + rng.below(self.frames.len() - 1);
        self.frames.insert(at, frame);
        at + 1
    }
}

/// How much of everything a book has.
#[derive(Clone, Copy, Debug)]
pub struct Shape {
    /// The sizes.
    pub sizes: Sizes,
    /// Edges, when there are two crews or more.
    pub edges: usize,
    /// Rules.
    pub rules: usize,
    /// Terms of a rule, at most.
    pub terms: u8,
    /// Starting facts.
    pub facts: usize,
    /// Roles in use.
    pub roles: u8,
}

/// How many attributes: two or more in three books of four.
fn attributes(rng: &mut Rng, most: u8) -> u8 {
    if rng.percent(75) {
        rng.byte(2, most)
    } else {
        1
    }
}

/// A count in `first..=last` for each attribute. Those of two attributes or more are seldom all the same: then one of
/// them is drawn again three times in four.
fn counts(rng: &mut Rng, attrs: u8, first: u8, last: u8) -> Vec<u8> {
    let mut counts: Vec<u8> = (0..attrs).map(|_| rng.byte(first, last)).collect();
    if counts.iter().all(|count| *count == counts[0]) && rng.percent(75) {
        counts[rng.below(attrs.into())] = rng.byte(first, last);
    }
    counts
}

/// An attribute and a value that it has.
fn pair(rng: &mut Rng, sizes: &Sizes) -> [u8; 2] {
    let attr = rng.byte(0, sizes.attrs() - 1);
    [attr, value(rng, sizes, attr)]
}

/// A value that an attribute has.
fn value(rng: &mut Rng, sizes: &Sizes, attr: u8) -> u8 {
    rng.byte(0, sizes.values(Attr(attr)) - 1)
}

/// An attribute and a value that it has not, but another attribute of the book has; nothing when all counts are the
/// same.
fn neighbours_pair(rng: &mut Rng, sizes: &Sizes) -> Option<[u8; 2]> {
    if !sizes.differ() {
        return None;
    }
    let highest = sizes.widened().values(Attr(0));
    let narrow: Vec<u8> = (0..sizes.attrs()).filter(|&attr| sizes.values(Attr(attr)) < highest).collect();
    let attr = rng.pick(&narrow);
    Some([attr, rng.byte(sizes.values(Attr(attr)), highest - 1)])
}

/// A small depot, of at most twelve facts with all persons counted.
pub fn small_book(rng: &mut Rng) -> Draft {
    let attrs = attributes(rng, 2);
    loop {
        let (persons, crews) = (rng.byte(1, 2), rng.byte(0, 3));
        let sizes = Sizes::new(persons, crews, &counts(rng, attrs, 1, 3));
        let (p, g) = (usize::from(persons), usize::from(crews));
        let facts = (p + g) * sizes.pairs().count() + p * g;
        if facts <= 12 {
            let shape = Shape {
                sizes,
                edges: rng.below(4),
                rules: 1 + rng.below(3 * facts + 4),
                terms: rng.byte(0, 3),
                facts: rng.below(facts + 1),
                roles: 3,
            };
            return book(rng, &shape);
        }
    }
}

/// A small depot whose query is aimed at a ledger that can be reached, and half the time then missed by one value.
pub fn small_aimed_book(rng: &mut Rng) -> Draft {
    let mut draft = small_book(rng);
    let Ok(book) = read(&draft.text()) else {
        return draft;
    };
    let steps = rng.below(60);
    let ledger = walk(rng, &book, steps);
    aim(rng, &mut draft, &book, &ledger);
    if let Some(query) = draft.frames.last_mut() {
        if query[5] > 0 && rng.percent(50) {
            query[8] ^= 1 << value(rng, &draft.sizes, query[6]);
        }
    }
    draft
}

/// A depot of a few persons, crews and attributes.
pub fn middle_book(rng: &mut Rng) -> Draft {
    let (persons, crews, attrs) = (rng.byte(1, 4), rng.byte(0, 7), attributes(rng, 4));
    let sizes = Sizes::new(persons, crews, &counts(rng, attrs, 1, 6));
    let shape = Shape {
        sizes,
        edges: rng.below(12),
        rules: rng.below(90),
        terms: rng.byte(0, 4),
        facts: rng.below(40),
        roles: 5,
    };
    book(rng, &shape)
}

/// A depot in which much can be added and deletions rest on much: what is stuck comes to light over many rounds.
///
/// `most` bounds crews, attributes, of which it allows two at least, and values.
pub fn tangled_book(rng: &mut Rng, most: (u8, u8, u8)) -> Draft {
    let (crews, attrs) = (rng.byte(0, most.0), attributes(rng, most.1));
    let sizes = Sizes::new(1, crews, &counts(rng, attrs, 1, most.2));
    let facts = sizes.facts();
    let shape = Shape { sizes, edges: rng.below(6), rules: 0, terms: 0, facts: 0, roles: 2 };
    let mut draft = book(rng, &shape);
    let rules = (2 * facts + rng.below(3 * facts + 1)).min(MOST_RULES);
    for _ in 0..rules {
        let terms = rng.byte(1, 2);
        let mut frame = rule(rng, &Shape { terms, ..shape });
        // A deletion seldom goes without a term.
        if frame[1].is_multiple_of(2) && frame[5] == 0 && rng.percent(70) {
            frame[5] = 1;
            let kind = rng.pick(&VALUE_KINDS);
            frame.extend(value_term(rng, kind, &sizes));
        }
        draft.put(rng, frame);
    }
    if rng.percent(30) {
        let frame = fact(rng, &sizes);
        draft.put(rng, frame);
    }
    let mut query = vec![5, 2, 0, 0xFF, 0xFF, sizes.attrs()];
    for attr in 0..sizes.attrs() {
        let set = if rng.percent(70) { 0 } else { 1 << value(rng, &sizes, attr) };
        query.push(attr);
        query.extend(u16::to_be_bytes(set));
    }
    let crews = if rng.percent(50) { rng.bits() as u32 & sizes.all_crews() } else { 0 };
    query.extend(crews.to_be_bytes());
    draft.ask(query);
    draft
}

/// A zigzag between the values of attributes 0 and 1, of a person or of crews: one that must go again lets in one that
/// may stay, which lets in the next; to delete the first takes the one that may stay of the next bend. What is stuck
/// comes to light bend by bend, from the last to the first; here and there an odd rule stops that. A value of attribute
/// 2 rests on some bend and is wanted. Attributes 0 and 1 have a value for each bend and now and then one more.
pub fn zigzag_book(rng: &mut Rng, crews: u8, bends: u8) -> Draft {
    let (crews, bends) = (rng.byte(0, crews), rng.byte(1, bends));
    let more = |rng: &mut Rng| (bends + rng.byte(0, 1)).min(MOST_VALUES as u8);
    let own = [more(rng), more(rng), rng.byte(1, bends)];
    let sizes = Sizes::new(1, crews, &own);
    let on_crews = sizes.crews > 0 && rng.percent(70);
    let (add, delete) = if on_crews { (3, 4) } else { (1, 2) };
    let kind = rng.pick(&VALUE_KINDS);
    let last = bends - 1;
    let mut frames = Vec::new();
    for n in 0..=last {
        frames.push(if n == 0 { vec![3, add, 0, 0, 0, 0] } else { vec![3, add, 0, 0, n, 1, kind, 1, n - 1] });
        frames.push(vec![3, add, 0, 1, n, 1, kind, 0, n]);
        if n < last {
            frames.push(vec![3, delete, 0, 0, n, 1, kind, 1, n + 1]);
        }
        if n == last && rng.percent(40) || rng.percent(8) {
            frames.push(vec![3, delete, 0, 0, n, 0]);
        }
    }
    frames.push(vec![3, add, 0, 2, 0, 1, kind, 1, rng.byte(0, last)]);
    let odd = Shape { sizes, edges: 0, rules: 0, terms: 3, facts: 0, roles: 1 };
    for _ in 0..rng.below(4) {
        frames.push(rule(rng, &odd));
    }
    if rng.percent(20) {
        frames.push(fact(rng, &sizes));
    }
    if sizes.crews > 0 {
        frames.push(vec![4, 3, 0, sizes.crews - 1, 0]);
        (1..sizes.crews).for_each(|senior| frames.push(vec![2, senior, rng.byte(0, senior - 1)]));
    }
    frames.insert(0, first_frame(&sizes));
    let mut query = vec![5, 2, 0, 0, 1, 2, 0, 0, 0, 2, 0, rng.byte(0, 1)];
    query.extend(sizes.crews.checked_sub(1).map_or(0, |crew| 1_u32 << crew).to_be_bytes());
    frames.push(query);
    Draft { sizes, frames }
}

/// A depot with grades, the values of attribute 0: few of them can be had, and what else is wanted, assignments and
/// deletions too, rests on a grade or any higher by ladder terms. In mode 02 the grades have to go again half the time.
///
/// `most` bounds crews, attributes from 2 on and values, of which there are two grades at least.
pub fn graded_book(rng: &mut Rng, most: (u8, u8, u8)) -> Draft {
    let (crews, attrs) = (rng.byte(0, most.0), rng.byte(2, most.1));
    let mut own = counts(rng, attrs, 1, most.2);
    own[0] = own[0].max(2);
    let sizes = Sizes::new(1, crews, &own);
    let mut frames = Vec::new();
    for _ in 0..=rng.below(2) {
        let grade = value(rng, &sizes, 0);
        let add = if sizes.crews > 0 && rng.percent(50) { 3 } else { 1 };
        if rng.percent(70) {
            let terms = rng.byte(0, 1);
            frames.push(graded_rule(rng, &sizes, [add, 0, grade], terms));
        } else {
            frames.push(vec![4, add.div_ceil(2), 0, 0, grade]);
        }
        let terms = rng.byte(0, 2);
        frames.push(graded_rule(rng, &sizes, [add + 1, 0, grade], terms));
    }
    for attr in 1..attrs {
        let op = if sizes.crews > 0 && rng.percent(30) { 3 } else { 1 };
        frames.push(graded_rule(rng, &sizes, [op, attr, 0], 1));
    }
    for crew in 0..sizes.crews {
        let terms = rng.byte(0, 1);
        frames.push(graded_rule(rng, &sizes, [5, crew, 0], terms));
        frames.push(graded_rule(rng, &sizes, [6, crew, 0], 1));
        if crew > 0 && rng.percent(70) {
            frames.push(vec![2, crew, rng.byte(0, crew - 1)]);
        }
    }
    let odd = Shape { sizes, edges: 0, rules: 0, terms: 2, facts: 0, roles: 1 };
    for _ in 0..rng.below(4) {
        frames.push(rule(rng, &odd));
    }
    frames.insert(0, first_frame(&sizes));
    let exact = rng.percent(60);
    let gone = exact && rng.percent(50);
    let mut query = vec![5, if exact { 2 } else { 1 }, 0, 0, 1, attrs - u8::from(!gone)];
    for attr in u8::from(!gone)..attrs {
        query.extend([attr, 0, u8::from(attr > 0)]);
    }
    if exact {
        let crews = if rng.percent(50) { rng.bits() as u32 & sizes.all_crews() } else { 0 };
        query.extend(crews.to_be_bytes());
    }
    frames.push(query);
    Draft { sizes, frames }
}

/// A rule of role 0 for op, a and v, with so many ladder terms, about grades most of the time.
fn graded_rule(rng: &mut Rng, sizes: &Sizes, [op, a, v]: [u8; 3], terms: u8) -> Vec<u8> {
    let mut frame = vec![3, op, 0, a, v, terms];
    for _ in 0..terms {
        let attr = if rng.percent(85) { 0 } else { rng.byte(0, sizes.attrs() - 1) };
        frame.extend([5, attr, value(rng, sizes, attr)]);
    }
    frame
}

/// A depot whose rules share few ops, roles, a and v and have up to eight terms: a request matches several of them, and
/// the first unmet term stands at any place. Some ops, roles, a and v come late, now and then behind 496 rules of the
/// first, and some rules stand twice.
pub fn crowded_book(rng: &mut Rng) -> Draft {
    let (persons, crews, attrs) = (rng.byte(1, 3), rng.byte(0, 4), attributes(rng, 3));
    let sizes = Sizes::new(persons, crews, &counts(rng, attrs, 1, 4));
    let shape = Shape { sizes, edges: rng.below(5), rules: 0, terms: 0, facts: rng.below(20), roles: 2 };
    let mut draft = book(rng, &shape);
    let heads: Vec<Vec<u8>> = (0..1 + rng.below(5)).map(|_| rule(rng, &shape)).collect();
    let before = if rng.percent(10) { MOST_RULES - 16 } else { 0 };
    let rules = 1 + rng.below(16);
    let mut at = 1;
    for nth in 0..before + rules {
        let mut frame = heads[rng.below(1 + nth.saturating_sub(before) * heads.len() / rules)].clone();
        let terms = rng.byte(0, MOST_TERMS as u8);
        add_terms(rng, &mut frame, &sizes, terms);
        let earlier = &draft.frames[rng.below(at)];
        if earlier[0] == 3 && rng.percent(15) {
            frame = earlier.clone();
        }
        draft.frames.insert(at, frame);
        at = (at + 1 + rng.below(3)).min(draft.frames.len() - 1);
    }
    draft
}

/// A depot of any size up to the largest, and often one of the most persons, crews and attributes.
pub fn large_book(rng: &mut Rng) -> Draft {
    let most = [MOST_PERSONS, MOST_CREWS, MOST_ATTRS].map(|most| most as u8);
    let [persons, crews, attrs] =
        if rng.percent(30) { most } else { [rng.byte(1, most[0]), rng.byte(0, most[1]), rng.byte(1, most[2])] };
    let least = rng.pick(&[1, 1, 1, 12, 16]);
    let sizes = Sizes::new(persons, crews, &counts(rng, attrs, least, MOST_VALUES as u8));
    let shape = Shape {
        sizes,
        edges: rng.pick(&[0, 8, 30, 100]),
        rules: 1 + rng.below(MOST_RULES),
        terms: rng.byte(1, 4),
        facts: 1 + rng.below(900),
        roles: ROLES,
    };
    book(rng, &shape)
}

/// A small depot whose book has "not" terms and mode 03, of at most twelve facts with all persons counted. Most queries
/// are aimed at a ledger that can be reached, or that could be without the "not" terms.
pub fn small_not_book(rng: &mut Rng) -> Draft {
    let attrs = attributes(rng, 2);
    loop {
        let (persons, crews) = (rng.byte(1, 2), rng.byte(0, 4));
        let sizes = Sizes::new(persons, crews, &counts(rng, attrs, 1, 4));
        let (p, g) = (usize::from(persons), usize::from(crews));
        let facts = (p + g) * sizes.pairs().count() + p * g;
        if facts <= 12 {
            let shape = Shape {
                sizes,
                edges: rng.below(3),
                rules: if rng.percent(60) { 2 * facts } else { 1 + rng.below(2 * facts) },
                terms: rng.byte(1, 3),
                facts: rng.below(1 + facts / 3),
                roles: 3,
            };
            let mut draft = not_book(rng, &shape);
            aim_at_a_walk(rng, &mut draft, 60);
            return draft;
        }
    }
}

/// A depot of a few persons, crews and attributes whose book has "not" terms and mode 03, with queries as in
/// [`small_not_book`].
pub fn middle_not_book(rng: &mut Rng) -> Draft {
    let (persons, crews, attrs) = (rng.byte(1, 4), rng.byte(0, 7), attributes(rng, 4));
    let sizes = Sizes::new(persons, crews, &counts(rng, attrs, 1, 6));
    let shape = Shape {
        sizes,
        edges: rng.below(6),
        rules: 1 + rng.below(60),
        terms: rng.byte(1, 4),
        facts: rng.below(12),
        roles: 3,
    };
    let mut draft = not_book(rng, &shape);
    aim_at_a_walk(rng, &mut draft, 400);
    draft
}

/// A depot of any size up to the largest whose book has "not" terms and mode 03, often with a rule for each op, a and v
/// of the most attributes, values and crews, and with queries as in [`small_not_book`].
pub fn large_not_book(rng: &mut Rng) -> Draft {
    let most = [MOST_PERSONS, MOST_CREWS, MOST_ATTRS].map(|most| most as u8);
    let [persons, crews, attrs] =
        if rng.percent(40) { most } else { [rng.byte(1, most[0]), rng.byte(0, most[1]), rng.byte(1, most[2])] };
    let least = rng.pick(&[1, 1, 12, 16]);
    let sizes = Sizes::new(persons, crews, &counts(rng, attrs, least, MOST_VALUES as u8));
    let shape = Shape {
        sizes,
        edges: rng.pick(&[0, 8, 30]),
        rules: if rng.percent(50) { MOST_RULES } else { 1 + rng.below(300) },
        terms: rng.byte(1, MOST_TERMS as u8),
        facts: rng.below(60),
        roles: ROLES,
    };
    let mut draft = not_book(rng, &shape);
    aim_at_a_walk(rng, &mut draft, 3_000);
    draft
}

/// Leaves three queries in ten as they are. Else aims a query of mode 03 at a ledger that a walk of so many steps
/// reaches, or half the time, and then now and then with any roles, that one without the "not" terms does.
fn aim_at_a_walk(rng: &mut Rng, draft: &mut Draft, steps: usize) {
    let Ok(mut book) = read(&draft.text()) else { return };
    if rng.percent(30) {
        return;
    }
    let without = rng.percent(50);
    if without {
        book = book.nots_dropped();
    }
    let ledger = walk(rng, &book, steps);
    aim_directly(rng, draft, &book, &ledger);
    if let Some(query) = draft.frames.last_mut() {
        if without && rng.percent(20) {
            query[3..5].copy_from_slice(&u16::to_be_bytes(rng.bits() as u16));
        }
    }
}

/// A book of a shape with "not" terms, within the limits of such books, and with a query of mode 03. Of the shape's
/// rules it has as many as there are ops, a and v for one rule each: at most 288.
///
/// What a rule asks for comes before its fact in an order that is drawn first, and what it bars comes after it, but for
/// some terms, of some books all, that are drawn anyhow.
pub fn not_book(rng: &mut Rng, shape: &Shape) -> Draft {
    let sizes = shape.sizes;
    let values: Vec<[u8; 2]> = sizes.pairs().map(|(a, v)| [a.0, v.0]).collect();
    let of = |op: u8| values.iter().map(move |&[a, v]| [op, a, v]);
    let mut order: Vec<[u8; 3]> = of(1).chain((0..sizes.crews).map(|crew| [5, crew, 0])).collect();
    shuffle(rng, &mut order);
    let mut keys: Vec<[u8; 3]> = order.iter().copied().chain(of(3)).collect();
    shuffle(rng, &mut keys);
    keys.truncate(shape.rules.max(1));
    let odd = rng.pick(&[0, 3, 20, 100]);
    let mut rules: Vec<Vec<u8>> = Vec::new();
    for &[op, a, v] in &keys {
        let mut frame = vec![3, op, rng.byte(0, shape.roles - 1), a, v, 0];
        // A crew's values have the order of a person's.
        let place = order.iter().position(|&key| key == [if op == 3 { 1 } else { op }, a, v]).unwrap_or(0);
        for _ in 0..rng.byte(0, shape.terms) {
            let not = rng.percent(50);
            let own = rng.percent(if not { 10 } else { 1 });
            let part = match (own, rng.percent(odd), not) {
                (true, ..) => place..place + 1,
                (_, true, _) => 0..order.len(),
                (_, _, true) => place + 1..order.len(),
                (_, _, false) => 0..place,
            };
            let fits = |key: &&[u8; 3]| op == 5 || key[0] == 1;
            let named: Vec<[u8; 3]> = order[part].iter().filter(fits).copied().collect();
            if !named.is_empty() {
                add_direct_term(rng, &mut frame, not, &named);
            }
        }
        rules.push(frame);
    }
    if !rules.iter().any(|frame| frame[6..].chunks_exact(3).any(|term| NOT_KINDS.contains(&term[0]))) {
        let rule = rng.below(rules.len());
        add_direct_term(rng, &mut rules[rule], true, &of(1).collect::<Vec<_>>());
    }
    let mut draft = book(rng, &Shape { rules: 0, ..*shape });
    draft.ask(not_query(rng, &sizes));
    for frame in rules {
        draft.put(rng, frame);
    }
    draft
}

/// Puts a term of kind 01 or 03, or a "not" term, behind a rule that has fewer than eight; it names one of these: op, a
/// and v of a person's value or place in a crew.
fn add_direct_term(rng: &mut Rng, frame: &mut Vec<u8>, not: bool, named: &[[u8; 3]]) {
    let [op, a, v] = rng.pick(named);
    let kind = if op == 5 { 3 } else { 1 };
    if usize::from(frame[5]) < MOST_TERMS {
        frame[5] += 1;
        frame.extend([kind | if not { 0x80 } else { 0 }, a, v]);
    }
}

/// A book of a shape, with a query of mode 01 or 02.
pub fn book(rng: &mut Rng, shape: &Shape) -> Draft {
    let sizes = shape.sizes;
    let mut frames = Vec::new();
    if sizes.crews >= 2 {
        for _ in 0..shape.edges {
            let senior = rng.byte(1, sizes.crews - 1);
            frames.push(vec![2, senior, rng.byte(0, senior - 1)]);
        }
    }
    for _ in 0..shape.rules {
        frames.push(rule(rng, shape));
    }
    for _ in 0..shape.facts {
        frames.push(fact(rng, &sizes));
    }
    // "Frames 02, 03, 04 come in any order"
    shuffle(rng, &mut frames);
    frames.insert(0, first_frame(&sizes));
    frames.push(query(rng, &sizes));
    Draft { sizes, frames }
}

fn shuffle<T>(rng: &mut Rng, list: &mut [T]) {
    for end in (1..list.len()).rev() {
        list.swap(end, rng.below(end + 1));
    }
}

fn rule(rng: &mut Rng, shape: &Shape) -> Vec<u8> {
    let sizes = &shape.sizes;
    let op = rng.byte(1, if sizes.crews == 0 { 4 } else { 6 });
    let n = rng.byte(0, shape.terms);
    let mut frame = vec![3, op, rng.byte(0, shape.roles - 1)];
    if op < 5 {
        frame.extend(pair(rng, sizes));
    } else {
        frame.extend([rng.byte(0, sizes.crews - 1), 0]);
    }
    frame.push(0);
    add_terms(rng, &mut frame, sizes, n);
    frame
}

/// Puts so many terms, of every kind that its op may have, behind a rule.
fn add_terms(rng: &mut Rng, frame: &mut Vec<u8>, sizes: &Sizes, n: u8) {
    frame[5] += n;
    for _ in 0..n {
        let kind = if frame[1] < 5 { rng.pick(&VALUE_KINDS) } else { rng.byte(1, 5) };
        if VALUE_KINDS.contains(&kind) {
            frame.extend(value_term(rng, kind, sizes));
        } else {
            frame.extend([kind, rng.byte(0, sizes.crews - 1), 0]);
        }
    }
}

/// The kinds of terms about values, which every op may have.
const VALUE_KINDS: [u8; 3] = [1, 2, 5];
/// The kinds of "not" terms: about a value, and about a crew.
const NOT_KINDS: [u8; 2] = [0x81, 0x83];

fn value_term(rng: &mut Rng, kind: u8, sizes: &Sizes) -> [u8; 3] {
    let [attr, value] = pair(rng, sizes);
    [kind, attr, value]
}

fn fact(rng: &mut Rng, sizes: &Sizes) -> Vec<u8> {
    let kind = if sizes.crews == 0 { 1 } else { rng.byte(1, 3) };
    let [attr, value] = pair(rng, sizes);
    match kind {
        1 => vec![4, 1, rng.byte(0, sizes.persons - 1), attr, value],
        2 => vec![4, 2, rng.byte(0, sizes.crews - 1), attr, value],
        _ => vec![4, 3, rng.byte(0, sizes.persons - 1), rng.byte(0, sizes.crews - 1), 0],
    }
}

/// A query of mode 03, of all roles or of any.
pub fn not_query(rng: &mut Rng, sizes: &Sizes) -> Vec<u8> {
    loop {
        let mut frame = query(rng, sizes);
        if frame[1] == 2 {
            frame[1] = 3;
            return frame;
        }
    }
}

/// A query of mode 01 or 02, of all roles or of any.
pub fn query(rng: &mut Rng, sizes: &Sizes) -> Vec<u8> {
    let mode = if rng.percent(70) { 2 } else { 1 };
    let roles = if rng.percent(60) { u16::MAX } else { rng.bits() as u16 };
    let mut frame = vec![5, mode, rng.byte(0, sizes.persons - 1)];
    frame.extend(roles.to_be_bytes());
    let mut named = Vec::new();
    for attr in 0..sizes.attrs() {
        if rng.percent(if sizes.attrs() > 2 { 30 } else { 70 }) {
            let dense = rng.percent(50);
            let set = (rng.bits() as u16) & (if dense { u16::MAX } else { rng.bits() as u16 });
            named.push((attr, set & sizes.all_values(Attr(attr))));
        }
    }
    frame.push(named.len() as u8);
    for (attr, set) in named {
        frame.push(attr);
        frame.extend(set.to_be_bytes());
    }
    if mode == 2 {
        let crews = (rng.bits() as u32) & (rng.bits() as u32) & sizes.all_crews();
        frame.extend(crews.to_be_bytes());
    }
    frame
}

/// Gives a depot so many persons, no fewer than it has, and so many more starting facts to any of them: a value, or a
/// place in a crew.
pub fn staff(rng: &mut Rng, draft: &mut Draft, persons: u8, facts: usize) {
    draft.sizes.persons = persons;
    let sizes = draft.sizes;
    draft.frames[0] = first_frame(&sizes);
    for _ in 0..facts {
        let person = rng.byte(0, persons - 1);
        let frame = if sizes.crews > 0 && rng.percent(50) {
            vec![4, 3, person, rng.byte(0, sizes.crews - 1), 0]
        } else {
            let [attr, value] = pair(rng, &sizes);
            vec![4, 1, person, attr, value]
        };
        draft.put(rng, frame);
    }
}

/// Walks from the starting facts by permitted requests of all roles, on the query's person and the crews.
pub fn walk(rng: &mut Rng, book: &Book, steps: usize) -> Ledger {
    let depot = Depot::new(book);
    let mut ledger = Ledger::start(book);
    if book.rules.is_empty() {
        return ledger;
    }
    for _ in 0..steps {
        let rule = &book.rules[rng.below(book.rules.len())];
        let crew = |rng: &mut Rng| Crew(rng.byte(0, book.sizes.crews - 1));
        let person = book.query.person;
        let fact = match rule.what {
            What::OfPerson(a, v) => Fact::PersonHolds(person, a, v),
            What::OfCrew(..) if book.sizes.crews == 0 => continue,
            What::OfCrew(a, v) => Fact::CrewHolds(crew(rng), a, v),
            What::Membership(c) => Fact::PersonIn(person, c),
        };
        let request = Request { role: rule.role, way: rule.way, fact };
        if depot.permits(&ledger, &request) {
            request.carry_out(&mut ledger);
        }
    }
    ledger
}

/// Asks, by mode 02 and with all roles, for what the query's person has in a ledger: every attribute of a random choice.
pub fn aim(rng: &mut Rng, draft: &mut Draft, book: &Book, ledger: &Ledger) {
    let depot = Depot::new(book);
    let person = book.query.person;
    let mut sets = Vec::new();
    for attr in 0..book.sizes.attrs() {
        if rng.percent(60) {
            sets.push((attr, depot.person_set(ledger, person, Attr(attr))));
        }
    }
    let mut frame = vec![5, 2, person.0, 0xFF, 0xFF, sets.len() as u8];
    for (attr, set) in sets {
        frame.push(attr);
        frame.extend(set.to_be_bytes());
    }
    frame.extend(ledger.memberships(person).to_be_bytes());
    draft.ask(frame);
}

/// Asks, by mode 03 and with all roles, for what the query's person directly has in a ledger: every attribute of a
/// random choice, and the crews or some of them.
pub fn aim_directly(rng: &mut Rng, draft: &mut Draft, book: &Book, ledger: &Ledger) {
    let person = book.query.person;
    let attrs: Vec<u8> = (0..book.sizes.attrs()).filter(|_| rng.percent(60)).collect();
    let mut frame = vec![5, 3, person.0, 0xFF, 0xFF, attrs.len() as u8];
    for attr in attrs {
        frame.push(attr);
        frame.extend(ledger.values(person, Attr(attr)).to_be_bytes());
    }
    let some = if rng.percent(50) { u32::MAX } else { rng.bits() as u32 };
    frame.extend((ledger.memberships(person) & some).to_be_bytes());
    draft.ask(frame);
}

/// What a book with a "not" term may not have: 16 falls.
#[derive(Clone, Copy, Debug, PartialEq, Eq)]
pub enum Limit {
    /// An op 02, 04 or 06.
    Op,
    /// A rule that stands there twice.
    Twice,
    /// A second rule for an op, a and v, with any role and any terms.
    Second,
    /// A term of kind 02, 04 or 05.
    Kind,
}

impl Limit {
    /// Each of them.
    pub const ALL: [Limit; 4] = [Limit::Op, Limit::Twice, Limit::Second, Limit::Kind];
}

/// Takes a good book with a "not" term beyond one of the limits, by one frame or one term anywhere in it.
pub fn break_limit(rng: &mut Rng, draft: &mut Draft, limit: Limit) {
    let sizes = draft.sizes;
    let rules: Vec<usize> = (0..draft.frames.len()).filter(|&at| draft.frames[at][0] == 3).collect();
    let at = rng.pick(&rules);
    let mut frame = draft.frames[at].clone();
    let values: Vec<[u8; 3]> = sizes.pairs().map(|(a, v)| [1, a.0, v.0]).collect();
    match limit {
        Limit::Op => {
            let [a, v] = pair(rng, &sizes);
            let op = rng.pick(&[2, 4, 6]);
            frame = vec![3, op, rng.byte(0, ROLES - 1), a, v, 0];
            if op == 6 && sizes.crews == 0 {
                frame[1] = 2;
            } else if op == 6 {
                (frame[3], frame[4]) = (rng.byte(0, sizes.crews - 1), 0);
            }
            for _ in 0..rng.below(3) {
                let not = rng.percent(50);
                add_direct_term(rng, &mut frame, not, &values);
            }
        }
        Limit::Twice => {}
        Limit::Second => {
            frame.truncate(6);
            frame[2] = rng.byte(0, ROLES - 1);
            frame[5] = 0;
            for _ in 0..rng.below(3) {
                let not = rng.percent(50);
                add_direct_term(rng, &mut frame, not, &values);
            }
        }
        Limit::Kind => {
            let kinds: &[u8] = if frame[1] == 5 { &[2, 4, 5] } else { &[2, 5] };
            let kind = rng.pick(kinds);
            let term = if kind == 4 { [4, rng.byte(0, sizes.crews - 1), 0] } else { value_term(rng, kind, &sizes) };
            let frame = &mut draft.frames[at];
            if usize::from(frame[5]) < MOST_TERMS {
                frame[5] += 1;
                let place = 6 + 3 * rng.below(frame[5].into());
                frame.splice(place..place, term);
            } else {
                // The only "not" term of the book may be the one that goes: another comes in its place.
                let place = 6 + 3 * rng.below(MOST_TERMS - 1);
                frame[place..place + 3].copy_from_slice(&term);
                frame[MOST_TERMS * 3 + 3..].copy_from_slice(&[0x81, 0, 0]);
            }
            return;
        }
    }
    draft.put(rng, frame);
}

/// Gives a good book the query of another mode: 01 or 02 where it has a "not" term, 03 where it has none.
pub fn wrong_mode(rng: &mut Rng, draft: &mut Draft) {
    let query = if draft.has_not() { query(rng, &draft.sizes) } else { not_query(rng, &draft.sizes) };
    draft.ask(query);
}

/// A book on which the refusal of this number, 1 to 9, 16 or 17, falls, and its line; nothing when the book leaves no
/// room for it.
///
/// # Panics
///
/// On another number.
pub fn damaged_book(rng: &mut Rng, number: u8, draft: &Draft) -> Option<(Vec<u8>, usize)> {
    let mut draft = draft.clone();
    match number {
        1 => {
            let mut text = draft.text();
            let length = MOST_CHARACTERS + 1 + rng.below(40);
            text.resize(length.max(text.len()), b'0');
            Some((text, 0))
        }
        2 => Some(bad_characters(rng, &draft)),
        3 => Some(bad_kind(rng, &mut draft)),
        4 if rng.percent(25) => {
            draft.frames[0] = bad_counts(rng, &draft.sizes);
            Some((draft.text(), 1))
        }
        4 => {
            let at = rng.below(draft.frames.len());
            let frame = &mut draft.frames[at];
            if rng.percent(50) {
                frame.push(rng.byte(0, 3));
            } else {
                frame.pop();
            }
            Some((draft.text(), at + 1))
        }
        5 => Some(bad_range(rng, &mut draft)),
        6 => {
            let last = draft.sizes.crews.checked_sub(1)?;
            let junior = rng.byte(0, last);
            let at = draft.put(rng, vec![2, 0, junior]);
            draft.frames[at - 1][1] = rng.byte(0, junior);
            Some((draft.text(), at))
        }
        7 => {
            let last = draft.sizes.crews.checked_sub(1)?;
            let mut frame = vec![3, rng.byte(1, 4), rng.byte(0, 15), 0, 0, 2, rng.pick(&VALUE_KINDS), 0, 0];
            let at = rng.pick(&[6, 9]);
            frame.splice(at..at, [rng.pick(&[3, 4, 0x83]), rng.byte(0, last), 0]);
            let at = draft.put(rng, frame);
            Some((draft.text(), at))
        }
        8 => {
            while draft.frames.iter().filter(|frame| frame[0] == 3).count() <= MOST_RULES {
                let frame = vec![3, rng.byte(1, 4), rng.byte(0, 15), 0, 0, 0];
                draft.put(rng, frame);
            }
            let rules = draft.frames.iter().enumerate().filter(|(_, frame)| frame[0] == 3);
            let at = rules.map(|(at, _)| at + 1).nth(MOST_RULES)?;
            Some((draft.text(), at))
        }
        9 => {
            let last = draft.sizes.attrs() - 1;
            let (first, second) = (rng.byte(0, last), rng.byte(0, last));
            let (first, second) = (first.max(second), first.min(second));
            draft.ask(vec![5, 1, 0, 0, 0, 2, first, 0, 1, second, 0, 0]);
            Some((draft.text(), draft.frames.len()))
        }
        16 => {
            // A rule with a "not" term, and one more at most.
            let rules = draft.frames.iter().filter(|frame| frame[0] == 3).count();
            if rules + 2 > MOST_RULES {
                return None;
            }
            if !draft.has_not() {
                let [a, v] = pair(rng, &draft.sizes);
                let frame = vec![3, rng.byte(1, 4), rng.byte(0, ROLES - 1), a, v, 1, 0x81, a, v];
                draft.put(rng, frame);
            }
            let limit = rng.pick(&Limit::ALL);
            break_limit(rng, &mut draft, limit);
            if rng.percent(30) {
                let frame = query(rng, &draft.sizes);
                draft.ask(frame);
            }
            Some((draft.text(), draft.frames.len()))
        }
        17 => {
            wrong_mode(rng, &mut draft);
            Some((draft.text(), draft.frames.len()))
        }
        _ => panic!("1 to 9, 16 and 17 alone give a line"),
    }
}

fn bad_characters(rng: &mut Rng, draft: &Draft) -> (Vec<u8>, usize) {
    let mut lines: Vec<Vec<u8>> = draft.frames.iter().map(|frame| line(frame)).collect();
    let at = rng.below(lines.len());
    match rng.below(5) {
        0 => lines[at] = b"\n".to_vec(),
        1 => {
            lines[at].remove(0);
        }
        2 => {
            let place = rng.below(lines[at].len() - 1);
            lines[at][place] = rng.pick(b" \r\t\0/:@G`afx\xFF");
        }
        3 => {
            let last = lines.len();
            lines[last - 1].pop();
            return (lines.concat(), last);
        }
        _ => {
            lines.push(rng.pick(&[&b"0"[..], b"00", b"x", b"\n", b"0200 0\n"]).to_vec());
            return (lines.concat(), draft.frames.len() + 1);
        }
    }
    (lines.concat(), at + 1)
}

fn bad_kind(rng: &mut Rng, draft: &mut Draft) -> (Vec<u8>, usize) {
    let at = match rng.below(5) {
        0 => {
            draft.frames[0][0] = rng.pick(&[0, 2, 3, 4, 5, 6, 255]);
            1
        }
        1 => {
            let first = draft.frames[0].clone();
            draft.put(rng, first)
        }
        2 => {
            let frame = vec![rng.pick(&[0, 6, 7, 16, 0x81, 255]), 0, 0];
            draft.put(rng, frame)
        }
        3 => {
            let frame = draft.frames[rng.below(draft.frames.len())].clone();
            draft.frames.push(frame);
            draft.frames.len()
        }
        _ => {
            draft.frames.pop();
            draft.frames.len() + 1
        }
    };
    (draft.text(), at)
}

/// A frame 01 of another length than its A gives, some over 64 bytes; in some a field is out of range besides.
pub fn bad_counts(rng: &mut Rng, sizes: &Sizes) -> Vec<u8> {
    let mut frame = first_frame(sizes);
    match rng.below(10) {
        0 => {
            frame.pop();
        }
        1 => frame.push(rng.byte(1, 16)),
        2 => frame[3] += 1,
        3 => frame[3] -= 1,
        4 => frame[3] = rng.byte(9, 255),
        5 => frame.truncate(1 + rng.below(3)),
        6 => frame.extend([1; 256]),
        _ => {
            frame[3] = rng.pick(&[0, 9, 59, 60, 61, 62, 128, 255]);
            let due = 4 + usize::from(frame[3]);
            frame.resize(rng.pick(&[due - 1, due + 1, due + 256, 64, 65]), 1);
            if frame.len() == due {
                frame.push(1);
            }
        }
    }
    let at = rng.below(frame.len());
    if ![0, 3].contains(&at) && rng.percent(30) {
        frame[at] = rng.pick(&[0, 65, 255]);
    }
    frame
}

/// A frame 01 of the length that its A gives, some over 64 bytes, with a field out of its range.
pub fn bad_sizes(rng: &mut Rng, sizes: &Sizes) -> Vec<u8> {
    let mut frame = first_frame(sizes);
    let count = 4 + rng.below(sizes.attrs().into());
    match rng.below(8) {
        0 => frame[1] = rng.pick(&[0, 65, 255]),
        1 => frame[2] = rng.pick(&[33, 255]),
        2 => frame[count] = 0,
        3 => frame[count] = rng.pick(&[17, 32, 255]),
        of => {
            let long = rng.pick(&[10, 59, 60, 61, 62, 128]);
            frame[3] = [0, 9, 255, long][of - 4];
            frame.resize_with(4 + usize::from(frame[3]), || rng.byte(1, 16));
        }
    }
    frame
}

/// A book on which 5 falls, and its line, for a value that another attribute of the book has and its own has not: in a
/// rule, in one of its terms, in a starting fact or in the query. Nothing when all counts are the same.
pub fn neighbours_book(rng: &mut Rng, draft: &Draft) -> Option<(Vec<u8>, usize)> {
    let mut draft = draft.clone();
    let sizes = draft.sizes;
    let [a, v] = neighbours_pair(rng, &sizes)?;
    let role = rng.byte(0, ROLES - 1);
    let line = match rng.below(8) {
        0 => {
            let mut frame = vec![3, rng.byte(1, 4), role, a, v, 0];
            let terms = rng.byte(0, 2);
            add_terms(rng, &mut frame, &sizes, terms);
            draft.put(rng, frame)
        }
        n @ 1..=4 => {
            let one = Shape { sizes, edges: 0, rules: 0, terms: 2, facts: 0, roles: ROLES };
            let mut frame = rule(rng, &one);
            frame[5] += 1;
            let at = 6 + 3 * rng.below(frame[5].into());
            frame.splice(at..at, [[1, 2, 5, 0x81][n - 1], a, v]);
            draft.put(rng, frame)
        }
        5 => {
            let frame = vec![4, 1, rng.byte(0, sizes.persons - 1), a, v];
            draft.put(rng, frame)
        }
        6 if sizes.crews > 0 => {
            let frame = vec![4, 2, rng.byte(0, sizes.crews - 1), a, v];
            draft.put(rng, frame)
        }
        _ => {
            let set = (rng.bits() as u16 & sizes.all_values(Attr(a)) | 1 << v).to_be_bytes();
            let mut frame = vec![5, rng.byte(1, 3), rng.byte(0, sizes.persons - 1), 0, role, 1, a, set[0], set[1]];
            if frame[1] != 1 {
                frame.extend((rng.bits() as u32 & sizes.all_crews()).to_be_bytes());
            }
            draft.ask(frame);
            draft.frames.len()
        }
    };
    Some((draft.text(), line))
}

fn bad_range(rng: &mut Rng, draft: &mut Draft) -> (Vec<u8>, usize) {
    let sizes = draft.sizes;
    if rng.percent(30) {
        if let Some(bad) = neighbours_book(rng, draft) {
            return bad;
        }
    }
    let (p, g, a) = (sizes.persons, sizes.crews, sizes.attrs());
    let t = rng.byte(0, a - 1);
    let v = sizes.values(Attr(t));
    let line = match rng.below(5) {
        0 => {
            draft.frames[0] = bad_sizes(rng, &sizes);
            1
        }
        1 => {
            let frame = rng.pick(&[[2, g, 0], [2, 0, g], [2, 255, 255]]);
            draft.put(rng, frame.to_vec())
        }
        2 => {
            let mut nine = vec![3, 1, 0, 0, 0, 9];
            nine.extend([1, 0, 0].repeat(9));
            let frames: [&[u8]; 30] = [
                &[3, 0, 0, 0, 0, 0],
                &[3, 7, 0, 0, 0, 0],
                &[3, 1, 16, 0, 0, 0],
                &[3, 2, 0, a, 0, 0],
                &[3, 3, 0, t, v, 0],
                &[3, 4, 15, a, v, 0],
                &[3, 5, 0, g, 0, 0],
                &[3, 6, 0, g, 0, 0],
                &[3, 5, 0, 0, 1, 0],
                &[3, 1, 0, 0, 0, 1, 0, 0, 0],
                &[3, 1, 0, 0, 0, 1, 6, 0, 0],
                &[3, 4, 0, 0, 0, 1, 255, 0, 0],
                &[3, 1, 0, 0, 0, 1, 1, a, 0],
                &[3, 1, 0, 0, 0, 1, 2, t, v],
                &[3, 1, 0, 0, 0, 1, 3, g, 0],
                &[3, 1, 0, 0, 0, 1, 4, 0, 1],
                &[3, 2, 0, 0, 0, 1, 5, a, 0],
                &[3, 3, 0, 0, 0, 1, 5, t, v],
                &[3, 6, 0, 0, 0, 1, 5, t, v],
                &[3, 1, 0, 0, 0, 2, 3, 0, 0, 5, a, 0],
                &[3, 1, 0, 0, 0, 1, 0x80, 0, 0],
                &[3, 3, 0, 0, 0, 1, 0x82, 0, 0],
                &[3, 1, 0, 0, 0, 1, 0x84, 0, 0],
                &[3, 1, 0, 0, 0, 1, 0x85, 0, 0],
                &[3, 1, 0, 0, 0, 1, 0x81, a, 0],
                &[3, 4, 0, 0, 0, 1, 0x81, t, v],
                &[3, 1, 0, 0, 0, 1, 0x83, g, 0],
                &[3, 2, 0, 0, 0, 1, 0x83, 0, 1],
                &[3, 5, 0, 0, 0, 2, 1, 0, 0, 0x83, g, 0],
                &nine,
            ];
            let frame = rng.pick(&frames).to_vec();
            draft.put(rng, frame)
        }
        3 => {
            let frame = rng.pick(&[
                [4, 0, 0, 0, 0],
                [4, 4, 0, 0, 0],
                [4, 1, p, 0, 0],
                [4, 1, 0, a, 0],
                [4, 1, 0, t, v],
                [4, 2, g, 0, 0],
                [4, 2, 0, a, 0],
                [4, 3, p, 0, 0],
                [4, 3, 0, g, 0],
                [4, 3, 0, 0, 1],
            ]);
            draft.put(rng, frame.to_vec())
        }
        _ => {
            let mut nine = vec![5, 1, 0, 0, 0, 9];
            nine.extend([0, 0, 0].repeat(9));
            let set = (u32::from(sizes.all_values(Attr(t))) + 1) as u16;
            let crews = (u64::from(sizes.all_crews()) + 1) as u32;
            let mut frames = vec![
                vec![5, 0, 0, 0, 0, 0],
                vec![5, 4, 0, 0, 0, 0],
                vec![5, 1, p, 0, 0, 0],
                vec![5, 1, 0, 0, 0, 1, a, 0, 0],
                nine,
            ];
            if set != 0 {
                let [high, low] = set.to_be_bytes();
                frames.push(vec![5, 1, 0, 0, 0, 1, t, high, low]);
            }
            if crews != 0 {
                frames.push([&[5, 2, 0, 0, 0, 0][..], &crews.to_be_bytes()].concat());
                frames.push([&[5, 3, 0, 0, 0, 0][..], &crews.to_be_bytes()].concat());
            }
            draft.ask(frames.swap_remove(rng.below(frames.len())));
            draft.frames.len()
        }
    };
    (draft.text(), line)
}

/// Changes, drops, doubles or adds a few characters anywhere.
pub fn noise(rng: &mut Rng, text: &mut Vec<u8>) {
    for _ in 0..=rng.below(3) {
        let at = rng.below(text.len().max(1)).min(text.len());
        match rng.below(4) {
            0 if at < text.len() => text[at] = rng.pick(b"0123456789ABCDEF\n 0123"),
            1 if at < text.len() => {
                text.remove(at);
            }
            2 if at < text.len() => text.insert(at, text[at]),
            _ => text.insert(at, rng.pick(b"0123456789ABCDEF\n")),
        }
    }
}

/// A book with one bit of its characters changed: any, or one of the lowest three, which leaves most digits digits.
/// Half the time up to ten bits are tried for one that leaves a good book.
pub fn bent_book(rng: &mut Rng, text: &[u8]) -> Vec<u8> {
    let mut bent = text.to_vec();
    for _ in 0..rng.pick(&[1, 10]) {
        if text.is_empty() {
            break;
        }
        bent.copy_from_slice(text);
        let bits = rng.pick(&[3, 8]);
        bent[rng.below(text.len())] ^= 1 << rng.below(bits);
        if read(&bent).is_ok() {
            break;
        }
    }
    bent
}

/// Changes one bit of a ledger: any, or that of one fact of the sizes.
pub fn bent_ledger(rng: &mut Rng, sizes: &Sizes, bytes: &mut [u8; LEDGER_BYTES]) {
    if rng.percent(50) {
        let mut one = Ledger::default();
        one.set(any_fact(rng, sizes), true);
        bytes.iter_mut().zip(one.to_bytes()).for_each(|(byte, bit)| *byte ^= bit);
    } else {
        bytes[rng.below(LEDGER_BYTES)] ^= 1 << rng.below(8);
    }
}

/// The bytes of a ledger with no bit outside the sizes.
pub fn ledger(rng: &mut Rng, sizes: &Sizes) -> Vec<u8> {
    let mut ledger = Ledger::default();
    let dense = rng.pick(&[5, 30, 80]);
    let mut set = |rng: &mut Rng, fact| {
        if rng.percent(dense) {
            ledger.set(fact, true);
        }
    };
    for p in (0..sizes.persons).map(Person) {
        sizes.pairs().for_each(|(a, v)| set(rng, Fact::PersonHolds(p, a, v)));
        (0..sizes.crews).for_each(|c| set(rng, Fact::PersonIn(p, Crew(c))));
    }
    for c in (0..sizes.crews).map(Crew) {
        sizes.pairs().for_each(|(a, v)| set(rng, Fact::CrewHolds(c, a, v)));
    }
    ledger.to_bytes().to_vec()
}

/// The bytes of a ledger on which 11 falls, for a value of a person or of a crew that another attribute of the book has
/// and its own has not; nothing when all counts are the same.
pub fn neighbours_ledger(rng: &mut Rng, sizes: &Sizes) -> Option<Vec<u8>> {
    let [a, v] = neighbours_pair(rng, sizes)?;
    let mut bytes = ledger(rng, sizes);
    let row = if sizes.crews > 0 && rng.percent(50) {
        1_024 + 16 * rng.below(sizes.crews.into())
    } else {
        16 * rng.below(sizes.persons.into())
    };
    // Big-endian: values from 8 on stand in the first of the two bytes.
    bytes[row + 2 * usize::from(a) + usize::from(v < 8)] |= 1 << (v % 8);
    Some(bytes)
}

/// The bytes of a ledger on which 11 falls: a wrong length, or one bit outside the sizes where there is room for one.
pub fn damaged_ledger(rng: &mut Rng, sizes: &Sizes) -> Vec<u8> {
    if rng.percent(40) {
        if let Some(bytes) = neighbours_ledger(rng, sizes) {
            return bytes;
        }
    }
    let mut bytes = ledger(rng, sizes);
    if rng.percent(70) {
        for _ in 0..200 {
            let (at, bit) = (rng.below(LEDGER_BYTES), 1 << rng.below(8));
            let mut one = [0; LEDGER_BYTES];
            one[at] = bit;
            if Ledger::from_bytes(sizes, &one).is_none() {
                bytes[at] |= bit;
                return bytes;
            }
        }
    }
    bytes.resize(rng.pick(&[0, 1, 1_024, LEDGER_BYTES - 1, LEDGER_BYTES + 1, 2 * LEDGER_BYTES]), 0);
    bytes
}

/// A request whose fields are all in range.
pub fn request(rng: &mut Rng, sizes: &Sizes) -> [u8; REQUEST_BYTES] {
    let role = Role(rng.byte(0, ROLES - 1));
    let way = rng.pick(&[Way::Add, Way::Delete]);
    Request { role, way, fact: any_fact(rng, sizes) }.to_bytes()
}

fn any_fact(rng: &mut Rng, sizes: &Sizes) -> Fact {
    let [attr, value] = pair(rng, sizes);
    let (attr, value) = (Attr(attr), Value(value));
    let person = Person(rng.byte(0, sizes.persons - 1));
    if sizes.crews == 0 {
        return Fact::PersonHolds(person, attr, value);
    }
    let crew = Crew(rng.byte(0, sizes.crews - 1));
    rng.pick(&[
        Fact::PersonHolds(person, attr, value),
        Fact::CrewHolds(crew, attr, value),
        Fact::PersonIn(person, crew),
    ])
}

/// A request that one of the book's rules names, on any subject: permitted often enough.
pub fn apt_request(rng: &mut Rng, book: &Book) -> [u8; REQUEST_BYTES] {
    let mut bytes = request(rng, &book.sizes);
    if let Some(rule) = book.rules.get(rng.below(book.rules.len().max(1))) {
        let persons = book.sizes.persons;
        let (subjects, a, v) = match rule.what {
            What::OfPerson(a, v) => (persons, a.0, v.0),
            What::OfCrew(a, v) => (book.sizes.crews, a.0, v.0),
            What::Membership(c) => (persons, c.0, 0),
        };
        if subjects > 0 {
            bytes = [op(rule.way, rule.what), rule.role.0, rng.byte(0, subjects - 1), a, v];
        }
    }
    bytes
}

/// Meets the first terms of one of the rules that a request matches, as many as are drawn but not the last, by facts of
/// its own subject.
///
/// The bytes stay as they are where 11 falls on the ledger, 12 on the request, or no rule matches.
pub fn meet_first_terms(rng: &mut Rng, book: &Book, ledger: &mut [u8], request: &[u8]) {
    let sizes = &book.sizes;
    let read = Ledger::from_bytes(sizes, ledger).zip(Request::from_bytes(sizes, request));
    let Some((mut facts, request)) = read else { return };
    let trials = Depot::new(book).trials(&facts, &request);
    if trials.is_empty() {
        return;
    }
    let terms = &book.rules[usize::from(trials[rng.below(trials.len())].rule) - 1].terms;
    for &term in &terms[..rng.below(terms.len().max(1))] {
        let (a, v) = match term {
            Term::Holds(a, v) | Term::EffectivelyHolds(a, v) => (a, v),
            Term::Ladder(a, v) => (a, Value(rng.byte(v.0, sizes.values(a) - 1))),
            Term::NotHolds(a, v) => (a, v),
            Term::In(crew) | Term::EffectivelyIn(crew) | Term::NotIn(crew) => {
                if let Fact::PersonIn(person, _) = request.fact {
                    facts.set(Fact::PersonIn(person, crew), !term.is_not());
                }
                continue;
            }
        };
        let fact = match request.fact {
            Fact::PersonHolds(person, ..) | Fact::PersonIn(person, _) => Fact::PersonHolds(person, a, v),
            Fact::CrewHolds(crew, ..) => Fact::CrewHolds(crew, a, v),
        };
        facts.set(fact, !term.is_not());
    }
    ledger.copy_from_slice(&facts.to_bytes());
}

/// A request on which 12 falls, of op 01 to 04, for a value that another attribute of the book has and its own has not;
/// nothing when all counts are the same.
pub fn neighbours_request(rng: &mut Rng, sizes: &Sizes) -> Option<[u8; REQUEST_BYTES]> {
    let [a, v] = neighbours_pair(rng, sizes)?;
    let op = rng.byte(1, if sizes.crews > 0 { 4 } else { 2 });
    let subjects = if op < 3 { sizes.persons } else { sizes.crews };
    Some([op, rng.byte(0, ROLES - 1), rng.byte(0, subjects - 1), a, v])
}

/// A request on which 12 falls: a wrong length or a field outside its range.
pub fn damaged_request(rng: &mut Rng, sizes: &Sizes) -> Vec<u8> {
    if rng.percent(30) {
        if let Some(bytes) = neighbours_request(rng, sizes) {
            return bytes.to_vec();
        }
    }
    let (p, g, a) = (sizes.persons, sizes.crews, sizes.attrs());
    let t = rng.byte(0, a - 1);
    let v = sizes.values(Attr(t));
    if rng.percent(30) {
        let mut bytes = request(rng, sizes).to_vec();
        bytes.resize(rng.pick(&[0, 1, 4, 6, 10]), 0);
        return bytes;
    }
    let fields = [
        [0, 0, 0, 0, 0],
        [7, 0, 0, 0, 0],
        [255, 0, 0, 0, 0],
        [1, 16, 0, 0, 0],
        [1, 0, p, 0, 0],
        [2, 0, 0, a, 0],
        [2, 0, 0, t, v],
        [3, 0, g, 0, 0],
        [4, 15, g, 0, 0],
        [4, 0, 0, a, v],
        [5, 0, p, 0, 0],
        [5, 0, 0, g, 0],
        [6, 0, 0, 0, 1],
        [6, 0, 0, g, 0],
    ];
    rng.pick(&fields).to_vec()
}

/// A list of requests for replay: mostly apt ones, some damaged; now and then 14 falls.
pub fn list(rng: &mut Rng, book: &Book) -> Vec<u8> {
    let mut bytes = Vec::new();
    for _ in 0..rng.below(12) {
        if rng.percent(3) {
            bytes.extend(damaged_request(rng, &book.sizes));
        } else {
            bytes.extend(apt_request(rng, book));
        }
    }
    bytes
}
