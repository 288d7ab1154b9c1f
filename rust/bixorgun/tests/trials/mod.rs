//! Requests carried out one by one, and the query judged, by open, request and show alone: nothing here is replay's
//! or the planner's.

use bixorgun::{bytes, Attr, Person, View, LEDGER_SIZE};

/// A ledger's bytes.
pub type Ledger = [u8; LEDGER_SIZE];

/// Where the crews of persons begin in a ledger.
const MEMBERS_AT: usize = 1_536;

/// A book as its frames, the query last, and the characters that write them.
pub struct Draft {
    pub frames: Vec<Vec<u8>>,
    text: Vec<u8>,
}

impl Draft {
    pub fn new(frames: Vec<Vec<u8>>) -> Self {
        let line = |frame: &Vec<u8>| frame.iter().map(|byte| format!("{byte:02X}")).collect::<String>() + "\n";
        let text = frames.iter().map(line).collect::<String>().into_bytes();
        Draft { frames, text }
    }

    /// The book's characters.
    pub fn text(&self) -> &[u8] {
        &self.text
    }

    /// The query's frame: 05, mode, person, roles, q, the named sets, and in modes 02 and 03 the crews.
    pub fn query(&self) -> &[u8] {
        self.frames.last().expect("a query")
    }

    /// The ledger of the starting facts.
    pub fn open(&self) -> Ledger {
        let mut ledger = [0; LEDGER_SIZE];
        bytes::open(&self.text, &mut ledger).expect("a good book");
        ledger
    }

    /// Whether a role is one of the query's.
    pub fn asks(&self, role: u8) -> bool {
        let roles = u16::from_be_bytes([self.query()[3], self.query()[4]]);
        role < 16 && roles >> role & 1 == 1
    }

    /// One request of a list: whether its role is the query's and it is carried out. The ledger stays where it is
    /// not.
    pub fn goes(&self, ledger: &mut Ledger, request: &[u8]) -> bool {
        self.asks(request[1]) && bytes::request(&self.text, ledger, request).is_ok()
    }

    /// What show gives of a person.
    pub fn show(&self, ledger: &Ledger, person: u8) -> View {
        bytes::show(&self.text, ledger, Person(person)).expect("a good ledger")
    }

    /// Whether a ledger meets the query, by what show gives and the ledger's own bytes of the person's crews.
    pub fn is_met(&self, ledger: &Ledger) -> bool {
        self.is_met_by(ledger, &self.show(ledger, self.query()[2]))
    }

    /// The same, where show has given this of the query's person. Mode 03 asks the ledger's own bytes of the person's
    /// values too.
    pub fn is_met_by(&self, ledger: &Ledger, view: &View) -> bool {
        let &[_, mode, person, _, _, q, ref rest @ ..] = self.query() else { panic!("a query") };
        let (sets, crews) = rest.split_at(3 * usize::from(q));
        let met = sets.chunks_exact(3).all(|set| {
            let own = 16 * usize::from(person) + 2 * usize::from(set[0]);
            let held = match mode {
                3 => u16::from_be_bytes([ledger[own], ledger[own + 1]]),
                _ => view.values(Attr(set[0])).bits(),
            };
            let wanted = u16::from_be_bytes([set[1], set[2]]);
            if mode == 2 {
                held == wanted
            } else {
                held & wanted == wanted
            }
        });
        let members = &ledger[MEMBERS_AT + 4 * usize::from(person)..][..4];
        met && match mode {
            1 => true,
            2 => members == crews,
            _ => members.iter().zip(crews).all(|(members, listed)| listed & !members == 0),
        }
    }
}
