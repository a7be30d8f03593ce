//! Equations over the engine's definitions, with the separate build's answers: the prover
//! computes both sides of each. They are printed as the crate `equations`, and counted by
//! what they meet.

pub mod admissions;
pub mod bounds;
pub mod classes;
pub mod fits;
mod forms;
pub mod instructions;
pub mod last_words;
pub mod print;
pub mod random;
pub mod replies;
pub mod runs;
pub mod starts;

use crate::record::{Note, Record};
use crate::run::{run_row, start, step, Answer, RunAnswer};
use classes::Met;

/// One call with all that it is given.
#[derive(Clone, Debug, PartialEq, Eq)]
pub enum Call {
    Admission {
        list: Vec<u8>,
        incoming_len: u64,
        outgoing_len: u64,
    },
    /// Fields read with so many instructions before them: admission reads them so.
    Fields { before: usize, fields: Vec<u8> },
    Start {
        list: Vec<u8>,
        incoming: Vec<u8>,
        outgoing: Vec<u8>,
    },
    Step {
        list: Vec<u8>,
        record: Record,
        incoming: Vec<u8>,
        outgoing: Vec<u8>,
        reply: Vec<u8>,
    },
    Run {
        list: Vec<u8>,
        incoming: Vec<u8>,
        outgoing: Vec<u8>,
        row: Vec<u8>,
    },
    LastWord {
        note: Note,
        incoming: Vec<u8>,
        outgoing: Vec<u8>,
    },
}

/// A start's answer and the incoming buffer after it.
pub fn started(list: &[u8], incoming: &[u8], outgoing: &[u8]) -> (Answer, Vec<u8>) {
    let mut incoming = incoming.to_vec();
    let answer = start(list, &mut incoming, outgoing);
    (answer, incoming)
}

/// A step's answer and the incoming buffer after it.
pub fn stepped(
    list: &[u8],
    record: &Record,
    (incoming, outgoing): (&[u8], &[u8]),
    reply: &[u8],
) -> (Answer, Vec<u8>) {
    let mut incoming = incoming.to_vec();
    let answer = step(list, record, &mut incoming, outgoing, reply);
    (answer, incoming)
}

/// A whole run's answer and the incoming buffer after it.
pub fn ran(list: &[u8], (incoming, outgoing): (&[u8], &[u8]), row: &[u8]) -> (RunAnswer, Vec<u8>) {
    let mut incoming = incoming.to_vec();
    let answer = run_row(list, &mut incoming, outgoing, row);
    (answer, incoming)
}

/// A call with the name of its equation.
#[derive(Clone, Debug)]
pub struct Equation {
    pub name: String,
    pub call: Call,
}

/// Equations that show one thing, printed as one record.
#[derive(Clone, Debug)]
pub struct Group {
    /// Lower-case words joined by `-`.
    pub name: String,
    /// A line that says what they show.
    pub about: String,
    pub equations: Vec<Equation>,
}

impl Group {
    pub fn new(name: &str, about: &str) -> Group {
        Group {
            name: name.to_string(),
            about: about.to_string(),
            equations: Vec::new(),
        }
    }

    pub fn add(&mut self, name: &str, call: Call) {
        let name = name.to_string();
        self.equations.push(Equation { name, call });
    }
}

/// The groups of one pair of files, `specs/NAME.antt` and `proofs/NAME.antt`.
#[derive(Clone, Debug)]
pub struct Module {
    pub name: &'static str,
    /// What the file is, for its first line.
    pub about: &'static str,
    pub groups: Vec<Group>,
}

impl Module {
    pub fn equations(&self) -> impl Iterator<Item = &Equation> {
        self.groups.iter().flat_map(|group| &group.equations)
    }
}

/// Every module: those chosen by hand first, then cases of the random generators that meet
/// what no equation before them met.
pub fn modules() -> Vec<Module> {
    let mut modules = vec![
        admissions::module(),
        starts::module(),
        replies::module(),
        fits::module(),
        runs::module(),
        last_words::module(),
    ];
    let mut met = met(&modules);
    modules.push(random::module(&mut met));
    modules
}

/// The equations of all modules.
pub fn all(modules: &[Module]) -> impl Iterator<Item = &Equation> {
    modules.iter().flat_map(Module::equations)
}

/// What all equations meet.
pub fn met(modules: &[Module]) -> Met {
    let mut met = Met::expecting();
    all(modules).for_each(|equation| met.observe(&equation.call));
    met
}
