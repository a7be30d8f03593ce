//! Cases of the random generators: the first small ones, then those that meet what no
//! equation before them met.

use super::classes::Met;
use super::{Call, Group, Module};
use crate::cases::case;
use crate::cases::records::step_case;

/// The seed of the generators.
const SEED: u64 = 1;
/// Lists, buffers and rows of more bytes than these aren't taken.
const MOST_LIST: usize = 64;
const MOST_BUFFER: usize = 40;
const MOST_ROW: usize = 64;
/// How many cases are looked at, and how many are taken whatever they meet.
const CASES: u64 = 40_000;
const ANYWAY: usize = 60;

/// Steps and runs, chosen by what was met before.
pub fn module(met: &mut Met) -> Module {
    Module {
        name: "Random",
        about: "Step and the whole run: cases of the separate build's random generators.",
        groups: vec![
            chosen("random-steps", step, met),
            chosen("random-runs", run, met),
        ],
    }
}

/// The step case of a number.
fn step(number: u64) -> Call {
    let case = step_case(SEED, number);
    Call::Step {
        list: case.list,
        record: case.record,
        incoming: case.incoming,
        outgoing: case.outgoing,
        reply: case.reply,
    }
}

/// The run case of a number.
fn run(number: u64) -> Call {
    let case = case(SEED, number);
    Call::Run {
        list: case.list,
        incoming: case.incoming,
        outgoing: case.outgoing,
        row: case.row,
    }
}

fn is_small(call: &Call) -> bool {
    let (list, incoming, outgoing, row) = match call {
        Call::Step {
            list,
            incoming,
            outgoing,
            reply,
            ..
        } => (list, incoming, outgoing, reply),
        Call::Run {
            list,
            incoming,
            outgoing,
            row,
        } => (list, incoming, outgoing, row),
        _ => return false,
    };
    let buffers = incoming.len().max(outgoing.len());
    list.len() <= MOST_LIST && buffers <= MOST_BUFFER && row.len() <= MOST_ROW
}

/// The small cases that are taken.
fn chosen(name: &str, case: fn(u64) -> Call, met: &mut Met) -> Group {
    let about = "small cases, then those that meet what nothing before them met";
    let mut group = Group::new(name, about);
    for number in 0..CASES {
        let taken = group.equations.len();
        if taken >= ANYWAY && met.is_complete() {
            break;
        }
        let call = case(number);
        if is_small(&call) && (met.observe_if_new(&call) || taken < ANYWAY) {
            group.add(&format!("case-{number}"), call);
        }
    }
    group
}
