//! One call for callgrind, which counts inside `measured`; for the script `instructions`.
//!
//! - `drive` prints the calls that there are, one on a line, with its list's name.
//! - `drive ENGINE run NUMBER ANSWERS REPLIES` makes a whole run over that many replies.
//! - `drive ENGINE steps NUMBER ANSWERS REPLIES` the same by start, which isn't counted, and
//!   steps.
//! - `drive ENGINE step INSTRUCTIONS` makes one step half-way through a list.
//! - `drive ENGINE admit NUMBER` makes an admission.
//! - `drive ENGINE to_binary scalers - LONGWORDS` converts a row of so many scalers, and
//!   `drive ENGINE to_decimal scalers - LONGWORDS` one back.
//! - `drive ENGINE demands QUEUE CALL COUNT` adds a row of so many demands to a queue, or makes
//!   as many calls: CALL is `row`, `add`, `take` or `clear`, QUEUE `empty` or `full` before them.
//!
//! ENGINE is `proved` or `plain`; the plain one has no steps.

use bench::{admissions, demands, queue, scalers, workloads, Answers, Halfway};
use bench::{CLEAN_REPLY, DEMANDS, SCALERS, STEP_LISTS};
use camlist::ffi;
use reference::cases::scalers::Way;
use reference::demands::Demand;
use reference::plain;
use std::env;
use std::hint::black_box;

/// The call that is counted.
#[no_mangle]
#[inline(never)]
fn measured(call: &mut dyn FnMut()) {
    call();
}

fn main() {
    let words: Vec<String> = env::args().skip(1).collect();
    let words: Vec<&str> = words.iter().map(String::as_str).collect();
    match words[..] {
        [] => print_calls(),
        [engine, "run", number, answers, replies] => {
            run(engine == "proved", index(number), answers, index(replies))
        }
        ["proved", "steps", number, answers, replies] => {
            steps(index(number), answers, index(replies))
        }
        ["proved", "step", instructions] => step(index(instructions)),
        [engine, "admit", number] => admit(engine == "proved", index(number)),
        [engine, "to_binary", _, _, longwords] => {
            convert(engine == "proved", Way::ToBinary, index(longwords))
        }
        [engine, "to_decimal", _, _, longwords] => {
            convert(engine == "proved", Way::ToDecimal, index(longwords))
        }
        [engine, "demands", queue, call, count] => {
            demand_calls(engine == "proved", call, queue == "full", index(count))
        }
        _ => panic!("see the comment at this program's head"),
    }
}

fn index(word: &str) -> usize {
    word.parse().expect("a number")
}

fn answers_named(name: &str) -> Answers {
    let mut answers = Answers::ALL.into_iter();
    answers
        .find(|answers| answers.name() == name)
        .expect("answers")
}

fn print_calls() {
    for call in ["run", "steps"] {
        for (number, workload) in workloads().iter().enumerate() {
            for &answers in workload.answers {
                let (replies, name) = (workload.row(answers).len() / 8, workload.name);
                println!("{call} {number} {} {replies} {name}", answers.name());
            }
        }
    }
    for instructions in STEP_LISTS {
        println!("step {instructions}");
    }
    for (number, (name, _)) in admissions().iter().enumerate() {
        println!("admit {number} {name}");
    }
    println!("to_binary scalers - {SCALERS} to binary");
    println!("to_decimal scalers - {SCALERS} to decimal");
    for call in ["row", "add", "take", "clear"] {
        for queue in ["empty", "full"] {
            println!("demands {queue} {call} {DEMANDS} {call}, queue {queue}");
        }
    }
}

fn run(proved: bool, number: usize, answers: &str, replies: usize) {
    let workload = &workloads()[number];
    let mut incoming = vec![1; workload.incoming_len];
    let (list, outgoing) = (&workload.list, &workload.outgoing);
    let row = &workload.row(answers_named(answers))[..8 * replies];
    measured(&mut || {
        if proved {
            black_box(ffi::run(list, &mut incoming, outgoing, row));
        } else {
            black_box(plain::run_row(list, &mut incoming, outgoing, row));
        }
    });
}

fn steps(number: usize, answers: &str, replies: usize) {
    let workload = &workloads()[number];
    let mut incoming = vec![1; workload.incoming_len];
    let (list, outgoing) = (&workload.list, &workload.outgoing);
    let row = &workload.row(answers_named(answers))[..8 * replies];
    let mut record = [0; ffi::RECORD_NUMBERS];
    ffi::start(list, &mut incoming, outgoing, &mut record);
    measured(&mut || {
        black_box(ffi::steps(list, &mut record, &mut incoming, outgoing, row));
    });
}

fn step(instructions: usize) {
    let Halfway {
        list,
        mut incoming,
        mut record,
    } = Halfway::of(instructions);
    measured(&mut || {
        black_box(ffi::step(
            &list,
            &mut record,
            &mut incoming,
            &[],
            &CLEAN_REPLY,
        ));
    });
}

fn admit(proved: bool, number: usize) {
    let list = &admissions()[number].1;
    measured(&mut || {
        if proved {
            black_box(ffi::admit(list, u64::MAX, u64::MAX));
        } else {
            let _ = black_box(plain::admit(list, u64::MAX, u64::MAX));
        }
    });
}

fn convert(proved: bool, way: Way, longwords: usize) {
    let row = &mut scalers(way)[..4 * longwords];
    measured(&mut || match (proved, way) {
        (true, Way::ToBinary) => drop(black_box(ffi::to_binary(row))),
        (true, Way::ToDecimal) => drop(black_box(ffi::to_decimal(row))),
        (false, Way::ToBinary) => drop(black_box(plain::scalers::to_binary(row))),
        (false, Way::ToDecimal) => drop(black_box(plain::scalers::to_decimal(row))),
    });
}

/// A row of so many demands, or as many single calls.
fn demand_calls(proved: bool, call: &str, full: bool, count: usize) {
    let row = &demands()[..2 * count];
    let (demands, _) = row.as_chunks();
    let queue = &mut queue(full);
    match (proved, call) {
        (true, "row") => for_each(&[row], |row| ffi::demand_row(queue, row)),
        (false, "row") => for_each(&[row], |row| plain::demands::add_row(queue, row)),
        (true, "add") => for_each(demands, |&[crate_number, sgl]| {
            ffi::demand_add(queue, crate_number, sgl)
        }),
        (false, "add") => for_each(demands, |&demand| {
            plain::demands::add(queue, Demand::of(demand))
        }),
        (true, "take") => for_each(demands, |_| ffi::demand_take(queue)),
        (false, "take") => for_each(demands, |_| plain::demands::take(queue)),
        (true, _) => for_each(demands, |_| ffi::demand_clear(queue)),
        (false, _) => for_each(demands, |_| plain::demands::clear(queue)),
    }
}

fn for_each<Given, Answer>(all: &[Given], mut call: impl FnMut(&Given) -> Answer) {
    measured(&mut || {
        for given in all {
            black_box(&call(given));
        }
    });
}
