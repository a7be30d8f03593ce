//! Times the proved engine beside the separate build's plain loop: same process, same
//! inputs, in turns. `cargo run --release -p bench`.

use bench::{admissions, demands, queue, scalers, workloads, Workload, DEMANDS, SCALERS};
use camlist::ffi;
use reference::cases::scalers::Way;
use reference::demands::Demand;
use reference::plain;
use std::hint::black_box;
use std::time::Instant;

/// Turns that each engine gets; the median counts.
const TURNS: usize = 31;

/// Seconds that each engine took, and their ratio: medians over the turns.
struct Times {
    proved: f64,
    plain: f64,
    ratio: f64,
}

fn seconds<Answer>(call: impl FnOnce() -> Answer) -> f64 {
    let start = Instant::now();
    black_box(call());
    start.elapsed().as_secs_f64()
}

fn median(mut values: Vec<f64>) -> f64 {
    values.sort_by(f64::total_cmp);
    values[values.len() / 2]
}

fn compare<A, B>(mut proved: impl FnMut() -> A, mut plain: impl FnMut() -> B) -> Times {
    let turn = |_| (seconds(&mut proved), seconds(&mut plain));
    let turns: Vec<_> = (0..TURNS).map(turn).collect();
    Times {
        proved: median(turns.iter().map(|turn| turn.0).collect()),
        plain: median(turns.iter().map(|turn| turn.1).collect()),
        ratio: median(turns.iter().map(|turn| turn.0 / turn.1).collect()),
    }
}

fn compare_runs(workload: &Workload, row: &[u8]) -> Times {
    let Workload { list, outgoing, .. } = workload;
    let mut proved_incoming = vec![1; workload.incoming_len];
    let mut plain_incoming = vec![1; workload.incoming_len];
    let times = compare(
        || ffi::run(list, &mut proved_incoming, outgoing, row),
        || plain::run_row(list, &mut plain_incoming, outgoing, row),
    );
    assert!(proved_incoming == plain_incoming, "the engines differ");
    times
}

/// A row of scalers to binary and back.
fn compare_scalers() -> Times {
    let given = scalers(Way::ToBinary);
    let (mut proved, mut plain) = (given.clone(), given.clone());
    let times = compare(
        || [ffi::to_binary(&mut proved), ffi::to_decimal(&mut proved)],
        || {
            plain::scalers::to_binary(&mut plain)?;
            plain::scalers::to_decimal(&mut plain)
        },
    );
    assert!(proved == given && plain == given, "a row did not come back");
    times
}

/// A row of demands into an empty queue, which is cleared again.
fn compare_demand_rows() -> Times {
    let row = demands();
    let (mut proved, mut plain) = (queue(false), queue(false));
    let times = compare(
        || {
            [
                ffi::demand_row(&mut proved, &row),
                ffi::demand_clear(&mut proved),
            ]
        },
        || {
            plain::demands::add_row(&mut plain, &row)?;
            plain::demands::clear(&mut plain)
        },
    );
    assert!(proved == plain, "the queues differ");
    times
}

/// As many demands, each added and taken again.
fn compare_single_demands() -> Times {
    let row = demands();
    let (mut proved, mut plain) = (queue(false), queue(false));
    let (demands, _) = row.as_chunks();
    let times = compare(
        || {
            for &[crate_number, sgl] in demands {
                black_box(ffi::demand_add(&mut proved, crate_number, sgl));
                black_box(ffi::demand_take(&mut proved));
            }
        },
        || {
            for &demand in demands {
                let _ = black_box(plain::demands::add(&mut plain, Demand::of(demand)));
                let _ = black_box(plain::demands::take(&mut plain));
            }
        },
    );
    assert!(proved == plain, "the queues differ");
    times
}

fn main() {
    print_runs();
    print_admissions();
    print_scalers();
    print_demands();
}

fn print_runs() {
    println!("Whole runs, admission and the row's check included. Nanoseconds a reply, medians of {TURNS} turns.");
    println!(
        "Incoming buffers are written once before the first turn and not cleared between turns."
    );
    println!(
        "{:<22} {:<7} {:>8} {:>8} {:>8} {:>7}",
        "list", "answers", "replies", "proved", "plain", "ratio"
    );
    for workload in workloads() {
        for &answers in workload.answers {
            let row = workload.row(answers);
            let answers = answers.name();
            let times = compare_runs(&workload, &row);
            let replies = row.len() / 8;
            let each = |seconds: f64| seconds * 1e9 / replies as f64;
            let (proved, plain) = (each(times.proved), each(times.plain));
            println!(
                "{:<22} {answers:<7} {replies:>8} {proved:>8.2} {plain:>8.2} {:>7.2}",
                workload.name, times.ratio
            );
        }
    }
}

fn print_admissions() {
    println!("\nAdmission. Microseconds a call.");
    println!(
        "{:<22} {:>8} {:>8} {:>7}",
        "list", "proved", "plain", "ratio"
    );
    for (name, list) in admissions() {
        let times = compare(
            || ffi::admit(&list, u64::MAX, u64::MAX),
            || plain::admit(&list, u64::MAX, u64::MAX),
        );
        let (proved, plain) = (times.proved * 1e6, times.plain * 1e6);
        println!("{name:<22} {proved:>8.1} {plain:>8.1} {:>7.2}", times.ratio);
    }
}

fn print_scalers() {
    println!("\nScalers to binary and back. Nanoseconds a longword.");
    println!(
        "{:<22} {:>8} {:>8} {:>7}",
        "longwords", "proved", "plain", "ratio"
    );
    print_each(&SCALERS.to_string(), &compare_scalers(), SCALERS);
}

fn print_demands() {
    println!("\nDemands. Nanoseconds a demand.");
    println!(
        "{:<22} {:>8} {:>8} {:>7}",
        "calls", "proved", "plain", "ratio"
    );
    print_each("row, clear", &compare_demand_rows(), DEMANDS);
    print_each("add, take of each", &compare_single_demands(), DEMANDS);
}

/// A line with the nanoseconds of one of so many.
fn print_each(name: &str, times: &Times, count: usize) {
    let each = |seconds: f64| seconds * 1e9 / count as f64;
    let (proved, plain) = (each(times.proved), each(times.plain));
    println!("{name:<22} {proved:>8.2} {plain:>8.2} {:>7.2}", times.ratio);
}
