//! Demands (document 02, E2): "Keep up to 2,048, oldest out first." Calls and results stand as in
//! the examples: bytes in hexadecimal, `fill N` for N demands 0101, and behind each result how
//! many wait and the overflow mark.

use super::Engine;
use crate::cases::demands::{empty, Call, Numbers};
use crate::demands::{number, Demand, OVERFLOW, WAITING};

/// Calls on an empty queue, and what each of them yields.
pub struct KnownDemands {
    calls: &'static str,
    pub results: &'static str,
}

/// The calls that `fill` stands for.
pub type Fill = fn(usize) -> Vec<Call>;

/// Demands 0101 by an add for each, or by one row.
pub const FILLS: [Fill; 2] = [
    |count| vec![Call::Add(Demand::of([1, 1])); count],
    |count| vec![Call::Row([1, 1].repeat(count))],
];

impl KnownDemands {
    /// Holds an engine against the calls.
    pub fn check(&self, engine: &Engine) {
        for fill in FILLS {
            let mut queue = empty();
            let mut results = Vec::new();
            for calls in self.calls(fill) {
                let (last, others) = calls.split_last().expect("a call");
                for call in others {
                    engine.demands.make(call, &mut queue);
                }
                let answer = engine.demands.make(last, &mut queue);
                results.push(result(last, &answer, &queue));
            }
            assert_eq!(results.join(";"), self.results, "{}", self.calls);
        }
    }

    /// The calls for each result, at least one.
    pub fn calls(&self, fill: Fill) -> Vec<Vec<Call>> {
        let calls = self.calls.split(';').map(|text| {
            let (word, rest) = text.split_once(' ').unwrap_or((text, ""));
            match word {
                "add" => {
                    let demand = digits(rest).try_into().expect("two bytes");
                    vec![Call::Add(Demand::of(demand))]
                }
                "row" => vec![Call::Row(digits(rest))],
                "fill" => fill(rest.parse().expect("a number")),
                "take" => vec![Call::Take],
                _ => vec![Call::Clear],
            }
        });
        calls.collect()
    }
}

/// Bytes in hexadecimal without blanks.
fn digits(text: &str) -> Vec<u8> {
    let pairs = text.as_bytes().chunks(2);
    let pairs = pairs.map(|pair| str::from_utf8(pair).expect("digits"));
    pairs
        .map(|pair| u8::from_str_radix(pair, 16).expect("two digits"))
        .collect()
}

/// A result as the examples have it. After a refusal, which yields zeros behind its place, the
/// queue says how many wait, and its mark.
pub fn result(call: &Call, answer: &Numbers, queue: &[u8]) -> String {
    let [refusal, place, after @ .., found, crate_number, sgl] = *answer;
    let kept @ [waiting, overflow] = [number(queue, WAITING) as u64, u64::from(queue[OVERFLOW])];
    let what = match (refusal, call, found) {
        (0, Call::Take, 0) => String::from("none"),
        (0, Call::Take, 1) => format!("{crate_number:02X}{sgl:02X}"),
        (0, _, 0) => String::from("ok"),
        _ => format!("refused {refusal} {place}"),
    };
    let expected = if refusal == 0 { kept } else { [0, 0] };
    assert_eq!(after, expected, "{what}");
    format!("{what} {waiting} {overflow}")
}

/// The examples.
pub fn known() -> [KnownDemands; 6] {
    let known = |calls, results| KnownDemands { calls, results };
    [
        known("take", "none 0 0"),
        known(
            "add 0105;add 0005;add 3F05;add 3E05;take;take;take",
            "ok 1 0;refused 25 0 1 0;refused 25 0 1 0;ok 2 0;0105 1 0;3E05 0 0;none 0 0",
        ),
        known(
            "row 01020304;row 010203;row 01020011;take",
            "ok 2 0;refused 25 0 2 0;refused 25 0 2 0;0102 1 0",
        ),
        known(
            "fill 2048;add 0177;take;add 0188;take;clear;take",
            "ok 2048 0;ok 2048 1;0101 2047 1;ok 2048 1;0101 2047 1;ok 0 0;none 0 0",
        ),
        known(
            "fill 2048;add 0077;take",
            "ok 2048 0;refused 25 0 2048 0;0101 2047 0",
        ),
        known(
            "fill 2047;row 02020303;take",
            "ok 2047 0;ok 2048 1;0101 2047 1",
        ),
    ]
}
