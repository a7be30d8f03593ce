//! docs/MANUAL.md is held to this library: each of its worked examples comes out as it says,
//! and its tables have the numbers that this library and the C header have.
//!
//! The examples stand in blocks marked `example`, an empty line between two. A line is a key,
//! a colon and a value. What is given comes first; each line `gives` says what comes out, its
//! first word which part of that. A key given twice goes on. A line with `->` is an example by
//! itself, with what the lines above it have given; what comes out stands behind each `->`. `;`
//! begins a remark; a comma parts fields, replies, operations and calls; bytes are hexadecimal.

use std::collections::BTreeSet;
use std::fs;
use std::path::Path;

use reference::demands::{self, Demand, Queued};
use reference::names::code_name;
use reference::reply::{self, Reply, Response};
use reference::words::{decode, Camac, Transfer};
use reference::{admit, last_moved, run_row, scalers, start, status, step, steps};
use reference::{Operation, Record, Refusal, StepsAnswer};

/// The fewest examples that the manual may have.
const FEWEST: usize = 110;

/// What an example may give.
const KEYS: [&str; 11] = [
    "list",
    "incoming",
    "outgoing",
    "from",
    "replies",
    "words",
    "reply",
    "to binary",
    "to decimal",
    "demands",
    "queue",
];

/// The incoming bytes where an example names no other number.
const INCOMING: usize = 65_536;

fn document(path: &str) -> String {
    let root = Path::new(env!("CARGO_MANIFEST_DIR")).join("../..");
    fs::read_to_string(root.join(path)).expect("a document")
}

fn manual() -> String {
    document("docs/MANUAL.md")
}

// The examples ------------------------------------------------------------------------------

#[derive(Clone, Default)]
struct Example {
    /// The number of its first line.
    line: usize,
    given: Vec<(String, String)>,
    gives: Vec<String>,
    /// Whether examples of one line have what it gives in common.
    is_common: bool,
}

impl Example {
    /// What its lines of a key say, joined.
    fn given(&self, key: &str) -> Option<String> {
        let own = self.given.iter().filter(|(k, _)| k == key);
        let values: Vec<&str> = own.map(|(_, value)| value.as_str()).collect();
        (!values.is_empty()).then(|| values.join(", "))
    }

    fn bytes(&self, key: &str) -> Vec<u8> {
        self.given(key).map_or(Vec::new(), |value| bytes(&value))
    }

    fn add(&mut self, number: usize, line: &str) {
        let (key, value) = line.split_once(':').expect("a key and a value");
        let (key, value) = (key.trim().to_string(), value.trim().to_string());
        if self.line == 0 {
            self.line = number;
        }
        match key.as_str() {
            "gives" => self.gives.push(value),
            known if KEYS.contains(&known) => self.given.push((key, value)),
            _ => panic!("line {number}: no example has {key}"),
        }
    }

    /// The example of one line; none where the line goes on with this one.
    fn of_line(&mut self, number: usize, line: &str) -> Option<Example> {
        let (given, gives) = line.split_once("->")?;
        self.is_common = true;
        let gives = gives.split("->").map(|part| part.trim().to_string());
        let mut own = Example {
            line: number,
            gives: gives.collect(),
            is_common: false,
            ..self.clone()
        };
        own.add(number, given);
        Some(own)
    }

    /// Itself, unless it only has what examples of one line have in common.
    fn whole(self) -> Option<Example> {
        let is_example = !self.is_common || !self.gives.is_empty();
        is_example.then_some(self)
    }
}

fn examples(manual: &str) -> Vec<Example> {
    let mut found = Vec::new();
    let mut open: Option<Example> = None;
    for (number, line) in (1..).zip(manual.lines()) {
        let text = line.split(';').next().unwrap_or_default().trim();
        match (&mut open, line) {
            (None, "```example") => open = Some(Example::default()),
            (Some(_), "```") => found.extend(open.take().and_then(Example::whole)),
            (Some(_), "") => {
                found.extend(open.replace(Example::default()).and_then(Example::whole))
            }
            (Some(_), _) if text.is_empty() => {}
            (Some(example), _) => match example.of_line(number, text) {
                Some(own) => found.push(own),
                None => example.add(number, text),
            },
            (None, _) => {}
        }
    }
    found
}

/// Bytes in hexadecimal; a part may be so many `times` some bytes.
fn bytes(text: &str) -> Vec<u8> {
    let byte = |digits: &str| u8::from_str_radix(digits, 16).expect("a byte");
    let all = |part: &str| part.split_whitespace().map(byte).collect::<Vec<u8>>();
    let part = |part: &str| match part.split_once(" times ") {
        Some((count, part)) => all(part).repeat(count.trim().parse().expect("a number")),
        None => all(part),
    };
    text.split(',').flat_map(part).collect()
}

fn shown(bytes: &[u8]) -> String {
    let digits: Vec<String> = bytes.iter().map(|byte| format!("{byte:02X}")).collect();
    match digits.as_slice() {
        [] => "nothing".to_string(),
        _ => digits.join(" "),
    }
}

fn joined(parts: impl Iterator<Item = String>) -> String {
    parts.collect::<Vec<_>>().join(", ")
}

fn refused(Refusal { number, place }: Refusal) -> String {
    format!("refused {number} {place}")
}

/// What a line `gives` with this first word has to say.
fn outcome(example: &Example, word: &str) -> String {
    if example.given("list").is_some() {
        Run::of(example).outcome(word)
    } else if let Some(words) = example.given("words") {
        decoded(&words)
    } else if let Some(reply) = example.given("reply") {
        read_reply(&bytes(&reply))
    } else if let Some(calls) = example.given("demands") {
        demanded(example, &calls, word)
    } else if example.given("to binary").is_some() {
        converted(example.bytes("to binary"), scalers::to_binary)
    } else {
        converted(example.bytes("to decimal"), scalers::to_decimal)
    }
}

/// The lines of an example that say something else than comes out.
fn faults(example: &Example) -> Vec<String> {
    let mut found = Vec::new();
    for gives in &example.gives {
        let word = gives.split_whitespace().next().unwrap_or_default();
        let outcome = outcome(example, word);
        if *gives != outcome {
            let line = example.line;
            found.push(format!("line {line}: not `{gives}` but `{outcome}`"));
        }
    }
    found
}

// Runs --------------------------------------------------------------------------------------

/// What a run is given.
struct Run {
    list: Vec<u8>,
    incoming: usize,
    outgoing: Vec<u8>,
    from: Option<Record>,
    row: Vec<u8>,
}

/// What a run comes to.
struct Made {
    at_once: StepsAnswer,
    /// Those that replies were taken for.
    operations: Vec<Operation>,
    incoming: Vec<u8>,
}

fn record_of(text: &str) -> Record {
    let numbers: Vec<&str> = text.split_whitespace().collect();
    let number = |(at, text): (usize, &&str)| {
        let base = if at == 9 { 16 } else { 10 };
        u64::from_str_radix(text, base).expect("a number")
    };
    let numbers: Vec<u64> = numbers.iter().enumerate().map(number).collect();
    let numbers = numbers.try_into().expect("thirteen numbers");
    Record::from_numbers(&numbers).expect("a record")
}

fn shown_record(record: &Record) -> String {
    let number = |(at, number): (usize, u64)| match at {
        9 => format!("{number:08X}"),
        _ => number.to_string(),
    };
    let numbers = record.numbers().into_iter().enumerate().map(number);
    numbers.collect::<Vec<_>>().join(" ")
}

fn shown_operation(operation: &Operation) -> String {
    let Operation {
        crate_number,
        n,
        a,
        f,
        data,
        enhanced,
    } = *operation;
    let enhanced = u8::from(enhanced);
    format!("{crate_number} {n} {a} {f} {data:X}h {enhanced}")
}

impl Run {
    fn of(example: &Example) -> Run {
        let length = |text: String| text.parse().expect("a length");
        Run {
            list: example.bytes("list"),
            incoming: example.given("incoming").map_or(INCOMING, length),
            outgoing: example.bytes("outgoing"),
            from: example.given("from").map(|text| record_of(&text)),
            row: example.bytes("replies"),
        }
    }

    /// A row taken by one call, from the record or from the list's start; the whole run does
    /// not say which operation is wanted.
    fn at_once(&self, incoming: &mut [u8], row: &[u8]) -> StepsAnswer {
        if let Some(record) = &self.from {
            return steps(&self.list, record, incoming, &self.outgoing, row);
        }
        let answer = run_row(&self.list, incoming, &self.outgoing, row);
        StepsAnswer {
            refusal: answer.refusal,
            taken: answer.taken,
            record: answer.record,
            wanted: Operation::default(),
        }
    }

    /// The record and the operation wanted before the first reply.
    fn first(&self, incoming: &mut [u8]) -> (Record, Operation) {
        match self.from {
            Some(_) => {
                let answer = self.at_once(incoming, &[]);
                (answer.record, answer.wanted)
            }
            None => {
                let answer = start(&self.list, incoming, &self.outgoing);
                (answer.record, answer.wanted)
            }
        }
    }

    /// Made by one call over the row, and by single steps, which have to come to the same.
    fn made(&self) -> Made {
        let mut incoming = vec![0; self.incoming];
        let mut made = Made {
            at_once: self.at_once(&mut incoming, &self.row),
            operations: Vec::new(),
            incoming,
        };
        if made.at_once.refusal.is_none() {
            let mut incoming = vec![0; self.incoming];
            let (mut record, mut wanted) = self.first(&mut incoming);
            for reply in self.row.chunks(8).take(made.at_once.taken as usize) {
                made.operations.push(wanted);
                let answer = step(&self.list, &record, &mut incoming, &self.outgoing, reply);
                assert_eq!(answer.refusal, None);
                (record, wanted) = (answer.record, answer.wanted);
            }
            assert_eq!(record, made.at_once.record);
            assert!(incoming == made.incoming, "the incoming bytes differ");
            made.at_once.wanted = wanted;
        }
        made
    }

    fn admitted(&self) -> String {
        let outgoing = self.outgoing.len() as u64;
        match admit(&self.list, self.incoming as u64, outgoing) {
            Ok(counts) => format!("admitted {} {} {}", counts.w, counts.b, counts.o),
            Err(refusal) => refused(refusal),
        }
    }

    fn outcome(&self, word: &str) -> String {
        let made = self.made();
        let StepsAnswer {
            refusal,
            taken,
            record,
            wanted,
        } = made.at_once;
        match word {
            "admitted" => self.admitted(),
            "refused" => refusal.map_or("not refused".to_string(), refused),
            "taken" => format!("taken {taken}"),
            "operations" => {
                let operations = made.operations.iter().map(shown_operation);
                format!("operations {}", joined(operations))
            }
            "wanted" => format!("wanted {}", shown_operation(&wanted)),
            "end" | "waiting" => ending(&record),
            "record" => format!("record {}", shown_record(&record)),
            "stored" => {
                let mark = record.incoming_mark as usize;
                format!("stored {}", shown(&made.incoming[..mark]))
            }
            "last" => {
                let (buffer, part) = last_moved(&made.incoming, &self.outgoing, &record.note);
                format!("last {buffer} {}", shown(part))
            }
            _ => format!("nothing named {word}"),
        }
    }
}

fn ending(record: &Record) -> String {
    let (code, status) = (status::code(record.status), record.status);
    if record.ended {
        format!("end {code:X} {status:08X}")
    } else {
        format!("waiting {status:08X}")
    }
}

// Words and replies -------------------------------------------------------------------------

fn decoded(words: &str) -> String {
    let mut longwords = words.split_whitespace().map(|digits| {
        let digits = digits.trim_end_matches('h');
        u32::from_str_radix(digits, 16).expect("a longword")
    });
    let first = longwords.next().expect("a first longword");
    match decode(first, longwords.next()) {
        Ok(camac) => shown_words(&camac),
        Err(number) => format!("refused {number}"),
    }
}

fn shown_words(camac: &Camac) -> String {
    let address = camac.address;
    let (c, n, a, f) = (
        address.crate_number,
        address.station,
        address.subaddress,
        address.function,
    );
    let transfer = match camac.transfer {
        Transfer::Single => "single".to_string(),
        Transfer::Block { words } => format!("block of {words}"),
        Transfer::Enhanced { words } => format!("enhanced block of {words}"),
        Transfer::Sequencer { words } => format!("list sequencer block of {words}"),
        Transfer::Inline { data } => format!("inline {data:X}h"),
    };
    let q_mode = format!("{:?}", camac.q_mode).to_lowercase();
    let direction = format!("{:?}", camac.direction()).to_lowercase();
    let bits = if camac.size.bytes() == 2 { 16 } else { 24 };
    let ad = u8::from(camac.abort_disable);
    format!("crate {c} N {n} A {a} F {f} {direction}, {transfer}, {q_mode}, {bits}-bit, AD {ad}")
}

fn read_reply(bytes: &[u8]) -> String {
    match reply::read(bytes) {
        Some(Reply::Answer(response)) => shown_response(&response),
        Some(Reply::Timeout) => "timeout".to_string(),
        Some(Reply::NotRecognised) => "address not recognised".to_string(),
        Some(Reply::NoSync) => "no sync".to_string(),
        None => refused(Refusal::plain(22)),
    }
}

fn shown_response(response: &Response) -> String {
    let flags = [
        (response.q, "Q"),
        (response.x, "X"),
        (response.err, "ERR"),
        (response.derr, "DERR"),
        (response.tpe, "TPE"),
        (response.lpe, "LPE"),
    ];
    let set = flags.into_iter().filter(|flag| flag.0);
    let names: String = set.map(|(_, name)| format!(" {name}")).collect();
    format!("answer{names}, data {:06X}h", response.data)
}

// Scalers and demands -----------------------------------------------------------------------

fn converted(mut row: Vec<u8>, call: fn(&mut [u8]) -> Result<(), Refusal>) -> String {
    match call(&mut row) {
        Ok(()) => format!("row {}", shown(&row)),
        Err(refusal) => refused(refusal),
    }
}

/// The answers of some calls on a queue, or what it is after them. It is empty, but for bytes
/// that are given from an offset on.
fn demanded(example: &Example, calls: &str, word: &str) -> String {
    let mut queue = vec![0; demands::QUEUE_BYTES];
    if let Some(queued) = example.given("queue") {
        let (offset, own) = queued.split_once(' ').expect("an offset and bytes");
        let (offset, own) = (offset.parse::<usize>().expect("an offset"), bytes(own));
        queue[offset..offset + own.len()].copy_from_slice(&own);
    }
    let answers = joined(calls.split(',').map(|call| called(&mut queue, call.trim())));
    let [first, waiting] = [demands::FIRST, demands::WAITING].map(|at| demands::number(&queue, at));
    match word {
        "answers" => format!("answers {answers}"),
        "queue" => format!("queue {first} {waiting} {}", queue[demands::OVERFLOW]),
        "cells" => format!("cells {}", shown(&queue[..8])),
        _ => format!("nothing named {word}"),
    }
}

fn called(queue: &mut [u8], call: &str) -> String {
    let (name, rest) = call.split_once(' ').unwrap_or((call, ""));
    let taken = |(demand, queued): (Option<Demand>, Queued)| {
        let demand = demand.map_or("none".to_string(), |demand| shown(&demand.bytes()));
        format!("{} {demand}", shown_queued(queued))
    };
    let answer = match name {
        "add" => demands::add(queue, demand(&bytes(rest))).map(shown_queued),
        "row" => demands::add_row(queue, &bytes(rest)).map(shown_queued),
        "clear" => demands::clear(queue).map(shown_queued),
        _ => demands::take(queue).map(taken),
    };
    answer.unwrap_or_else(refused)
}

fn demand(bytes: &[u8]) -> Demand {
    Demand::of(bytes.try_into().expect("a demand"))
}

fn shown_queued(Queued { waiting, overflow }: Queued) -> String {
    format!("{waiting} {}", u8::from(overflow))
}

// Tables ------------------------------------------------------------------------------------

/// The rows of the table whose first row begins with these cells, without its rule.
fn table(manual: &str, head: &str) -> Vec<Vec<String>> {
    let rows = manual.lines().skip_while(|line| !line.starts_with(head));
    let rows = rows.skip(2).take_while(|line| line.starts_with('|'));
    let cells = |line: &str| {
        let inner = line.trim_matches('|');
        inner
            .split('|')
            .map(|cell| cell.trim().to_string())
            .collect()
    };
    rows.map(cells).collect()
}

/// The numbers of the header's constants whose names begin so, in its order.
fn header_numbers(head: &str) -> Vec<u32> {
    let header = document("include/camlist.h");
    let defined = header.lines().filter_map(|line| {
        let mut words = line.strip_prefix("#define ")?.split_whitespace();
        words.next().filter(|name| name.starts_with(head))?;
        words.next()
    });
    let number = |text: &str| match text.strip_prefix("0x") {
        Some(digits) => u32::from_str_radix(digits.trim_end_matches('u'), 16),
        None => text.parse(),
    };
    defined
        .map(|text| number(text).expect("a number"))
        .collect()
}

/// Every word behind another one in what the examples give.
fn words_behind(manual: &str, word: &str) -> Vec<String> {
    let gives = examples(manual).into_iter().flat_map(|e| e.gives);
    let words: Vec<String> = gives
        .flat_map(|g| g.split([' ', ',']).map(String::from).collect::<Vec<_>>())
        .collect();
    let behind = words.windows(2).filter(|pair| pair[0] == word);
    behind.map(|pair| pair[1].clone()).collect()
}

#[test]
fn examples_come_out() {
    let examples = examples(&manual());
    let count = examples.len();
    assert!(count >= FEWEST, "{count} examples");
    let empty = examples.iter().find(|example| example.gives.is_empty());
    assert!(empty.is_none_or(|e| panic!("line {}: it gives nothing", e.line)));
    let faults: Vec<String> = examples.iter().flat_map(faults).collect();
    assert!(faults.is_empty(), "\n{}", faults.join("\n"));
}

/// The table of a list's bytes has those of the first example, each field at its place.
#[test]
fn the_list_by_bytes_is_the_first_example() {
    let manual = manual();
    let mut list = Vec::new();
    for row in table(&manual, "| Place | Bytes |") {
        assert_eq!(row[0], list.len().to_string());
        list.extend(bytes(&row[1]));
    }
    assert_eq!(list, examples(&manual)[0].bytes("list"));
}

/// The refusals stand in the header's order, which is that in which they are judged, and each
/// has an example.
#[test]
fn refusals_are_the_headers() {
    let manual = manual();
    let rows = table(&manual, "| Refusal |");
    let listed: Vec<u32> = rows.iter().map(|row| row[0].parse().unwrap()).collect();
    assert_eq!(listed, header_numbers("CAMLIST_REFUSED_"));
    let shown = words_behind(&manual, "refused");
    let shown: BTreeSet<u32> = shown.iter().map(|number| number.parse().unwrap()).collect();
    assert_eq!(shown, listed.into_iter().collect());
}

/// All sixteen codes have their names; those that a run can end with are the causes' and 0,
/// and each has an example.
#[test]
fn codes_have_their_names() {
    let manual = manual();
    let rows = table(&manual, "| Code | Name |");
    let names: Vec<String> = (0..16)
        .map(|code| String::from_utf8_lossy(code_name(code)).into_owned())
        .collect();
    let numbers: Vec<String> = (0..16).map(|code| format!("{code:X}")).collect();
    let column = |at: usize| rows.iter().map(|row| row[at].clone()).collect::<Vec<_>>();
    assert_eq!((column(0), column(1)), (numbers, names));
    let causes = table(&manual, "| Cause | Code |");
    let causes = causes.into_iter().map(|row| row[1].clone());
    let reached: BTreeSet<String> = causes.chain(["0".to_string()]).collect();
    let shown = words_behind(&manual, "end").into_iter().collect();
    assert_eq!(reached, shown);
}

/// From the highest bit down.
const STATUS_BITS: [u32; 12] = [
    status::DERR,
    status::TIMEOUT,
    status::NO_SYNC,
    status::ERR,
    status::SCAN_LEFT,
    status::LPE,
    status::TPE,
    status::NOT_RECOGNISED,
    status::TRANSMISSION,
    status::NO_X,
    status::NO_Q,
    status::ENDED,
];

/// The status bits are this library's, with those that a waiting record may have; each is set
/// in an example.
#[test]
fn status_bits_are_the_librarys() {
    let manual = manual();
    let rows = table(&manual, "| Bit |");
    let bits: Vec<u32> = rows[1..]
        .iter()
        .map(|row| 1 << row[0].parse::<u32>().unwrap())
        .collect();
    assert_eq!(
        (rows[0][0].as_str(), bits.as_slice()),
        ("31 to 28", &STATUS_BITS[..])
    );
    assert_eq!(bits, header_numbers("CAMLIST_STATUS_"));
    let may_wait = rows[1..]
        .iter()
        .zip(&bits)
        .filter(|(row, _)| row[2] == "yes");
    assert_eq!(may_wait.fold(0, |all, (_, bit)| all | bit), status::FLAGS);
    let shown = examples(&manual).into_iter().flat_map(|e| e.gives);
    let statuses = shown.filter_map(|gives| {
        let words: Vec<&str> = gives.split(' ').collect();
        let is_end = words[0] == "end";
        is_end.then(|| u32::from_str_radix(words[2], 16).expect("a status"))
    });
    let set = statuses.fold(0, |all, status| all | status);
    assert_eq!(
        STATUS_BITS.iter().filter(|&bit| set & bit == 0).count(),
        0,
        "{set:08X}"
    );
}
