//! Program explain, as the kit builds it: what it says of a list and its run beside what the
//! separate build computes.

#![cfg(library)]

#[path = "common/explained.rs"]
mod explained;
#[path = "common/files.rs"]
mod files;
#[path = "common/folder.rs"]
mod folder;
#[path = "common/line.rs"]
mod line;
#[path = "common/told.rs"]
mod told;

use camlist::Reason;
use explained::{Effect, End, Ends, Explained, Field, Last, Moves, Parts, Place, Refused, Rule};
use explained::{Run, Said, Second, Share, Stretch, Visit, Walk, WalkEnd};
use files::Files;
use folder::{program, Folder};
use reference::camrun::MOST_BYTES;
use reference::cases::by_hand::*;
use reference::list::{self, FieldReader, Instruction};
use reference::names::code_name;
use reference::reply;
use reference::status;
use reference::walk::{admission, Admitted};
use reference::words::WordSize;
use reference::{last_moved, Record, Refusal};
use std::collections::BTreeSet;
use std::thread;
use told::{Event, Ran};

/// The most bytes that are shown of a buffer.
const SHOWN: usize = 40;

const FILES: [&str; 3] = ["run.lst", "run.rep", "run.out"];

const RANDOM_CASES: u64 = 1_000;

/// What has come up, or has to.
#[derive(Default)]
struct Met(BTreeSet<String>);

impl Met {
    fn add(&mut self, event: impl Into<String>) {
        self.0.insert(event.into());
    }

    fn add_all<T: Into<String>>(&mut self, events: impl IntoIterator<Item = T>) {
        self.0.extend(events.into_iter().map(T::into));
    }
}

/// A case, shown where it fails.
struct Case {
    files: Files,
    text: String,
}

impl Drop for Case {
    fn drop(&mut self) {
        if thread::panicking() {
            let [list, row, outgoing] = &self.files;
            eprintln!("run.lst {list:02X?}\nrun.rep {row:02X?}\nrun.out {outgoing:02X?}");
            eprintln!("{}", self.text);
        }
    }
}

#[test]
fn explanations() {
    let (program, folder) = (program("EXPLAIN", "explain"), Folder::new("explain"));
    let mut met = Met::default();
    let made = by_hand().into_iter().chain(damaged()).chain(placed());
    let cases = files::papers()
        .chain(files::random(RANDOM_CASES))
        .chain(files::long());
    for files in cases.chain(made) {
        let [list, row, outgoing] = &files;
        let text = folder.printed(&program, [Some(list), Some(row), Some(outgoing)]);
        compare(&Case { files, text }, &mut met);
    }
    let missing: Vec<_> = wanted_events().0.difference(&met.0).cloned().collect();
    assert!(missing.is_empty(), "never met: {missing:#?}");
}

/// A missing file is empty.
#[test]
fn missing_files() {
    let program = program("EXPLAIN", "explain");
    let folder = Folder::new("explain-missing");
    let all = [one(&single(0x0200_0102)), ok(1).to_vec(), vec![9; 9]];
    for kept in 0..8 {
        let files = [0, 1, 2].map(|i| (kept >> i & 1 == 1).then_some(all[i].as_slice()));
        let text = folder.printed(&program, files);
        let files = files.map(|file| file.unwrap_or_default().to_vec());
        compare(&Case { files, text }, &mut Met::default());
    }
}

/// Every event that has to come up.
fn wanted_events() -> Met {
    let refusals = (1..=11).chain([20, 21, 22]);
    let timeouts = ["B by timeout", "B by tries"];
    let codes = ["0", "4", "7", "8", "9", "A", "C", "D"]
        .into_iter()
        .chain(timeouts);
    let bits = (16..=26).chain([7]);
    let effects = [
        Effect::Stored,
        Effect::StoredWithQAndX,
        Effect::Taken,
        Effect::Done,
        Effect::Closed,
        Effect::TriedAgain,
        Effect::NextStation,
        Effect::Nothing,
    ];
    let mut events = wanted_field_events();
    events.add_all(refusals.map(|number| format!("refused {number}")));
    events.add_all(codes.map(|code| format!("code {code}")));
    events.add_all(bits.map(|bit| format!("bit {bit}")));
    events.add_all(effects.map(|effect| format!("{effect:?}")));
    events.add_all(["waits", "1 behind the end", "several behind the end"]);
    events.add("operations in one line");
    events.add_all(wanted_place_events().0);
    events.add_all(wanted_walk_events().0);
    events
}

/// What comes up with refused fields, places of words, and buffers.
fn wanted_place_events() -> Met {
    let mut events = Met::default();
    for effect in ["Stored", "StoredWithQAndX", "Taken"] {
        events.add_all(["in one line", "then the run ends"].map(|how| format!("{effect}, {how}")));
    }
    events.add_all(["StoredWithQAndX, behind a pad", "Taken, behind a pad"]);
    for number in 6..=9 {
        let seconds: &[&str] = match number {
            9 => &["count", "data"],
            _ => &["none", "count", "data"],
        };
        events.add_all(
            seconds
                .iter()
                .map(|second| format!("{number}, second {second}")),
        );
    }
    events.add_all([16, 24].map(|bits| format!("refused field of {bits} bits")));
    for buffer in ["incoming", "outgoing"] {
        events.add_all(["none", "some", "40", "more"].map(|bytes| format!("{buffer} {bytes}")));
    }
    for name in FILES {
        events.add_all(["full", "not full"].map(|how| format!("{name} {how}")));
    }
    events
}

/// What comes up with walks.
fn wanted_walk_events() -> Met {
    let mut events = Met::default();
    events.add_all([
        "a walk again",
        "again at 0",
        "again behind 0",
        "again at once",
    ]);
    events.add("a walk past the last field");
    events.add_all(["words", "1 word", "tries", "1 try", "no share"]);
    events.add_all([
        "scan by words",
        "scan by positions",
        "1 station",
        "1 position",
    ]);
    events.add_all(["read", "write", "literal"].map(|what| format!("a pad before a {what}")));
    events
}

/// What comes up with a field.
fn field_events(said: &Said) -> Vec<String> {
    let Said::Camac(command) = said else {
        return Vec::new();
    };
    let moves = match &command.moves {
        Moves::Nothing => String::from("control"),
        Moves::Own(size, _) => format!("own word of {size:?}"),
        Moves::Words(kind, direction, _, size) => format!("{kind:?} {direction:?} {size:?}"),
    };
    let rule = match command.rule {
        Rule::Repeat(_) => String::from("Repeat"),
        rule => format!("{rule:?}"),
    };
    let function = format!("function {:?}", command.function);
    let rule = format!("{rule}, AD {}", u8::from(command.abort_disable));
    vec![moves, rule, function]
}

/// The events of [`field_events`].
fn wanted_field_events() -> Met {
    let mut events = Met::default();
    events.add("control");
    for size in ["Bits16", "Bits24"] {
        events.add(format!("own word of {size}"));
        for kind in ["Single", "Block", "Enhanced"] {
            events.add_all(["Read", "Write"].map(|way| format!("{kind} {way} {size}")));
        }
    }
    for rule in ["StopEnds", "StopCloses", "Ignore", "Repeat", "Scan"] {
        events.add_all([0, 1].map(|ad| format!("{rule}, AD {ad}")));
    }
    let functions = ["Read", "Write", "Control", "Sequencer"];
    events.add_all(functions.map(|function| format!("function {function}")));
    events
}

fn compare(case: &Case, met: &mut Met) {
    let [list, row, outgoing] = &case.files;
    let [list, row, outgoing] =
        [list, row, outgoing].map(|file| &file[..file.len().min(MOST_BYTES)]);
    let said = explained::read(&case.text);
    let full = [list, row, outgoing].map(|file| file.len() == MOST_BYTES);
    assert_eq!(said.full, full, "files that fill their buffers");
    met.add_all(FILES.iter().zip(full).map(|(name, is_full)| {
        let how = if is_full { "full" } else { "not full" };
        format!("{name} {how}")
    }));
    assert_eq!(said.size, list.len() as u64);
    let read = list::read(list);
    compare_fields(list, read.as_ref().err(), &said, met);
    if let Ok(read) = &read {
        compare_walk(read, said.walk.as_ref().expect("a walk"), met);
    } else {
        assert!(said.walk.is_none());
    }
    let admitted = admission(list, MOST_BYTES as u64, outgoing.len() as u64);
    match (&admitted, &said.admission) {
        (Ok(admitted), Ok(counts)) => {
            let walk = said.walk.as_ref().expect("a walk");
            compare_admitted(admitted, counts, walk);
            let run = said.run.as_ref().expect("a run");
            compare_run(admitted, row, outgoing, run, met);
        }
        (Err(refusal), Err(refused)) => {
            met.add(format!("refused {}", refusal.number));
            compare_refused(refusal, refused);
            compare_expected(list, outgoing, refused);
        }
        (expected, _) => panic!("admission: {expected:?}"),
    }
}

/// The fields before the refused one, or all: place, number and what is said of each.
fn compare_fields(list: &[u8], refusal: Option<&Refusal>, said: &Explained, met: &mut Met) {
    let refusal = refusal.filter(|refusal| refusal.number != 10);
    let end = refusal.map_or(list.len(), |refusal| refusal.place);
    let limit = (end > 0).then(|| u64::from(u16::from_le_bytes([list[5], list[6]])));
    assert_eq!(said.limit, limit, "R");
    let mut fields = said.fields.iter();
    let mut reader = FieldReader::new(&list[..end]);
    let mut number = 0;
    while let Some(field) = reader.next_field().expect("whole fields") {
        if field.place == 0 {
            continue;
        }
        let shown = fields.next().expect("a field more");
        let instruction = list::instruction(&field).expect("a field that is right");
        assert_eq!([shown.place, shown.number], [field.place as u64, number]);
        assert_eq!(shown.said, told::said(&instruction, limit.unwrap_or(0)));
        met.add_all(field_events(&shown.said));
        number += 1;
    }
    match refusal {
        Some(refusal) if refusal.number >= 6 => {
            let wrong = fields.next().expect("the refused field");
            assert_eq!([wrong.place, wrong.number], [refusal.place as u64, number]);
            compare_wrong(&list[refusal.place..], refusal.number, wrong, met);
        }
        _ => {}
    }
    assert!(fields.next().is_none(), "fields behind the last");
}

/// A field that 6 to 9 refuses is shown by its parts.
fn compare_wrong(field: &[u8], refusal: u8, shown: &Field, met: &mut Met) {
    let Said::Refused(parts) = &shown.said else {
        panic!("a refused field: {:?}", shown.said);
    };
    assert_eq!(parts, &told::parts(field));
    met.add_all(part_events(refusal, parts));
}

fn part_events(refusal: u8, parts: &Parts) -> [String; 2] {
    let second = match parts.second {
        None => "none",
        Some(Second::Count(_)) => "count",
        Some(Second::Data(_)) => "data",
        Some(Second::Longword(_)) => "longword of a single",
    };
    let bits = match parts.size {
        WordSize::Bits16 => 16,
        WordSize::Bits24 => 24,
    };
    [
        format!("{refusal}, second {second}"),
        format!("refused field of {bits} bits"),
    ]
}

/// Every visit, none of an instruction that was visited, and where the walk ends.
fn compare_walk(list: &list::List, walk: &Walk, met: &mut Met) {
    let mut visited = BTreeSet::new();
    for visit in &walk.visits {
        let is_new = visited.insert(visit.instruction);
        assert!(is_new, "instruction {} is told twice", visit.instruction);
    }
    let expected = told::walk(list);
    for (visit, expected) in walk.visits.iter().zip(&expected.visits) {
        assert_eq!(visit, expected);
        let instruction = &list.instructions[visit.instruction as usize];
        met.add_all(visit_events(visit, instruction));
    }
    assert_eq!(walk.visits.len(), expected.visits.len(), "visits");
    assert_eq!(walk.end, expected.end);
    match walk.end {
        WalkEnd::Halt(_) => {}
        WalkEnd::Again(number) => {
            assert!(visited.contains(&number), "{number} comes the first time");
            met.add_all(again_events(number, walk));
        }
        WalkEnd::Passes => met.add("a walk past the last field"),
    }
}

fn again_events(number: u64, walk: &Walk) -> Vec<&'static str> {
    let last = walk.visits.last().map(|visit| visit.instruction);
    let mut events = vec!["a walk again"];
    events.push(if number == 0 {
        "again at 0"
    } else {
        "again behind 0"
    });
    if last == Some(number) {
        events.push("again at once");
    }
    events
}

/// What comes up with a visit.
fn visit_events(visit: &Visit, instruction: &Instruction) -> Vec<&'static str> {
    let mut events = match visit.share {
        None => vec!["no share"],
        Some(Share::Words(1)) => vec!["1 word"],
        Some(Share::Words(_)) => vec!["words"],
        Some(Share::Repeat { tries: 1, .. }) => vec!["1 try"],
        Some(Share::Repeat { .. }) => vec!["tries"],
        Some(Share::Scan {
            stations,
            positions,
            ..
        }) => scan_events(visit.operations, stations, positions),
    };
    if visit.has_pad {
        events.push(match instruction {
            Instruction::Literal(_) => "a pad before a literal",
            _ if visit.incoming[0] < visit.incoming[1] => "a pad before a read",
            _ => "a pad before a write",
        });
    }
    events
}

fn scan_events(operations: u64, stations: u64, positions: u64) -> Vec<&'static str> {
    let by_positions = operations == positions;
    let mut events = vec![if by_positions {
        "scan by positions"
    } else {
        "scan by words"
    }];
    if stations == 1 {
        events.push("1 station");
    }
    if positions == 1 {
        events.push("1 position");
    }
    events
}

/// W, B and O, which are also the sum and the last marks of the walk.
fn compare_admitted(admitted: &Admitted, said: &[u64; 3], walk: &Walk) {
    let counts = admitted.counts;
    assert_eq!(said, &[counts.w, counts.b, counts.o]);
    let visited = walk.visits.iter().map(|visit| visit.instruction as usize);
    let WalkEnd::Halt(halt) = walk.end else {
        panic!("no halt: {:?}", walk.end);
    };
    let visited: Vec<_> = visited.chain([halt as usize]).collect();
    assert_eq!(visited, admitted.walk);
    let sum: u64 = walk.visits.iter().map(|visit| visit.operations).sum();
    let last = walk.visits.last();
    let marks = last.map_or([0, 0], |visit| [visit.incoming[1], visit.outgoing[1]]);
    assert_eq!([sum, marks[0], marks[1]], *said);
}

fn compare_refused(refusal: &Refusal, said: &Refused) {
    assert_eq!(said.number, u64::from(refusal.number));
    assert_eq!(said.place, refusal.place as u64);
    let mut reasons = Reason::ALL.into_iter();
    let reason = reasons.find(|reason| reason.number() == said.number);
    assert_eq!(said.reason, reason.expect("a reason").to_string());
}

/// What was expected instead of a refused field, and the bytes that are there.
fn compare_expected(list: &[u8], outgoing: &[u8], said: &Refused) {
    let place = said.place as usize;
    let expected = match said.number {
        10 => {
            let fields = told::field_count(list) - 1;
            format!("the number of an instruction of this list, less than {fields}")
        }
        20 | 21 => {
            let counts = admission(list, u64::MAX, u64::MAX).expect("a list that halts");
            told::room(said.number, &counts.counts, outgoing.len())
        }
        number => {
            let mode = list.get(place + 3).map_or(0, |byte| byte >> 5 & 3);
            told::expected(number, mode).to_string()
        }
    };
    assert_eq!(said.expected, expected);
    assert_eq!(said.reply, None);
    let shown = (said.number <= 10).then(|| told::shown(&list[place..]));
    assert_eq!(said.bytes.as_deref(), shown);
}

/// The run, or the refusal of its row.
fn compare_run(
    admitted: &Admitted,
    row: &[u8],
    outgoing: &[u8],
    said: &Result<Run, Refused>,
    met: &mut Met,
) {
    let Some(replies) = reply::read_row(row) else {
        let Err(refused) = said else {
            panic!("22 is due");
        };
        met.add("refused 22");
        compare_refused(&Refusal::plain(22), refused);
        let wrong = row.chunks(8).position(|reply| reply::read(reply).is_none());
        let wrong = wrong.expect("a reply that is wrong");
        assert_eq!(refused.reply, Some(wrong as u64));
        assert_eq!(refused.bytes.as_deref(), row.chunks(8).nth(wrong));
        assert_eq!(refused.expected, told::REPLY);
        return;
    };
    let Ok(run) = said else {
        panic!("22 is not due");
    };
    let ran = Ran::over(admitted, row, &replies, outgoing);
    assert_eq!(run.replies, replies.len() as u64);
    compare_stretches(&ran.events, &run.stretches, met);
    compare_end(&ran, &run.end, met);
    compare_counts(admitted, &ran.record, run, met);
    compare_buffers(&ran, outgoing, run, met);
    let behind = replies.len() as u64 - ran.record.operations;
    assert_eq!(run.behind, behind);
    match behind {
        0 => {}
        1 => met.add("1 behind the end"),
        _ => met.add("several behind the end"),
    }
}

/// The lines tell of every operation once, and each line of as many as it can.
fn compare_stretches(events: &[Event], stretches: &[Stretch], met: &mut Met) {
    let mut told = 0;
    for stretch in stretches {
        assert_eq!(stretch.first, told + 1, "operations left out or told twice");
        assert!(stretch.first <= stretch.last && stretch.last <= events.len() as u64);
        let own = &events[told as usize..stretch.last as usize];
        compare_stretch(own, stretch);
        met.add_all(stretch_events(stretch));
        told = stretch.last;
    }
    assert_eq!(told, events.len() as u64, "operations told");
    for lines in stretches.windows(2) {
        let [before, after] = lines else {
            unreachable!()
        };
        let is_like = before.instruction == after.instruction && before.reply == after.reply;
        assert!(
            after.ends || !is_like,
            "operation {}: two lines for one",
            after.first
        );
    }
}

fn compare_stretch(events: &[Event], said: &Stretch) {
    let (first, last) = (&events[0], &events[events.len() - 1]);
    let at = said.first;
    for event in events {
        assert_eq!(said.instruction, event.instruction, "operation {at}");
        assert_eq!(said.function, event.function, "operation {at}");
        assert_eq!(said.reply, event.reply, "operation {at}");
        assert_eq!(said.crate_number, event.crate_number, "operation {at}");
        assert_eq!(said.effect, event.effect, "operation {at}");
        assert_eq!(said.ends, event.ends, "operation {at}");
    }
    assert_eq!(said.place, place(events), "operation {at}");
    assert_eq!(said.from, first.position, "operation {at}");
    let to = (last.position != first.position).then_some(last.position);
    assert_eq!(said.to, to, "operation {at}");
    let ends = |of: fn(&Event) -> Option<u32>| {
        Some(Ends {
            size: first.size,
            first: of(first)?,
            last: if events.len() > 1 { of(last) } else { None },
        })
    };
    assert_eq!(said.written, ends(|event| event.written), "operation {at}");
    assert_eq!(said.read, ends(|event| event.read), "operation {at}");
}

/// The place of the words of some operations, each of them next to the one before it.
fn place(events: &[Event]) -> Option<Place> {
    for pair in events.windows(2) {
        if let (Some(before), Some(after)) = (pair[0].place, pair[1].place) {
            assert_eq!(after.from, before.to + 1, "words that are apart");
        }
    }
    let (first, last) = (events.first()?.place, events.last()?.place);
    assert_eq!(first.is_some(), last.is_some());
    let to = last?.to;
    first.map(|first| Place { to, ..first })
}

/// What comes up with a line of operations.
fn stretch_events(said: &Stretch) -> Vec<String> {
    let effect = said.effect;
    let mut events = vec![format!("{effect:?}")];
    if said.last > said.first {
        events.push(String::from("operations in one line"));
        events.push(format!("{effect:?}, in one line"));
    }
    if said.ends {
        events.push(format!("{effect:?}, then the run ends"));
    }
    if said.place.is_some_and(|place| place.behind_pad) {
        events.push(format!("{effect:?}, behind a pad"));
    }
    events
}

fn compare_end(ran: &Ran, said: &End, met: &mut Met) {
    let record = &ran.record;
    if !record.ended {
        let expected = End::Waits {
            instruction: record.instruction,
            words: record.words_left,
            wanted: ran.wanted,
        };
        assert_eq!(said, &expected);
        met.add("waits");
        return;
    }
    let code = status::code(record.status);
    let by_timeout = ran.events.last().is_some_and(|event| event.reply[0] == 1);
    let expected = End::Ended {
        instruction: record.instruction,
        code,
        name: String::from_utf8_lossy(code_name(code)).to_string(),
        cause: told::cause(code, by_timeout).to_string(),
    };
    assert_eq!(said, &expected);
    met.add(match (code, by_timeout) {
        (0xB, true) => String::from("code B by timeout"),
        (0xB, false) => String::from("code B by tries"),
        _ => format!("code {code:X}"),
    });
}

/// Operations, marks and status.
fn compare_counts(admitted: &Admitted, record: &Record, said: &Run, met: &mut Met) {
    let counts = admitted.counts;
    let expected = [
        [record.operations, counts.w],
        [record.incoming_mark, counts.b],
        [record.outgoing_mark, counts.o],
    ];
    assert_eq!(said.counts, expected);
    assert_eq!(said.status, record.status);
    let set = told::BITS
        .iter()
        .filter(|(bit, _)| record.status >> bit & 1 == 1);
    let set: Vec<_> = set.map(|(bit, words)| (*bit, words.to_string())).collect();
    assert_eq!(said.bits, set);
    met.add_all(set.iter().map(|(bit, _)| format!("bit {bit}")));
}

/// The last moved word, and the first bytes that were stored and taken.
fn compare_buffers(ran: &Ran, outgoing: &[u8], said: &Run, met: &mut Met) {
    let note = &ran.record.note;
    let last = (note.length != 0).then(|| {
        let (buffer, bytes) = last_moved(&ran.incoming, outgoing, note);
        Last {
            buffer,
            offset: note.offset,
            bytes: bytes.to_vec(),
        }
    });
    assert_eq!(said.last, last);
    let stored = &ran.incoming[..ran.record.incoming_mark as usize];
    let taken = &outgoing[..ran.record.outgoing_mark as usize];
    assert_eq!(said.incoming, shown(stored), "incoming buffer");
    assert_eq!(said.outgoing, shown(taken), "outgoing buffer");
    for (name, bytes) in [("incoming", stored), ("outgoing", taken)] {
        let how = match bytes.len() {
            0 => "none",
            SHOWN => "40",
            1..SHOWN => "some",
            _ => "more",
        };
        met.add(format!("{name} {how}"));
    }
}

/// What is shown of a buffer's bytes up to its mark, and whether there are more.
fn shown(used: &[u8]) -> Option<(Vec<u8>, bool)> {
    let shown = &used[..used.len().min(SHOWN)];
    (!shown.is_empty()).then(|| (shown.to_vec(), used.len() > SHOWN))
}

/// Lists of one instruction and what ends them, a run that waits, and rows that go on.
fn by_hand() -> Vec<Files> {
    let word = |bits: u32| one(&single(0x0C00_0302 | bits));
    let scan = one(&double(0x2DC0_3E38, 36_u32.wrapping_neg()));
    let leaving = [ok(1).to_vec(), answers(&[X]), ok(2).repeat(16)].concat();
    let block = one(&double(0x0C00_0320, 4_u32.wrapping_neg()));
    let writes = one(&double(0x0C10_0322, 3_u32.wrapping_neg()));
    let every = Q | X | ERR | DERR | TPE | LPE;
    let wait = one(&single(0x0C00_0312));
    vec![
        [word(0), answers(&[Q | X | ERR]), vec![]],
        [word(0), answers(&[X]), vec![]],
        [word(0), answers(&[Q]), vec![]],
        [word(0), answers(&[every]), vec![]],
        [word(1), answers(&[every]), vec![]],
        [word(1), answers(&[Q | LPE]), vec![]],
        [scan.clone(), leaving, vec![]],
        [scan, answers(&[X, 0]), vec![]],
        [wait.clone(), kind(1).to_vec(), vec![]],
        [wait.clone(), answers(&[X, X, X]), vec![]],
        [wait.clone(), answers(&[X, X, X | DERR, X]), vec![]],
        [wait.clone(), answers(&[X, X]), vec![]],
        [wait, answers(&[X, Q | X, 0, 0]), vec![]],
        [word(0), kind(2).to_vec(), vec![]],
        [word(0), kind(3).repeat(2), vec![]],
        [block.clone(), answers(&[Q | X, X]), vec![]],
        [block, ok(0x12_3456).to_vec(), vec![]],
        [writes, ok(0).to_vec(), hex("11 22 33 44 55 66")],
        [list(M17), ok(7).to_vec(), vec![]],
    ]
}

/// Words that fill what is shown of a buffer, scans at their end, pads.
fn placed() -> Vec<Files> {
    let outgoing: Vec<u8> = (0..100).collect();
    let row = |words: usize| ok(0x00AB_CDEF).repeat(words);
    let leaving = [row(1), answers(&[X]), row(16)].concat();
    let mut cases = Vec::new();
    for bits in [0, 0x0010_0000] {
        for words in [19, 20, 21] {
            let block = double(0x0C00_0322 | bits, (words as u32).wrapping_neg());
            cases.push([one(&block), row(words), outgoing.clone()]);
        }
        // All positions from N 22, A 14 on, with words of 16 and of 24 bits.
        let scans = [(0x2DC0_013A, 18_u32), (0x2DC0_0138, 36)];
        for (first, halfwords) in scans {
            let scan = double(first | bits, halfwords.wrapping_neg());
            let padded = single(0x0C00_0302 | bits) + &scan;
            cases.push([one(&scan), leaving.clone(), outgoing.clone()]);
            cases.push([one(&padded), row(19), outgoing.clone()]);
        }
        // The last position of all.
        let last = single(0x2FE0_011A | bits);
        cases.push([one(&last), answers(&[X]), outgoing.clone()]);
    }
    cases
}

/// Lists that each refusal turns away.
fn damaged() -> Vec<Files> {
    let lists = [
        list("10 04 00 02"),
        list("2F 00"),
        hex("01 04 00 01 00 00 00"),
        list(&format!("{HALT} 99 00 00")),
        list("2F 01 00 00"),
        list(&HALT.repeat(4_097)),
        one(&single(0x8200_0102)),
        one(&single(0x3000_0102)),
        one(&single(0x0200_0122)),
        one(&double(0x0200_0102, 1)),
        one(&double(0x0200_0142, 0)),
        one(&double(0x0210_0162, 0x1_0000)),
        list(&format!("{HALT} 20 02 00 02 00")),
        list("20 02 00 00 00"),
        list(&format!("20 02 00 02 00 {HALT} 20 02 00 00 00")),
        list(&single(0x0200_0102)),
        one(&double(0x0200_0120, 0xFFFF_0000)),
        one(&single(0x0210_0102)),
    ];
    let lists = lists.into_iter().chain(refused_fields()).chain(endless());
    let mut cases: Vec<Files> = lists.map(|list| [list, vec![], vec![]]).collect();
    let word = one(&single(0x0200_0102));
    for place in 0..16 {
        let mut row = ok(3).repeat(2);
        row[place] ^= 0xC4;
        cases.push([word.clone(), row, vec![]]);
    }
    cases.push([word, ok(3)[..5].to_vec(), vec![]]);
    cases
}

/// CAMAC fields that 6 to 9 refuse, with a count, with data, and of 4 bytes.
fn refused_fields() -> Vec<Vec<u8>> {
    let mut lists = Vec::new();
    for (data, read, write) in [(6, 0x8200_0100, 0x8210_0100), (7, 0x3000_0100, 0x3010_0100)] {
        for size in [0, 2] {
            lists.push(one(&single(read | size)));
            lists.push(one(&double(read | size | 0x20, 2_u32.wrapping_neg())));
            lists.push(one(&double(write | size | 0x60, data)));
        }
    }
    lists.push(one(&double(0x0200_0162, 5)));
    lists.push(one(&double(0x0200_0178, 0xFEDC_BA98)));
    lists.push(one(&double(0x0200_0120, 1_u32.wrapping_neg())));
    lists.push(one(&double(0x0200_0122, 0)));
    lists
}

/// Walks that repeat, at an instruction that is not the first.
fn endless() -> [Vec<u8>; 3] {
    let word = single(0x0200_0102);
    [
        list(&format!("{word} 20 02 00 01 00 {HALT}")),
        list(&format!("{word} {word} 20 02 00 01 00 {HALT}")),
        list(&format!(
            "{word} 20 02 00 03 00 {HALT} {word} 20 02 00 01 00"
        )),
    ]
}
