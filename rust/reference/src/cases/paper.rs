//! The cases of documents 01 and 02 and the manual's examples (001), with the outcomes that
//! the papers give; K1 to K12 are document 01's names, M01 to M70 number the examples. Any
//! engine with the calls of the C interface can be held against them.

mod damaged;
mod demands;
mod longwords;
mod scalers;
mod short_blocks;

use super::by_hand::*;
use super::demands::Entries;
use crate::camrun::MOST_BYTES;
pub use demands::{known as demands, result, Fill, KnownDemands, FILLS};
pub use scalers::KnownRow;

/// List, both buffer lengths.
type Admit = fn(&[u8], u64, u64) -> [u64; 5];
/// List, incoming, outgoing, row.
type Run = fn(&[u8], &mut [u8], &[u8], &[u8]) -> [u64; 16];
/// List, incoming, outgoing, record, which is written.
type Start = fn(&[u8], &mut [u8], &[u8], &mut [u64; 13]) -> [u64; 8];
/// List, record, incoming, outgoing, reply.
type Step = fn(&[u8], &mut [u64; 13], &mut [u8], &[u8], &[u8]) -> [u64; 8];
/// Row of scalers.
type Convert = fn(&mut [u8]) -> [u64; 2];

/// An engine's calls, in the numbers of the C interface.
pub struct Engine {
    pub admit: Admit,
    pub run: Run,
    pub start: Start,
    pub step: Step,
    pub to_binary: Convert,
    pub to_decimal: Convert,
    pub demands: Entries,
}

/// One case and its outcome, in camrun's words.
pub struct Known {
    name: String,
    pub list: Vec<u8>,
    pub outgoing: Vec<u8>,
    pub row: Vec<u8>,
    incoming_len: usize,
    admission: String,
    ending: Option<String>,
    stored: Option<Vec<u8>>,
    positions: Vec<(u64, u64)>,
    wanted: Option<[u64; 6]>,
    record: Option<[u64; 13]>,
}

/// What the incoming buffer holds before a run.
const UNTOUCHED: u8 = 0xEE;

impl Known {
    fn new(name: &str, list: Vec<u8>, admission: &str) -> Known {
        Known {
            name: name.to_string(),
            list,
            outgoing: Vec::new(),
            row: Vec::new(),
            incoming_len: MOST_BYTES,
            admission: admission.to_string(),
            ending: None,
            stored: None,
            positions: Vec::new(),
            wanted: None,
            record: None,
        }
    }

    /// With an incoming buffer of another length than camrun's.
    fn incoming_len(self, incoming_len: usize) -> Known {
        Known {
            incoming_len,
            ..self
        }
    }

    fn outgoing(self, outgoing: Vec<u8>) -> Known {
        Known { outgoing, ..self }
    }

    /// With replies, and the line that the run ends with.
    fn run(self, row: Vec<u8>, ending: &str) -> Known {
        let ending = Some(ending.to_string());
        Known {
            row,
            ending,
            ..self
        }
    }

    /// With the bytes that the run stores.
    fn stores(self, text: &str) -> Known {
        let stored = Some(hex(text));
        Known { stored, ..self }
    }

    /// With N and A of the first operations.
    fn at(self, positions: &[(u64, u64)]) -> Known {
        let positions = positions.to_vec();
        Known { positions, ..self }
    }

    /// With crate, N, A, F, data and the sixth number of the operation wanted behind the row.
    fn wants(self, wanted: [u64; 6]) -> Known {
        let wanted = Some(wanted);
        Known { wanted, ..self }
    }

    /// With the numbers of the record behind the row.
    fn leaves(self, record: [u64; 13]) -> Known {
        let record = Some(record);
        Known { record, ..self }
    }

    /// Holds an engine against the case.
    pub fn check(&self, engine: &Engine) {
        let lengths = (self.incoming_len as u64, self.outgoing.len() as u64);
        let admission = (engine.admit)(&self.list, lengths.0, lengths.1);
        assert_eq!(admission_line(&admission), self.admission, "{}", self.name);
        self.check_run(engine, &admission);
        if self.wanted.is_some() || self.stored.is_some() || self.record.is_some() {
            self.check_steps(engine);
        }
    }

    /// Holds start and a step for each reply against the case.
    fn check_steps(&self, engine: &Engine) {
        let mut incoming = vec![UNTOUCHED; self.incoming_len];
        let mut record = [0; 13];
        let mut answer = (engine.start)(&self.list, &mut incoming, &self.outgoing, &mut record);
        for reply in self.row.chunks(8) {
            answer = (engine.step)(
                &self.list,
                &mut record,
                &mut incoming,
                &self.outgoing,
                reply,
            );
        }
        let [number, place, wanted @ ..] = answer;
        assert_eq!((number, place), (0, 0), "{}", self.name);
        if let Some(expected) = self.wanted {
            assert_eq!(wanted, expected, "{}", self.name);
        }
        if let Some(expected) = self.record {
            assert_eq!(record, expected, "{}", self.name);
        }
        self.check_stored(&incoming, record[6]);
    }

    /// The bytes below the incoming mark are those of the case, those behind it untouched.
    fn check_stored(&self, incoming: &[u8], mark: u64) {
        let (stored, rest) = incoming.split_at(mark as usize);
        assert!(rest.iter().all(|&byte| byte == UNTOUCHED), "{}", self.name);
        if let Some(bytes) = &self.stored {
            assert_eq!(stored, bytes, "{}", self.name);
        }
    }

    fn check_run(&self, engine: &Engine, admission: &[u64; 5]) {
        let run = |row: &[u8]| {
            let mut incoming = vec![UNTOUCHED; self.incoming_len];
            let numbers = (engine.run)(&self.list, &mut incoming, &self.outgoing, row);
            (numbers, incoming)
        };
        let (numbers, incoming) = run(&self.row);
        if admission[0] != 0 {
            let mut refused = [0; 16];
            refused[..2].copy_from_slice(&admission[..2]);
            refused[3] = 1;
            assert_eq!(numbers, refused, "{}", self.name);
        } else if let Some(ending) = &self.ending {
            assert_eq!(&ending_line(&numbers), ending, "{}", self.name);
        }
        if let Some(record) = &self.record {
            assert_eq!(numbers[3..], record[..], "{}", self.name);
        }
        self.check_stored(&incoming, numbers[9]);
        for (taken, position) in self.positions.iter().enumerate() {
            let (numbers, _) = run(&self.row[..8 * taken]);
            let waiting = (numbers[3], numbers[7], numbers[8]);
            assert_eq!(waiting, (0, position.0, position.1), "{}", self.name);
        }
    }
}

/// One step from a record on, and what it leaves.
#[derive(Clone)]
pub struct KnownStep {
    name: &'static str,
    list: Vec<u8>,
    outgoing: Vec<u8>,
    before: [u64; 13],
    reply: [u8; 8],
    /// Number, place and the operation wanted: zeros after the run's end.
    answer: [u64; 8],
    after: [u64; 13],
    /// Where bytes are stored, and which.
    stored: Option<(usize, Vec<u8>)>,
}

impl KnownStep {
    /// Holds an engine against the step; no other byte may change.
    pub fn check(&self, engine: &Engine) {
        let mut record = self.before;
        let mut incoming = vec![UNTOUCHED; MOST_BYTES];
        let (list, outgoing) = (&self.list, &self.outgoing);
        let answer = (engine.step)(list, &mut record, &mut incoming, outgoing, &self.reply);
        assert_eq!(answer, self.answer, "{}", self.name);
        assert_eq!(record, self.after, "{}", self.name);
        let mut expected = vec![UNTOUCHED; MOST_BYTES];
        if let Some((at, bytes)) = &self.stored {
            expected[*at..at + bytes.len()].copy_from_slice(bytes);
        }
        assert!(incoming == expected, "{}", self.name);
    }
}

fn admission_line(numbers: &[u64; 5]) -> String {
    match *numbers {
        [0, 0, w, b, o] => format!("admitted {w} {b} {o}"),
        [number, place, 0, 0, 0] => format!("refused {number} {place}"),
        _ => format!("{numbers:?}"),
    }
}

fn ending_line(numbers: &[u64; 16]) -> String {
    let [0, 0, taken, ended, .., mark, _, operations, status, _, _, _] = *numbers else {
        return format!("{numbers:?}");
    };
    assert_eq!(taken, operations);
    if ended == 0 {
        format!("waiting {operations} {mark}")
    } else {
        format!("end {:X} {status:08X} {operations} {mark}", status >> 28)
    }
}

/// An answer with Q = X = 1 for each word of data.
fn oks(data: &[u32]) -> Vec<u8> {
    data.iter().flat_map(|&data| ok(data)).collect()
}

/// The scan of K3 to K6: crate 62, N 22, A 14, 24-bit, with n words.
fn scan(n: u32) -> Vec<u8> {
    one(&double(0x2DC0_3E38, (2 * n).wrapping_neg()))
}

/// Two words of 24 bits read in repeat, R = 3 (K7).
fn repeat() -> Vec<u8> {
    one(&double(0x0C02_0330, 0xFFFF_FFFC))
}

/// Document 01, "Cases".
pub fn document_01() -> Vec<Known> {
    let case = Known::new;
    vec![
        case("K1", one(&single(0x0200_0102)), "admitted 1 2 0")
            .at(&[(1, 0)])
            .wants([1, 1, 0, 0, 0, 0]),
        case(
            "K2",
            one(&double(0x0E40_052A, 0xFFFF_FFFD)),
            "admitted 3 6 0",
        )
        .at(&[(7, 2)])
        .wants([5, 7, 2, 0, 0, 0]),
        case("K3", scan(1), "admitted 2 4 0").at(&[(22, 14)]),
        case("K4", scan(4), "admitted 5 16 0"),
        case("K5", scan(17), "admitted 18 68 0"),
        case("K6", scan(18), "admitted 18 72 0"),
        case("K6, n = 19", scan(19), "refused 9 7"),
        case("K7", repeat(), "admitted 6 8 0"),
        case("K8", list(M12), "admitted 6 16 0"),
        case("K9", list(M17), "admitted 1 8 0"),
        case("K10", list(HALT), "admitted 0 0 0").run(Vec::new(), "end 0 00000080 0 0"),
        case("K11", list(""), "refused 11 0"),
        case("K11, empty", Vec::new(), "refused 2 0"),
        case("K12", list("20 02 00 00 00"), "refused 11 0"),
        case("worked case", one(&single(0x0200_0102)), "admitted 1 2 0")
            .run(oks(&[0x1234]), "end 0 00000080 1 2")
            .stores("34 12"),
    ]
}

/// Document 02's requests that have landed, in worked examples.
pub fn document_02() -> Vec<Known> {
    let requests = [
        pads(),
        sequencers(),
        enhanced_blocks(),
        damaged::singles(),
        damaged::words(),
        damaged::scans(),
        damaged::under_greater_codes(),
        longwords::ignored(),
        longwords::words(),
        longwords::unchanged(),
        short_blocks::reads(),
        short_blocks::writes(),
        short_blocks::unclosed(),
    ];
    requests.into_iter().flatten().collect()
}

/// Single steps of document 02's requests, from a record on.
pub fn steps() -> Vec<KnownStep> {
    [
        damaged::steps(),
        longwords::steps(),
        short_blocks::steps(),
        short_blocks::marks(),
    ]
    .concat()
}

/// Rows of scalers.
pub fn rows() -> Vec<KnownRow> {
    let rows = [
        scalers::converted(),
        scalers::bad_longwords(),
        scalers::parts(),
    ];
    rows.into_iter().flatten().collect()
}

/// E1: the list sequencer, R = 1.
fn sequencers() -> Vec<Known> {
    let of = |name, field: String, line| Known::new(name, list_with(1, &(field + HALT)), line);
    let (read, write) = (0x3C0C_0158, 0x3C4C_0158);
    let no_x = double(read, 0xFFFF_FFFE);
    let many = double(read, 0xFFFF_FCE0);
    let station = double(0x2C0C_015A, 0xFFFF_FFFF);
    let standard = double(0x3C0C_013A, 0xFFFF_FFFF);
    let ignore = double(0x3C0C_014A, 0xFFFF_FFFF);
    let no_q = double(0x3C2C_015A, 0xFFFF_FFFE);
    vec![
        of("E1, X = 0", no_x, "admitted 1 4 0")
            .run(answers(&[Q]), "end 8 80020080 1 0")
            .at(&[(30, 0)])
            .wants([0; 6]),
        // P isn't asked, and 23 - 30 would wrap.
        of("E1, 400 words", many, "admitted 400 1600 0").wants([1, 30, 0, 12, 0, 1]),
        of("E1, A 2", double(write, 0xFFFF_FFFE), "admitted 1 0 4")
            .outgoing(hex("78 56 34 FF"))
            .run(Vec::new(), "waiting 0 0")
            .wants([1, 30, 2, 12, 3_430_008, 1]),
        of("E1, N 22", station, "refused 8 7"),
        of("E1, a standard block at N 30", standard, "refused 7 7"),
        of("E1, length 4", single(0x3C0C_015A), "refused 8 7"),
        of("E1, F 12 with Q-mode 1", ignore, "refused 8 7"),
        // By ignore's rules, one operation a word.
        of("E1, Q = 0", no_q, "admitted 2 4 0")
            .run(
                [answer(X, 0x1234), answer(X, 0x5678)].concat(),
                "end 0 00010080 2 4",
            )
            .at(&[(30, 1), (30, 1)])
            .stores("34 12 78 56"),
    ]
}

/// E1: enhanced blocks, R = 3.
fn enhanced_blocks() -> Vec<Known> {
    let of = |name, field: String, line| Known::new(name, one(&field), line);
    let read = double(0x0200_0150, 0xFFFF_FFFE);
    let write = double(0x0210_0150, 0xFFFF_FFFE);
    let block = double(0x0200_0140, 0xFFFF_FFFE);
    vec![
        of("E1, repeat read", read, "admitted 3 4 0")
            .run(answers(&[X]), "waiting 1 0")
            .wants([1, 1, 0, 0, 0, 1]),
        of("E1, repeat write", write, "refused 8 7"),
        // The sixth number is 0 again behind the enhanced block.
        of(
            "E1, a block and a single",
            block + &single(0x0200_0102),
            "admitted 2 6 0",
        )
        .run(oks(&[0x12_3456]), "waiting 1 4")
        .stores("56 34 12 C0")
        .wants([1, 1, 0, 0, 0, 0]),
    ]
}

/// "The pad bytes and every answer are as before" (E3).
fn pads() -> Vec<Known> {
    let read = single(0x0200_0102);
    let literal = "21 04 00 DD CC BB AA";
    let writes = single(0x0210_0102) + &single(0x0210_0100);
    let case = Known::new;
    vec![
        case(
            "E3, a word and a literal",
            list(&format!("{read} {literal} {HALT}")),
            "admitted 1 8 0",
        )
        .run(oks(&[0x1234]), "end 0 00000080 1 8")
        .stores("34 12 00 00 DD CC BB AA"),
        case("E3, two writes", one(&writes), "admitted 2 0 8")
            .outgoing(hex("34 12 99 99 78 56 34 99"))
            .run(oks(&[0; 2]), "end 0 00000080 2 0"),
    ]
}

/// The manual's examples, by section: lists, packing, counts, words, scans, answers.
pub fn manual() -> Vec<Known> {
    let sections = [
        worked_list(),
        timer_list(),
        packing_figures(),
        write_reply(),
        transfer_counts(),
        enhanced_words(),
        ranges(),
        functions(),
        scans(),
        repeats(),
        kinds_and_flags(),
        endings(),
        combinations(),
    ];
    sections.into_iter().flatten().collect()
}

/// 001, CAMAC List Processing Example.
fn worked_list() -> Vec<Known> {
    let all_ok = ok(0x12_3456).repeat(2_054);
    let slow_reads = answers(&[X, X, Q | X]).repeat(1_024);
    let slow_half = [ok(0).repeat(2), slow_reads, ok(0).to_vec()].concat();
    let spent = answers(&[Q | X, Q | X, X, X, X]);
    let (before, after) = M03.rsplit_once("00 F8 FF FF").expect("two blocks");
    let shorter = format!("{before} 00 FC FF FF {after}");
    let case = Known::new;
    let admitted = "admitted 6150 8192 0";
    let largest = "admitted 134215686 8192 0";
    vec![
        case("M01", list(M01), "refused 8 18"),
        case("M02", list(M02), admitted).run(all_ok.clone(), "end 0 00000080 2054 8192"),
        case("M02, R = 1", list_with(1, M02), "admitted 2054 8192 0"),
        case("M02, R = 65,535", list_with(65_535, M02), largest),
        case("M03", list(M03), admitted).run(all_ok, "end 0 00000080 2054 8192"),
        case("M04", list(M03), admitted).run(slow_half.repeat(2), "end 0 00010080 6150 8192"),
        case("M05", list(&shorter), "admitted 4614 6144 0"),
        case("M06", list(M03), admitted).run(spent, "end B B2010080 5 0"),
    ]
}

/// 001, Timer Initiated List Processing Example.
fn timer_list() -> Vec<Known> {
    let without_halt = M07.replace("2F 00 00", "");
    let jump_first = format!("20 02 00 01 00 {}", M07.replace("20 02 00 00 00", ""));
    let case = Known::new;
    vec![
        case("M07", list(M07), "admitted 2 0 0")
            .run(oks(&[0, 0]), "end 0 00000080 2 0")
            .at(&[(1, 0), (2, 0)]),
        case("M08", list(&without_halt), "refused 11 0"),
        case("M09", list(&jump_first), "admitted 2 0 0"),
    ]
}

/// 001, Data FIFO Register: the three figures, read and written.
fn packing_figures() -> Vec<Known> {
    let eight = |first| one(&double(first, 0xFFFF_FFF8));
    let short: Vec<u32> = (1..=8).map(|word| 0x1000 + word * 0x101).collect();
    let wide: Vec<u32> = (1..=4).map(|word| 0xA0_1000 + word * 0x1_0101).collect();
    let mixed = [0x1101, 0x1202, 0x1303, 0xA1_1101, 0x1404, 0x1505];
    let short_bytes = "01 11 02 12 03 13 04 14 05 15 06 16 07 17 08 18";
    // The figures' top bytes are zero; by document 02's E9 they have Q and X.
    let wide_bytes = "01 11 A1 C0 02 12 A2 C0 03 13 A3 C0 04 14 A4 C0";
    let mixed_bytes = "01 11 02 12 03 13 00 00 01 11 A1 C0 04 14 05 15";
    let case = Known::new;
    vec![
        case("M10", eight(0x0C02_0322), "admitted 8 16 0")
            .run(oks(&short), "end 0 00000080 8 16")
            .stores(short_bytes),
        case("M11", eight(0x0C02_0320), "admitted 4 16 0")
            .run(oks(&wide), "end 0 00000080 4 16")
            .stores(wide_bytes),
        case("M12", list(M12), "admitted 6 16 0")
            .run(oks(&mixed), "end 0 00000080 6 16")
            .stores(mixed_bytes),
        case("M12, pad waits", list(M12), "admitted 6 16 0")
            .run(oks(&mixed[..3]), "waiting 3 6")
            .stores("01 11 02 12 03 13"),
        case("M13", eight(0x0C10_0322), "admitted 8 0 16")
            .outgoing(hex(short_bytes))
            .run(oks(&[0; 8]), "end 0 00000080 8 0"),
        case("M14", eight(0x0C10_0320), "admitted 4 0 16")
            .outgoing(hex(wide_bytes))
            .run(oks(&[0; 4]), "end 0 00000080 4 0"),
        case("M15", list(M15), "admitted 6 0 16")
            .outgoing(hex(&mixed_bytes.replace("00", "99")))
            .run(oks(&[0; 6]), "end 0 00000080 6 0"),
        case("M16", list(M15), "refused 21 0").outgoing(vec![0; 15]),
    ]
}

/// 001, Write Reply FIFO Instruction.
fn write_reply() -> Vec<Known> {
    let words = |n: u32| double(0x0C02_0322, n.wrapping_neg());
    let literal = "21 04 00 5A 5A 00 00";
    let three = [0x1101, 0x1202, 0x1303];
    let case = Known::new;
    vec![
        case("M17", list(M17), "admitted 1 8 0")
            .run(oks(&[0x1234]), "end 0 00000080 1 8")
            .stores("34 12 00 00 5A 5A 00 00"),
        case("M18", one(&(words(3) + literal)), "admitted 3 12 0")
            .run(oks(&three), "end 0 00000080 3 12")
            .stores("01 11 02 12 03 13 00 00 5A 5A 00 00"),
        case("M19", one(&words(3)), "admitted 3 6 0")
            .run(oks(&three), "end 0 00000080 3 6")
            .stores("01 11 02 12 03 13"),
        case("M20", one(&(words(2) + literal)), "admitted 2 8 0")
            .run(oks(&three[..2]), "end 0 00000080 2 8")
            .stores("01 11 02 12 5A 5A 00 00"),
    ]
}

/// 001, CAMAC Standard Block Transfer Instructions: counts.
fn transfer_counts() -> Vec<Known> {
    let short = |count| one(&double(0x0C02_0322, count));
    let wide = |count| one(&double(0x0C02_0320, count));
    let largest = 0xFFFF_0000;
    let room = 131_072;
    let case = Known::new;
    vec![
        case("M21", short(0xFFFF_FFFF), "admitted 1 2 0"),
        case("M22", wide(0xFFFF_FFFE), "admitted 1 4 0"),
        case("M23", wide(0xFFFF_FFFF), "refused 9 7"),
        case("M24", short(0), "refused 9 7"),
        case("M25", short(largest), "admitted 65536 131072 0").incoming_len(room),
        case("M25, camrun", short(largest), "refused 20 0"),
        case("M26", wide(largest), "admitted 32768 131072 0").incoming_len(room),
        case("M26, camrun", wide(largest), "refused 20 0"),
        case("M27", short(0xFFFE_FFFF), "refused 9 7"),
        case("M28", short(0xFFFF_FC00), "admitted 1024 2048 0"),
        case("M29", wide(0xFFFF_F800), "admitted 1024 4096 0"),
        case("M30", short(0xFFFF_FC18), "admitted 1000 2000 0"),
    ]
}

/// 001, Enhanced List Sequencer Modes, and the words of enhanced blocks.
fn enhanced_words() -> Vec<Known> {
    let of = |name, first, count, line| Known::new(name, one(&double(first, count)), line);
    let read = |name, first, line| of(name, first, 0xFFFF_FFFE, line);
    let write = |name, first, line| of(name, first, 0xFFFF_FFFE, line).outgoing(vec![0; 4]);
    vec![
        read("M31, A0", 0x3C0C_0158, "admitted 1 4 0").wants([1, 30, 0, 12, 0, 1]),
        read("M31, A1", 0x3C2C_0158, "admitted 1 4 0").wants([1, 30, 1, 12, 0, 1]),
        write("M31, A2", 0x3C4C_0158, "admitted 1 0 4").wants([1, 30, 2, 12, 0, 1]),
        write("M31, A3", 0x3C6C_0158, "admitted 1 0 4").wants([1, 30, 3, 12, 0, 1]),
        write("M31, A4", 0x3C8C_0158, "refused 8 7"),
        read("M31, 16-bit", 0x3C0C_015A, "admitted 2 4 0"),
        // A full list of the module.
        of(
            "M31, 512 words",
            0x3C0C_0158,
            0xFFFF_FC00,
            "admitted 512 2048 0",
        ),
        of(
            "M31, 1,024 words",
            0x3C0C_0158,
            0xFFFF_F800,
            "admitted 1024 4096 0",
        ),
        read("M32, stop", 0x0C02_0340, "admitted 1 4 0").wants([3, 6, 0, 2, 0, 1]),
        read("M32, ignore", 0x0C02_0348, "admitted 1 4 0").wants([3, 6, 0, 2, 0, 1]),
        read("M32, repeat", 0x0C02_0350, "admitted 3 4 0").wants([3, 6, 0, 2, 0, 1]),
        read("M33", 0x0C02_0358, "refused 8 7"),
        write("repeat write", 0x0C10_0350, "refused 8 7"),
        read("control", 0x0C18_0340, "refused 8 7"),
    ]
}

/// Special words as CAMAC words, crates and stations at their limits, inline data.
fn ranges() -> Vec<Known> {
    let of = |name, field: String, line| Known::new(name, one(&field), line);
    let station = |n: u32, q_mode: u32| single(n << 25 | 0x0102 | q_mode << 3);
    vec![
        of("M34, halt", single(0x8000), "refused 6 7"),
        of("M34, jump", single(0x8014), "refused 6 7"),
        of("M34, write reply", single(0x8015), "refused 6 7"),
        of("M34, load address", single(0x8010), "refused 6 7"),
        of("M35, crate 0", single(0x0200_0002), "refused 7 7"),
        of("M35, crate 63", single(0x0200_3F02), "refused 7 7"),
        of("M35, crate 1", single(0x0200_0102), "admitted 1 2 0"),
        of("M35, crate 62", single(0x0200_3E02), "admitted 1 2 0"),
        of("M36, N 0", station(0, 0), "refused 7 7"),
        of("M36, N 24", station(24, 0), "refused 7 7"),
        of("M36, N 29", station(29, 0), "refused 7 7"),
        of("M36, N 31", station(31, 0), "refused 7 7"),
        of("M36, N 1", station(1, 0), "admitted 1 2 0"),
        of("M36, N 23", station(23, 0), "admitted 1 2 0"),
        of("M36, N 30", station(30, 0), "admitted 1 2 0"),
        of("M37", station(30, 3), "refused 7 7"),
        of("M41", double(0x0C10_0360, 0x0100_0000), "refused 9 7"),
        of("M42", double(0x0C10_0362, 0x0001_0000), "refused 9 7"),
        of("M43", double(0x0C10_0362, 0x0000_FFFF), "admitted 1 0 0"),
        of("M44", single(0x0C10_0360), "refused 8 7"),
        of("M45", double(0x0C02_0302, 0), "refused 8 7"),
    ]
}

/// M38 to M40: read, control and write functions as single, block and inline.
fn functions() -> Vec<Known> {
    let mut cases = Vec::new();
    for function in [0, 7, 8, 15, 16, 23, 24, 31] {
        let first = 0x0C00_0300 | function << 16;
        let outcomes = match function {
            0 | 7 => ["admitted 1 4 0", "admitted 1 4 0", "refused 8 7"],
            16 | 23 => ["admitted 1 0 4", "admitted 1 0 4", "admitted 1 0 0"],
            _ => ["admitted 1 0 0", "refused 8 7", "refused 8 7"],
        };
        let fields = [
            single(first),
            double(first | 1 << 5, 0xFFFF_FFFE),
            double(first | 3 << 5, 7),
        ];
        for (transfer, (field, outcome)) in fields.iter().zip(outcomes).enumerate() {
            let name = format!("M{}, F {function}", 38 + transfer);
            cases.push(Known::new(&name, one(field), outcome).outgoing(vec![0; 4]));
        }
    }
    cases
}

/// 001, Q-Scan Standard Block Transfers, with the numbers of K3 to K6.
fn scans() -> Vec<Known> {
    let done = Q | X;
    let mut second_fails = [done; 18];
    second_fails[1] = X;
    let mut leaves_with_parity = second_fails;
    leaves_with_parity[17] |= LPE;
    let mut last_with_parity = [done; 18];
    last_with_parity[17] |= TPE;
    let four = |name, flags: &[u8], ending| {
        Known::new(name, scan(4), "admitted 5 16 0").run(answers(flags), ending)
    };
    let eighteen = |name, flags: &[u8], ending| {
        Known::new(name, scan(18), "admitted 18 72 0").run(answers(flags), ending)
    };
    let skips = [X, done, done, done, done];
    let no_x = [Q, done, done, done, done];
    let after_skip = [(22, 14), (23, 0), (23, 1), (23, 2), (23, 3)];
    vec![
        four("M50", &[done; 4], "end 0 00000080 4 16").at(&[(22, 14), (22, 15), (23, 0), (23, 1)]),
        four("M51", &skips, "end 0 00010080 5 16").at(&after_skip),
        four("M52", &[X, X], "end 9 90410080 2 0").at(&[(22, 14), (23, 0)]),
        eighteen("M53", &[done; 18], "end 0 00000080 18 72"),
        eighteen("M54", &second_fails, "end 9 90410080 18 68"),
        // Another cause at the last position: the word isn't moved, bit 22 stays.
        eighteen("M54, LPE", &leaves_with_parity, "end A A0650080 18 64"),
        // Word n at the last position: nothing was left.
        eighteen("M53, TPE", &last_with_parity, "end A A0140080 18 68"),
        four("M55", &no_x, "end 0 00020080 5 16").at(&after_skip),
        four("M56", &[X, X | TPE], "end A A0550080 2 0"),
        four("M57", &[0, 0], "end 9 90430080 2 0"),
    ]
}

/// 001, Q-Repeat Standard Block Transfers.
fn repeats() -> Vec<Known> {
    let of = |name, flags: &[u8], ending| {
        Known::new(name, repeat(), "admitted 6 8 0").run(answers(flags), ending)
    };
    let ok = Q | X;
    vec![
        of("M58", &[X, X, ok, X, X, ok], "end 0 00010080 6 8"),
        of("M59", &[X, X, ok, X, X, X], "end B B2010080 6 4"),
        of("M59, waiting", &[X, X, ok, X, X], "waiting 5 4"),
        of("M59, parity", &[X, X, TPE | LPE | X], "end B B2350080 3 0"),
    ]
}

/// A 16-bit word read by a single and answered once.
fn answered(name: &str, first: u32, row: &[u8], ending: &str) -> Known {
    Known::new(name, one(&single(first)), admission_of(first)).run(row.to_vec(), ending)
}

/// Of a 16-bit single read at N 6: repeat takes R tries, scan min(P, S) = 18 positions.
fn admission_of(first: u32) -> &'static str {
    match first >> 3 & 3 {
        0 | 1 => "admitted 1 2 0",
        2 => "admitted 3 2 0",
        _ => "admitted 18 2 0",
    }
}

/// Kinds of reply, ERR and DERR.
fn kinds_and_flags() -> Vec<Known> {
    let plain = |name, flags: u8, ending| answered(name, 0x0C02_0302, &answers(&[flags]), ending);
    let saved = 0x0C02_0303;
    let ignore = 0x0C02_030B;
    vec![
        answered("M60, kind 1", saved, &kind(1), "end B B2000080 1 0"),
        answered("M60, kind 2", saved, &kind(2), "end C C0080080 1 0"),
        answered("M60, kind 3", saved, &kind(3), "end D D1000080 1 0"),
        // By document 02's E4; document 01 alone let the word be stored.
        plain("M61", 0x07, "end 4 40840080 1 0"),
        plain("M62", 0x0B, "end 0 04000080 1 2"),
        answered("M63", ignore, &answers(&[0x3C]), "end 0 04B70080 1 2"),
        plain("M64", 0x04, "end 8 80870080 1 0"),
    ]
}

/// 001, Control/Status Register: endings with nothing else gathered.
fn endings() -> Vec<Known> {
    let plain = |name, flags: u8, ending| answered(name, 0x0C02_0302, &answers(&[flags]), ending);
    vec![
        plain("Q = 0", X, "end 7 70010080 1 0"),
        plain("X = 0", Q, "end 8 80020080 1 0"),
        plain("X = Q = 0", 0, "end 8 80030080 1 0"),
        plain("TPE", Q | X | TPE, "end A A0140080 1 0"),
        plain("LPE", Q | X | LPE, "end A A0240080 1 0"),
    ]
}

/// M70: all combinations of Q-mode, AD, TPE, X and Q in a single's only answer.
fn combinations() -> Vec<Known> {
    (0..64).map(combination).collect()
}

fn combination(bits: u32) -> Known {
    let bit = |number: u32| bits >> number & 1 == 1;
    let (q, x, tpe, ad, q_mode) = (bit(0), bit(1), bit(2), bit(3), bits >> 4);
    let flags = u8::from(q) * Q + u8::from(x) * X + u8::from(tpe) * TPE;
    let status = (u32::from(!q) << 16) + (u32::from(!x) << 17) + u32::from(tpe) * 0x0014_0000;
    let code = if tpe && !ad {
        0xA
    } else if q_mode != 3 && !x && !ad {
        8
    } else if q_mode == 0 && !q {
        7
    } else {
        0
    };
    let again = (q_mode == 2 && !q) || (q_mode == 3 && !(q && x));
    let ending = if code == 0 && again {
        String::from("waiting 1 0")
    } else {
        let stored = if code == 0 { 2 } else { 0 };
        format!("end {code:X} {:08X} 1 {stored}", status | code << 28 | 0x80)
    };
    let name = format!("M70, Q-mode {q_mode} AD {ad} TPE {tpe} X {x} Q {q}");
    let first = 0x0C02_0302 | q_mode << 3 | u32::from(ad);
    answered(&name, first, &answers(&[flags]), &ending)
}
