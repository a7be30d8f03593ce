//! What the program explain prints, read back. A line that isn't understood is a failure.

use super::line::{Line, Lines};
use reference::words::{Address, Direction, WordSize};

/// The whole text.
pub struct Explained {
    /// Whether run.lst, run.rep and run.out fill their buffers.
    pub full: [bool; 3],
    pub size: u64,
    /// R of the first field, where fields are shown.
    pub limit: Option<u64>,
    pub fields: Vec<Field>,
    pub walk: Option<Walk>,
    /// W, B and O.
    pub admission: Result<[u64; 3], Refused>,
    pub run: Option<Result<Run, Refused>>,
}

pub struct Refused {
    pub number: u64,
    pub place: u64,
    pub reason: String,
    /// The number of the reply that is wrong.
    pub reply: Option<u64>,
    pub bytes: Option<Vec<u8>>,
    pub expected: String,
}

pub struct Field {
    pub place: u64,
    pub number: u64,
    pub said: Said,
}

/// What is said of an instruction.
#[derive(Debug, PartialEq, Eq)]
pub enum Said {
    Camac(Command),
    Jump(u64),
    Literal(u32),
    Halt,
    /// A CAMAC field that is refused.
    Refused(Parts),
}

/// The parts of a CAMAC field.
#[derive(Debug, PartialEq, Eq)]
pub struct Parts {
    pub mode: u64,
    pub q_mode: u64,
    pub address: Address,
    pub size: WordSize,
    pub second: Option<Second>,
}

/// The second longword.
#[derive(Debug, PartialEq, Eq)]
pub enum Second {
    /// Halfwords.
    Count(u64),
    Data(u32),
    /// A single has none of its own.
    Longword(u32),
}

#[derive(Debug, PartialEq, Eq)]
pub struct Command {
    pub moves: Moves,
    pub address: Address,
    pub function: Function,
    pub rule: Rule,
    pub abort_disable: bool,
}

/// What an instruction moves.
#[derive(Debug, PartialEq, Eq)]
pub enum Moves {
    Nothing,
    /// The list's own word.
    Own(WordSize, u32),
    Words(Kind, Direction, u64, WordSize),
}

#[derive(Clone, Copy, Debug, PartialEq, Eq)]
pub enum Kind {
    Single,
    Block,
    Enhanced,
}

/// What is said of F.
#[derive(Clone, Copy, Debug, PartialEq, Eq)]
pub enum Function {
    Read,
    Write,
    Control,
    Sequencer,
}

/// The Q-mode, and what Q does.
#[derive(Clone, Copy, Debug, PartialEq, Eq)]
pub enum Rule {
    StopEnds,
    StopCloses,
    Ignore,
    Repeat(u64),
    Scan,
}

pub struct Walk {
    pub visits: Vec<Visit>,
    pub end: WalkEnd,
}

#[derive(Debug, PartialEq, Eq)]
pub struct Visit {
    pub instruction: u64,
    /// The share of W.
    pub operations: u64,
    /// Each mark before and after.
    pub incoming: [u64; 2],
    pub outgoing: [u64; 2],
    /// How the share of W comes about.
    pub share: Option<Share>,
    pub has_pad: bool,
}

#[derive(Clone, Copy, Debug, PartialEq, Eq)]
pub enum Share {
    Words(u64),
    Repeat {
        words: u64,
        tries: u64,
    },
    Scan {
        words: u64,
        stations: u64,
        positions: u64,
    },
}

#[derive(Clone, Copy, Debug, PartialEq, Eq)]
pub enum WalkEnd {
    Halt(u64),
    Again(u64),
    Passes,
}

pub struct Run {
    pub replies: u64,
    pub stretches: Vec<Stretch>,
    pub end: End,
    /// Operations, bytes stored and bytes taken, each with its most.
    pub counts: [[u64; 2]; 3],
    pub status: u32,
    pub bits: Vec<(u32, String)>,
    pub last: Option<Last>,
    /// The first bytes, and whether there are more.
    pub incoming: Option<(Vec<u8>, bool)>,
    pub outgoing: Option<(Vec<u8>, bool)>,
    pub behind: u64,
}

/// Operations that one line tells of.
pub struct Stretch {
    pub first: u64,
    pub last: u64,
    pub instruction: u64,
    pub crate_number: u64,
    /// N and A, and those of the last where they differ.
    pub from: [u64; 2],
    pub to: Option<[u64; 2]>,
    pub function: u64,
    pub written: Option<Ends>,
    /// Kind and flags.
    pub reply: [u8; 2],
    pub read: Option<Ends>,
    pub effect: Effect,
    /// Where the words are that were stored or taken.
    pub place: Option<Place>,
    pub ends: bool,
}

/// The first byte and the last of words in their buffer.
#[derive(Clone, Copy, Debug, PartialEq, Eq)]
pub struct Place {
    pub from: u64,
    pub to: u64,
    pub behind_pad: bool,
}

/// The first of some words, and the last of several.
#[derive(Debug, PartialEq, Eq)]
pub struct Ends {
    pub size: WordSize,
    pub first: u32,
    pub last: Option<u32>,
}

#[derive(Clone, Copy, Debug, PartialEq, Eq)]
pub enum Effect {
    Stored,
    StoredWithQAndX,
    Taken,
    Done,
    Closed,
    TriedAgain,
    NextStation,
    /// None but the run's end.
    Nothing,
}

#[derive(Debug, PartialEq, Eq)]
pub enum End {
    Ended {
        instruction: u64,
        code: u8,
        name: String,
        cause: String,
    },
    Waits {
        instruction: u64,
        words: u64,
        wanted: Address,
    },
}

#[derive(Debug, PartialEq, Eq)]
pub struct Last {
    /// 0 incoming, 1 outgoing.
    pub buffer: u64,
    pub offset: u64,
    pub bytes: Vec<u8>,
}

const SIZES: [(&str, WordSize); 2] = [("16 bits", WordSize::Bits16), ("24 bits", WordSize::Bits24)];

pub fn read(text: &str) -> Explained {
    let mut lines = Lines::of(text);
    let full = ["run.lst", "run.rep", "run.out"].map(|name| is_full(&mut lines, name));
    let mut line = lines.take("list of ");
    let size = line.plural(" byte", " bytes");
    line.end();
    let (limit, fields) = fields(&mut lines);
    lines.take("").end();
    let walk = lines.next_is("walk, ").then(|| walk(&mut lines));
    let admission = admission(&mut lines);
    let run = admission.is_ok().then(|| run(&mut lines));
    lines.end();
    Explained {
        full,
        size,
        limit,
        fields,
        walk,
        admission,
        run,
    }
}

/// Whether a file is said to fill its buffer.
fn is_full(lines: &mut Lines, name: &str) -> bool {
    if !lines.next_is(name) {
        return false;
    }
    let mut line = lines.take(name);
    line.skip(": 65536 bytes were read, and no more are");
    line.end();
    true
}

/// R and the fields.
fn fields(lines: &mut Lines) -> (Option<u64>, Vec<Field>) {
    if !lines.next_is("  place") {
        return (None, Vec::new());
    }
    lines.take("  place  number  what it does").end();
    let mut head = lines.take("      0    head  format 1, try limit R = ");
    let limit = head.number();
    head.end();
    let mut fields = Vec::new();
    while lines.next_is(" ") {
        fields.push(field(lines));
    }
    (Some(limit), fields)
}

fn field(lines: &mut Lines) -> Field {
    let mut line = lines.take("");
    let (place, number) = (line.column(7), line.column(8));
    line.skip("  ");
    let said = if line.skips("jump to instruction ") {
        Said::Jump(line.number())
    } else if line.skips("store the literal longword ") {
        let literal = line.hexadecimal(8);
        line.skip("h");
        Said::Literal(literal)
    } else if line.skips("halt: end the run with code 0") {
        Said::Halt
    } else if line.skips("refused: ") {
        Said::Refused(parts(&mut line))
    } else {
        Said::Camac(command(&mut line, lines.take("                 ")))
    };
    line.end();
    Field {
        place,
        number,
        said,
    }
}

fn parts(line: &mut Line) -> Parts {
    line.skip("transfer mode ");
    let mode = line.number();
    line.skip(", Q-mode ");
    let q_mode = line.number();
    line.skip(", ");
    let address = address(line);
    line.skip(", ");
    let size = line.choose(&SIZES);
    let second = if line.skips(", count ") {
        let count = line.plural(" halfword", " halfwords");
        Some(Second::Count(count))
    } else if line.skips(", data ") {
        let data = line.hexadecimal(8);
        line.skip("h");
        Some(Second::Data(data))
    } else if line.skips(", second longword ") {
        let longword = line.hexadecimal(8);
        line.skip("h");
        Some(Second::Longword(longword))
    } else {
        None
    };
    Parts {
        mode,
        q_mode,
        address,
        size,
        second,
    }
}

fn command(line: &mut Line, mut second: Line) -> Command {
    let moves = moves(line);
    line.skip(", ");
    let address = address(line);
    let function = line.choose(&[
        (
            " (list sequencer, A says the direction)",
            Function::Sequencer,
        ),
        (" (control)", Function::Control),
        (" (write)", Function::Write),
        (" (read)", Function::Read),
    ]);
    let rule = rule(&mut second);
    let abort_disable = second.choose(&[
        ("; AD = 1 (not ended by ", true),
        ("; AD = 0 (ended by ", false),
    ]);
    if rule != Rule::Scan {
        second.skip("X = 0, ");
    }
    second.skip("a parity error, or a damaged command: ERR while X = 1)");
    second.end();
    Command {
        moves,
        address,
        function,
        rule,
        abort_disable,
    }
}

fn moves(line: &mut Line) -> Moves {
    if line.skips("command without data") {
        return Moves::Nothing;
    }
    if line.skips("write the list's own word ") {
        let (size, data) = line.word();
        return Moves::Own(size, data);
    }
    let direction = line.choose(&[
        ("read ", Direction::Read),
        ("write ", Direction::Write),
        ("", Direction::Control),
    ]);
    let kind = line.choose(&[
        ("a block of ", Kind::Block),
        ("an enhanced block of ", Kind::Enhanced),
        ("", Kind::Single),
    ]);
    let words = line.plural(" word of ", " words of ");
    Moves::Words(kind, direction, words, line.choose(&SIZES))
}

/// Crate, N, A and F.
fn address(line: &mut Line) -> Address {
    let mut part = |name: &str| {
        line.skip(name);
        line.number()
    };
    Address {
        crate_number: part("crate "),
        station: part(", N "),
        subaddress: part(", A "),
        function: part(", F "),
    }
}

fn rule(line: &mut Line) -> Rule {
    if line.skips("repeat (a word is tried until Q = 1; Q = 0 on try ") {
        let limit = line.number();
        line.skip(" ends the run)");
        return Rule::Repeat(limit);
    }
    line.choose(&[
        ("stop (Q = 0 ends the run)", Rule::StopEnds),
        (
            "stop (Q = 0 closes the block, the list goes on)",
            Rule::StopCloses,
        ),
        ("ignore (a word is done whatever Q is)", Rule::Ignore),
        (
            "scan (Q = X = 1: next subaddress, else next station; past station 23 the run ends)",
            Rule::Scan,
        ),
    ])
}

const PAD: &str = "  2 pad bytes first";

/// The walk, and the empty line behind it.
fn walk(lines: &mut Lines) -> Walk {
    lines.take("walk, with no block short").end();
    let heading = " number  operations at most        incoming mark        outgoing mark";
    lines.take(heading).end();
    let mut visits = Vec::new();
    let end = loop {
        let mut line = lines.take("");
        if line.skips("  the walk ") {
            break lost(line);
        }
        let instruction = line.column(7);
        if line.skips("  halt") {
            line.end();
            break WalkEnd::Halt(instruction);
        }
        visits.push(visit(instruction, line));
    };
    lines.take("").end();
    Walk { visits, end }
}

fn visit(instruction: u64, mut line: Line) -> Visit {
    let operations = line.column(20);
    let mut marks = || {
        let before = line.column(10);
        line.skip(" to ");
        [before, line.column(7)]
    };
    let (incoming, outgoing) = (marks(), marks());
    let has_share = !line.is_at_end() && !line.starts_with(PAD);
    let share = has_share.then(|| share(&mut line));
    let has_pad = line.skips(PAD);
    line.end();
    Visit {
        instruction,
        operations,
        incoming,
        outgoing,
        share,
        has_pad,
    }
}

fn share(line: &mut Line) -> Share {
    line.skip("  ");
    let words = line.plural(" word", " words");
    if line.skips(" less 1, and ") {
        let stations = line.plural(" station", " stations");
        line.skip("; at most ");
        let positions = line.plural(" position", " positions");
        return Share::Scan {
            words,
            stations,
            positions,
        };
    }
    if line.skips(", ") {
        let tries = line.plural(" try each", " tries each");
        return Share::Repeat { words, tries };
    }
    Share::Words(words)
}

fn lost(mut line: Line) -> WalkEnd {
    let end = if line.skips("passes the last field") {
        WalkEnd::Passes
    } else {
        line.skip("comes to instruction ");
        let again = line.number();
        line.skip(" again");
        WalkEnd::Again(again)
    };
    line.end();
    end
}

fn admission(lines: &mut Lines) -> Result<[u64; 3], Refused> {
    if lines.next_is("refused ") {
        return Err(refused(lines));
    }
    let mut line = lines.take("admitted: W = ");
    let worst = line.plural(" operation at most, B = ", " operations at most, B = ");
    let incoming = line.plural(" byte stored at most, O = ", " bytes stored at most, O = ");
    let outgoing = line.plural(" byte taken at most", " bytes taken at most");
    line.end();
    lines.take("").end();
    Ok([worst, incoming, outgoing])
}

fn refused(lines: &mut Lines) -> Refused {
    let mut line = lines.take("refused ");
    let number = line.number();
    line.skip(", place ");
    let place = line.number();
    line.skip(": ");
    let reason = line.rest();
    let (mut reply, mut bytes) = (None, None);
    if lines.next_is("  the bytes there:") {
        bytes = Some(lines.take("  the bytes there:").bytes_or_none());
    } else if lines.next_is("  the bytes of reply ") {
        let mut line = lines.take("  the bytes of reply ");
        reply = Some(line.number());
        line.skip(", counted from 0:");
        bytes = Some(line.bytes_or_none());
    }
    Refused {
        number,
        place,
        reason,
        reply,
        bytes,
        expected: lines.take("  expected: ").rest(),
    }
}

fn run(lines: &mut Lines) -> Result<Run, Refused> {
    if lines.next_is("refused ") {
        return Err(refused(lines));
    }
    let mut line = lines.take("run over ");
    let replies = line.plural(" reply", " replies");
    line.end();
    let mut stretches = Vec::new();
    while lines.next_is("  ") {
        stretches.push(stretch(lines.take("  operation")));
    }
    lines.take("").end();
    let end = end(lines);
    let counts = [
        used(lines.take("  operations: ")),
        used(lines.take("  bytes stored: ")),
        used(lines.take("  bytes taken: ")),
    ];
    let (status, bits) = status(lines.take("  status "));
    Ok(Run {
        replies,
        stretches,
        end,
        counts,
        status,
        bits,
        last: last(lines),
        incoming: shown(lines, "  incoming buffer:"),
        outgoing: shown(lines, "  outgoing buffer:"),
        behind: behind(lines),
    })
}

fn stretch(mut line: Line) -> Stretch {
    let [first, last] = operations(&mut line);
    line.skip(", instruction ");
    let instruction = line.number();
    line.skip(", crate ");
    let crate_number = line.number();
    line.skip(", ");
    let from = position(&mut line);
    let to = line.skips(" to ").then(|| position(&mut line));
    line.skip(", F ");
    let function = line.number();
    let written = ends(&mut line);
    line.skip(": ");
    let reply = reply(&mut line);
    let read = ends(&mut line);
    line.skip(": ");
    let (effect, place, ends) = effect(line);
    Stretch {
        first,
        last,
        instruction,
        crate_number,
        from,
        to,
        function,
        written,
        reply,
        read,
        effect,
        place,
        ends,
    }
}

/// The numbers of the first operation and of the last, or twice that of the only one.
fn operations(line: &mut Line) -> [u64; 2] {
    if !line.skips("s ") {
        line.skip(" ");
        return [line.number(); 2];
    }
    let first = line.number();
    line.skip(" to ");
    let last = line.number();
    assert!(first < last, "operations {first} to {last}");
    [first, last]
}

/// N and A.
fn position(line: &mut Line) -> [u64; 2] {
    line.skip("N ");
    let station = line.number();
    line.skip(", A ");
    [station, line.number()]
}

fn ends(line: &mut Line) -> Option<Ends> {
    if !line.skips(", data ") {
        return None;
    }
    let (size, first) = line.word();
    let last = line.skips(" first, ").then(|| {
        let (size_of_last, last) = line.word();
        assert_eq!(size_of_last, size);
        line.skip(" last");
        last
    });
    Some(Ends { size, first, last })
}

/// Kind and flags.
fn reply(line: &mut Line) -> [u8; 2] {
    let kinds = [
        ("timeout", 1),
        ("address not recognised", 2),
        ("no sync", 3),
    ];
    let kind = line.choose(&[kinds[0], kinds[1], kinds[2], ("Q = ", 0)]);
    if kind != 0 {
        return [kind, 0];
    }
    let digit = [("0", 0), ("1", 1)];
    let q = line.choose(&digit);
    line.skip(", X = ");
    let mut flags = q | line.choose(&digit) << 1;
    for (name, bit) in [(", ERR", 4), (", DERR", 8), (", TPE", 16), (", LPE", 32)] {
        if line.skips(name) {
            flags |= bit;
        }
    }
    [0, flags]
}

/// What came of a reply, where its words are, and whether the run ends.
fn effect(mut line: Line) -> (Effect, Option<Place>, bool) {
    if line.skips("the run ends") {
        line.end();
        return (Effect::Nothing, None, true);
    }
    let mut effect = line.choose(&[
        ("stored at ", Effect::Stored),
        ("taken from ", Effect::Taken),
        ("done", Effect::Done),
        ("not moved, the block is closed", Effect::Closed),
        ("not ready, tried again", Effect::TriedAgain),
        ("no word here, on to the next station", Effect::NextStation),
    ]);
    let is_moved = matches!(effect, Effect::Stored | Effect::Taken);
    let place = is_moved.then(|| place(&mut line));
    if effect == Effect::Stored && line.skips(", Q and X in bits 31 and 30") {
        effect = Effect::StoredWithQAndX;
    }
    let ends = line.skips("; then the run ends");
    line.end();
    (effect, place, ends)
}

fn place(line: &mut Line) -> Place {
    let from = line.number();
    line.skip(" to ");
    let to = line.number();
    let behind_pad = line.skips(", behind 2 pad bytes");
    Place {
        from,
        to,
        behind_pad,
    }
}

fn end(lines: &mut Lines) -> End {
    if lines.next_is("waits") {
        let mut line = lines.take("waits at instruction ");
        let instruction = line.number();
        line.skip(" for ");
        let words = line.plural(" word: ", " words: ");
        let wanted = address(&mut line);
        line.skip(" is wanted next");
        line.end();
        return End::Waits {
            instruction,
            words,
            wanted,
        };
    }
    let mut line = lines.take("ended at instruction ");
    let instruction = line.number();
    line.skip(" with code ");
    let code = line.hexadecimal(1) as u8;
    line.skip(", ");
    let name_and_cause = line.rest();
    let (name, cause) = name_and_cause.split_once(": ").expect("a name and a cause");
    End::Ended {
        instruction,
        code,
        name: name.to_string(),
        cause: cause.to_string(),
    }
}

fn used(mut line: Line) -> [u64; 2] {
    let used = line.number();
    line.skip(" of at most ");
    let most = line.number();
    line.end();
    [used, most]
}

/// The status, with its code, and its bits in words; the last of them is whether the run has ended.
fn status(mut line: Line) -> (u32, Vec<(u32, String)>) {
    let status = line.hexadecimal(8);
    line.skip("h: bits 31 to 28, code ");
    assert_eq!(
        line.hexadecimal(1),
        status >> 28,
        "the code of {status:08X}"
    );
    line.skip(";");
    let mut bits = Vec::new();
    for part in line.rest().split(';') {
        if part == " not ended" {
            continue;
        }
        let bit = part
            .strip_prefix(" bit ")
            .and_then(|bit| bit.split_once(", "));
        let (bit, words) = bit.unwrap_or_else(|| panic!("no bit: {part}"));
        bits.push((bit.parse().expect("a bit's number"), words.to_string()));
    }
    (status, bits)
}

fn last(lines: &mut Lines) -> Option<Last> {
    if lines.next_is("  no word") {
        lines.take("  no word was moved").end();
        return None;
    }
    let mut line = lines.take("  last moved word: ");
    let buffer = line.choose(&[("incoming", 0), ("outgoing", 1)]);
    line.skip(" bytes from ");
    let offset = line.number();
    line.skip(" on,");
    let bytes = line.bytes();
    line.end();
    Some(Last {
        buffer,
        offset,
        bytes,
    })
}

/// The bytes that are shown of a buffer.
fn shown(lines: &mut Lines, name: &str) -> Option<(Vec<u8>, bool)> {
    if !lines.next_is(name) {
        return None;
    }
    let mut line = lines.take(name);
    let bytes = line.bytes();
    let has_more = line.skips(" ..");
    line.end();
    Some((bytes, has_more))
}

fn behind(lines: &mut Lines) -> u64 {
    if !lines.next_is("  behind") {
        return 0;
    }
    let mut line = lines.take("  behind the end: ");
    let replies = line.plural(" reply, not taken", " replies, not taken");
    line.end();
    replies
}
