//! CAMAC instructions of every kind, for lists written by hand.

use crate::cases::by_hand::{self, hex};
use crate::cases::coverage::Mode;
use crate::cases::lists::{Draft, DraftField};
use crate::words::Direction;

/// A transfer mode with its Q-mode (0 stop, 1 ignore, 2 repeat, 3 scan or sequencer), its
/// direction and its word size.
#[derive(Clone, Copy, Debug, PartialEq, Eq)]
pub struct Kind {
    pub mode: Mode,
    pub q_mode: u32,
    pub direction: Direction,
    pub wide: bool,
}

const READ_WRITE: [Direction; 2] = [Direction::Read, Direction::Write];
const ALL: [Direction; 3] = [Direction::Read, Direction::Write, Direction::Control];

/// The Q-modes and directions that a transfer mode has.
fn carried(mode: Mode) -> Vec<(u32, &'static [Direction])> {
    match mode {
        Mode::Single => (0..4).map(|q| (q, &ALL[..])).collect(),
        Mode::Block => (0..4).map(|q| (q, &READ_WRITE[..])).collect(),
        Mode::Enhanced => vec![
            (0, &READ_WRITE[..]),
            (1, &READ_WRITE[..]),
            (2, &READ_WRITE[..1]),
        ],
        Mode::Sequencer => vec![(3, &READ_WRITE[..])],
        Mode::Inline => (0..4).map(|q| (q, &READ_WRITE[1..])).collect(),
    }
}

const MODES: [Mode; 5] = [
    Mode::Single,
    Mode::Block,
    Mode::Enhanced,
    Mode::Sequencer,
    Mode::Inline,
];

/// Every kind; a control has no word and is taken as 16-bit.
pub fn kinds() -> Vec<Kind> {
    let mut kinds = Vec::new();
    for mode in MODES {
        for (q_mode, directions) in carried(mode) {
            for &direction in directions {
                let sizes = [false, true].into_iter();
                let sizes = sizes.filter(|&wide| !wide || direction != Direction::Control);
                kinds.extend(sizes.map(|wide| Kind {
                    mode,
                    q_mode,
                    direction,
                    wide,
                }));
            }
        }
    }
    kinds
}

impl Kind {
    pub fn name(&self) -> String {
        let mode = format!("{:?}", self.mode).to_lowercase();
        let q_mode = ["stop", "ignore", "repeat", "scan"][self.q_mode as usize];
        let bits = if self.wide { 24 } else { 16 };
        let direction = format!("{:?}", self.direction).to_lowercase();
        match (self.mode, self.direction) {
            (Mode::Sequencer, _) => format!("{mode}-{direction}-{bits}"),
            (Mode::Inline, _) => format!("{mode}-{q_mode}-{bits}"),
            (_, Direction::Control) => format!("{mode}-{q_mode}-{direction}"),
            _ => format!("{mode}-{q_mode}-{direction}-{bits}"),
        }
    }

    /// The name in words.
    pub fn words(&self) -> String {
        let name = self.name().replace('-', " ");
        match self.direction {
            Direction::Control => name,
            _ => format!("{name} bits"),
        }
    }

    pub fn scans(&self) -> bool {
        self.q_mode == 3 && self.mode != Mode::Sequencer
    }

    pub fn repeats(&self) -> bool {
        self.q_mode == 2
    }

    pub fn is_block(&self) -> bool {
        matches!(self.mode, Mode::Block | Mode::Enhanced | Mode::Sequencer)
    }

    /// Where its words go: 0 the incoming buffer, 1 the outgoing one.
    pub fn buffer(&self) -> Option<u64> {
        match (self.mode, self.direction) {
            (Mode::Inline, _) | (_, Direction::Control) => None,
            (_, Direction::Read) => Some(0),
            (_, Direction::Write) => Some(1),
        }
    }

    /// Its station and subaddress in these lists; a scan's leave it 18 positions.
    pub fn position(&self) -> (u32, u32) {
        match (self.mode, self.direction) {
            (Mode::Sequencer, Direction::Read) => (30, 1),
            (Mode::Sequencer, _) => (30, 2),
            _ if self.scans() => (22, 14),
            _ => (5, 3),
        }
    }

    fn function(&self) -> u32 {
        match (self.mode, self.direction) {
            (Mode::Sequencer, _) => 12,
            (_, Direction::Read) => 2,
            (_, Direction::Write) => 17,
            (_, Direction::Control) => 26,
        }
    }

    /// The field of so many words (blocks), at its position.
    pub fn field(&self, words: u32, ad: bool) -> DraftField {
        let (n, a) = self.position();
        let mode = match self.mode {
            Mode::Single => 0,
            Mode::Block => 1,
            Mode::Enhanced | Mode::Sequencer => 2,
            Mode::Inline => 3,
        };
        let word = Word {
            crate_number: 9,
            n,
            a,
            f: self.function(),
            mode,
            q_mode: self.q_mode,
            wide: self.wide,
            ad,
        };
        let halfwords = if self.wide { 2 * words } else { words };
        match self.mode {
            Mode::Single => word.field(None),
            Mode::Inline => word.field(Some(if self.wide { 0xAB_CDEF } else { 0xCDEF })),
            _ => word.field(Some(halfwords.wrapping_neg())),
        }
    }
}

/// The parts of a first longword.
#[derive(Clone, Copy, Debug)]
pub struct Word {
    pub crate_number: u32,
    pub n: u32,
    pub a: u32,
    pub f: u32,
    pub mode: u32,
    pub q_mode: u32,
    pub wide: bool,
    pub ad: bool,
}

impl Word {
    /// A single stop read of 16 bits: crate 1, N 1, A 0, F 0 (K1).
    pub const K1: Word = Word {
        crate_number: 1,
        n: 1,
        a: 0,
        f: 0,
        mode: 0,
        q_mode: 0,
        wide: false,
        ad: false,
    };

    /// K1 in another transfer mode, with another Q-mode.
    pub const fn of(mode: u32, q_mode: u32) -> Word {
        Word {
            mode,
            q_mode,
            ..Word::K1
        }
    }

    /// With another function.
    pub const fn f(self, f: u32) -> Word {
        Word { f, ..self }
    }

    /// At another station and subaddress.
    pub const fn at(self, n: u32, a: u32) -> Word {
        Word { n, a, ..self }
    }

    /// Of 24 bits, or of 16.
    pub const fn wide(self, wide: bool) -> Word {
        Word { wide, ..self }
    }

    pub fn longword(&self) -> u32 {
        let size = u32::from(!self.wide) << 1;
        let address = self.n << 25 | self.a << 21 | self.f << 16 | self.crate_number << 8;
        address | self.mode << 5 | self.q_mode << 3 | size | u32::from(self.ad)
    }

    pub fn field(&self, second: Option<u32>) -> DraftField {
        DraftField::camac(self.longword(), second)
    }

    /// A block's field with H halfwords.
    pub fn of_halfwords(&self, halfwords: u32) -> DraftField {
        self.field(Some(halfwords.wrapping_neg()))
    }
}

/// A list of some fields and a halt.
pub fn list(try_limit: u16, mut fields: Vec<DraftField>) -> Vec<u8> {
    fields.push(DraftField::halt());
    Draft::new(try_limit, fields).bytes()
}

/// A list for each refusal that a list alone brings, but for 5; and two whose words no buffer
/// of three incoming bytes and one outgoing byte holds.
pub fn refused_lists() -> [(&'static str, Vec<u8>); 12] {
    let behind = by_hand::list;
    [
        ("refusal-1", behind("2F 00")),
        ("refusal-2", hex("01 04 00 01 00 00 00")),
        ("refusal-3", behind("2F 00 00 55 00 00")),
        ("refusal-4", behind("2F 00 00 2F 01 00 00")),
        ("refusal-6", behind("10 04 00 06 01 00 02 2F 00 00")),
        ("refusal-7", behind("10 04 00 02 00 00 02 2F 00 00")),
        ("refusal-8", behind("10 04 00 22 01 00 02 2F 00 00")),
        (
            "refusal-9",
            behind("10 08 00 22 01 00 02 00 00 00 00 2F 00 00"),
        ),
        ("refusal-10", behind("2F 00 00 20 02 00 02 00")),
        ("refusal-11", behind("20 02 00 00 00")),
        ("refusal-20", behind("21 04 00 01 02 03 04 2F 00 00")),
        ("refusal-21", behind("10 04 00 02 01 10 02 2F 00 00")),
    ]
}

/// So many bytes, no two alike, none zero.
pub fn filled(length: u64, from: u8) -> Vec<u8> {
    (0..length).map(|at| from + at as u8).collect()
}
