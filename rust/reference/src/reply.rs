//! Replies (document 01, "One operation, one reply"; refusal 22).

/// The bytes of a reply.
pub const REPLY_BYTES: usize = 8;

/// What an answer (kind 0) says.
#[derive(Clone, Copy, Debug, Default, PartialEq, Eq)]
pub struct Response {
    pub q: bool,
    pub x: bool,
    pub err: bool,
    pub derr: bool,
    pub tpe: bool,
    pub lpe: bool,
    pub data: u32,
}

/// "kind: 0 answer, 1 timeout, 2 address not recognised, 3 no sync."
#[derive(Clone, Copy, Debug, PartialEq, Eq)]
pub enum Reply {
    Answer(Response),
    Timeout,
    NotRecognised,
    NoSync,
}

/// Reads a reply; `None` if it is not formed as document 01 says. "Kinds 1 to 3 have
/// every other byte zero."
pub fn read(reply: &[u8]) -> Option<Reply> {
    match *reply {
        [0, flags, 0, 0, low, middle, high, 0] if flags & 0b1100_0000 == 0 => {
            let data = u32::from_le_bytes([low, middle, high, 0]);
            Some(Reply::Answer(response(flags, data)))
        }
        [1, 0, 0, 0, 0, 0, 0, 0] => Some(Reply::Timeout),
        [2, 0, 0, 0, 0, 0, 0, 0] => Some(Reply::NotRecognised),
        [3, 0, 0, 0, 0, 0, 0, 0] => Some(Reply::NoSync),
        _ => None,
    }
}

/// Reads a row; `None` for "a row with such a reply anywhere or not a multiple of 8".
pub fn read_row(row: &[u8]) -> Option<Vec<Reply>> {
    row.chunks(REPLY_BYTES).map(read).collect()
}

/// "Byte 1 bits: 0 Q, 1 X, 2 ERR, 3 DERR (delayed error), 4 TPE and 5 LPE".
fn response(flags: u8, data: u32) -> Response {
    let bit = |number: u8| flags >> number & 1 == 1;
    Response {
        q: bit(0),
        x: bit(1),
        err: bit(2),
        derr: bit(3),
        tpe: bit(4),
        lpe: bit(5),
        data,
    }
}
