//! Packing (document 01, "Packing").
//!
//! A length here is the bytes that a word or literal takes: 2 or 4.

/// The bytes of a literal.
pub const LITERAL_BYTES: u64 = 4;

/// Where a word of `length` bytes starts if the mark is `mark`: "If the mark modulo 4
/// is 2, two zero bytes come first", said of 24-bit words and literals. Document 02's E3
/// has the proved engine add the remainder instead; the test stays here, beside it.
pub fn offset(mark: u64, length: u64) -> u64 {
    if length == 4 && mark % 4 == 2 {
        mark + 2
    } else {
        mark
    }
}

/// The mark after one word of `length` bytes.
pub fn mark_after(mark: u64, length: u64) -> u64 {
    offset(mark, length) + length
}

/// The mark after `words` words of `length` bytes. Only the first can bring a pad: a
/// word of four bytes leaves a mark that is a multiple of 4, or that was odd already.
pub fn mark_after_words(mark: u64, length: u64, words: u64) -> u64 {
    if words == 0 {
        mark
    } else {
        offset(mark, length) + words * length
    }
}

/// Stores a word at the mark of the incoming buffer, its pad "written together with
/// that word and not before", low byte first. Returns where the word starts.
#[inline]
pub fn store(buffer: &mut [u8], mark: u64, length: u64, data: u32) -> u64 {
    let start = offset(mark, length);
    if start > mark {
        buffer[mark as usize..start as usize].fill(0);
    }
    let [byte0, byte1, byte2, byte3] = data.to_le_bytes();
    let place = start as usize;
    if length == 2 {
        buffer[place..place + 2].copy_from_slice(&[byte0, byte1]);
    } else {
        buffer[place..place + 4].copy_from_slice(&[byte0, byte1, byte2, byte3]);
    }
    start
}

/// The word that a write takes from the mark of the outgoing buffer on: "pad bytes and
/// top bytes are ignored, nothing is written."
pub fn fetch(buffer: &[u8], mark: u64, length: u64) -> u32 {
    let start = offset(mark, length) as usize;
    let low = u32::from(buffer[start]) | u32::from(buffer[start + 1]) << 8;
    if length == 4 {
        low | u32::from(buffer[start + 2]) << 16
    } else {
        low
    }
}
