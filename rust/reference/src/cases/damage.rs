//! Lists damaged by one change, and now and then by a second one, so that the order of
//! refusals shows.

use super::lists::{Draft, DraftField, BITS_16, BLOCK, ENHANCED, INLINE, MODE};
use super::rng::Rng;

/// The bytes of a list after a change: aimed at a refusal, or anywhere.
pub fn damaged(rng: &mut Rng, mut draft: Draft) -> Vec<u8> {
    if rng.once_in(4) {
        return damaged_bytes(rng, draft.bytes());
    }
    change(rng, &mut draft);
    if rng.once_in(4) {
        change(rng, &mut draft);
    }
    draft.bytes()
}

fn change(rng: &mut Rng, draft: &mut Draft) {
    match rng.below(8) {
        0 => damage_head(rng, draft),
        1 => damage_tag_or_length(rng, draft),
        2 => damage_jump(rng, draft),
        3 => damage_walk(rng, draft),
        _ => damage_camac(rng, draft),
    }
}

/// One byte changed, put in or taken out, or the list cut.
fn damaged_bytes(rng: &mut Rng, mut bytes: Vec<u8>) -> Vec<u8> {
    let place = rng.index(bytes.len());
    match rng.below(4) {
        0 => bytes[place] ^= 1 << rng.below(8),
        1 => bytes.insert(place, rng.number() as u8),
        2 => drop(bytes.remove(place)),
        _ => bytes.truncate(place),
    }
    bytes
}

/// For refusal 2, or a first field of another length.
fn damage_head(rng: &mut Rng, draft: &mut Draft) {
    let head = &mut draft.head;
    match rng.below(6) {
        0 => head.tag = rng.pick(&[0x00, 0x10, 0x2F]),
        1 => head.body[0] = rng.pick(&[0, 2, 255]),
        2 => head.body[1] = rng.pick(&[1, 128]),
        3 => head.body[2..].fill(0),
        4 => head.body.truncate(3),
        _ => head.body.push(0),
    }
}

/// For refusals 3 and 4.
fn damage_tag_or_length(rng: &mut Rng, draft: &mut Draft) {
    if draft.fields.is_empty() {
        return;
    }
    let index = rng.index(draft.fields.len());
    match rng.below(4) {
        0 => draft.fields[index].tag = rng.pick(&[0x00, 0x11, 0x22, 0x2E, 0x30, 0xFF]),
        1 => draft.fields.insert(index, draft.head.clone()),
        2 => draft.fields[index].body.push(0),
        _ => {
            let length = rng.pick(&[0, 2, 4, 8, 12]);
            draft.fields[index].body.resize(length, 0);
        }
    }
}

/// For refusals 10 and 11: another target for a jump, or a jump more.
fn damage_jump(rng: &mut Rng, draft: &mut Draft) {
    let count = draft.fields.len();
    let inside = rng.index(count + 1);
    let target = rng.pick(&[count, count + 1, 65_535, inside, inside, inside]);
    let jumps = draft.with_tag(0x20);
    if jumps.is_empty() || rng.once_in(4) {
        draft.fields.insert(inside, DraftField::jump(target));
    } else {
        draft.fields[rng.pick(&jumps)] = DraftField::jump(target);
    }
}

/// For refusal 11: a halt taken away or turned to a jump.
fn damage_walk(rng: &mut Rng, draft: &mut Draft) {
    let halts = draft.with_tag(0x2F);
    if halts.is_empty() {
        return;
    }
    let halt = rng.pick(&halts);
    if rng.coin() {
        draft.fields.remove(halt);
    } else {
        let target = rng.index(halt + 1);
        draft.fields[halt] = DraftField::jump(target);
    }
}

/// For refusals 6 to 9: a CAMAC field changed. Without one, a longword out of the blue.
fn damage_camac(rng: &mut Rng, draft: &mut Draft) {
    let mut camacs = draft.with_tag(0x10);
    camacs.retain(|&index| matches!(draft.fields[index].body.len(), 4 | 8));
    if camacs.is_empty() {
        let field = DraftField::camac(rng.number() as u32, None);
        draft.fields.insert(0, field);
        return;
    }
    let index = rng.pick(&camacs);
    let field = &mut draft.fields[index];
    if field.mode() == ENHANCED && rng.coin() {
        return damage_enhanced(rng, field);
    }
    match rng.below(4) {
        0 => damage_zero_bit(rng, field),
        1 => damage_address(rng, field),
        2 => damage_mode(rng, field),
        _ => damage_second(rng, field),
    }
}

fn damage_zero_bit(rng: &mut Rng, field: &mut DraftField) {
    let bit = rng.pick(&[31, 30, 15, 14, 7, 2]);
    field.set_first(field.first() | 1 << bit);
}

fn damage_address(rng: &mut Rng, field: &mut DraftField) {
    let first = field.first();
    let without_station = first & !(31 << 25);
    field.set_first(match rng.below(5) {
        0 => first & !(63 << 8),
        1 => first | 63 << 8,
        2 => without_station | 30 << 25,
        3 => without_station | rng.pick(&[1, 22, 23]) << 25,
        _ => without_station | rng.pick(&[0, 24, 29, 31]) << 25,
    });
}

fn damage_mode(rng: &mut Rng, field: &mut DraftField) {
    let first = field.first();
    match rng.below(3) {
        0 => field.set_first((first & !MODE) | (rng.below(4) as u32 * BLOCK)),
        1 => field.set_first(first ^ rng.pick(&[8, 16]) << 16),
        _ => {
            let length = if field.body.len() == 4 { 8 } else { 4 };
            field.body.resize(length, 0xFF);
        }
    }
}

/// For refusal 8 in transfer mode 2: another Q-mode, F or A, or the other length.
fn damage_enhanced(rng: &mut Rng, field: &mut DraftField) {
    let first = field.first();
    match rng.below(4) {
        0 => field.set_first(first ^ (rng.within(1..=3) as u32) << 3),
        1 => field.set_first(first ^ 1 << rng.within(16..=20)),
        2 => field.set_first(first ^ 1 << rng.within(22..=24)),
        _ => field.body.truncate(4),
    }
}

/// For refusal 9: another second longword, or another word size for the same one.
fn damage_second(rng: &mut Rng, field: &mut DraftField) {
    let first = field.first();
    if rng.once_in(4) {
        field.set_first(first ^ BITS_16);
        return;
    }
    let second = if field.mode() == INLINE {
        rng.pick(&[0x0001_0000, 0x0080_0000, 0x0100_0000, 0x8000_0000])
    } else {
        let halfwords = rng.pick(&[0_u32, 1, 3, 65_535, 65_536, 65_537, 131_072]);
        halfwords.wrapping_neg()
    };
    *field = DraftField::camac(first, Some(second));
}
