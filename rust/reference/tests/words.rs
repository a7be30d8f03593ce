//! CAMAC words: cases K1 to K6, the manual's words, refusals 6 to 9.

use reference::scan::Position;
use reference::words::{decode, Address, Camac, Direction, QMode, Transfer, WordSize};

fn naf(crate_number: u64, station: u64, subaddress: u64, function: u64) -> Address {
    Address {
        crate_number,
        station,
        subaddress,
        function,
    }
}

/// The two's complement of H.
fn count(halfwords: u32) -> Option<u32> {
    Some(halfwords.wrapping_neg())
}

#[test]
fn k1_single_stop() {
    let expected = Camac {
        transfer: Transfer::Single,
        q_mode: QMode::Stop,
        address: naf(1, 1, 0, 0),
        size: WordSize::Bits16,
        abort_disable: false,
    };
    assert_eq!(decode(0x0200_0102, None), Ok(expected));
    assert_eq!(expected.words(), 1);
    assert_eq!(expected.direction(), Direction::Read);
}

#[test]
fn k2_ignore_block() {
    let expected = Camac {
        transfer: Transfer::Block { words: 3 },
        q_mode: QMode::Ignore,
        address: naf(5, 7, 2, 0),
        size: WordSize::Bits16,
        abort_disable: false,
    };
    assert_eq!(decode(0x0E40_052A, Some(0xFFFF_FFFD)), Ok(expected));
}

#[test]
fn k3_to_k6_scan() {
    let expected_operations = [(1, 2), (4, 5), (17, 18), (18, 18)];
    for (n, operations) in expected_operations {
        let scan = decode(0x2DC0_3E38, count(2 * n)).expect("a scan");
        assert_eq!(scan.q_mode, QMode::Scan);
        assert_eq!(scan.address, naf(62, 22, 14, 0));
        assert_eq!(scan.size, WordSize::Bits24);
        assert_eq!(scan.transfer, Transfer::Block { words: n.into() });
        assert_eq!(scan.position().positions(), 18);
        assert_eq!(scan.position().stations(), 2);
        assert_eq!(scan.position().most_operations(n.into()), operations);
    }
    assert_eq!(decode(0x2DC0_3E38, count(2 * 19)), Err(9));
}

#[test]
fn scan_positions_step_and_run_off() {
    let at = |station, subaddress| Position {
        station,
        subaddress,
    };
    assert_eq!(at(5, 3).after_done(), Some(at(5, 4)));
    assert_eq!(at(5, 15).after_done(), Some(at(6, 0)));
    assert_eq!(at(5, 3).next_station(), Some(at(6, 0)));
    assert_eq!(at(23, 14).after_done(), Some(at(23, 15)));
    assert_eq!(at(23, 15).after_done(), None);
    assert_eq!(at(23, 0).next_station(), None);
    assert_eq!(at(1, 0).positions(), 368);
    assert_eq!(at(23, 15).positions(), 1);
}

/// The words of the manual's two worked lists (digest 4.1, 4.2).
#[test]
fn words_of_the_manual() {
    let inline = decode(0x0C11_0368, Some(1)).expect("inline");
    assert_eq!(inline.transfer, Transfer::Inline { data: 1 });
    assert_eq!(inline.address, naf(3, 6, 0, 17));
    assert_eq!(inline.q_mode, QMode::Ignore);
    assert_eq!(inline.size, WordSize::Bits24);
    assert_eq!(decode(0x0C1A_0368, Some(0)), Err(8));
    let control = decode(0x0C1A_0308, None).expect("control");
    assert_eq!(control.direction(), Direction::Control);
    let block = decode(0x0C03_0330, Some(0xFFFF_F800)).expect("block");
    assert_eq!(block.transfer, Transfer::Block { words: 1024 });
    assert_eq!(block.q_mode, QMode::Repeat);
    assert_eq!(block.address, naf(3, 6, 0, 3));
    let data = Transfer::Inline { data: 0x0012_3456 };
    let timer = decode(0x0210_0168, Some(0x0012_3456)).expect("timer");
    assert_eq!((timer.transfer, timer.address), (data, naf(1, 1, 0, 16)));
}

/// Transfer counts (digest 4.5, M21 to M30).
#[test]
fn transfer_counts() {
    let words = |first, second| decode(first, Some(second)).map(|camac| camac.words());
    assert_eq!(words(0x0C02_0322, 0xFFFF_FFFF), Ok(1));
    assert_eq!(words(0x0C02_0320, 0xFFFF_FFFE), Ok(1));
    assert_eq!(words(0x0C02_0320, 0xFFFF_FFFF), Err(9));
    assert_eq!(words(0x0C02_0322, 0), Err(9));
    assert_eq!(words(0x0C02_0322, 0xFFFF_0000), Ok(65_536));
    assert_eq!(words(0x0C02_0320, 0xFFFF_0000), Ok(32_768));
    assert_eq!(words(0x0C02_0322, 0xFFFE_FFFF), Err(9));
    assert_eq!(words(0x0C02_0322, 0xFFFF_FC00), Ok(1024));
    assert_eq!(words(0x0C02_0320, 0xFFFF_F800), Ok(1024));
    assert_eq!(words(0x0C02_0322, 0xFFFF_FC18), Ok(1000));
    assert_eq!(words(0x0C02_0322, 1), Err(9));
}

#[test]
fn zero_bits_are_6() {
    for bit in [31, 30, 15, 14, 7, 2] {
        assert_eq!(decode(0x0200_0102 | 1 << bit, None), Err(6), "bit {bit}");
    }
    for first in [0x8000, 0x8014, 0x8015, 0x8010] {
        assert_eq!(decode(first, None), Err(6));
    }
}

/// M35 to M37, M31.
#[test]
fn addresses_out_of_range_are_7() {
    let crate_word = |crate_number: u32| 0x0200_0002 | crate_number << 8;
    for (crate_number, known) in [(0, false), (1, true), (62, true), (63, false)] {
        let expected = if known { None } else { Some(7) };
        assert_eq!(decode(crate_word(crate_number), None).err(), expected);
    }
    for station in 0..32 {
        let known = (1..=23).contains(&station) || station == 30;
        let expected = if known { None } else { Some(7) };
        assert_eq!(decode(station << 25 | 0x0102, None).err(), expected);
    }
    assert_eq!(decode(30 << 25 | 0x011A, None), Err(7));
    assert_eq!(decode(0x3C0C_0138, Some(0xFFFF_FFFE)), Err(7));
    // 6 comes before 7, 7 before 8.
    assert_eq!(decode(0x0000_0006, None), Err(6));
    assert_eq!(decode(0x0000_0042, None), Err(7));
}

/// M38 to M40, M44, M45.
#[test]
fn modes_are_8() {
    let pair = Some(0xFFFF_FFFE);
    for function in 0..32 {
        let first = 0x0C00_0300 | function << 16;
        let control = function & 8 != 0;
        let write = !control && function >= 16;
        assert!(decode(first, None).is_ok());
        assert_eq!(decode(first | 1 << 5, pair).is_ok(), !control);
        assert_eq!(decode(first | 3 << 5, Some(7)).is_ok(), write);
        assert_eq!(decode(first, Some(7)), Err(8));
        assert_eq!(decode(first | 1 << 5, None), Err(8));
        assert_eq!(decode(first | 3 << 5, None), Err(8));
    }
    // 8 comes before 9.
    assert_eq!(decode(0x0C08_0320, Some(0)), Err(8));
}

/// M41 to M43.
#[test]
fn inline_data_above_the_word_size_is_9() {
    assert_eq!(decode(0x0C10_0360, Some(0x0100_0000)), Err(9));
    assert_eq!(decode(0x0C10_0362, Some(0x0001_0000)), Err(9));
    assert!(decode(0x0C10_0362, Some(0x0000_FFFF)).is_ok());
    assert!(decode(0x0C10_0360, Some(0x00FF_FFFF)).is_ok());
}

/// M31: "N 30, F 12, A 0 or 1 reading and 2 or 3 writing" (E1).
#[test]
fn the_list_sequencer() {
    for subaddress in 0..4 {
        let first = 0x3C0C_015A | (subaddress as u32) << 21;
        let expected = Camac {
            transfer: Transfer::Sequencer { words: 400 },
            q_mode: QMode::Ignore,
            address: naf(1, 30, subaddress, 12),
            size: WordSize::Bits16,
            abort_disable: false,
        };
        let sequencer = decode(first, count(400)).expect("a sequencer");
        assert_eq!(sequencer, expected);
        let directions = [Direction::Read, Direction::Write];
        assert_eq!(
            sequencer.direction(),
            directions[usize::from(subaddress > 1)]
        );
        assert!(sequencer.is_enhanced());
    }
}

/// M32: enhanced blocks.
#[test]
fn enhanced_blocks() {
    let modes = [QMode::Stop, QMode::Ignore, QMode::Repeat];
    for (bits, q_mode) in modes.into_iter().enumerate() {
        let first = 0x0C02_0341 | (bits as u32) << 3;
        let expected = Camac {
            transfer: Transfer::Enhanced { words: 2 },
            q_mode,
            address: naf(3, 6, 0, 2),
            size: WordSize::Bits24,
            abort_disable: true,
        };
        assert_eq!(decode(first, count(4)), Ok(expected));
        assert!(expected.is_enhanced());
        let standard = decode(first - (1 << 5), count(4)).expect("a block");
        assert_eq!(standard.transfer, Transfer::Block { words: 2 });
        assert!(!standard.is_enhanced());
    }
}

/// "A stop block, enhanced or standard" (E8), of one word too; singles and inline writes in stop
/// are none, nor is the list sequencer.
#[test]
fn stop_blocks() {
    let is_stop_block = |first, second| {
        let camac = decode(first, second).expect("a word");
        camac.is_stop_block()
    };
    let mut blocks = 0;
    for bits in 0..32_u32 {
        let (ad, size) = (bits & 1, bits & 2);
        let q_mode = bits >> 2 & 3;
        for function in [2, 16] {
            let low = 0x0100 | q_mode << 3 | size | ad;
            let naf = 6 << 25 | function << 16 | low;
            assert!(!is_stop_block(naf, None));
            for words in [1, 3] {
                let halfwords = if size == 0 { 2 * words } else { words };
                let standard = is_stop_block(naf | 1 << 5, count(halfwords));
                assert_eq!(standard, q_mode == 0);
                if q_mode < 2 {
                    let enhanced = is_stop_block(naf | 2 << 5, count(halfwords));
                    assert_eq!(enhanced, q_mode == 0);
                }
                blocks += u64::from(standard);
            }
            let write = naf & !(31 << 16) | 16 << 16;
            assert!(!is_stop_block(write | 3 << 5, Some(7)));
        }
    }
    assert!(blocks > 0);
    assert!(!is_stop_block(0x3C0C_0158, count(2)));
}

/// The refusal that document 02 has for a word of transfer mode 2 and length 8 with a right
/// second longword.
fn enhanced_refusal(station: u32, function: u32, subaddress: u32, q_mode: u32) -> Option<u8> {
    let writes = (16..24).contains(&function);
    let reads = function < 8;
    match (station, q_mode) {
        (0 | 24..=29 | 31, _) => Some(7),
        (30, 3) if function == 12 && subaddress < 4 => None,
        (_, 0 | 1) if reads || writes => None,
        (_, 2) if reads => None,
        _ => Some(8),
    }
}

/// Every N, F, A and Q-mode of transfer mode 2; with length 4 what isn't 7 is 8.
#[test]
fn every_word_of_mode_2() {
    for bits in 0..1 << 16 {
        let (station, subaddress) = (bits >> 11, bits >> 7 & 15);
        let (function, q_mode) = (bits >> 2 & 31, bits & 3);
        let first = station << 25 | subaddress << 21 | function << 16 | 0x0140 | q_mode << 3;
        let expected = enhanced_refusal(station, function, subaddress, q_mode);
        let what = format!("N {station} A {subaddress} F {function} Q-mode {q_mode}");
        assert_eq!(decode(first, count(2)).err(), expected, "{what}");
        let short = if expected == Some(7) { 7 } else { 8 };
        assert_eq!(decode(first, None), Err(short), "{what}");
        // 8 comes before 9.
        let zero = expected.unwrap_or(9);
        assert_eq!(decode(first, Some(0)), Err(zero), "{what}");
    }
}

/// "H above 65,536; H odd for 24-bit" of enhanced blocks; a sequencer's n may be above P.
#[test]
fn counts_of_mode_2() {
    for first in [0x0C02_0340, 0x0C10_0348, 0x3C0C_0158, 0x3C6C_0158] {
        for (halfwords, expected) in [
            (0, Err(9)),
            (1, Err(9)),
            (2, Ok(1)),
            (3, Err(9)),
            (65_536, Ok(32_768)),
            (65_537, Err(9)),
            (65_538, Err(9)),
        ] {
            let words = |first| decode(first, count(halfwords)).map(|camac| camac.words());
            assert_eq!(words(first), expected, "{first:08X} {halfwords}");
            let short = match halfwords {
                1..=65_536 => Ok(u64::from(halfwords)),
                _ => Err(9),
            };
            assert_eq!(words(first | 2), short, "{first:08X} {halfwords}");
        }
    }
}

#[test]
fn a_scan_of_one_word_always_fits() {
    let last = 23 << 25 | 15 << 21;
    assert!(decode(last | 0x0118, None).is_ok());
    assert!(decode(last | 0x10_0178, Some(5)).is_ok());
    assert_eq!(decode(last | 0x013A, count(2)), Err(9));
}
