//! Cases for the kit's programs: the bytes of run.lst, run.rep and run.out.

use reference::camrun::MOST_BYTES;
use reference::cases::by_hand::{double, kind, list, list_with, ok, one, single, HALT, M15};
use reference::cases::{case, paper};

const SEED: u64 = 21;

pub type Files = [Vec<u8>; 3];

pub fn random(count: u64) -> impl Iterator<Item = Files> {
    let cases = (0..count).map(|number| case(SEED, number));
    cases.map(|case| [case.list, case.row, case.outgoing])
}

pub fn papers() -> impl Iterator<Item = Files> {
    let papers = [paper::document_01(), paper::document_02(), paper::manual()];
    let cases = papers.into_iter().flatten();
    cases.map(|known| [known.list, known.row, known.outgoing])
}

/// Files at the limit and beyond: "Each file is read up to 65,536 bytes."
pub fn long() -> impl Iterator<Item = Files> {
    let word = one(&single(0x0200_0102));
    let mut row = ok(1).repeat(MOST_BYTES / 8);
    row.push(0xFF);
    let mut damaged = row.clone();
    damaged[MOST_BYTES - 1] = 1;
    let reads = one(&double(0x0C02_0322, 0xFFFF_8000));
    let writes = one(&double(0x0C10_0322, 0xFFFF_8000));
    let more_writes = one(&(double(0x0C10_0322, 0xFFFF_8000) + &single(0x0C10_0302)));
    let cut_field = [list("99 FF FF"), vec![0; 65_535]].concat();
    let full_list = list(&HALT.repeat(4_096));
    // W is above 2^32.
    let inline = double(0x0C10_0370, 5);
    let repeats = double(0x0C02_0332, 0xFFFF_8000) + &double(0x0C10_0332, 0xFFFF_8000);
    let repeats = list_with(65_535, &(repeats + &inline.repeat(3) + HALT));
    let cases = [
        [word.clone(), row.clone(), vec![]],
        [word.clone(), damaged, vec![]],
        [word, row[..MOST_BYTES].to_vec(), vec![]],
        [reads, row, vec![]],
        [writes, vec![], vec![0; MOST_BYTES + 1]],
        [more_writes, vec![], vec![0; MOST_BYTES + 2]],
        [cut_field, vec![], vec![]],
        [full_list, vec![], vec![]],
        [repeats, ok(0).repeat(9), vec![0; MOST_BYTES]],
        [list(M15), kind(3).to_vec(), vec![0; 16]],
    ];
    cases.into_iter()
}
