//! The lists of the folders in `examples`, each run on a new simulated crate, number 1: what the
//! list is, what the crate answered, and the outgoing words.

use crate::{Crate, Fault, ADC, DECIMAL, DIGITIZER, SAMPLES, SCALER, SWITCHES};
use camlist::{admit, Camac, List, Run};

const CRATE: u8 = 1;

/// The most incoming bytes that the programs camrun and explain have room for.
const ROOM: u64 = 65_536;

/// What a folder holds.
pub struct Example {
    pub name: &'static str,
    pub list: Vec<u8>,
    pub replies: Vec<u8>,
    pub outgoing: Vec<u8>,
}

impl Example {
    /// The files by their names.
    pub fn files(&self) -> [(&'static str, &[u8]); 3] {
        [
            ("run.lst", &self.list),
            ("run.rep", &self.replies),
            ("run.out", &self.outgoing),
        ]
    }
}

pub fn all() -> Vec<Example> {
    vec![
        read("digitizer", digitizer()),
        read("short", short()),
        read("scan", scan()),
        read("repeat", repeat()),
        read("mixed", mixed()),
        driven("setup", setup(), &thresholds(), (Fault::None, 0)),
        read("jump", jump()),
        read("refused", refused()),
        read("endless", endless()),
        driven("parity", digitizer(), &[], (Fault::Tpe, 21)),
    ]
}

/// A list that takes no outgoing words, on a crate without faults.
fn read(name: &'static str, list: List) -> Example {
    driven(name, list, &[], (Fault::None, 0))
}

/// A list driven on a new crate to its end, with a fault of one operation. A list that is
/// refused draws no reply.
fn driven(name: &'static str, list: List, outgoing: &[u8], fault: (Fault, u32)) -> Example {
    let mut simulated = Crate::new(CRATE);
    simulated.ask_fault(fault.0, fault.1);
    let mut replies = Vec::new();
    if let Ok(counts) = admit(&list, ROOM, outgoing.len() as u64) {
        let mut incoming = vec![0; counts.incoming as usize];
        let mut run = Run::start(&list, &mut incoming, outgoing).expect("an admitted list");
        while let Some(wanted) = run.wanted() {
            let reply = simulated.operate(wanted.into());
            run.steps(&reply).expect("a reply that is well formed");
            replies.extend(reply);
        }
    }
    Example {
        name,
        list: list.to_vec(),
        replies,
        outgoing: outgoing.to_vec(),
    }
}

fn at(station: u32, subaddress: u32, function: u32) -> Camac {
    Camac::at(u32::from(CRATE), station, subaddress, function)
}

/// A trigger, then all samples in one block.
fn digitizer() -> List {
    List::new(1)
        .single(at(DIGITIZER, 0, 25).bits16())
        .block(at(DIGITIZER, 0, 2).bits16(), SAMPLES)
        .halt()
}

/// The same with 23 samples where 2,048 are asked for: the block is short, and a scaler's
/// channel is stored at the mark that is reached.
fn short() -> List {
    List::new(1)
        .inline(at(DIGITIZER, 1, 16).bits16(), 23)
        .single(at(DIGITIZER, 0, 25).bits16())
        .block(at(DIGITIZER, 0, 2).bits16(), SAMPLES)
        .single(at(SCALER, 0, 0))
        .halt()
}

/// The switches of stations 14, 17 and 18, with empty stations between them.
fn scan() -> List {
    List::new(1)
        .block(at(SWITCHES, 0, 0).bits16().scan(), 21)
        .halt()
}

/// Four results of an ADC that is busy during two reads of each.
fn repeat() -> List {
    List::new(5)
        .single(at(ADC, 0, 25).bits16())
        .block(at(ADC, 0, 0).bits16().repeat(), 4)
        .halt()
}

/// Words of both sizes and a literal, with pads where a longword follows an odd number of
/// 16-bit words; the last word is read at an empty station, with AD = 1.
fn mixed() -> List {
    List::new(1)
        .block(at(SWITCHES, 0, 0).bits16().ignore(), 3)
        .block(at(SCALER, 1, 0), 2)
        .single(at(SWITCHES, 1, 0).bits16())
        .literal(0xE0E0_E0E0)
        .single(at(SWITCHES, 2, 0).bits16())
        .single(at(DECIMAL, 0, 0).ignore().abort_disable())
        .single(at(SWITCHES + 1, 0, 0).ignore().abort_disable())
        .halt()
}

/// Set-up by data in the list and by outgoing words of both sizes.
fn setup() -> List {
    List::new(1)
        .inline(at(DIGITIZER, 1, 16).bits16(), 512)
        .single(at(ADC, 1, 16).bits16())
        .block(at(SCALER, 0, 16).scan(), 4)
        .single(at(DIGITIZER, 0, 26).bits16())
        .halt()
}

/// The outgoing words of the set-up: one of 16 bits, a pad, four of 24 bits.
fn thresholds() -> Vec<u8> {
    let mut bytes = vec![5, 0, 0, 0];
    for word in [0x00_1000u32, 0x00_2000, 0x00_3000, 0xFF_F000] {
        bytes.extend(word.to_le_bytes());
    }
    bytes
}

/// Instructions out of their order; the last one is on no walk.
fn jump() -> List {
    List::new(1)
        .jump(3)
        .single(at(SWITCHES, 1, 0).bits16())
        .halt()
        .single(at(SWITCHES, 0, 0).bits16())
        .jump(1)
        .single(at(SWITCHES, 2, 0).bits16())
}

/// Station 24, which no crate has.
fn refused() -> List {
    List::new(1)
        .single(at(SWITCHES, 0, 0).bits16())
        .single(at(24, 0, 0).bits16())
        .halt()
}

/// A list whose last jump leads back: its walk comes to no halt.
fn endless() -> List {
    List::new(1)
        .single(at(SWITCHES, 0, 0).bits16())
        .single(at(SWITCHES, 1, 0).bits16())
        .jump(1)
        .halt()
}
