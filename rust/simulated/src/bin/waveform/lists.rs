//! The lists that the program runs.

use camlist::{Camac, List};
use simulated::{ADC, CHANNELS, DECIMAL, DECIMALS, DIGITIZER, SAMPLES, SCALER, SWITCHES};

pub const CRATE: u32 = 3;
const TRY_LIMIT: u16 = 4;
/// Operations of an event before its first sample.
pub const SET_UP: u32 = 4;
/// The instruction of an event that reads the samples.
pub const SAMPLES_BLOCK: u64 = 4;
const END_OF_EVENT: u32 = 0xE0E0_E0E0;

/// Words by the list sequencer, whose list has four.
pub const LISTED_WORDS: u32 = 5;
pub const ADC_WORDS: u32 = 3;
/// All switches: 3 at station 14, 16 at 17 and 2 at 18.
pub const SCAN_WORDS: u32 = 21;
/// Words of the enhanced block, and the samples that there are.
const BLOCK_WORDS: u32 = 16;
pub const BLOCK_SAMPLES: u32 = 12;

/// A digitizer that is set to so many samples, triggered, and read until it has no more or
/// 2,048 have come; then a scaler, which counts the operations so far. Their LAMs are enabled.
pub fn event(samples: u32) -> List {
    let at = |station, subaddress, function| Camac::at(CRATE, station, subaddress, function);
    List::new(TRY_LIMIT)
        .inline(at(DIGITIZER, 1, 16).bits16(), samples)
        .single(at(DIGITIZER, 0, 26))
        .single(at(SCALER, 0, 26))
        .single(at(DIGITIZER, 0, 25))
        .block(at(DIGITIZER, 0, 2).stop().bits16(), SAMPLES)
        .single(at(SCALER, 0, 0))
        .literal(END_OF_EVENT)
        .halt()
}

/// Tests and clears the LAM of a station that sent a demand.
pub fn service(crate_number: u32, station: u32) -> List {
    List::new(TRY_LIMIT)
        .single(Camac::at(crate_number, station, 0, 8))
        .single(Camac::at(crate_number, station, 0, 10))
        .halt()
}

/// The other modules, each in its Q-mode. With AD = 1 the run goes on where a station is empty.
pub fn modules() -> List {
    let at = |station, subaddress, function| Camac::at(CRATE, station, subaddress, function);
    let mut list = List::new(TRY_LIMIT);
    for subaddress in 0..=CHANNELS {
        list = list.single(at(SCALER, subaddress, 0).ignore().abort_disable());
    }
    list = list
        .single(at(SCALER + 1, 0, 0).ignore().abort_disable())
        .enhanced(Camac::sequencer(CRATE, 2), DECIMALS);
    for subaddress in 0..DECIMALS {
        list = list.single(at(DECIMAL, subaddress, 0));
    }
    list.enhanced(Camac::sequencer(CRATE, 0), LISTED_WORDS)
        .single(at(ADC, 0, 25))
        .block(at(ADC, 0, 0).repeat().bits16(), ADC_WORDS)
        .block(at(SWITCHES, 0, 0).scan().bits16(), SCAN_WORDS)
        .inline(at(DIGITIZER, 1, 16).bits16(), BLOCK_SAMPLES)
        .single(at(DIGITIZER, 0, 25))
        .enhanced(at(DIGITIZER, 0, 2).stop().bits16(), BLOCK_WORDS)
        .literal(END_OF_EVENT)
        .halt()
}

/// Sixteen samples.
pub fn pulse() -> List {
    List::new(TRY_LIMIT)
        .single(Camac::at(CRATE, DIGITIZER, 0, 25))
        .block(Camac::at(CRATE, DIGITIZER, 0, 2).stop().bits16(), 16)
        .halt()
}

/// A crate that is not there.
pub fn other_crate() -> List {
    List::new(TRY_LIMIT)
        .single(Camac::at(CRATE + 1, DIGITIZER, 0, 25))
        .halt()
}

/// An ADC that is busy at every try.
pub fn busy() -> List {
    let busy = Camac::at(CRATE, ADC, 1, 16).bits16();
    List::new(TRY_LIMIT)
        .inline(busy, u32::from(TRY_LIMIT))
        .single(Camac::at(CRATE, ADC, 0, 25))
        .single(Camac::at(CRATE, ADC, 0, 0).repeat().bits16())
        .halt()
}

/// More switches than there are.
pub fn long_scan() -> List {
    let switches = Camac::at(CRATE, SWITCHES, 0, 0).scan().bits16();
    List::new(TRY_LIMIT).block(switches, SCAN_WORDS + 1).halt()
}

/// An empty station.
pub fn empty_station() -> List {
    List::new(TRY_LIMIT)
        .single(Camac::at(CRATE, SCALER + 1, 0, 0))
        .halt()
}

/// A digitizer without samples.
pub fn no_sample() -> List {
    let sample = Camac::at(CRATE, DIGITIZER, 0, 2).bits16();
    List::new(TRY_LIMIT).single(sample).halt()
}
