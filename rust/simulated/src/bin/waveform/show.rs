//! What the program shows, part by part.

use crate::host::{Ended, Host, INCOMING, OUTGOING, ROW};
use crate::lists::{self, SAMPLES_BLOCK, SET_UP};
use crate::{picture, words};
use camlist::{admit, scalers, Code, List, Refusal, Word};
use simulated::{Fault, CHANNELS, DECIMALS};

/// The samples of an event, and the scaler and the literal behind them, if it came to these.
/// Here the samples are an even number; an odd one would have a pad behind it.
fn parts(ended: &Ended) -> (Vec<u16>, Option<Word>) {
    let stored = &ended.incoming[..ended.record.incoming_mark() as usize];
    let (samples, scaler) = match ended.record.status().code() {
        Code::NO_ERROR => {
            let (samples, behind) = stored.split_at(stored.len() - 8);
            (samples, behind.first_chunk().copied().map(Word::from))
        }
        _ => (stored, None),
    };
    let samples = samples.as_chunks().0.iter().copied();
    (samples.map(u16::from_le_bytes).collect(), scaler)
}

fn event(host: &mut Host, ended: &Ended) -> Result<(), Refusal> {
    let (samples, scaler) = parts(ended);
    let scaler = scaler.map(|word| format!(", scaler {}", word.data()));
    println!("{}", words::ending(&ended.record));
    println!(
        "  {} samples stored{}",
        samples.len(),
        scaler.unwrap_or_default()
    );
    host.serve_demands()
}

/// The digitizer's waveform as text; what the run came to, and the picture.
pub fn waveform(list: &List) -> Result<(Ended, String), Refusal> {
    println!("The digitizer, operation by operation");
    let counts = admit(list, INCOMING as u64, OUTGOING.len() as u64)?;
    println!(
        "  at most {} operations, {} bytes in and {} out",
        counts.operations, counts.incoming, counts.outgoing
    );
    let mut host = Host::power_up();
    let ended = host.run_by_step(list, u64::from(SET_UP) + 1)?;
    event(&mut host, &ended)?;
    let (samples, _) = parts(&ended);
    print!("{}", picture::text(&samples));
    Ok((ended, picture::svg(&samples)))
}

/// The same once more on a new crate, and whether buffer and record are those of before.
pub fn rows(list: &List, before: &Ended) -> Result<(), Refusal> {
    println!("The same by rows of up to {ROW} replies");
    let mut host = Host::power_up();
    let (ended, rows) = host.run_by_rows(list, SAMPLES_BLOCK)?;
    let is_same = ended.incoming == before.incoming && ended.record == before.record;
    let answer = if is_same { "yes" } else { "no" };
    let made = ended.made;
    println!("  {made} operations in {rows} rows; the same bytes and the same record: {answer}");
    event(&mut host, &ended)
}

pub fn fewer() -> Result<(), Refusal> {
    println!("Fewer samples than asked");
    let mut host = Host::power_up();
    let (ended, rows) = host.run_by_rows(&lists::event(700), SAMPLES_BLOCK)?;
    println!("  {} operations in {rows} rows", ended.made);
    event(&mut host, &ended)
}

/// Takes the bytes of so many words off the front.
fn split<'a, const N: usize>(rest: &mut &'a [u8], words: u32) -> &'a [[u8; N]] {
    let (taken, behind) = rest.split_at(N * words as usize);
    *rest = behind;
    taken.as_chunks().0
}

/// 24-bit words with Q and X of their answers.
fn longwords(title: &str, longwords: &[[u8; 4]]) {
    for (k, longword) in longwords.iter().enumerate() {
        let word = Word::from(*longword);
        let (data, q, x) = (word.data(), u8::from(word.q()), u8::from(word.x()));
        let title = if k == 0 { title } else { "" };
        println!("  {title:14} {:08X}: {data:8}, Q = {q}, X = {x}", word.0);
    }
}

/// Longwords in hexadecimal.
fn hexadecimal(title: &str, longwords: &[[u8; 4]]) {
    let shown = longwords
        .iter()
        .map(|bytes| format!(" {:08X}", u32::from_le_bytes(*bytes)));
    println!("  {title:14}{}", shown.collect::<String>());
}

/// 16-bit words.
fn halfwords(title: &str, words: &[[u8; 2]]) {
    for (k, line) in words.chunks(12).enumerate() {
        let shown = line
            .iter()
            .map(|bytes| format!(" {:4}", u16::from_le_bytes(*bytes)));
        let title = if k == 0 { title } else { "" };
        println!("  {title:14}{}", shown.collect::<String>());
    }
}

pub fn modules() -> Result<(), Refusal> {
    println!("The other modules");
    let ended = Host::power_up().run_by_step(&lists::modules(), 0)?;
    println!("{}", words::ending(&ended.record));
    let stored = &ended.incoming[..ended.record.incoming_mark() as usize];
    let mut rest = stored;
    longwords("scaler", split(&mut rest, CHANNELS + 2));
    let digits = split::<4>(&mut rest, DECIMALS);
    hexadecimal("decimal digits", digits);
    let mut numbers = digits.concat();
    scalers::to_binary(&mut numbers)?;
    longwords("in binary", numbers.as_chunks().0);
    longwords("sequencer", split(&mut rest, lists::LISTED_WORDS));
    halfwords("ADC", split(&mut rest, lists::ADC_WORDS));
    halfwords("scan", split(&mut rest, lists::SCAN_WORDS));
    halfwords("enhanced", split(&mut rest, lists::BLOCK_SAMPLES));
    hexadecimal("literal", rest.as_chunks().0);
    Ok(())
}

/// The crate does not answer the operation of sample 1,001. The same list is started again.
pub fn silence(list: &List) -> Result<(), Refusal> {
    println!("A crate that falls silent");
    let mut host = Host::power_up();
    host.simulated.ask_fault(Fault::Timeout, SET_UP + 1_001);
    let (ended, _) = host.run_by_rows(list, SAMPLES_BLOCK)?;
    event(&mut host, &ended)?;
    println!("The same list again");
    let (ended, _) = host.run_by_rows(list, SAMPLES_BLOCK)?;
    event(&mut host, &ended)
}

type Put = fn() -> List;

/// A run for each way to end: a fault of operation 7, or a list that asks too much. A delayed
/// error ends nothing.
pub fn endings() -> Result<(), Refusal> {
    let endings: [(&str, Fault, Put); 12] = [
        ("no fault", Fault::None, lists::pulse),
        ("no sync", Fault::NoSync, lists::pulse),
        ("an address lost", Fault::NotRecognised, lists::pulse),
        ("another crate", Fault::None, lists::other_crate),
        ("a busy ADC", Fault::None, lists::busy),
        ("transverse parity", Fault::Tpe, lists::pulse),
        ("longitudinal parity", Fault::Lpe, lists::pulse),
        ("a scan too long", Fault::None, lists::long_scan),
        ("an empty station", Fault::None, lists::empty_station),
        ("no sample", Fault::None, lists::no_sample),
        ("a damaged command", Fault::Err, lists::pulse),
        ("a delayed error", Fault::Derr, lists::pulse),
    ];
    println!("Other endings");
    for (title, fault, list) in endings {
        let mut host = Host::power_up();
        host.simulated.ask_fault(fault, 7);
        let record = host.run_by_step(&list(), 0)?.record;
        let (mark, code) = (record.incoming_mark(), words::code(&record));
        println!("  {title:19} {mark:2} bytes, {code}");
        println!("{:22}{}", "", words::status(&record));
    }
    Ok(())
}
