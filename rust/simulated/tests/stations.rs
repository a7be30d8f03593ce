//! The simulated crate's stations, as the table in `examples/crate/crate.h` has them.

mod common;

use common::{Answer, Highway, DONE, NOT_ACCEPTED, NOT_DONE};
use simulated::{ADC, CHANNELS, DECIMAL, DECIMALS, DEMANDS, DIGITIZER, SAMPLES, SCALER, SWITCHES};
use std::fs;
use std::path::Path;

const SEQUENCER: u32 = 30;

/// Answers of a new crate to data 0.
fn first_answer(n: u32, a: u32, f: u32) -> Answer {
    let is_lam_station = [DIGITIZER, ADC, SCALER, DECIMAL].contains(&n);
    let channels = match n {
        SCALER => 0..CHANNELS,
        DECIMAL => 0..DECIMALS,
        14 => 0..3,
        17 => 0..16,
        18 => 0..2,
        _ => 0..0,
    };
    match (n, a, f) {
        (DIGITIZER, 0, 2) | (DIGITIZER, 1, 16) | (ADC, 0, 0) => NOT_DONE,
        (DIGITIZER, 0, 9 | 25) | (ADC, 0, 25) | (ADC, 1, 16) => DONE,
        (DIGITIZER, 1, 0) => Answer::read(2_048),
        (ADC, 1, 0) => Answer::read(2),
        (_, 0, 8) if is_lam_station => NOT_DONE,
        (_, 0, 10 | 24 | 26) if is_lam_station => DONE,
        (SCALER | DECIMAL, _, 0 | 2 | 9 | 16) if channels.contains(&a) => DONE,
        (SCALER | DECIMAL, _, 0 | 2 | 9 | 16) => NOT_DONE,
        (14 | 17 | 18, _, 0) if channels.contains(&a) => Answer::read(100 * n + a),
        (14 | 17 | 18, _, 0) => NOT_DONE,
        _ => NOT_ACCEPTED,
    }
}

#[test]
fn every_command_by_both_messages() {
    for n in 0..32 {
        for (a, f) in (0..16).flat_map(|a| (0..32).map(move |f| (a, f))) {
            let expected = first_answer(n, a, f);
            let answer = Highway::new().command(n, a, f, 0);
            assert_eq!(answer, expected, "N {n} A {a} F {f}");
            if (n, f) != (SEQUENCER, 12) {
                let answer = Highway::new().enhanced(n, a, f, 0);
                assert_eq!(answer, expected, "enhanced N {n} A {a} F {f}");
            }
        }
    }
    for (a, f) in [(16, 0), (0, 32), (16, 1)] {
        assert_eq!(Highway::new().command(SWITCHES, a, f, 0), NOT_ACCEPTED);
        assert_eq!(Highway::new().command(DIGITIZER, a, f, 0), NOT_ACCEPTED);
    }
}

#[test]
fn constants_of_the_header() {
    let path = Path::new(env!("CARGO_MANIFEST_DIR")).join("../../examples/crate/crate.h");
    let header = fs::read_to_string(path).expect("the header");
    let constants = [
        ("DIGITIZER", DIGITIZER),
        ("ADC", ADC),
        ("SCALER", SCALER),
        ("DECIMAL", DECIMAL),
        ("SWITCHES", SWITCHES),
        ("SAMPLES", SAMPLES),
        ("CHANNELS", CHANNELS),
        ("DECIMALS", DECIMALS),
        ("DEMANDS", DEMANDS as u32),
        ("SEQUENCER", SEQUENCER),
    ];
    let begin = |line: &&str| line.starts_with("#define CRATE_");
    assert_eq!(header.lines().filter(begin).count(), constants.len());
    for (name, number) in constants {
        let line = format!("#define CRATE_{name} {number}");
        let stands = |other: &str| other == line || other.starts_with(&format!("{line} "));
        assert!(header.lines().any(stands), "{line}");
    }
}

/// The samples of a trigger, until there are no more.
fn samples(highway: &mut Highway) -> Vec<u32> {
    assert_eq!(highway.command(DIGITIZER, 0, 25, 0), DONE);
    let mut samples = Vec::new();
    loop {
        match highway.command(DIGITIZER, 0, 2, 0) {
            answer if answer == NOT_DONE => return samples,
            answer => samples.push(answer.data_of_read()),
        }
        assert!(samples.len() <= 2_048, "no end of samples");
    }
}

/// The waveform without its noise.
fn pulses(sample: usize) -> f64 {
    let pulse = |first: usize, height: f64| match sample.checked_sub(first) {
        None => 0.0,
        Some(behind) => {
            let steps = (behind + 1) as i32;
            height * ((255.0_f64 / 256.0).powi(steps) - (31.0_f64 / 32.0).powi(steps))
        }
    };
    2_000.0 + pulse(300, 60_000.0) + pulse(1_200, 20_000.0)
}

#[test]
fn digitizer_has_two_pulses_and_some_noise() {
    let mut highway = Highway::new();
    let first = samples(&mut highway);
    assert_eq!(first.len(), 2_048);
    let mut noise = Vec::new();
    for (k, sample) in first.iter().enumerate() {
        noise.push(f64::from(*sample) - pulses(k));
        assert!(noise[k].abs() < 514.0, "sample {k}: {sample}");
    }
    let mean = noise.iter().sum::<f64>() / 2_048.0;
    let square = noise.iter().map(|noise| noise * noise).sum::<f64>() / 2_048.0;
    assert!(mean.abs() < 20.0 && (190.0..230.0).contains(&square.sqrt()));

    let second = samples(&mut highway);
    assert_ne!(first, second);
    assert!(second
        .iter()
        .zip(0..)
        .all(|(sample, k)| (f64::from(*sample) - pulses(k)).abs() < 514.0));
    let mut other = Highway::new();
    assert_eq!((samples(&mut other), samples(&mut other)), (first, second));
}

#[test]
fn digitizer_takes_as_many_samples_as_written() {
    let mut highway = Highway::new();
    let all = samples(&mut highway);
    for count in [1, 2, 700, 2_047, 2_048] {
        let mut highway = Highway::new();
        assert_eq!(highway.command(DIGITIZER, 1, 16, count), DONE);
        assert_eq!(highway.command(DIGITIZER, 1, 0, 0), Answer::read(count));
        assert_eq!(samples(&mut highway), all[..count as usize]);
    }
    for count in [0, 2_049, 0xFF_FFFF] {
        assert_eq!(highway.command(DIGITIZER, 1, 16, count), NOT_DONE);
        assert_eq!(highway.command(DIGITIZER, 1, 0, 0), Answer::read(2_048));
    }
    for clears in [(0, 9, 0), (1, 16, 5)] {
        highway.command(DIGITIZER, 0, 25, 0);
        highway.command(DIGITIZER, clears.0, clears.1, clears.2);
        assert_eq!(highway.command(DIGITIZER, 0, 2, 0), NOT_DONE);
    }
}

#[test]
fn adc_is_busy_as_long_as_written() {
    for busy in [2, 0, 1, 255] {
        let mut highway = Highway::new();
        assert_eq!(highway.command(ADC, 1, 16, busy), DONE);
        assert_eq!(highway.command(ADC, 1, 16, 256), NOT_DONE);
        assert_eq!(highway.command(ADC, 1, 0, 0), Answer::read(busy));
        assert_eq!(highway.command(ADC, 0, 0, 0), NOT_DONE);
        assert_eq!(highway.command(ADC, 0, 25, 0), DONE);
        for result in [1_000, 1_037, 1_074] {
            for _ in 0..busy {
                assert_eq!(highway.command(ADC, 0, 0, 0), NOT_DONE);
            }
            assert_eq!(highway.command(ADC, 0, 0, 0), Answer::read(result));
        }
    }
    let mut highway = Highway::new();
    highway.command(ADC, 1, 16, 0);
    highway.command(ADC, 0, 25, 0);
    let results = (0..200).map(|_| highway.command(ADC, 0, 0, 0).data_of_read());
    assert!(results.into_iter().all(|result| result < 4_096));
}

#[test]
fn scaler_counts_with_every_operation() {
    let mut highway = Highway::new();
    for rate in [1, 10, 1_000, 9_000].into_iter().zip(0..) {
        let (rate, a) = rate;
        let made = highway.made;
        assert_eq!(highway.command(SCALER, a, 0, 0), Answer::read(rate * made));
        assert_eq!(
            highway.command(SCALER, a, 2, 0),
            Answer::read(rate * (made + 1))
        );
        assert_eq!(highway.command(SCALER, a, 0, 0), Answer::read(rate));
        assert_eq!(highway.command(SCALER, a, 9, 0), DONE);
        assert_eq!(highway.command(SCALER, a, 0, 0), Answer::read(rate));
        assert_eq!(highway.command(SCALER, a, 16, 0x12_3456), DONE);
        assert_eq!(
            highway.command(SCALER, a, 0, 0),
            Answer::read(0x12_3456 + rate)
        );
        assert_eq!(highway.command(SCALER, a, 16, 0xFF_FFFF), DONE);
        assert_eq!(highway.command(SCALER, a, 0, 0), Answer::read(rate - 1));
    }
}

/// Six decimal digits of a number.
fn digits(number: u32) -> u32 {
    u32::from_str_radix(&number.to_string(), 16).expect("digits")
}

#[test]
fn decimal_scaler_counts_in_digits() {
    let mut highway = Highway::new();
    for (a, rate) in [(0, 7), (1, 300)] {
        let made = highway.made;
        assert_eq!(
            highway.command(DECIMAL, a, 0, 0),
            Answer::read(digits(rate * made))
        );
        assert_eq!(
            highway.command(DECIMAL, a, 2, 0),
            Answer::read(digits(rate * (made + 1)))
        );
        assert_eq!(highway.command(DECIMAL, a, 9, 0), DONE);
        assert_eq!(
            highway.command(DECIMAL, a, 0, 0),
            Answer::read(digits(rate))
        );
        for number in [0, 9, 10, 123_456, 908_070, 999_999 - rate] {
            assert_eq!(highway.command(DECIMAL, a, 16, digits(number)), DONE);
            assert_eq!(
                highway.command(DECIMAL, a, 0, 0),
                Answer::read(digits(number + rate))
            );
        }
        assert_eq!(highway.command(DECIMAL, a, 16, 0x99_9999), DONE);
        assert_eq!(
            highway.command(DECIMAL, a, 0, 0),
            Answer::read(digits(rate - 1))
        );
        for wrong in [0x0A, 0xA0, 0xF00, 0xB000, 0xC_0000, 0xA0_0000] {
            assert_eq!(highway.command(DECIMAL, a, 16, wrong), NOT_DONE);
        }
        assert_eq!(
            highway.command(DECIMAL, a, 0, 0),
            Answer::read(digits(8 * rate - 1))
        );
    }
}

#[test]
fn sequencer_reads_by_its_lists() {
    let mut highway = Highway::new();
    for a in 0..4 {
        assert_eq!(highway.command(SEQUENCER, a, 12, 0), NOT_ACCEPTED);
        assert_eq!(highway.enhanced(SEQUENCER, a, 0, 0), NOT_ACCEPTED);
    }
    assert_eq!(highway.enhanced(SEQUENCER, 4, 12, 0), NOT_ACCEPTED);
    for _ in 0..2 {
        for rate in [1, 10, 1_000, 9_000] {
            let made = highway.made;
            assert_eq!(
                highway.enhanced(SEQUENCER, 0, 12, 0),
                Answer::read(rate * made)
            );
        }
        assert_eq!(highway.enhanced(SEQUENCER, 0, 12, 0), NOT_DONE);
        assert_eq!(highway.enhanced(SEQUENCER, 0, 12, 0), NOT_DONE);
        for n in [1_400, 1_401, 1_402] {
            assert_eq!(highway.enhanced(SEQUENCER, 1, 12, 0), Answer::read(n));
        }
        assert_eq!(highway.enhanced(SEQUENCER, 1, 12, 0), NOT_DONE);
    }
}

#[test]
fn sequencer_writes_by_its_lists() {
    let mut highway = Highway::new();
    assert_eq!(highway.enhanced(SEQUENCER, 2, 12, 0x12_3456), DONE);
    assert_eq!(highway.enhanced(SEQUENCER, 2, 12, 0x00_0890), DONE);
    assert_eq!(highway.enhanced(SEQUENCER, 2, 12, 0x11_1111), NOT_DONE);
    assert_eq!(
        highway.command(DECIMAL, 0, 0, 0),
        Answer::read(digits(123_456 + 21))
    );
    assert_eq!(
        highway.command(DECIMAL, 1, 0, 0),
        Answer::read(digits(890 + 900))
    );
    assert_eq!(highway.enhanced(SEQUENCER, 3, 12, 17), DONE);
    assert_eq!(highway.command(DIGITIZER, 1, 0, 0), Answer::read(17));
    assert_eq!(highway.enhanced(SEQUENCER, 3, 12, 18), DONE);
    assert_eq!(highway.enhanced(SEQUENCER, 3, 12, 19), DONE);
    assert_eq!(highway.enhanced(SEQUENCER, 3, 12, 20), NOT_DONE);
    assert_eq!(highway.command(DIGITIZER, 1, 0, 0), Answer::read(18));
    assert_eq!(highway.command(ADC, 1, 0, 0), Answer::read(19));
}
