//! The simulated crate's faults and demands.

mod common;

use common::{operation, Answer, Highway, CRATE, DONE, NOT_DONE};
use simulated::{Crate, Fault, Operation, ADC, DECIMAL, DEMANDS, DIGITIZER, SCALER};

const X: u8 = 2;
const Q_X: u8 = 3;
const ERR: u8 = 4;
const DERR: u8 = 8;
const TPE: u8 = 16;
const LPE: u8 = 32;

/// Each fault with the reply to a read of 1 and whether the operation is made.
const FAULTS: [(Fault, [u8; 8], bool); 8] = [
    (Fault::None, [0, Q_X, 0, 0, 1, 0, 0, 0], true),
    (Fault::Tpe, [0, Q_X | TPE, 0, 0, 0, 0, 0, 0], true),
    (Fault::Lpe, [0, Q_X | LPE, 0, 0, 0, 0, 0, 0], true),
    (Fault::Derr, [0, Q_X | DERR, 0, 0, 1, 0, 0, 0], true),
    (Fault::Err, [0, X | ERR, 0, 0, 0, 0, 0, 0], false),
    (Fault::Timeout, [1, 0, 0, 0, 0, 0, 0, 0], false),
    (Fault::NotRecognised, [2, 0, 0, 0, 0, 0, 0, 0], false),
    (Fault::NoSync, [3, 0, 0, 0, 0, 0, 0, 0], false),
];

/// The operation asked for has the fault, and no other has one.
#[test]
fn faults_on_request() {
    for (fault, expected, is_made) in FAULTS {
        for operations in 1..5 {
            let mut highway = Highway::new();
            highway.simulated.ask_fault(fault, operations + 1);
            for _ in 0..operations {
                assert_eq!(highway.command(SCALER, 0, 9, 0), DONE, "{fault:?}");
            }
            // Channel 0 has counted the last of these operations.
            assert_eq!(
                highway.reply(operation(SCALER, 0, 2, 0)),
                expected,
                "{fault:?}"
            );
            let left = if is_made { 1 } else { 2 };
            assert_eq!(
                highway.command(SCALER, 0, 0, 0),
                Answer::read(left),
                "{fault:?}"
            );
            for more in 1..8 {
                assert_eq!(highway.command(SCALER, 0, 0, 0), Answer::read(left + more));
            }
        }
    }
}

#[test]
fn fault_that_takes_the_place_of_another() {
    let mut highway = Highway::new();
    highway.simulated.ask_fault(Fault::Timeout, 2);
    highway.simulated.ask_fault(Fault::NoSync, 3);
    assert_eq!(highway.command(DIGITIZER, 0, 9, 0), DONE);
    assert_eq!(highway.command(DIGITIZER, 0, 9, 0), DONE);
    assert_eq!(highway.reply(operation(DIGITIZER, 0, 9, 0))[0], 3);
    highway.simulated.ask_fault(Fault::Timeout, 1);
    highway.simulated.ask_fault(Fault::Timeout, 0);
    assert_eq!(highway.command(DIGITIZER, 0, 9, 0), DONE);
}

#[test]
fn parity_errors_spoil_a_bit() {
    for (fault, flag) in [(Fault::Tpe, TPE), (Fault::Lpe, LPE)] {
        let mut highway = Highway::new();
        highway.simulated.ask_fault(fault, 1);
        let reply = highway.reply(operation(14, 2, 0, 0));
        assert_eq!(reply, [0, Q_X | flag, 0, 0, 0x7B, 0x05, 0, 0]);
    }
}

#[test]
fn other_crates_are_not_recognised() {
    for number in (0..64).filter(|number| *number != u32::from(CRATE)) {
        let mut highway = Highway::new();
        let other = Operation {
            crate_number: number,
            ..operation(DIGITIZER, 0, 25, 0)
        };
        for fault in [Fault::None, Fault::Err, Fault::Tpe] {
            highway.simulated.ask_fault(fault, 1);
            assert_eq!(highway.reply(other), [2, 0, 0, 0, 0, 0, 0, 0]);
        }
        assert_eq!(highway.command(DIGITIZER, 0, 2, 0), NOT_DONE);
        for (fault, kind) in [(Fault::Timeout, 1), (Fault::NoSync, 3)] {
            highway.simulated.ask_fault(fault, 1);
            assert_eq!(highway.reply(other), [kind, 0, 0, 0, 0, 0, 0, 0]);
        }
    }
    let mut last = Crate::new(62);
    let read = Operation {
        crate_number: 62,
        ..operation(14, 0, 0, 0)
    };
    assert_eq!(last.operate(read), [0, Q_X, 0, 0, 0x78, 0x05, 0, 0]);
}

/// Sets the LAM of a station by the last of these commands.
fn set_lam(highway: &mut Highway, station: u32) {
    match station {
        DIGITIZER => assert_eq!(highway.command(DIGITIZER, 0, 25, 0), DONE),
        ADC => {
            assert_eq!(highway.command(ADC, 1, 16, 1), DONE);
            assert_eq!(highway.command(ADC, 0, 25, 0), DONE);
            assert_eq!(highway.command(ADC, 0, 0, 0), NOT_DONE);
        }
        SCALER => assert_eq!(highway.command(SCALER, 0, 16, 0xFF_FFFF), DONE),
        _ => assert_eq!(highway.command(DECIMAL, 1, 16, 0x99_9700), DONE),
    }
}

#[test]
fn lams_are_tested_cleared_and_send_demands() {
    for station in [DIGITIZER, ADC, SCALER, DECIMAL] {
        let mut highway = Highway::new();
        let sent = [CRATE, station as u8];
        set_lam(&mut highway, station);
        assert_eq!(highway.simulated.demands(), [], "not enabled");
        assert_eq!(highway.command(station, 0, 8, 0), DONE);
        assert_eq!(highway.command(station, 0, 26, 0), DONE);
        assert_eq!(highway.simulated.demands(), sent, "set when it is enabled");
        set_lam(&mut highway, station);
        assert_eq!(highway.simulated.demands(), [], "sent before");
        assert_eq!(highway.command(station, 0, 10, 0), DONE);
        assert_eq!(highway.command(station, 0, 8, 0), NOT_DONE);
        assert_eq!(highway.simulated.demands(), [], "cleared");
        set_lam(&mut highway, station);
        assert_eq!(highway.simulated.demands(), sent, "enabled when it is set");
        assert_eq!(highway.simulated.demands(), [], "handed out");
        assert_eq!(highway.command(station, 0, 24, 0), DONE);
        assert_eq!(highway.command(station, 0, 8, 0), DONE);
        assert_eq!(highway.command(station, 0, 10, 0), DONE);
        set_lam(&mut highway, station);
        assert_eq!(highway.simulated.demands(), [], "disabled");
    }
}

/// An ADC that is never busy has its result at once.
#[test]
fn lam_of_an_adc_that_is_not_busy() {
    let mut highway = Highway::new();
    highway.command(ADC, 1, 16, 0);
    highway.command(ADC, 0, 26, 0);
    assert_eq!(highway.simulated.demands(), []);
    highway.command(ADC, 0, 25, 0);
    assert_eq!(highway.simulated.demands(), [CRATE, ADC as u8]);
}

/// The oldest come first, up to 32 are kept, and a short row takes whole demands.
#[test]
fn demands_in_their_order() {
    let mut highway = Highway::new();
    let mut expected = Vec::new();
    for station in [DIGITIZER, SCALER, DECIMAL]
        .into_iter()
        .cycle()
        .take(DEMANDS + 1)
    {
        highway.command(station, 0, 10, 0);
        highway.command(station, 0, 26, 0);
        set_lam(&mut highway, station);
        expected.extend([CRATE, station as u8]);
    }
    expected.truncate(2 * DEMANDS);
    let mut row = [0xFF; 2 * DEMANDS];
    assert_eq!(highway.simulated.demands_into(&mut row[..0]), 0);
    assert_eq!(highway.simulated.demands_into(&mut row[..1]), 0);
    assert_eq!(row[0], 0xFF);
    assert_eq!(highway.simulated.demands_into(&mut row[..5]), 4);
    assert_eq!(row[..5], [expected[..4].to_vec(), vec![0xFF]].concat());
    assert_eq!(highway.simulated.demands(), expected[4..]);
}

/// The reply for the engine has the same bytes.
#[cfg(library)]
#[test]
fn replies_for_the_engine() {
    let wanted = camlist::Operation {
        crate_number: CRATE,
        station: 30,
        subaddress: 1,
        function: 12,
        data: 0x12_3456,
        enhanced: true,
    };
    let raw = Operation {
        crate_number: 3,
        station: 30,
        subaddress: 1,
        function: 12,
        data: 0x12_3456,
        enhanced: 1,
    };
    assert_eq!(Operation::from(wanted), raw);
    for (fault, ..) in FAULTS {
        let (mut one, mut other) = (Crate::new(CRATE), Crate::new(CRATE));
        one.ask_fault(fault, 2);
        other.ask_fault(fault, 2);
        for _ in 0..5 {
            assert_eq!(
                one.reply_to(wanted).bytes(),
                other.operate(raw),
                "{fault:?}"
            );
        }
        let empty = camlist::Operation {
            station: 1,
            ..wanted
        };
        assert_eq!(one.reply_to(empty).bytes(), other.operate(empty.into()));
        assert_eq!(one, other);
    }
}
