//! The cases of documents 01 and 02 and the manual's examples.

use reference::cases::demands::SEPARATE;
use reference::cases::paper::{self, Engine};
use reference::host::{admission_numbers, run_numbers, start_numbers, step_numbers};
use reference::host::{to_binary_numbers, to_decimal_numbers};

const ENGINE: Engine = Engine {
    admit: admission_numbers,
    run: run_numbers,
    start: |list, incoming, outgoing, record| {
        let (started, answer) = start_numbers(list, incoming, outgoing);
        *record = started;
        answer
    },
    step: step_numbers,
    to_binary: to_binary_numbers,
    to_decimal: to_decimal_numbers,
    demands: SEPARATE,
};

#[test]
fn document_01() {
    for known in paper::document_01() {
        known.check(&ENGINE);
    }
}

#[test]
fn document_02() {
    for known in paper::document_02() {
        known.check(&ENGINE);
    }
}

#[test]
fn steps_of_document_02() {
    for known in paper::steps() {
        known.check(&ENGINE);
    }
}

#[test]
fn rows_of_document_02() {
    for known in paper::rows() {
        known.check(&ENGINE);
    }
}

#[test]
fn demands_of_document_02() {
    for known in paper::demands() {
        known.check(&ENGINE);
    }
}

#[test]
fn the_manual() {
    for known in paper::manual() {
        known.check(&ENGINE);
    }
}
