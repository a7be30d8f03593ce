//! The cases of documents 01 and 02 and the manual's examples, through the C interface.

#![cfg(library)]

mod common;

use camlist::ffi::{admit, run, start, step, to_binary, to_decimal};
use common::PROVED;
use reference::cases::paper::{self, Engine};

const ENGINE: Engine = Engine {
    admit,
    run,
    start,
    step,
    to_binary,
    to_decimal,
    demands: PROVED,
};

#[test]
fn document_01() {
    for known in paper::document_01() {
        known.check(&ENGINE);
    }
}

#[test]
fn document_02() {
    for known in paper::document_02() {
        known.check(&ENGINE);
    }
}

#[test]
fn steps_of_document_02() {
    for known in paper::steps() {
        known.check(&ENGINE);
    }
}

#[test]
fn rows_of_document_02() {
    for known in paper::rows() {
        known.check(&ENGINE);
    }
}

#[test]
fn demands_of_document_02() {
    for known in paper::demands() {
        known.check(&ENGINE);
    }
}

#[test]
fn the_manual() {
    for known in paper::manual() {
        known.check(&ENGINE);
    }
}
