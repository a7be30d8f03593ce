//! The last moved word: parts of both buffers, and notes that show nothing.

use super::instructions::filled;
use super::{Call, Group, Module};
use crate::record::Note;

pub fn module() -> Module {
    Module {
        name: "LastWords",
        about: "The last moved word: parts of either buffer, and notes that show none.",
        groups: vec![ends(), none()],
    }
}

/// A note held against an incoming buffer of six bytes and an outgoing one of five.
fn of(buffer: u64, offset: u64, length: u64) -> Call {
    Call::LastWord {
        note: Note {
            buffer,
            offset,
            length,
        },
        incoming: filled(6, 0x11),
        outgoing: filled(5, 0x81),
    }
}

fn ends() -> Group {
    let about = "words of each length from the first byte on, up to the end, and past it";
    let mut group = Group::new("lengths-and-ends", about);
    for (buffer, end) in [(0, 6), (1, 5)] {
        for length in [1, 2, 3, 4] {
            for offset in [0, end - length, end - length + 1] {
                let name = format!("buffer-{buffer}-offset-{offset}-length-{length}");
                group.add(&name, of(buffer, offset, length));
            }
        }
        group.add(&format!("whole-buffer-{buffer}"), of(buffer, 0, end));
        group.add(
            &format!("longer-than-buffer-{buffer}"),
            of(buffer, 0, end + 1),
        );
    }
    group
}

fn none() -> Group {
    let about =
        "no word: zeros, a length of 0, no such buffer, an offset far outside, empty buffers";
    let mut group = Group::new("no-word", about);
    group.add("zeros", of(0, 0, 0));
    group.add("length-0-inside", of(0, 2, 0));
    group.add("length-0-of-outgoing", of(1, 2, 0));
    group.add("buffer-2", of(2, 0, 2));
    group.add("buffer-255", of(255, 0, 2));
    group.add("offset-far-outside", of(0, u64::MAX, 2));
    group.add("length-far-outside", of(1, 2, u64::MAX));
    for (buffer, length) in [(0, 0), (0, 2), (1, 2)] {
        let call = Call::LastWord {
            note: Note {
                buffer,
                offset: 0,
                length,
            },
            incoming: Vec::new(),
            outgoing: Vec::new(),
        };
        group.add(&format!("empty-buffers-{buffer}-length-{length}"), call);
    }
    group
}
