//! The load's records by number against those of `load.rs`.

use crate::buffer::{put, Written};
use crate::compare_buffer::{expected, written};
use crate::compare_row::{compare, Hex, Row};
use crate::exports;
use crate::load::{record, LONGEST, RECORDS};
use crate::random::Random;

struct LoadCall {
    number: u64,
    room: usize,
}

impl Hex for LoadCall {
    fn hex(&self) -> String {
        format!("{:x}, room {}", self.number, self.room)
    }
}

pub fn row(calls: u64) -> Row {
    let random = &mut Random(0);
    let ours = |call: &LoadCall| {
        written(call.room, |out, length| {
            exports::load_record(call.number, out, length)
        })
    };
    let theirs = |call: &LoadCall| {
        expected(&Written::by(call.room, |out| {
            put(&record(call.number), out)
        }))
    };
    let draw = |_| drawn_call(random);
    compare("load_record", calls, edges(), draw, ours, theirs)
}

/// The whole load, and every length of a buffer for records with humidity and without, the last numbers
/// among them.
fn edges() -> Vec<LoadCall> {
    let room = LONGEST + 2;
    let mut all: Vec<LoadCall> = (0..RECORDS)
        .map(|number| LoadCall { number, room })
        .collect();
    for number in (0..20).chain(u64::MAX - 20..=u64::MAX) {
        all.extend((0..=room).map(|room| LoadCall { number, room }));
    }
    all
}

/// Any number, with about as much room as its record needs.
fn drawn_call(random: &mut Random) -> LoadCall {
    LoadCall {
        number: random.next() >> (random.next() % 64),
        room: LONGEST + 2 - (random.next() % 12) as usize,
    }
}
