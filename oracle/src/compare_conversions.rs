//! The conversions against those of `conversion.rs`.

use crate::compare_buffer::{expected, written};
use crate::compare_row::{compare, Answer, Hex, Row};
use crate::conversion::Target;
use crate::conversion_call::ConversionCall;
use crate::conversions::{all, drawn_call};
use crate::exports;
use crate::random::Random;

impl Hex for ConversionCall {
    fn hex(&self) -> String {
        let Self {
            target,
            record,
            room,
        } = self;
        format!("{target:?}, {}, room {room}", record.hex())
    }
}

pub fn row(calls: u64) -> Row {
    let random = &mut Random(0);
    let edges = all(random);
    let draw = |_| drawn_call(random);
    // the last word says whether the record was changed
    let theirs = |call: &ConversionCall| [expected(&call.answer()), vec![0]].concat();
    compare("to_counts, to_doubles", calls, edges, draw, ours, theirs)
}

fn ours(call: &ConversionCall) -> Answer {
    let copy = call.record.clone();
    let convert = match call.target {
        Target::Counts => exports::to_counts,
        Target::Doubles => exports::to_doubles,
    };
    let mut answer = written(call.room, |out, length| convert(&copy, out, length));
    answer.push(u64::from(copy != call.record));
    answer
}
