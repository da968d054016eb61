//! The writer against that of `writer.rs`.

use crate::compare_buffer::{expected, written};
use crate::compare_row::{compare, Hex, Row};
use crate::exports;
use crate::random::Random;
use crate::words::hex;
use crate::writer_call::WriterCall;
use crate::writes::{all, drawn_call};

impl Hex for WriterCall {
    fn hex(&self) -> String {
        let Self {
            forms,
            values,
            counts,
            room,
        } = self;
        let values: Vec<String> = values.iter().map(Hex::hex).collect();
        let values = values.join(" ");
        format!("{}, {values}, {counts:?}, room {room}", hex(forms))
    }
}

pub fn row(calls: u64) -> Row {
    let random = &mut Random(0);
    let mut edges = all(random);
    edges.extend(out_of_shape(random));
    let ours = |call: &WriterCall| {
        written(call.room, |out, length| {
            exports::write(&call.forms, &call.values, &call.counts, out, length)
        })
    };
    let theirs = |call: &WriterCall| expected(&call.answer());
    compare("write", calls, edges, |_| drawn_call(random), ours, theirs)
}

/// Unknown forms, arrays with too few places and with more than there are meanings.
fn out_of_shape(random: &mut Random) -> Vec<WriterCall> {
    let mut all = Vec::new();
    for place in 0..7 {
        for form in [3, 4, 128, 255] {
            let mut call = drawn_call(random);
            call.forms[place] = form;
            all.push(call);
        }
        for change in [
            |call: &mut WriterCall, place| call.forms.truncate(place),
            |call: &mut WriterCall, place| call.values.truncate(place),
            |call: &mut WriterCall, place| call.counts.truncate(place),
        ] {
            let mut call = drawn_call(random);
            change(&mut call, place);
            all.push(call);
        }
        let mut longer = drawn_call(random);
        longer.forms.push(99);
        longer.values.push(f64::NAN);
        longer.counts.push(-1);
        all.push(longer);
    }
    all
}
