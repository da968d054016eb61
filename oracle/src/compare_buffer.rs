//! A call that writes a record to a lent buffer, in the comparison: status, length, and every byte of the buffer.

use crate::buffer::{filled, Written};
use crate::compare_row::Answer;

/// What the length is before the call, and stays where nothing is written.
const NO_LENGTH: usize = 123_456_789;

pub fn written(room: usize, call: impl FnOnce(&mut [u8], &mut usize) -> u32) -> Answer {
    let (mut out, mut length) = (filled(room), NO_LENGTH);
    let status = call(&mut out, &mut length);
    answer(status.into(), length, &out)
}

pub fn expected(written: &Written) -> Answer {
    let length = written.length.unwrap_or(NO_LENGTH);
    answer(written.status, length, &written.out)
}

fn answer(status: u64, length: usize, out: &[u8]) -> Answer {
    let out: Vec<u64> = out.iter().map(|byte| u64::from(*byte)).collect();
    [&[status, length as u64], &out[..]].concat()
}
