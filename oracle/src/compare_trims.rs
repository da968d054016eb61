//! The next trim class against that of `trim.rs`.

use crate::compare_row::{compare, expected, lent, Answer, Hex, Row};
use crate::exports;
use crate::random::Random;
use crate::trim::{trim, Trim};
use crate::trims::{all, drawn_park};

/// A record, and the places of the lent array of whole numbers.
struct Call {
    record: Vec<u8>,
    places: usize,
}

impl Hex for Call {
    fn hex(&self) -> String {
        format!("{}, {} places", self.record.hex(), self.places)
    }
}

/// More than the answer has, and what they hold before the call.
const PLACES: usize = 6;
const UNTOUCHED: i32 = -1_234_567;

const NEEDED: usize = 4;
const TOO_FEW_PLACES: u64 = 255;

pub fn row(calls: u64) -> Row {
    let random = &mut Random(0);
    let whole = |record: Vec<u8>| Call {
        record,
        places: PLACES,
    };
    let mut edges: Vec<Call> = all(random).into_iter().map(whole).collect();
    edges.extend((0..=NEEDED).map(|places| Call {
        record: drawn_park(random),
        places,
    }));
    let draw = |_| whole(drawn_park(random));
    compare("next_trim_class", calls, edges, draw, ours, theirs)
}

fn ours(call: &Call) -> Answer {
    let mut answer = [UNTOUCHED; PLACES];
    let places = &mut answer[..call.places];
    let told = lent(|values| exports::next_trim_class(&call.record, values, places));
    with_numbers(told, &answer)
}

fn theirs(call: &Call) -> Answer {
    let mut numbers = [UNTOUCHED; PLACES];
    if call.places < NEEDED {
        return with_numbers(expected(TOO_FEW_PLACES, &[]), &numbers);
    }
    let told = match trim(&call.record) {
        Ok(trim) => {
            numbers[..NEEDED].copy_from_slice(&answer(&trim));
            expected(0, &[])
        }
        Err(refusal) => expected(refusal.number, &refusal.values),
    };
    with_numbers(told, &numbers)
}

/// Class, tag of the changed field, tenths and new class; where there is no change 0, 0 and the class again.
fn answer(trim: &Trim) -> [i32; NEEDED] {
    match trim.change {
        Some(change) => [
            trim.class,
            change.meaning.into(),
            change.tenths,
            change.class,
        ],
        None => [trim.class, 0, 0, trim.class],
    }
}

fn with_numbers(mut answer: Answer, numbers: &[i32]) -> Answer {
    answer.extend(numbers.iter().map(|n| *n as u64));
    answer
}
