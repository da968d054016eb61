//! The vote of request K7: three masts, one reading.

use crate::field::{fields, Order};
use crate::refusal::refused;
use crate::ruled::record::{judge, read, values, Outcome, Values};

/// Of each mast, which is numbered from 1.
pub type Records = [Vec<u8>; 3];

pub struct Vote {
    pub outcome: Outcome,
    /// The mast that is refused; 0 where none is.
    pub mast: u64,
}

/// The first mast that is refused, in their order; then 21; then the voted record.
pub fn vote(records: &Records) -> Vote {
    for (mast, record) in (1..).zip(records) {
        let outcome = read(record);
        if outcome.is_err() {
            return Vote { outcome, mast };
        }
    }
    let readings = records
        .each_ref()
        .map(|record| values(fields(record, Order::Any).expect("an accepted record")));
    let [first, second, third] = &readings;
    let same_meanings = first.keys().eq(second.keys()) && first.keys().eq(third.keys());
    let outcome = if same_meanings {
        judge(&middle(&readings))
    } else {
        refused(21, &[])
    };
    Vote { outcome, mast: 0 }
}

/// The middle of each field's three values, as doubles; the total order puts -0 before 0.
fn middle(readings: &[Values; 3]) -> Values {
    let meanings = readings[0].keys();
    let middle_of = |meaning: &u8| {
        let mut three = readings.each_ref().map(|values| values[meaning]);
        three.sort_by(f64::total_cmp);
        three[1]
    };
    meanings
        .map(|meaning| (*meaning, middle_of(meaning)))
        .collect()
}
