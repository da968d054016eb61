//! The load of request K6: records of counts for the acceptance bench, the same on every site.

use crate::field::{stored, tag, Stored, Value};
use crate::random::{Random, GROWTH};
use crate::records::text;
use crate::ruled::record::{read, ALTITUDE, HUMIDITY, MEASURED_PRESSURE, TEMPERATURE};

/// As many as the load has.
pub const RECORDS: u64 = 10_000;

/// Bytes of a record with all four fields.
#[cfg(library)]
pub const LONGEST: usize = 28;

/// Outputs of SplitMix64 that a record takes, also where it has no humidity.
const OUTPUTS: u64 = 5;

/// The fields as the outputs serve them, with both ends of their ranges in thousandths.
const RANGES: [(u8, i32, i32); 4] = [
    (ALTITUDE, -500_000, 3_000_000),
    (TEMPERATURE, -40_000, 50_000),
    (MEASURED_PRESSURE, 600_000, 1_100_000),
    (HUMIDITY, 0, 100_000),
];

/// Prints what the program prints: for each record its bytes, then its figures.
pub fn print(count: u64) {
    let random = &mut Random(0);
    for _ in 0..count {
        let record = next_record(random);
        let digits: String = record.iter().map(|byte| format!("{byte:02X}")).collect();
        print!("{digits}\n{}", text(&read(&record)));
    }
}

/// The record of a number, the first of which is 0.
pub fn record(number: u64) -> Vec<u8> {
    let outputs_before = OUTPUTS.wrapping_mul(number);
    next_record(&mut Random(outputs_before.wrapping_mul(GROWTH)))
}

pub fn next_record(random: &mut Random) -> Vec<u8> {
    let mut fields = RANGES.map(|(meaning, low, high)| -> Stored {
        let thousandths = low.abs_diff(high) + 1;
        let above = random.next() % u64::from(thousandths);
        (meaning, Value::Count(low + above as i32))
    });
    fields.sort_by_key(|field| tag(*field));
    let without_humidity = random.next() % 2 == 1;
    let is_kept = |field: &Stored| !(without_humidity && field.0 == HUMIDITY);
    stored(&fields.into_iter().filter(is_kept).collect::<Vec<Stored>>())
}
