//! The list `records`: records of every kind, judged by the first reader.

use crate::judged_list::{self, Reader, Words};
use crate::random::Random;
use crate::ruled::record::{read, Outcome};
use crate::{record_counts, record_forms, record_moisture, record_range, record_values};
use std::io;
use std::path::Path;

/// Document 01's.
const NUMBERS: [u64; 16] = [0, 1, 2, 3, 4, 5, 6, 7, 8, 9, 10, 11, 12, 13, 14, 15];

pub fn write(folder: &Path) -> io::Result<()> {
    let reader = Reader {
        question: "judge",
        read,
        numbers: &NUMBERS,
    };
    judged_list::write(folder, "records", all(&mut Random(0)), reader)
}

/// The list's records, some of them more than once.
pub fn all(random: &mut Random) -> Vec<Vec<u8>> {
    let mut records = record_forms::all(random);
    records.extend(record_values::all(random));
    records.extend(record_moisture::all(random));
    records.extend(record_range::all());
    records.extend(record_counts::all(random));
    records
}

/// What the program `station_air` prints.
pub fn text(outcome: &Outcome) -> String {
    let Words {
        number,
        figures,
        mark,
    } = Words::of(outcome);
    if number != 0 {
        return format!("refused {number}\n");
    }
    let digits = figures.map(|word| format!(" {word:016X}"));
    let (station, air) = digits.split_at(3);
    format!("station{}\nair{} {mark}\n", station.concat(), air.concat())
}

/// The refusal's number, or 0.
pub fn number(record: &[u8]) -> u64 {
    Words::of(&read(record)).number
}
