//! What document 02 promises of records beyond single answers, held against the oracle itself.

use crate::conversion::{convert, Target};
use crate::draw::{mixed, usual, Draw};
use crate::field::{fields, record, stored, Order, Stored, Value};
use crate::judged_list::Words;
use crate::random::Random;
use crate::record_fields::{drawn, in_counts, in_either_form, orders, shuffled, READINGS};
use crate::record_forms::{changed, nearly_fields};
use crate::ruled::record::{read, read_strictly};
use crate::vote::{vote, Records};
use crate::votes::drawn_vote;
use crate::writer::{write, Entries};

/// Records of each kind.
const RECORDS: usize = 50;

pub fn hold() {
    let random = &mut Random(0);
    for record in records(random) {
        hold_strict(&record);
        hold_conversions(&record);
    }
    for _ in 0..RECORDS {
        hold_vote(&drawn_vote(random));
    }
}

/// Rising ones, shuffled ones, with counts, their doubles and both; and such that are often refused for their
/// bytes.
fn records(random: &mut Random) -> Vec<Vec<u8>> {
    let mut all = Vec::new();
    for turn in 0..RECORDS {
        let draw: Draw = if turn % 4 == 0 { mixed } else { usual };
        let fields = drawn(READINGS[turn % READINGS.len()], draw, random);
        all.push(record(&fields));
        all.push(record(&shuffled(&fields, random)));
        all.push(stored(&in_either_form(&fields, random)));
        let counts = in_counts(&fields);
        all.push(record(
            &counts
                .iter()
                .map(|(m, n)| (*m, n.double()))
                .collect::<Vec<_>>(),
        ));
        all.push(stored(&counts));
        all.push(changed(random));
        all.push(nearly_fields(random));
    }
    all
}

/// The readers part only where a tag falls, and what the strict one accepts is what the writer makes of its
/// fields.
fn hold_strict(record: &[u8]) {
    let outcome = read_strictly(record);
    let strict = Words::of(&outcome);
    if strict.number == 19 {
        return;
    }
    assert!(strict == Words::of(&read(record)));
    if outcome.is_ok() {
        let mut entries: Entries = [None; 7];
        for (meaning, value) in fields(record, Order::Rising).expect("fields") {
            entries[usize::from(meaning) - 1] = Some(value);
        }
        let mut out = vec![0; record.len()];
        assert_eq!(write(&entries, &mut out), Ok(record.len()));
        assert_eq!(out, record);
    }
}

/// Converted to either form, a record is judged as before by the first reader. One wholly in doubles that converts
/// to counts comes back with the same bytes, and one wholly in counts by way of doubles.
fn hold_conversions(record: &[u8]) {
    let converted = |record: &[u8], target| {
        let mut out = vec![0; 80];
        let length = convert(record, target, &mut out).ok()?;
        out.truncate(length);
        Some(out)
    };
    let judged = Words::of(&read(record));
    let Ok(fields) = fields(record, Order::Any) else {
        return;
    };
    let wholly = |is: fn(&Stored) -> bool| fields.iter().all(is);
    for (there, back, is_of_the_other) in [
        (Target::Counts, Target::Doubles, wholly(is_double)),
        (Target::Doubles, Target::Counts, wholly(|f| !is_double(f))),
    ] {
        if let Some(other) = converted(record, there) {
            assert!(Words::of(&read(&other)) == judged);
            if is_of_the_other {
                assert_eq!(converted(&other, back).as_deref(), Some(record));
            }
        }
    }
}

fn is_double(field: &Stored) -> bool {
    matches!(field.1, Value::Double(_))
}

/// Exchanging the masts changes no accepted figures.
fn hold_vote(records: &Records) {
    let Ok(answer) = vote(records).outcome else {
        return;
    };
    for [a, b, c] in orders(&[0, 1, 2]).into_iter().map(|o| [o[0], o[1], o[2]]) {
        let exchanged = [a, b, c].map(|mast| records[mast].clone());
        assert!(Words::of(&vote(&exchanged).outcome) == Words::of(&Ok(answer)));
    }
}
