//! The list `strict`: records judged by the strict reader.

use crate::draw::usual;
use crate::field::{fields, record, stored, tag, Order, Stored};
use crate::judged_list::{self, Reader};
use crate::random::Random;
use crate::record_fields::{drawn, in_counts, in_either_form, sets_of_tags, shuffled, TAGS};
use crate::record_forms::header;
use crate::records;
use crate::ruled::record::read_strictly;
use std::io;
use std::path::Path;

/// Document 01's, and 19.
const NUMBERS: [u64; 17] = [0, 1, 2, 3, 4, 5, 6, 7, 8, 9, 10, 11, 12, 13, 14, 15, 19];

/// Of the records of `records` one of so many is here as it comes, and one of so many with its fields rising.
const AS_IT_COMES: usize = 12;
const RISING: usize = 4;

pub fn write(folder: &Path) -> io::Result<()> {
    let reader = Reader {
        question: "strict",
        read: read_strictly,
        numbers: &NUMBERS,
    };
    judged_list::write(folder, "strict", all(&mut Random(0)), reader)
}

pub fn all(random: &mut Random) -> Vec<Vec<u8>> {
    let records = records::all(random);
    let mut all: Vec<Vec<u8>> = records.iter().step_by(AS_IT_COMES).cloned().collect();
    all.extend(records.iter().step_by(RISING).filter_map(|r| rising(r)));
    all.extend(short_orders(random));
    all.extend(sets(random));
    all.extend(falls_with_faults(random));
    all
}

/// None where the bytes are not all fields.
fn rising(bytes: &[u8]) -> Option<Vec<u8>> {
    let mut fields = fields(bytes, Order::Any).ok()?;
    fields.sort_by_key(|field| tag(*field));
    Some(stored(&fields))
}

/// Every row of two tags, of both forms; every row of three of doubles, and the same in either form. Repeats are
/// among them, and one that falls is a repeat.
fn short_orders(random: &mut Random) -> Vec<Vec<u8>> {
    let mut all = Vec::new();
    for a in TAGS {
        for b in TAGS {
            let doubles = drawn(&[a, b], usual, random);
            let counts = in_counts(&doubles);
            all.extend([record(&doubles), stored(&counts)]);
            all.push([record(&doubles[..1]), stored(&counts[1..])].concat());
            all.push([stored(&counts[..1]), record(&doubles[1..])].concat());
            for c in TAGS {
                let fields = drawn(&[a, b, c], usual, random);
                all.push(record(&fields));
                all.push(stored(&in_either_form(&fields, random)));
            }
        }
    }
    all
}

/// Every set of meanings in either form, by rising tags, by rising meanings and in another order.
fn sets(random: &mut Random) -> Vec<Vec<u8>> {
    let mut all = Vec::new();
    for meanings in sets_of_tags() {
        let mut fields: Vec<Stored> = in_either_form(&drawn(&meanings, usual, random), random);
        all.push(stored(&fields));
        all.push(stored(&shuffled(&fields, random)));
        fields.sort_by_key(|field| tag(*field));
        all.push(stored(&fields));
    }
    all
}

/// A tag that falls, with and without another fault of its field, before and after fields with faults: only
/// what comes first counts, and of one field's faults the fall comes last.
fn falls_with_faults(random: &mut Random) -> Vec<Vec<u8>> {
    let start = record(&drawn(&[1, 5], usual, random));
    let falling = record(&drawn(&[2], usual, random));
    let faults = [
        // 5: cut header, cut data
        vec![2],
        vec![3, 0],
        header(2, 8),
        falling[..10].to_vec(),
        // 6, below and above
        [header(0, 8), vec![0; 8]].concat(),
        [header(8, 8), vec![0; 8]].concat(),
        // 7, of either form
        [header(2, 7), vec![0; 7]].concat(),
        [header(2, 4), vec![0; 4]].concat(),
        [header(0x12, 8), vec![0; 8]].concat(),
        // 8 by the other form, whose tag rises
        [header(0x11, 4), vec![0; 4]].concat(),
        // 8, of a tag that falls and of one that does not
        record(&drawn(&[1], usual, random)),
        record(&drawn(&[5], usual, random)),
        // 9, and values of 2 and 12
        record(&drawn(&[6], usual, random)),
        record(&[(2, f64::NAN)]),
        record(&[(7, -1.0)]),
    ];
    let mut all = vec![[&start[..], &falling].concat()];
    for fault in &faults {
        all.push([&start[..], fault].concat());
        all.push([&start[..], &falling, fault].concat());
        all.push([&start[..], fault, &falling].concat());
    }
    all
}
