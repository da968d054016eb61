//! The list `conversions`: records to be converted, both ways.

use crate::conversion::Target::{self, Counts, Doubles};
use crate::conversion_call::ConversionCall;
use crate::draw::{mixed, usual};
use crate::field::{record, stored, Stored, Value};
use crate::quantity::near;
use crate::random::Random;
use crate::record_counts::{both_forms, cut_or_wrong};
use crate::record_fields::{drawn, in_counts, in_either_form, sets_of_tags, shuffled, TAGS};
use crate::record_forms::{bytes, changed, nearly_fields};
use crate::words::{once, record_word, save};
use std::io;
use std::path::Path;

/// Calls that are drawn.
const DRAWN: usize = 400;

/// Counts at both ends of their range, about 0, and such whose doubles are whole, half and neither.
const COUNTS: [i32; 24] = [
    i32::MIN,
    i32::MIN + 1,
    i32::MAX,
    i32::MAX - 1,
    0,
    1,
    -1,
    2,
    -2,
    500,
    -500,
    499,
    501,
    999,
    1000,
    -1000,
    1001,
    1500,
    15_000,
    15_100,
    -273_150,
    1_013_250,
    2_147_483_000,
    -1_234_567_890,
];

pub fn write(folder: &Path) -> io::Result<()> {
    let calls = all(&mut Random(5));
    save(folder, "conversions", &once(calls.iter().map(question)))
}

pub fn all(random: &mut Random) -> Vec<ConversionCall> {
    let mut all = counts_and_their_doubles();
    all.extend(no_counts());
    all.extend(sets(random));
    all.extend(every_room(random));
    all.extend(faults(random));
    all.extend((0..DRAWN).map(|_| drawn_call(random)));
    all
}

/// Without the call's room.
fn question(call: &ConversionCall) -> String {
    let target = match call.target {
        Counts => "counts",
        Doubles => "doubles",
    };
    format!("{target} {}", record_word(&call.record))
}

/// More than any record needs.
const ENOUGH: usize = 80;

fn both_ways(record: &[u8]) -> impl Iterator<Item = ConversionCall> + '_ {
    let call = |target: Target| ConversionCall {
        target,
        record: record.to_vec(),
        room: ENOUGH,
    };
    [Counts, Doubles].into_iter().map(call)
}

/// Each count and its double, in one meaning after the other, and the double's neighbours, which have none.
fn counts_and_their_doubles() -> Vec<ConversionCall> {
    let mut all = Vec::new();
    for (n, meaning) in COUNTS.into_iter().zip(TAGS.into_iter().cycle()) {
        let count = Value::Count(n);
        all.extend(both_ways(&stored(&[(meaning, count)])));
        for x in near(count.double(), 1) {
            all.extend(both_ways(&record(&[(meaning, x)])));
        }
    }
    all
}

/// Doubles that no count gives, alone and among fields that convert.
fn no_counts() -> Vec<ConversionCall> {
    let doubles = [
        -0.0,
        // halves of a thousandth
        0.0005,
        -0.0005,
        1.0005,
        0.1234,
        // past the ends
        2_147_483.648,
        -2_147_483.649,
        4_294_967.296,
        1e300,
        f64::MAX,
        // near 0
        5e-324,
        -f64::MIN_POSITIVE,
        1e-10,
        f64::INFINITY,
        f64::NEG_INFINITY,
        f64::NAN,
        f64::from_bits(0xFFF0_0000_0000_0001),
        f64::from_bits(0x7FFF_FFFF_FFFF_FFFF),
    ];
    let mut all = Vec::new();
    for (x, meaning) in doubles.into_iter().zip(TAGS.into_iter().cycle()) {
        let other = meaning % 7 + 1;
        all.extend(both_ways(&record(&[(meaning, x)])));
        all.extend(both_ways(&record(&[(other, 1.5), (meaning, x)])));
        let count = (other, Value::Count(-7));
        all.extend(both_ways(&stored(&[(meaning, Value::Double(x)), count])));
    }
    all
}

/// Every set of fields, clashing and incomplete ones too: with counts, their doubles, and each in either form.
fn sets(random: &mut Random) -> Vec<ConversionCall> {
    let mut all = Vec::new();
    for tags in sets_of_tags() {
        let fields = shuffled(&drawn(&tags, usual, random), random);
        let counts = in_counts(&fields);
        let doubles: Vec<Stored> = counts
            .iter()
            .map(|(meaning, count)| (*meaning, Value::Double(count.double())))
            .collect();
        for fields in [&counts, &doubles, &in_either_form(&fields, random)] {
            all.extend(both_ways(&stored(fields)));
        }
    }
    all
}

/// Buffers of every length for an empty record, one in each form, and one in both.
fn every_room(random: &mut Random) -> Vec<ConversionCall> {
    let fields = drawn(&[5, 1, 7, 2], usual, random);
    let counts = in_counts(&fields);
    let mut both = counts.clone();
    both[1].1 = Value::Double(1500.0);
    both[2].1 = Value::Double(-0.0);
    let records = [
        Vec::new(),
        stored(&counts),
        record(&[(3, 1013.25), (1, -5.5)]),
        stored(&both),
    ];
    let mut all = Vec::new();
    for record in &records {
        for room in 0..50 {
            all.extend(both_ways(record).map(|call| ConversionCall { room, ..call }));
        }
    }
    all
}

/// Each fault of 5 to 8, alone, after a good field and after one that has no count, with room and without: 20
/// comes after the faults of the whole record, and 18 last.
fn faults(random: &mut Random) -> Vec<ConversionCall> {
    let starts = [
        Vec::new(),
        record(&[(1, 2.5)]),
        record(&[(1, 0.1234)]),
        stored(&[(3, Value::Count(9)), (1, Value::Double(f64::NAN))]),
    ];
    let mut all = Vec::new();
    for fault in cut_or_wrong(random) {
        for (start, room) in starts.iter().zip([ENOUGH, 0, ENOUGH, 5]) {
            let whole = [&start[..], &fault].concat();
            all.extend(both_ways(&whole).map(|call| ConversionCall { room, ..call }));
        }
    }
    for repeated in both_forms(random) {
        all.extend(both_ways(&repeated));
    }
    all
}

/// Fields in either form, most of which convert, with about as much room as they need; or damaged ones.
pub fn drawn_call(random: &mut Random) -> ConversionCall {
    let record = match random.next() % 8 {
        0 => changed(random),
        1 => nearly_fields(random),
        2 => {
            let tags = shuffled(&TAGS, random);
            record(&drawn(&tags[..2], mixed, random))
        }
        _ => drawn_record(random),
    };
    let target = [Counts, Doubles][random.next() as usize % 2];
    let needed = |room: usize| ConversionCall {
        target,
        record: record.clone(),
        room,
    };
    let length = needed(ENOUGH).answer().length.unwrap_or(0);
    let room = (length + 4).saturating_sub(random.next() as usize % 6);
    needed(room)
}

fn drawn_record(random: &mut Random) -> Vec<u8> {
    let some = random.next() as usize % (TAGS.len() + 1);
    let mut fields: Vec<Stored> = Vec::new();
    for meaning in shuffled(&TAGS, random).into_iter().take(some) {
        let n = (random.next() as i32) >> (random.next() % 31);
        let count = Value::Count(n);
        let double = Value::Double(count.double());
        fields.push((meaning, [count, double][random.next() as usize % 2]));
    }
    let mut record = stored(&fields);
    if random.next() % 8 == 0 {
        record.extend(bytes(2, random));
    }
    record
}
