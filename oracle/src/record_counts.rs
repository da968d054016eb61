//! Records with counts of thousandths, request K5: their forms, and the values that decide the answer.

use crate::draw::{usual, wide};
use crate::field::{record, stored, Stored, Value};
use crate::random::Random;
use crate::record_fields::{
    drawn, in_counts, in_either_form, sets_of_tags, shuffled, READINGS, TAGS,
};
use crate::record_forms::{bytes, header};

const DRAWN: usize = 300;

/// Next to the tags of counts, and those with another high digit.
const UNKNOWN_TAGS: [u8; 6] = [0x10, 0x18, 0x1f, 0x21, 0x31, 0x91];

/// For a count; 8 is right for a double.
const WRONG_LENGTHS: [u16; 7] = [0, 3, 5, 8, 0x0104, 0x0400, 0xffff];

/// The readings with the most fields.
const FULL: [&[u8]; 4] = [&[1, 2, 3, 5], &[1, 2, 4, 5], &[1, 2, 5, 7], &[2, 5, 6]];

pub fn all(random: &mut Random) -> Vec<Vec<u8>> {
    let mut all = sets(random);
    all.extend(both_forms(random));
    all.extend(cuts(random));
    all.extend(pairs_of_faults(random));
    all.extend(values(random));
    all.extend(pairs_of_bad_values(random));
    all.extend(bands_and_ranges());
    for turn in 0..DRAWN {
        let tags = READINGS[random.next() as usize % READINGS.len()];
        let fields = drawn(tags, if turn % 3 == 0 { wide } else { usual }, random);
        let fields = shuffled(&in_either_form(&fields, random), random);
        all.push(stored(&fields));
    }
    all
}

/// Every set of fields, all as counts and each in either form: presence and clashes go by meaning.
fn sets(random: &mut Random) -> Vec<Vec<u8>> {
    let mut all = Vec::new();
    for tags in sets_of_tags() {
        let fields = drawn(&tags, usual, random);
        all.push(stored(&in_counts(&fields)));
        let either = in_either_form(&fields, random);
        all.push(stored(&shuffled(&either, random)));
    }
    all
}

/// Each field in both forms, whichever comes first, and as a count repeated; alone and in a reading.
pub fn both_forms(random: &mut Random) -> Vec<Vec<u8>> {
    let mut all = Vec::new();
    for meaning in TAGS {
        let fields = drawn(&[meaning], usual, random);
        let (count, double) = (stored(&in_counts(&fields)), record(&fields));
        for pair in [[&count, &double], [&double, &count], [&count, &count]] {
            all.push(pair.map(Vec::as_slice).concat());
            let between = stored(&in_counts(&drawn(&[meaning % 7 + 1], usual, random)));
            all.push([pair[0], &between[..], pair[1]].concat());
        }
    }
    all
}

/// Every cut of records in both forms.
fn cuts(random: &mut Random) -> Vec<Vec<u8>> {
    let mut all = Vec::new();
    for tags in [&[1, 2, 5, 7][..], &[6, 2], &[4, 1]] {
        let mut fields = in_counts(&drawn(tags, usual, random));
        fields[1].1 = Value::Double(fields[1].1.double());
        let record = stored(&fields);
        all.extend((0..=record.len()).map(|n| record[..n].to_vec()));
    }
    all
}

/// What is refused 5 to 8 by itself or after an altitude in either form: header and data cut, unknown tags, a
/// wrong length for the tag's form with as much data as either form has, repeats.
pub fn cut_or_wrong(random: &mut Random) -> Vec<Vec<u8>> {
    let mut all = vec![vec![0x12], vec![0x13, 0], header(0x14, 4)];
    all.push([header(0x17, 4), vec![0; 3]].concat());
    all.push([header(0x07, 8), vec![0; 7]].concat());
    for tag in UNKNOWN_TAGS {
        all.push([header(tag, 4), bytes(4, random)].concat());
        all.push([header(tag, 8), bytes(8, random)].concat());
    }
    for (length, meaning) in WRONG_LENGTHS.into_iter().zip(TAGS) {
        for data in [0, 4, 8] {
            all.push([header(meaning + 0x10, length), bytes(data, random)].concat());
        }
        all.push([header(meaning, 4), bytes(4, random)].concat());
        all.push([header(meaning, 4), bytes(8, random)].concat());
    }
    all.push(stored(&[(1, Value::Count(0))]));
    all.push(record(&[(1, 0.0)]));
    all
}

/// Each of these alone, after an altitude in either form, and before another: the first counts.
fn pairs_of_faults(random: &mut Random) -> Vec<Vec<u8>> {
    let faults = cut_or_wrong(random);
    let starts = [
        Vec::new(),
        record(&[(1, 100.0)]),
        stored(&[(1, Value::Count(100_000))]),
    ];
    let mut all = Vec::new();
    for (i, first) in faults.iter().enumerate() {
        for start in &starts {
            all.push([&start[..], first].concat());
        }
        for step in [1, 7, 19] {
            let second = &faults[(i + step) % faults.len()];
            all.push([&starts[1][..], first, second].concat());
        }
    }
    all
}

/// What each meaning refuses that a count can be; the last of 06 is 4.
fn bad(meaning: u8) -> &'static [i32] {
    match meaning {
        2 => &[-273_150, i32::MIN],
        3 | 4 | 7 => &[0, -1, i32::MIN],
        5 => &[-1, 100_001, i32::MAX],
        6 => &[100_000_000, i32::MAX],
        _ => &[],
    }
}

/// In each field of each reading: bad counts, those next to them, and the ends of the counts.
fn values(random: &mut Random) -> Vec<Vec<u8>> {
    let mut all = Vec::new();
    for tags in READINGS {
        for i in 0..tags.len() {
            let ends = [i32::MIN, i32::MAX, 0, 1, -273_149, 100_000];
            for n in [bad(tags[i]), &ends].concat() {
                let mut fields = in_either_form(&drawn(tags, usual, random), random);
                fields[i].1 = Value::Count(n);
                all.push(stored(&shuffled(&fields, random)));
            }
        }
    }
    all
}

/// Each two fields' bad values, one as a count and one as a double: the order is that of the meanings, not that
/// of the tag bytes.
fn pairs_of_bad_values(random: &mut Random) -> Vec<Vec<u8>> {
    let mut all = Vec::new();
    for tags in FULL {
        for j in 0..tags.len() {
            for i in 0..j {
                for [first, second] in [[i, j], [j, i]] {
                    for n in bad(tags[first]) {
                        let mut fields = in_either_form(&drawn(tags, usual, random), random);
                        fields[first].1 = Value::Count(*n);
                        fields[second].1 = Value::Double(f64::NAN);
                        all.push(stored(&fields));
                    }
                }
            }
        }
    }
    all
}

/// The sides of the default bands about the altitudes from which they count, and the ends of the mark's range.
fn bands_and_ranges() -> Vec<Vec<u8>> {
    let count = |meaning: u8, n: i32| -> Stored { (meaning, Value::Count(n)) };
    let mut all = Vec::new();
    for altitude in [1000, 1001, -1000, -1001, 100_000] {
        for t in [14_900, 14_901, 15_000, 15_099, 15_100, 15_101] {
            all.push(stored(&[count(1, altitude), count(2, t)]));
        }
        for p in [1_012_750, 1_012_751, 1_013_250, 1_013_749, 1_013_750] {
            for meaning in [3, 7] {
                all.push(stored(&[count(1, altitude), count(meaning, p)]));
            }
        }
    }
    for t in [14_999, 15_000, 27_000, 27_001] {
        for p in [599_999, 600_000, 1_100_000, 1_100_001] {
            all.push(stored(&[count(1, 0), count(2, t), count(7, p)]));
        }
    }
    all
}
