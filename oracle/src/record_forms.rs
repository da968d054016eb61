//! Records whose bytes decide the answer: tags and their orders, lengths, cuts, repeats, clashes.

use crate::draw::{pattern, usual};
use crate::field::{record, stored};
use crate::random::Random;
use crate::record_fields::{
    drawn, in_either_form, orders, reversed, sets_of_tags, shuffled, READINGS, TAGS,
};

const UNKNOWN_TAGS: [u8; 4] = [0, 8, 0x80, 0xff];
const WRONG_LENGTHS: [u16; 7] = [0, 4, 7, 9, 0x0108, 0x0800, 0xffff];
const RANDOM: usize = 150;
const NEARLY_FIELDS: usize = 250;
const CHANGED: usize = 500;

pub fn all(random: &mut Random) -> Vec<Vec<u8>> {
    let mut all = sets(random);
    all.extend(all_orders(random));
    all.extend(repeats(random));
    all.extend(cuts(random));
    all.extend(wrong_lengths(random));
    all.extend(unknown_tags(random));
    all.extend(pairs_of_faults());
    all.extend(long(random));
    all.extend((0..RANDOM).map(|_| {
        let length = random.next() as usize % 81;
        bytes(length, random)
    }));
    all.extend((0..NEARLY_FIELDS).map(|_| nearly_fields(random)));
    all.extend((0..CHANGED).map(|_| changed(random)));
    all
}

/// Every set of tags, in four orders.
fn sets(random: &mut Random) -> Vec<Vec<u8>> {
    let mut all = Vec::new();
    for tags in sets_of_tags() {
        let fields = drawn(&tags, usual, random);
        all.push(record(&fields));
        all.push(record(&reversed(&fields)));
        all.push(record(&shuffled(&fields, random)));
        all.push(record(&shuffled(&fields, random)));
    }
    all
}

/// Every order of the largest readings and of five tags that clash.
fn all_orders(random: &mut Random) -> Vec<Vec<u8>> {
    let mut all = Vec::new();
    for tags in [
        &[1, 2, 3, 5][..],
        &[1, 2, 4, 5],
        &[1, 2, 5, 7],
        &[2, 5, 6],
        &[1, 3, 4, 6, 7],
    ] {
        let fields = drawn(tags, usual, random);
        all.extend(orders(&fields).iter().map(|fields| record(fields)));
    }
    all
}

/// Each tag of each reading once more: last and the same, or first and of any value.
fn repeats(random: &mut Random) -> Vec<Vec<u8>> {
    let mut all = Vec::new();
    for tags in READINGS {
        let fields = shuffled(&drawn(tags, usual, random), random);
        for field in &fields {
            all.push(record(&[&fields[..], &[*field]].concat()));
            let other = drawn(&[field.0], pattern, random);
            all.push(record(&[&other[..], &fields].concat()));
        }
    }
    // a repeat comes before the missing altitude and before a clash
    for tag in TAGS {
        all.push(record(&drawn(&[tag, tag], usual, random)));
        all.push(record(&drawn(&[3, 4, tag, tag], usual, random)));
    }
    all
}

/// Every cut of some records, from the first byte to the whole.
fn cuts(random: &mut Random) -> Vec<Vec<u8>> {
    let whole: [&[u8]; 7] = [
        &[1, 2, 3, 5],
        &[5, 4, 2, 1],
        &[7, 1],
        &[2, 6, 5],
        &[1, 1],
        &[3, 4, 1],
        &[7, 6, 5, 4, 3, 2, 1, 7],
    ];
    let mut all = Vec::new();
    for tags in whole {
        let record = record(&drawn(tags, usual, random));
        all.extend((0..=record.len()).map(|n| record[..n].to_vec()));
    }
    all
}

/// Wrong lengths for each tag, with no data, with the data of a good field and with as much as the length
/// says, up to 20 bytes; alone and after a field.
fn wrong_lengths(random: &mut Random) -> Vec<Vec<u8>> {
    let mut all = Vec::new();
    for tag in TAGS {
        for length in WRONG_LENGTHS {
            for present in [0, 8, usize::from(length).min(20)] {
                let field = [header(tag, length), bytes(present, random)].concat();
                all.push([record(&drawn(&[1], usual, random)), field.clone()].concat());
                all.push(field);
            }
        }
    }
    all
}

/// Unknown tags with a cut header, without data and with a good field's; alone and after a field.
fn unknown_tags(random: &mut Random) -> Vec<Vec<u8>> {
    let mut all = Vec::new();
    for tag in UNKNOWN_TAGS {
        let mut fields = vec![vec![tag], vec![tag, 0]];
        for length in [&[8], &WRONG_LENGTHS[..]].concat() {
            fields.push(header(tag, length));
            fields.push([header(tag, length), bytes(8, random)].concat());
        }
        for field in fields {
            all.push([record(&drawn(&[6], usual, random)), field.clone()].concat());
            all.push(field);
        }
    }
    all
}

/// Each two faults, in both orders, alone and after a field: only the first that document 01's order finds
/// is answered.
fn pairs_of_faults() -> Vec<Vec<u8>> {
    let altitude = record(&[(1, 100.0)]);
    let pressure = record(&[(3, 900.0)]);
    let faults = [
        // 5
        vec![2],
        vec![8, 0],
        header(7, 8),
        pressure[..10].to_vec(),
        altitude[..10].to_vec(),
        // 6
        header(8, 8),
        [header(8, 9), vec![0; 9]].concat(),
        // 7
        header(7, 9),
        [header(1, 7), vec![0; 7]].concat(),
        // 8, after the same field or each other
        altitude.clone(),
        pressure,
        // 9, after the pressure or the altitude
        record(&[(4, -1.0)]),
        record(&[(6, f64::NAN)]),
        record(&[(7, 0.0)]),
        // 2, 3, 11 to 13
        record(&[(2, f64::INFINITY)]),
        record(&[(2, -300.0)]),
        record(&[(3, f64::NAN)]),
        record(&[(5, 101.0)]),
    ];
    let mut all = Vec::new();
    for first in &faults {
        for second in &faults {
            let pair = [&first[..], second].concat();
            all.push([&altitude[..], &pair].concat());
            all.push([record(&[(6, 100.0)]), pair.clone()].concat());
            all.push(pair);
        }
    }
    all
}

/// About 256 bytes long and longer. Seven fields have 77 bytes, and the eighth is a fault whatever it is, so
/// the fault always lies far before byte 256.
fn long(random: &mut Random) -> Vec<Vec<u8>> {
    let mut all = Vec::new();
    for tags in [&[1][..], &[1, 2, 3, 5], &[5, 2, 6], &[7, 1, 5, 2], &TAGS] {
        let fields = record(&drawn(tags, usual, random));
        for length in [255, 256, 257, 300] {
            let rest = length - fields.len();
            let tails = [
                vec![0; rest],
                bytes(rest, random),
                [header(3, rest as u16 - 3), bytes(rest - 3, random)].concat(),
                fields.iter().copied().cycle().take(rest).collect(),
            ];
            all.extend(tails.iter().map(|tail| [&fields[..], tail].concat()));
        }
    }
    all
}

/// Pieces that are often a good field's, cut anywhere.
pub fn nearly_fields(random: &mut Random) -> Vec<u8> {
    let mut record = Vec::new();
    for _ in 0..random.next() % 8 {
        let tag = random.next() as u8 % 9;
        let (tag, length) = match random.next() % 2 {
            0 => (tag, 8),
            _ => (tag + 0x10, 4),
        };
        let off = u16::from(random.next() % 8 == 0);
        let data = bytes(length.into(), random);
        record.extend([header(tag, length + off), data].concat());
    }
    if random.next() % 2 == 0 {
        record.truncate(random.next() as usize % (record.len() + 1));
    }
    record
}

/// A good record, some of its fields in counts, with one to three of its bytes changed.
pub fn changed(random: &mut Random) -> Vec<u8> {
    let tags = READINGS[random.next() as usize % READINGS.len()];
    let fields = in_either_form(&drawn(tags, usual, random), random);
    let mut record = stored(&shuffled(&fields, random));
    for _ in 0..=random.next() % 3 {
        let place = random.next() as usize % record.len();
        record[place] ^= (1 + random.next() % 255) as u8;
    }
    record
}

pub fn header(tag: u8, length: u16) -> Vec<u8> {
    let [high, low] = length.to_be_bytes();
    vec![tag, high, low]
}

pub fn bytes(length: usize, random: &mut Random) -> Vec<u8> {
    (0..length).map(|_| random.next() as u8).collect()
}
