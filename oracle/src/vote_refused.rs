//! Votes that are refused: for a mast, for a field that not all have, and for the voted record.

use crate::draw::usual;
use crate::field::{record, Field};
use crate::random::Random;
use crate::record_fields::{drawn, shuffled};
use crate::record_refused::refused_records;
use crate::vote::{vote, Records};

/// Voted records of each kind that are refused where no mast is.
const VOTED: usize = 15;

pub fn all(random: &mut Random) -> Vec<Records> {
    let mut all = refused_masts(random);
    all.extend(not_in_all(random));
    all.extend(voted(14, humid_mast, random));
    all.extend(voted(15, hot_mast, random));
    all
}

/// Each at each mast, the others good; with one of them lacking a field, which comes after; and with another that
/// is refused, of which the first counts.
fn refused_masts(random: &mut Random) -> Vec<Records> {
    let refused = refused_records();
    let mut all = Vec::new();
    for (i, bad) in refused.iter().enumerate() {
        for place in 0..3 {
            let mut records = [(); 3].map(|()| record(&drawn(&[1, 2], usual, random)));
            records[place] = bad.clone();
            all.push(records.clone());
            let other = (place + 1) % 3;
            records[other] = record(&drawn(&[1], usual, random));
            all.push(records.clone());
            records[other] = refused[(i + place + 1) % refused.len()].clone();
            all.push(records);
        }
    }
    all
}

/// Each meaning in one or two of the masts, whichever they are, beside fields that all have. Altitude and density
/// altitude stand for each other, and so do the pressures.
fn not_in_all(random: &mut Random) -> Vec<Records> {
    let pairs: [[&[u8]; 2]; 11] = [
        [&[1], &[6]],
        [&[1, 2, 5], &[2, 5, 6]],
        [&[1], &[1, 2]],
        [&[1, 5, 7], &[1, 2, 5, 7]],
        [&[1], &[1, 3]],
        [&[1, 2], &[1, 2, 4]],
        [&[1, 2], &[1, 2, 7]],
        [&[1, 3], &[1, 7]],
        [&[1, 2, 3], &[1, 2, 4]],
        [&[1], &[1, 5]],
        [&[2, 6], &[2, 5, 6]],
    ];
    let mut all = Vec::new();
    for pair in pairs {
        // the masts that have the second set, a bit each: neither none nor all
        for masts in 1..7 {
            all.push([0, 1, 2].map(|mast| {
                let tags = pair[masts >> mast & 1];
                record(&shuffled(&drawn(tags, usual, random), random))
            }));
        }
    }
    all
}

/// Masts of one kind, each accepted, whose voted record is refused with this number.
fn voted(expected: u64, mast: fn(&mut Random) -> Vec<Field>, random: &mut Random) -> Vec<Records> {
    let mut all = Vec::new();
    while all.len() < VOTED {
        let records = [(); 3].map(|()| record(&mast(random)));
        let vote = vote(&records);
        if vote.mast == 0 && vote.outcome.is_err_and(|r| r.number == expected) {
            all.push(records);
        }
    }
    all
}

/// Thin warm air: of two of temperature, humidity and low pressure a mast may have much.
fn humid_mast(random: &mut Random) -> Vec<Field> {
    vec![
        (1, random.between(0.0, 1000.0)),
        (2, random.between(-10.0, 80.0)),
        (5, random.between(0.0, 100.0)),
        (7, random.between(20.0, 400.0)),
    ]
}

/// Air as hot and dense as there is none: the formula has a density for some, and none for others between them.
fn hot_mast(random: &mut Random) -> Vec<Field> {
    let mut up_to = |power: u64| two_to(random.next() % power) * random.between(1.0, 2.0);
    vec![(1, 0.0), (2, up_to(27)), (7, up_to(200))]
}

fn two_to(power: u64) -> f64 {
    f64::from_bits((1023 + power) << 52)
}
