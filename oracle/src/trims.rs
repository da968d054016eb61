//! The list `trims`: the trim class of readings, and the change that gives the next.

use crate::field::{record, stored, Field};
use crate::quantity::{edge, near};
use crate::random::Random;
use crate::record_fields::{in_counts, in_either_form, shuffled};
use crate::record_refused::refused_records;
use crate::ruled::record::read;
use crate::trim::LIMITS;
use crate::words::{record_word, save};
use std::io;
use std::path::Path;

/// Parks that are drawn.
const DRAWN: usize = 30;

/// Of the records next to a limit so many have it as their density, to the last bit.
const AT_A_LIMIT: usize = 4;

pub fn write(folder: &Path) -> io::Result<()> {
    let records = all(&mut Random(9));
    let density = |record: &Vec<u8>| read(record).ok().map(|answer| answer.figures[3]);
    let at_a_limit = |record: &&Vec<u8>| density(record).is_some_and(|d| LIMITS.contains(&d));
    assert!(records.iter().filter(at_a_limit).count() >= AT_A_LIMIT);
    let question = |record: &Vec<u8>| format!("class {}", record_word(record));
    let questions: Vec<String> = records.iter().map(question).collect();
    save(folder, "trims", &questions)
}

pub fn all(random: &mut Random) -> Vec<Vec<u8>> {
    let mut all: Vec<Vec<u8>> = (0..DRAWN).map(|_| drawn_park(random)).collect();
    all.extend(next_to_limits());
    all.extend(both_ways());
    all.extend(farthest());
    all.extend(defaults());
    all.extend(refused_changes());
    all.extend(nothing_to_change());
    all.extend(refused_records());
    all
}

/// In either form, half of them humid.
pub fn drawn_park(random: &mut Random) -> Vec<u8> {
    let mut fields = vec![
        (1, random.between(-500.0, 3000.0)),
        (2, random.between(-40.0, 50.0)),
        (7, random.between(750.0, 1100.0)),
    ];
    if random.next() % 2 == 0 {
        fields.push((5, random.between(0.0, 100.0)));
    }
    let fields = in_either_form(&fields, random);
    stored(&shuffled(&fields, random))
}

fn density(fields: &[Field]) -> f64 {
    read(&record(fields)).expect("figures").figures[3]
}

/// Pressures about the one whose air has a density of so much with these fields, which hold no pressure.
fn pressures_about(limit: f64, fields: &[Field]) -> Vec<f64> {
    let with = |p: f64| density(&[fields, &[(7, p)]].concat());
    let (last, _) = edge(100.0, 5000.0, |p| with(p) < limit);
    near(last, 1)
}

/// The doubles about each limit, and the counts on both sides, dry and humid.
fn next_to_limits() -> Vec<Vec<u8>> {
    let mut all = Vec::new();
    let airs: [&[Field]; 2] = [&[(1, 200.0), (2, -3.7)], &[(1, 0.0), (2, 21.3), (5, 63.0)]];
    for limit in LIMITS {
        for air in airs {
            for (turn, p) in pressures_about(limit, air).into_iter().enumerate() {
                let fields = [air, &[(7, p)]].concat();
                all.push(record(&fields));
                // the nearest count, and the one above it
                if turn > 0 {
                    let above = [air, &[(7, p + 0.001 * (turn - 1) as f64)]].concat();
                    all.push(stored(&in_counts(&above)));
                }
            }
        }
    }
    all
}

/// In the middle of a class by temperature, so that as many tenths up as down leave it: up is first.
fn both_ways() -> Vec<Vec<u8>> {
    let mut all = Vec::new();
    for (limits, t) in LIMITS.windows(2).zip([33.3, 0.0, -17.5, 8.8, -30.0]) {
        let middle = 2.0 / (1.0 / limits[0] + 1.0 / limits[1]);
        let p = pressures_about(middle, &[(1, 0.0), (2, t)])[1];
        all.push(record(&[(1, 0.0), (2, t), (7, p)]));
    }
    all
}

/// Readings whose next class is 200 tenths away or just not, below the least limit and above the greatest; and
/// such that have none far and wide.
fn farthest() -> Vec<Vec<u8>> {
    let mut all = Vec::new();
    for (limit, degrees) in [(1.00, -20.0), (1.25, 20.0)] {
        for t in [-12.0, 24.5] {
            for p in pressures_about(limit, &[(1, 0.0), (2, t + degrees)]) {
                all.push(record(&[(1, 0.0), (2, t), (7, p)]));
            }
        }
    }
    for (t, p) in [(20.0, 500.0), (-30.0, 1100.0), (40.0, 60.0), (0.0, 1300.0)] {
        all.push(record(&[(1, 800.0), (2, t), (5, 40.0), (7, p)]));
    }
    all
}

/// Away from sea level, where a changed temperature falls into the default band or out of it, and where it stays
/// inside, so that the pressure is first.
fn defaults() -> Vec<Vec<u8>> {
    let mut all = Vec::new();
    for t in [15.0, 15.05, 14.95, 15.3, 14.6, 16.0, 13.0] {
        for (altitude, p) in [(2500.0, 880.0), (-400.0, 1030.0), (0.5, 1000.0)] {
            all.push(record(&[(1, altitude), (2, t), (7, p)]));
        }
    }
    for limit in [1.00, 1.20] {
        let [below, _, above] = pressures_about(limit, &[(1, 1500.0), (2, 15.0)])[..] else {
            unreachable!("a pressure and its neighbours");
        };
        for p in [
            below,
            above,
            above + 0.05,
            below - 0.05,
            above + 0.15,
            below - 0.15,
        ] {
            all.push(record(&[(1, 1500.0), (2, 15.0), (7, p)]));
        }
    }
    all
}

/// Changes that are refused before one that counts: more vapour than air, air above water's critical temperature,
/// below absolute zero, no pressure.
fn refused_changes() -> Vec<Vec<u8>> {
    let mut all = Vec::new();
    for t in [112.0, 118.4, 121.7] {
        let with = |p: f64| record(&[(1, 0.0), (2, t), (5, 100.0), (7, p)]);
        let (_, least) = edge(100.0, 5000.0, |p| read(&with(p)).is_err());
        all.extend([least, least + 0.05, least + 0.35].map(with));
    }
    for p in [2040.0, 2229.0, 2300.0] {
        for t in [373.9, 373.5, 372.0] {
            all.push(record(&[(1, 0.0), (2, t), (5, 0.1), (7, p)]));
        }
    }
    for (t, p) in [(-270.0, 10.8), (-272.9, 0.9), (-250.0, 66.0), (0.0, 5.0)] {
        all.push(record(&[(1, 0.0), (2, t), (7, p)]));
    }
    all
}

/// No temperature, no measured pressure, or neither.
fn nothing_to_change() -> Vec<Vec<u8>> {
    let readings: [&[Field]; 11] = [
        &[(1, 0.0)],
        &[(1, 100.0), (5, 40.0)],
        &[(1, 100.0), (7, 1000.0)],
        &[(1, 100.0), (5, 40.0), (7, 1000.0)],
        &[(1, 100.0), (2, 20.0)],
        &[(1, 100.0), (2, 20.0), (3, 1000.0)],
        &[(1, 100.0), (2, 20.0), (4, 1020.0), (5, 40.0)],
        &[(1, 100.0), (3, 1000.0)],
        &[(6, 100.0)],
        &[(2, 20.0), (6, 100.0)],
        &[(2, 20.0), (5, 40.0), (6, 100.0)],
    ];
    let mut all: Vec<Vec<u8>> = readings.iter().map(|fields| record(fields)).collect();
    all.extend(
        readings[2..5]
            .iter()
            .map(|fields| stored(&in_counts(fields))),
    );
    all
}
