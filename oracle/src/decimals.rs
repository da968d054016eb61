//! The list `decimals`: the text of doubles with 0 to 15 decimals.

use crate::decimal::MOST_DECIMALS;
use crate::quantity::near;
use crate::random::Random;
use crate::words::{double_word, save};
use std::io;
use std::path::Path;

/// Doubles that are drawn for each number of decimals.
const DRAWN: usize = 60;

/// Values that are halves of a last decimal, for some number of decimals, and their neighbours.
const HALVES: [f64; 14] = [
    0.5,
    1.5,
    2.5,
    9.5,
    99.5,
    0.25,
    0.75,
    0.125,
    0.375,
    1.03125,
    0.0625,
    0.015625,
    1234.5,
    2.00048828125,
];

/// What the sheet's columns end at, and values that round to no unit or to one.
const SMALL: [f64; 10] = [
    0.0, 0.04, 0.05, 0.06, 0.4, 0.6, 0.00005, 0.00004999, 99.99995, 1e-7,
];

pub fn write(folder: &Path) -> io::Result<()> {
    let random = &mut Random(1);
    let mut questions = Vec::new();
    for decimals in 0..=MOST_DECIMALS {
        let question = |x: f64| format!("decimal {decimals} {}", double_word(x));
        questions.extend(doubles(random).into_iter().map(question));
    }
    save(folder, "decimals", &questions)
}

fn doubles(random: &mut Random) -> Vec<f64> {
    let mut all: Vec<f64> = HALVES.iter().flat_map(|x| near(*x, 1)).collect();
    all.extend(SMALL);
    all.extend([5e-324, 1e-310, f64::MIN_POSITIVE, 1e300, f64::MAX]);
    all.extend([f64::INFINITY, f64::NAN]);
    let mut all: Vec<f64> = all.into_iter().flat_map(|x| [x, -x]).collect();
    all.extend(about_powers_of_ten().iter().map(|x| signed(*x, random)));
    for turn in 0..DRAWN {
        let x = match turn % 4 {
            0 => f64::from_bits(random.next()),
            1 => random.between(0.0, 2.0),
            2 => random.between(0.0, 200_000.0),
            // halves of a last decimal, as near as doubles come
            _ => (random.next() % 10_000_000) as f64 / 10f64.powi(turn as i32 % 7) / 2.0,
        };
        all.push(signed(x, random));
    }
    all
}

/// From a last decimal to where the text is too long; also what is rounded up to a power.
fn about_powers_of_ten() -> Vec<f64> {
    let mut all = Vec::new();
    for power in -7..=17 {
        let ten = 10f64.powi(power);
        all.extend(near(ten, 1));
        all.extend([0.5, 0.49999, 0.99995].map(|part| ten * part));
        all.push(ten - 10f64.powi(power.min(9) - 7) / 2.0);
    }
    all
}

fn signed(x: f64, random: &mut Random) -> f64 {
    if random.next() % 2 == 0 {
        x
    } else {
        -x
    }
}
