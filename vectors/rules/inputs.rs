//! What the functions of the rules are tried on: edges, and draws over the whole range.

use crate::exponents::Exponent;
use crate::places::places;
use crate::random::Random;
use crate::rules::{antilog, exp, ln_units, log_bits};

fn with_neighbours(xs: &[f64]) -> Vec<f64> {
    xs.iter()
        .flat_map(|x| [x.next_down(), *x, x.next_up()])
        .collect()
}

/// About 2^x, by the rules: `exp2` may differ from one machine to another, and with it the list.
pub fn two_to(x: f64) -> f64 {
    antilog(places(), (x * (1u64 << places()) as f64) as i128)
}

fn power_of_two(e: i32) -> f64 {
    if e < -1022 {
        f64::from_bits(1 << (e + 1074))
    } else {
        f64::from_bits(((e + 1023) as u64) << 52)
    }
}

/// Any double with a clear sign, infinity and NaNs among them.
pub fn positive_pattern(random: &mut Random) -> f64 {
    f64::from_bits(random.next() >> 1)
}

/// A subnormal double, or 0, of any number of digits.
pub fn subnormal(random: &mut Random) -> f64 {
    f64::from_bits(random.next() >> (12 + random.next() % 52))
}

/// Patterns that are no positive finite double: NaNs of several patterns, zeros, infinities, negatives.
fn outside() -> Vec<f64> {
    let mut xs: Vec<f64> = [
        0x7FF8_0000_0000_0000,
        0x7FF0_0000_0000_0001,
        0x7FFF_FFFF_FFFF_FFFF,
        0xFFF8_0000_0000_0000,
        0xFFF4_0000_0000_0000,
        0xFFFF_FFFF_FFFF_FFFF,
    ]
    .map(f64::from_bits)
    .to_vec();
    xs.extend([0.0, -0.0, f64::INFINITY, f64::NEG_INFINITY]);
    xs.extend(
        [
            5e-324,
            f64::MIN_POSITIVE,
            0.5,
            1.0,
            2.0,
            3.7,
            273.15,
            f64::MAX,
        ]
        .map(|x| -x),
    );
    xs
}

/// 1 and the ends of the ranges of doubles, with neighbours.
fn corners() -> Vec<f64> {
    let mut xs = with_neighbours(&[1.0, 2.0, 0.5, f64::MIN_POSITIVE]);
    xs.extend([
        5e-324,
        1e-323,
        f64::MAX,
        f64::MAX.next_down(),
        1.0 + 1e-15,
        1.0 - 1e-15,
    ]);
    xs
}

/// What the log word is tried on, and the square root and ln among others.
pub fn positive(random: &mut Random) -> Vec<f64> {
    let powers: Vec<f64> = (-1074..=1023).step_by(9).map(power_of_two).collect();
    let mut xs = outside();
    xs.extend(corners());
    xs.extend(with_neighbours(&powers));
    xs.extend((0..700).map(|_| positive_pattern(random)));
    xs.extend((0..150).map(|_| subnormal(random)));
    xs.extend((0..300).map(|_| random.between(0.25, 4.0)));
    xs.extend((0..100).map(|_| random.between(100.0, 2000.0)));
    xs
}

/// What ln is tried on.
pub fn logarithms(random: &mut Random) -> Vec<f64> {
    let mut xs = positive(random);
    xs.extend(halfway());
    xs
}

/// Doubles whose logarithm lies halfway between two doubles before it is rounded. It has one to eight places more than a
/// double then; with more such doubles are rare.
fn halfway() -> Vec<f64> {
    let random = &mut Random(0);
    let mut xs = Vec::new();
    for more in 1..=8 {
        let least = power_of_two(52 - places() as i32 + more);
        for sign in [1.0, -1.0] {
            // exp's answers alone are too regular, so their last bits are drawn
            let draw = || {
                let x = exp(places(), sign * random.between(least, 2.0 * least));
                f64::from_bits(x.to_bits() ^ random.next() >> 48)
            };
            let draws = std::iter::repeat_with(draw);
            xs.extend(draws.filter(|x| is_halfway(*x)).take(4));
        }
    }
    xs
}

fn is_halfway(x: f64) -> bool {
    let size = ln_units(places(), x).map_or(0, i128::unsigned_abs);
    // the last place that a double keeps is the 53rd
    size >> 53 != 0 && size.trailing_zeros() + 1 == 128 - size.leading_zeros() - 53
}

/// What the antilog is tried on: floor(P / 2^places) and the remainder.
pub fn words(random: &mut Random) -> Vec<(i64, u64)> {
    let last = (1u64 << places()) - 1;
    let mut inputs: Vec<(i64, u64)> = Vec::new();
    for k in [
        0, 1, -1, 62, 63, 1022, 1023, 1024, 1025, -1021, -1022, -1023, -1073, -1074, -1075, -1076,
        -1077,
    ] {
        for f in [0, 1, 2, 3, last / 2, last / 2 + 1, last - 1, last] {
            inputs.push((k, f));
        }
    }
    // far out of range, to the ends of a word's whole part
    let most = i64::from(u32::MAX);
    for k in [2000, 40_000, most, -2000, -40_000, -most - 1] {
        for f in [0, last] {
            inputs.push((k, f));
        }
    }
    for place in 0..places() {
        inputs.push((0, 1 << place));
        inputs.push((0, last ^ 1 << place));
    }
    // subnormal answers lose places, so each of these whole parts rounds at another
    for k in -1080..-1015 {
        for _ in 0..4 {
            inputs.push((k, random.next() & last));
        }
    }
    for k in (-1080..1030).step_by(3) {
        inputs.push((k, random.next() & last));
    }
    // where a root that is estimated would round the other way: next to the point where the rounding turns
    for f in [535_489_463_505_023_894, 431_509_293_186_312_915] {
        inputs.push((0, f & last));
    }
    let near = &mut Random(0);
    for _ in 0..256 {
        inputs.push((3, near_a_turn(near)));
    }
    inputs
}

/// A fraction whose Y lies some units from a point where the rounding of a normal double turns: half a unit of the
/// 53rd place, which is 512 of Y's.
pub fn near_a_turn(random: &mut Random) -> u64 {
    let (any, step) = (random.next(), random.next());
    let turn = 1 << 62 | any >> 2 & !1023 | 512;
    let last = (1u64 << places()) - 1;
    (log_bits(places(), turn) + step % 5).min(last)
}

/// What the power q is tried on.
pub fn bases(q: Exponent, random: &mut Random) -> Vec<f64> {
    let mut xs = outside();
    xs.extend(corners());
    // where the answer leaves the range of the doubles, and of those that are normal
    xs.extend(with_neighbours(
        &[1024.0, -1022.0, -1074.0, -1075.0].map(|e| two_to(e / q.q)),
    ));
    xs.extend([-1000, -300, -53, -3, 3, 10, 200, 1000].map(power_of_two));
    xs.extend((0..8).map(|_| positive_pattern(random)));
    xs.extend((0..4).map(|_| subnormal(random)));
    xs.extend((0..20).map(|_| random.between(0.0, 2.0)));
    xs.extend((0..8).map(|_| random.between(0.0, 1200.0)));
    xs.extend((0..4).map(|_| -positive_pattern(random)));
    // answers over the whole range, whatever the exponent
    xs.extend((0..12).map(|_| two_to(random.between(-1080.0, 1030.0) / q.q)));
    xs
}

/// Numbers that no exponent has, and what their power is tried on.
pub const NO_EXPONENT: [u64; 5] = [27, 28, 1 << 32, 1 << 63, u64::MAX];
pub const WITHOUT_EXPONENT: [f64; 5] = [0.0, 1.0, 2.0, f64::INFINITY, f64::NAN];

/// What exp is tried on.
pub fn arguments(random: &mut Random) -> Vec<f64> {
    let mut xs = outside();
    // the two thresholds, and where the answer leaves the range of the doubles, and of those that are normal
    xs.extend(with_neighbours(&[
        1024.0,
        -1100.0,
        709.782712893384,
        -708.3964185322641,
        -744.4400719213812,
        -745.1332191019412,
    ]));
    // either side of the last place's unit, below which the floor is 0 or -1
    let unit = power_of_two(-(places() as i32));
    xs.extend(with_neighbours(&[unit, -unit, unit / 2.0, -unit / 2.0]));
    xs.extend(corners());
    xs.extend(corners().into_iter().map(|x| -x));
    xs.extend((-1101..=1025).step_by(6).map(f64::from));
    for _ in 0..300 {
        xs.push(random.between(-1110.0, 1030.0));
        xs.push(random.between(-745.2, -708.0));
        xs.push(random.between(-2.0, 2.0));
        xs.push(f64::from_bits(random.next()));
    }
    for _ in 0..20 {
        xs.push(subnormal(random));
        xs.push(-subnormal(random));
    }
    xs
}

/// What the square root is tried on.
pub fn squares(random: &mut Random) -> Vec<f64> {
    let mut xs = positive(random);
    // squares of 26 binary digits, whose roots are exact, and their neighbours
    for _ in 0..60 {
        let root = (random.next() >> 38) as f64;
        xs.extend(with_neighbours(&[root * root]));
    }
    xs
}
