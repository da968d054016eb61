//! Before and after request K13: nanoseconds of processor time a root, an antilog, a power and a humid record, from
//! the static libraries of the two commits and in 128-bit integers, in turns in one run. `roots.sh` builds it.

#[path = "../vectors/rules/exponents.rs"]
mod exponents;
#[allow(dead_code)]
#[path = "../vectors/rules/places.rs"]
mod places;
#[path = "../vectors/rules/random.rs"]
mod random;
#[allow(dead_code)]
#[path = "../vectors/rules/rules.rs"]
mod rules;

#[allow(dead_code)]
#[path = "../target/roots/after/target/oracle/constants.rs"]
mod constants;
#[allow(dead_code)]
#[path = "../target/roots/after/oracle/src/function.rs"]
mod function;
#[allow(dead_code)]
#[path = "../target/roots/after/oracle/src/gravity.rs"]
mod gravity;
#[allow(dead_code)]
#[path = "../target/roots/after/oracle/src/quantity.rs"]
mod quantity;
#[path = "../target/roots/after/oracle/src/rule_calls.rs"]
mod rule_calls;
#[allow(dead_code, unused_imports)]
#[path = "../target/roots/after/target/oracle/ruled.rs"]
mod ruled;

use exponents::EXPONENTS;
use places::places;
use random::Random;
use std::hint::black_box;

const INPUTS: usize = 250;
const ROOTS: usize = 6000;
const RUNS: usize = 101;

/// A slice travels as its pointer and its length.
type Roots = unsafe extern "C" fn(*const u64, usize) -> u64;
type Antilog = unsafe extern "C" fn(bool, u32, u64) -> f64;
type Power = unsafe extern "C" fn(f64, usize) -> f64;
type Judge = unsafe extern "C" fn(*const u8, usize, *mut f64, usize) -> u32;

/// What a commit's libraries hold.
struct Library {
    chained: Roots,
    alone: Roots,
    called_chained: Roots,
    called_alone: Roots,
    antilog: Antilog,
    power: Power,
    judge: Judge,
}

macro_rules! library {
    ($commit:ident, $prefix:literal) => {
        mod $commit {
            unsafe extern "C" {
                #[link_name = concat!($prefix, "chained")]
                fn chained(words: *const u64, length: usize) -> u64;
                #[link_name = concat!($prefix, "alone")]
                fn alone(words: *const u64, length: usize) -> u64;
                #[link_name = concat!($prefix, "called_chained")]
                fn called_chained(words: *const u64, length: usize) -> u64;
                #[link_name = concat!($prefix, "called_alone")]
                fn called_alone(words: *const u64, length: usize) -> u64;
                #[link_name = concat!($prefix, "station_air_antilog")]
                fn antilog(negative: bool, whole: u32, part: u64) -> f64;
                #[link_name = concat!($prefix, "station_air_power")]
                fn power(x: f64, number: usize) -> f64;
                #[link_name = concat!($prefix, "station_air_judge")]
                fn judge(record: *const u8, bytes: usize, lent: *mut f64, places: usize) -> u32;
            }

            pub const LIBRARY: super::Library = super::Library {
                chained,
                alone,
                called_chained,
                called_alone,
                antilog,
                power,
                judge,
            };
        }
    };
}

library!(before, "before_");
library!(after, "after_");

fn run(roots: Roots, words: &[u64]) -> u64 {
    unsafe { roots(words.as_ptr(), words.len()) }
}

impl Library {
    fn antilog(&self, p: i128) -> f64 {
        let digits = if p < 0 { -p - 1 } else { p };
        let part = digits as u64 & ((1 << places()) - 1);
        unsafe { (self.antilog)(p < 0, (digits >> places()) as u32, part) }
    }

    fn power(&self, x: f64, number: usize) -> f64 {
        unsafe { (self.power)(x, number) }
    }

    fn judge(&self, record: &[u8]) -> [f64; 7] {
        let mut lent = [0.0; 7];
        let status =
            unsafe { (self.judge)(record.as_ptr(), record.len(), lent.as_mut_ptr(), lent.len()) };
        assert_eq!(status, 0, "a refusal");
        lent
    }
}

#[repr(C)]
struct Time {
    seconds: i64,
    nanoseconds: i64,
}

unsafe extern "C" {
    fn clock_gettime(clock: i32, time: *mut Time) -> i32;
}

/// The thread's own processor time, which stands still while others run: Linux's clock 3.
fn now() -> f64 {
    let mut time = Time {
        seconds: 0,
        nanoseconds: 0,
    };
    assert_eq!(unsafe { clock_gettime(3, &mut time) }, 0);
    time.seconds as f64 * 1e9 + time.nanoseconds as f64
}

fn nanoseconds<T, R>(inputs: &[T], f: &impl Fn(&T) -> R) -> f64 {
    let start = now();
    for x in inputs {
        black_box(f(black_box(x)));
    }
    (now() - start) / inputs.len() as f64
}

fn median(mut times: Vec<f64>) -> f64 {
    times.sort_by(f64::total_cmp);
    times[times.len() / 2]
}

/// The medians of runs that take turns, of things of which a call does `each`, once all three have given the same
/// answers.
fn row<T, R: PartialEq>(
    name: &str,
    each: usize,
    inputs: &[T],
    ours: impl Fn(&Library, &T) -> R,
    ruled: impl Fn(&T) -> R,
) {
    let old = |x: &T| ours(&before::LIBRARY, x);
    let new = |x: &T| ours(&after::LIBRARY, x);
    let same = |x: &T| old(x) == new(x) && new(x) == ruled(x);
    assert!(inputs.iter().all(same), "{name}: the answers differ");
    let mut times = [Vec::new(), Vec::new(), Vec::new()];
    for _ in 0..RUNS {
        times[0].push(nanoseconds(inputs, &old));
        times[1].push(nanoseconds(inputs, &new));
        times[2].push(nanoseconds(inputs, &ruled));
    }
    let [old, new, ruled] = times.map(|of| median(of) / each as f64);
    println!(
        "{name:<42}{old:>10.1}{new:>10.1}{ruled:>11.1}{:>9.2}{:>13.2}{:>12.2}",
        old / new,
        old / ruled,
        new / ruled
    );
}

/// What a call of `after` takes for no root at all: the writing of the two tables to the stack.
fn tables() {
    let no_words = [[0; 0]; INPUTS];
    let call = |words: &[u64; 0]| run(after::LIBRARY.chained, words);
    let times = (0..RUNS).map(|_| nanoseconds(&no_words, &call)).collect();
    println!(
        "{:<42}{:>20.1}",
        "the tables alone, once a call",
        median(times)
    );
}

fn root(y: u64, word: u64) -> u64 {
    (u128::from(y) << (62 + word % 2)).isqrt() as u64
}

/// Radicands from 2^124 to 2^126, as the antilog has them.
fn roots(random: &mut Random) {
    let words: Vec<u64> = (0..ROOTS).map(|_| 1 << 62 | random.next() >> 2).collect();
    let chained = |words: &&[u64]| words.iter().fold(1 << 62, |y, word| root(y, *word));
    let sum = |sum: u64, word: &u64| sum.wrapping_add(root(*word, *word));
    let alone = |words: &&[u64]| words.iter().fold(0, sum);
    let row = |name: &str, of: fn(&Library) -> Roots, ruled: &dyn Fn(&&[u64]) -> u64| {
        let ours = |library: &Library, words: &&[u64]| run(of(library), words);
        row(name, ROOTS, &[&words[..]], ours, ruled)
    };
    row("root of the one before, in line", |l| l.chained, &chained);
    row(
        "root of the one before, called",
        |l| l.called_chained,
        &chained,
    );
    row("root by itself, in line", |l| l.alone, &alone);
    row("root by itself, called", |l| l.called_alone, &alone);
}

fn antilogs(random: &mut Random) {
    let one = (1u64 << places()) as f64;
    let words: Vec<i128> = evenly(|| (random.between(-5.0, 5.0) * one) as i128);
    row(
        "antilog",
        1,
        &words,
        |library, p| library.antilog(*p),
        |p| rules::antilog(places(), *p),
    );
}

fn powers(random: &mut Random) {
    let ratios = evenly(|| random.between(0.2, 2.0));
    for number in [0, 26] {
        let exponent = EXPONENTS[number];
        row(
            &format!("power {number} ({:.4})", exponent.q),
            1,
            &ratios,
            |library, x| library.power(*x, number),
            |x| rules::power(places(), *x, exponent),
        );
    }
}

fn evenly<T>(input: impl FnMut() -> T) -> Vec<T> {
    std::iter::repeat_with(input).take(INPUTS).collect()
}

/// Altitude, temperature, station pressure and humidity over document 01's ranges.
fn record(random: &mut Random) -> Vec<u8> {
    [
        (1, random.between(-500.0, 5000.0)),
        (2, random.between(-40.0, 50.0)),
        (3, random.between(500.0, 1100.0)),
        (5, random.between(1.0, 100.0)),
    ]
    .iter()
    .flat_map(|(tag, value)| [&[*tag, 0, 8][..], &value.to_bits().to_be_bytes()].concat())
    .collect()
}

fn records(random: &mut Random) {
    let records = evenly(|| record(random));
    row(
        "record 01 02 03 05, humid",
        1,
        &records,
        |library, record| library.judge(record),
        |record| ruled::record::read(record).expect("figures"),
    );
}

fn main() {
    println!(
        "{:<42}{:>10}{:>10}{:>11}{:>9}{:>13}{:>12}",
        "nanoseconds", "before", "after", "u128 Rust", "quicker", "before/u128", "after/u128"
    );
    let random = &mut Random(0);
    roots(random);
    tables();
    antilogs(random);
    powers(random);
    records(random);
}
