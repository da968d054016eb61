//! Nanoseconds a call: the proved functions through the static library, the source with our rules in 128-bit
//! integers, and the stock source, on the same inputs in one run.

use crate::exponents::EXPONENTS;
use crate::field::{record, Field};
use crate::inputs::near_a_turn;
use crate::load;
use crate::places::places;
use crate::random::Random;
use crate::rules;
use crate::{exports, ruled, stock};
use std::hint::black_box;
use std::process::{Command, Stdio};
use std::time::Instant;

const INPUTS: usize = 250;
const RUNS: usize = 101;
/// Runs over the whole load, of ten thousand records each.
const LOAD_RUNS: usize = 11;
const LOAD_PROGRAM: &str = "target/bin/load";

pub fn measure() {
    head("nanoseconds a call");
    let random = &mut Random(0);
    whole_numbers(random);
    station(random);
    record_head("nanoseconds a record");
    records(random);
    slowest(random);
    record_head("a record's length");
    lengths(random);
    println!("{:<42}{:>10}", "microseconds a call", "ours");
    pages_and_searches();
    println!("{:<42}{:>10}", "records a second, one core", "ours");
    load();
}

/// The load of the acceptance bench: written and judged through the C interface; and by the program, with
/// its start, as text that goes nowhere.
fn load() {
    let rate = |seconds: Vec<f64>| load::RECORDS as f64 / median(seconds);
    let through_c = (0..LOAD_RUNS).map(|_| {
        let start = Instant::now();
        for number in 0..load::RECORDS {
            let (mut out, mut length) = ([0; load::LONGEST], 0);
            exports::load_record(number, &mut out, &mut length);
            black_box(judged(&out[..length]));
        }
        start.elapsed().as_secs_f64()
    });
    println!(
        "{:<42}{:>10.0}",
        "load, C interface",
        rate(through_c.collect())
    );
    let by_program = (0..LOAD_RUNS).map(|_| {
        let start = Instant::now();
        let status = Command::new(LOAD_PROGRAM).stdout(Stdio::null()).status();
        assert!(status.expect(LOAD_PROGRAM).success());
        start.elapsed().as_secs_f64()
    });
    println!(
        "{:<42}{:>10.0}",
        "load, program",
        rate(by_program.collect())
    );
}

/// What makes many judgements in one call: a page of 51, a search of up to 800. Ours alone.
fn pages_and_searches() {
    for (name, humidity) in [("setting sheet, dry", 0.0), ("setting sheet, humid", 60.0)] {
        alone(name, || {
            let mut page = [0; 1530];
            exports::setting_sheet(250.0, 988.0, humidity, &mut page, &mut [0.0])
        });
    }
    for (name, temperature, pressure) in [
        ("next trim class, after 27 judgements", 17.6, 1008.3),
        ("next trim class, none within 200", 20.0, 700.0),
    ] {
        let reading = record(&[(1, 60.0), (2, temperature), (5, 60.0), (7, pressure)]);
        alone(name, || {
            exports::next_trim_class(&reading, &mut [0.0; 2], &mut [0; 4])
        });
    }
}

fn alone<R>(name: &str, ours: impl Fn() -> R) {
    let times = (0..RUNS).map(|_| nanoseconds(&[()], |()| ours())).collect();
    println!("{name:<42}{:>10.1}", median(times) / 1000.0);
}

fn head(of: &str) {
    println!(
        "{of:<42}{:>10}{:>11}{:>11}{:>10}{:>10}",
        "ours", "u128 Rust", "stock Rust", "to u128", "to stock"
    );
}

fn nanoseconds<T, R>(inputs: &[T], f: impl Fn(&T) -> R) -> f64 {
    let start = Instant::now();
    for x in inputs {
        black_box(f(black_box(x)));
    }
    start.elapsed().as_nanos() as f64 / inputs.len() as f64
}

fn median(mut times: Vec<f64>) -> f64 {
    times.sort_by(f64::total_cmp);
    times[times.len() / 2]
}

/// Prints the medians of runs that take turns, so that a change of the machine's speed meets all three.
fn row<T, R: PartialEq, S>(
    name: &str,
    inputs: &[T],
    ours: impl Fn(&T) -> R,
    ruled: impl Fn(&T) -> R,
    stock: impl Fn(&T) -> S,
) {
    assert!(
        inputs.iter().all(|x| ours(x) == ruled(x)),
        "{name}: the answers differ"
    );
    let mut times = [Vec::new(), Vec::new(), Vec::new()];
    for _ in 0..RUNS {
        times[0].push(nanoseconds(inputs, &ours));
        times[1].push(nanoseconds(inputs, &ruled));
        times[2].push(nanoseconds(inputs, &stock));
    }
    let [ours, ruled, stock] = times.map(median);
    println!(
        "{name:<42}{ours:>10.1}{ruled:>11.1}{stock:>11.1}{:>10.3}{:>10.1}",
        ours / ruled,
        ours / stock
    );
}

fn evenly<T>(mut input: impl FnMut() -> T) -> Vec<T> {
    (0..INPUTS).map(|_| input()).collect()
}

fn log_word(x: f64) -> i128 {
    let (mut negative, mut whole, mut part) = (false, 0, 0);
    exports::log_word(x, &mut negative, &mut whole, &mut part);
    let digits = (i128::from(whole) << places()) + i128::from(part);
    if negative {
        -digits - 1
    } else {
        digits
    }
}

fn antilog(p: i128) -> f64 {
    let digits = if p < 0 { -p - 1 } else { p };
    let part = digits as u64 & ((1 << places()) - 1);
    exports::antilog(p < 0, (digits >> places()) as u32, part)
}

/// A fraction whose Y lies within three units of where the rounding turns: no estimate decides it.
fn decided_by_roots(random: &mut Random) -> i128 {
    loop {
        let f = near_a_turn(random);
        if (509..=514).contains(&(rules::antilog_root(places(), f) % 1024)) {
            return f.into();
        }
    }
}

/// How many of the fractions drawn take more than half the time of one that the roots decide.
fn share_of_roots(random: &mut Random) {
    let slow = median((0..RUNS).map(|_| quickest(decided_by_roots(random))).collect());
    let drawn = 20_000;
    let roots = (0..drawn)
        .filter(|_| quickest((random.next() >> (64 - places())).into()) > slow / 2.0)
        .count();
    println!("{:<42}{:>10.2}", "of 100 antilogs the roots decide", roots as f64 * 100.0 / f64::from(drawn));
}

/// The quickest of some calls, so that an interruption does not count.
fn quickest(p: i128) -> f64 {
    (0..9).map(|_| nanoseconds(&[p], |p| antilog(*p))).fold(f64::INFINITY, f64::min)
}

fn whole_numbers(random: &mut Random) {
    let ratios = evenly(|| random.between(0.2, 2.0));
    let arguments = evenly(|| random.between(-5.0, 5.0));
    let one = (1u64 << places()) as f64;
    let words: Vec<i128> = arguments.iter().map(|x| (x * one) as i128).collect();
    row(
        "log word",
        &ratios,
        |x| log_word(*x),
        |x| rules::log_word(places(), *x).expect("a word"),
        |x| x.log2(),
    );
    row(
        "antilog",
        &words,
        |p| antilog(*p),
        |p| rules::antilog(places(), *p),
        |p| (*p as f64 / one).exp2(),
    );
    row(
        "antilog, where the roots decide",
        &evenly(|| decided_by_roots(random)),
        |p| antilog(*p),
        |p| rules::antilog(places(), *p),
        |p| (*p as f64 / one).exp2(),
    );
    share_of_roots(random);
    for number in [0, 1, 6, 11, 23, 26] {
        let exponent = EXPONENTS[number];
        row(
            &format!("power {number} ({:.4})", exponent.q),
            &ratios,
            |x| exports::power(*x, number),
            |x| rules::power(places(), *x, exponent),
            |x| x.powf(exponent.q),
        );
    }
    let exp = |x: &f64| exports::exp(*x);
    row(
        "exp",
        &arguments,
        exp,
        |x| rules::exp(places(), *x),
        |x| x.exp(),
    );
    let ln = |x: &f64| exports::ln(*x);
    row("ln", &ratios, ln, |x| rules::ln(places(), *x), |x| x.ln());
    let sqrt = |x: &f64| exports::sqrt(*x);
    row("sqrt", &ratios, sqrt, |x| rules::sqrt(*x), |x| x.sqrt());
}

/// A mast's readings over document 01's ranges.
#[derive(Clone, Copy)]
struct Readings {
    altitude: f64,
    temperature: f64,
    pressure: f64,
    humidity: f64,
}

fn readings(random: &mut Random) -> Vec<Readings> {
    evenly(|| Readings {
        altitude: random.between(-500.0, 5000.0),
        temperature: random.between(-40.0, 50.0),
        pressure: random.between(500.0, 1100.0),
        humidity: random.between(1.0, 100.0),
    })
}

fn dry(readings: &[Readings]) -> Vec<Readings> {
    let dry = |r: &Readings| Readings {
        humidity: 0.0,
        ..*r
    };
    readings.iter().map(dry).collect()
}

fn station(random: &mut Random) {
    let humid = readings(random);
    for (kind, readings) in [("dry", &dry(&humid)), ("humid", &humid)] {
        row(
            &format!("calculate_atmosphere, {kind}"),
            readings,
            |r| {
                let (t, p) = (Some(r.temperature), Some(r.pressure));
                let mut air = [0.0; 2];
                exports::calculate_atmosphere(r.altitude, t, p, r.humidity, &mut air);
                (air[0], air[1])
            },
            |r| {
                let (t, p) = (Some(r.temperature), Some(r.pressure));
                ruled::calculate_atmosphere(r.altitude, t, p, r.humidity)
            },
            |r| {
                let (t, p) = (Some(r.temperature), Some(r.pressure));
                stock::calculate_atmosphere(r.altitude, t, p, r.humidity)
            },
        );
        row(
            &format!("calculate_atmosphere, {kind}, layers"),
            readings,
            |r| {
                let mut air = [0.0; 2];
                exports::calculate_atmosphere(r.altitude, None, None, r.humidity, &mut air);
                (air[0], air[1])
            },
            |r| ruled::calculate_atmosphere(r.altitude, None, None, r.humidity),
            |r| stock::calculate_atmosphere(r.altitude, None, None, r.humidity),
        );
        row(
            &format!("density_matched_altitude_m, {kind}"),
            readings,
            |r| exports::density_matched_altitude_m(r.temperature, r.pressure, r.humidity),
            |r| ruled::density_matched_altitude_m(r.temperature, r.pressure, r.humidity),
            |r| stock::density_matched_altitude_m(r.temperature, r.pressure, r.humidity),
        );
    }
    let none: fn(&Readings) -> Option<f64> = |_| None;
    let given: fn(&Readings) -> Option<f64> = |r| Some(r.temperature);
    for (kind, t) in [("none given", none), ("given", given)] {
        row(
            &format!("station_for_density_altitude, {kind}"),
            &humid,
            |r| {
                let mut station = [0.0; 3];
                let status = exports::for_density_altitude(r.altitude, t(r), &mut station);
                let [altitude, temperature, pressure] = station;
                (status == 0).then_some((altitude, temperature, pressure))
            },
            |r| ruled::station_for_density_altitude(r.altitude, t(r)).ok(),
            |r| stock::station_for_density_altitude(r.altitude, t(r)).ok(),
        );
    }
}

/// The refusal's number, or 0, the figures and the mark.
type Judged = (u64, [f64; 8], bool);

fn judged(record: &[u8]) -> Judged {
    let (mut figures, mut in_range) = ([0.0; 8], false);
    let status = exports::judge(record, &mut figures, &mut in_range);
    (status.into(), figures, in_range)
}

fn ruled_judged(record: &[u8]) -> Judged {
    match ruled::record::read(record) {
        Ok(answer) => (0, answer.figures, answer.in_range),
        Err(refusal) => (refusal.number, [0.0; 8], false),
    }
}

fn record_head(of: &str) {
    println!(
        "{of:<42}{:>10}{:>11}{:>11}{:>11}{:>10}{:>10}",
        "ours", "u128 Rust", "stock Rust", "no heap", "to stock", "to that"
    );
}

/// Of the stock source twice: with the oracle's reader, which has a map of the values, and with one that has no heap.
fn record_row(name: &str, records: &[impl AsRef<[u8]>]) {
    for record in records {
        let record = record.as_ref();
        let ruled = ruled_judged(record);
        assert!(judged(record) == ruled, "{name}: the answers differ");
        let heapless = ruled::heapless::read(record).map(|a| (0, a.figures, a.in_range));
        assert!(heapless == (ruled.0 == 0).then_some(ruled), "{name}: the readers differ");
    }
    let mut times = [Vec::new(), Vec::new(), Vec::new(), Vec::new()];
    for run in 0..RUNS {
        times[0].push(nanoseconds(records, |record| judged(record.as_ref())));
        if run % 10 == 0 {
            times[1].push(nanoseconds(records, |record| ruled_judged(record.as_ref())));
        }
        times[2].push(nanoseconds(records, |record| stock::record::read(record.as_ref())));
        times[3].push(nanoseconds(records, |record| stock::heapless::read(record.as_ref())));
    }
    let [ours, ruled, stock, heapless] = times.map(median);
    println!(
        "{name:<42}{ours:>10.1}{ruled:>11.1}{stock:>11.1}{heapless:>11.1}{:>10.2}{:>10.2}",
        ours / stock,
        ours / heapless
    );
}

/// The slowest of many humid records, each timed by its quickest call: those whose powers the estimates leave open.
fn slowest(random: &mut Random) {
    let drawn = (0..80).flat_map(|_| all_fields(&readings(random), &[1, 2, 4, 5]));
    let slowest = drawn
        .map(|record| (0..9).map(|_| nanoseconds(&[&record], |r| judged(r))).fold(f64::INFINITY, f64::min))
        .fold(0.0, f64::max);
    println!("{:<42}{slowest:>10.1}", "01 02 04 05, the slowest of 20,000");
}

fn fields(r: &Readings, tags: &[u8]) -> Vec<u8> {
    let value = |tag: u8| match tag {
        2 => r.temperature,
        3 | 4 | 7 => r.pressure,
        5 => r.humidity,
        _ => r.altitude,
    };
    let fields: Vec<Field> = tags.iter().map(|tag| (*tag, value(*tag))).collect();
    record(&fields)
}

fn all_fields(readings: &[Readings], tags: &[u8]) -> Vec<Vec<u8>> {
    readings.iter().map(|r| fields(r, tags)).collect()
}

/// Only readings that are accepted.
fn records(random: &mut Random) {
    let humid = readings(random);
    let dry = dry(&humid);
    let high: Vec<Readings> = dry
        .iter()
        .map(|r| Readings { altitude: random.between(11_100.0, 20_000.0), ..*r })
        .collect();
    for (name, readings, tags) in [
        ("record 01 02 03 05, humid", &humid, &[1, 2, 3, 5][..]),
        ("record 01 02 04 05, humid", &humid, &[1, 2, 4, 5]),
        ("record 01 02 05 07, humid", &humid, &[1, 2, 5, 7]),
        ("record 01 05, humid", &humid, &[1, 5]),
        ("record 02 05 06, humid", &humid, &[2, 5, 6]),
        ("record 01 02 03 05, dry", &dry, &[1, 2, 3, 5]),
        ("record 01 02 04", &dry, &[1, 2, 4]),
        ("record 01 04", &dry, &[1, 4]),
        ("record 01", &dry, &[1]),
        ("record 02 06", &dry, &[2, 6]),
        ("record 06", &dry, &[6]),
        ("record 01, above 11 km", &high, &[1]),
        ("record 01 02 03, above 11 km", &high, &[1, 2, 3]),
    ] {
        record_row(name, &all_fields(readings, tags));
    }
}

/// In dry air, so that the fields cost what there is to read, and then records that are refused for what
/// follows their fields: no answer hangs on a byte after the 88th.
fn lengths(random: &mut Random) {
    let dry = dry(&readings(random));
    for tags in [&[1][..], &[1, 2], &[1, 2, 3], &[1, 2, 3, 5]] {
        let name = format!("{} bytes", 11 * tags.len());
        record_row(&name, &all_fields(&dry, tags));
    }
    for (name, tags, junk) in [
        ("44 bytes and 256 of junk", &[1, 2, 3, 5][..], 256),
        ("44 bytes and 1 MiB of junk", &[1, 2, 3, 5], 1 << 20),
        (
            "77 bytes, the last field repeated",
            &[1, 2, 3, 4, 5, 6, 6],
            0,
        ),
        (
            "77 bytes and 1 MiB of junk",
            &[1, 2, 3, 4, 5, 6, 6],
            1 << 20,
        ),
    ] {
        let record = [fields(&dry[0], tags), vec![0xFF; junk]].concat();
        record_row(name, &vec![&record; INPUTS]);
    }
}
