//! Nanoseconds a call through the crate `station-air`, beside the same call of the C function in the same program: the
//! two in turns, processor time, the median of 1001 runs over the first 250 records of the load.

use station_air::atmosphere::pressure_altitude_m;
use station_air::{judge, load_record};
use std::hint::black_box;

const INPUTS: u64 = 250;
const RUNS: usize = 1001;

#[repr(C)]
struct Time {
    seconds: i64,
    nanoseconds: i64,
}

extern "C" {
    fn station_air_judge(
        record: *const u8,
        n: usize,
        places: *mut f64,
        m: usize,
        in_range: *mut bool,
    ) -> u32;
    fn station_air_pressure_altitude_m(pressure_hpa: f64) -> f64;
    fn clock_gettime(clock: i32, time: *mut Time) -> i32;
}

const PROCESSOR_TIME: i32 = 3;

fn now() -> f64 {
    let mut time = Time {
        seconds: 0,
        nanoseconds: 0,
    };
    // SAFETY: a place for the answer.
    unsafe { clock_gettime(PROCESSOR_TIME, &mut time) };
    time.seconds as f64 * 1e9 + time.nanoseconds as f64
}

fn called(record: &[u8]) -> (u32, [f64; 8], bool) {
    let (mut places, mut in_range) = ([0.0; 8], false);
    // SAFETY: arrays with their lengths.
    let status = unsafe {
        station_air_judge(
            record.as_ptr(),
            record.len(),
            places.as_mut_ptr(),
            8,
            &mut in_range,
        )
    };
    (status, places, in_range)
}

fn median(mut times: Vec<f64>) -> f64 {
    times.sort_by(f64::total_cmp);
    times[times.len() / 2]
}

/// Nanoseconds of a call, over all inputs.
fn timed<I: ?Sized, A>(inputs: &[&I], call: impl Fn(&I) -> A) -> f64 {
    let start = now();
    for input in inputs {
        black_box(call(black_box(input)));
    }
    (now() - start) / inputs.len() as f64
}

fn row<I: ?Sized, A, B>(name: &str, inputs: &[&I], c: impl Fn(&I) -> A, rust: impl Fn(&I) -> B) {
    let mut times = [vec![], vec![]];
    for _ in 0..RUNS {
        times[0].push(timed(inputs, &c));
        times[1].push(timed(inputs, &rust));
    }
    let [c, rust] = times.map(median);
    println!("{name}\t{c:.1}\t{rust:.1}");
}

fn main() {
    let records: Vec<Vec<u8>> = (0..INPUTS).map(load_record).collect();
    let records: Vec<&[u8]> = records.iter().map(|record| &record[..]).collect();
    row("judge, a record of the load", &records, called, judge);
    row(
        "judge, an empty record",
        &[&[][..]; INPUTS as usize],
        called,
        judge,
    );
    let pressures: Vec<f64> = (0..INPUTS).map(|i| 600.0 + 2.0 * i as f64).collect();
    let pressures: Vec<&f64> = pressures.iter().collect();
    // SAFETY: numbers alone.
    let c = |x: &f64| unsafe { station_air_pressure_altitude_m(*x) };
    row("pressure_altitude_m", &pressures, c, |x: &f64| {
        pressure_altitude_m(*x)
    });
}
