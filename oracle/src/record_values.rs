//! Records of good form, whose values decide the answer.

use crate::draw::{mixed, pattern, usual, wide, Draw};
use crate::edges::edges;
use crate::field::{record, Field};
use crate::function::named;
use crate::quantity::{edge, near};
use crate::random::Random;
use crate::record_changes::CHANGES;
use crate::record_fields::{drawn, quantity, reversed, sets_of_tags, shuffled, READINGS};
use crate::records::number;
use crate::ruled::station::FUNCTIONS;

/// Readings that are drawn.
const DRAWN: [(usize, Draw); 4] = [(500, usual), (400, wide), (350, mixed), (60, pattern)];

/// The readings with the most fields, those with one, and a density altitude with nothing but a humidity.
const FULL_OR_SINGLE: [&[u8]; 7] = [
    &[1, 2, 3, 5],
    &[1, 2, 4, 5],
    &[1, 2, 5, 7],
    &[2, 5, 6],
    &[5, 6],
    &[1],
    &[6],
];

/// Functions of the source whose edges count here, and the tags that carry their inputs.
const EDGES_OF: [(&str, &[u8]); 8] = [
    ("resolve_station_pressure", &[3, 1]),
    ("resolve_station_pressure", &[7, 1]),
    ("resolve_station_temperature", &[2, 1]),
    ("calculate_atmosphere", &[1, 2, 3, 5]),
    ("pressure_altitude_m", &[3]),
    ("pressure_altitude_m", &[7]),
    ("density_matched_altitude_m", &[2, 3, 5]),
    ("station_for_density_altitude", &[6, 2]),
];

/// Document 01's example of 15.
pub const HOT_HUMID_AIR: [Field; 4] = [(1, 0.0), (2, 1000.0), (3, 1013.5), (5, 50.0)];

/// The park of request K3: 5 m above the sea, where a station pressure of 1013.1 hPa is a default.
pub const AS_STATION_PRESSURE: [Field; 2] = [(1, 5.0), (3, 1013.1)];
pub const AS_MEASURED: [Field; 2] = [(1, 5.0), (7, 1013.1)];

/// What documents 01 and 02 say of the functions and of records, as records.
const CORNERS: [&[Field]; 28] = [
    &[(1, 0.0)],
    &[(1, 100.0), (3, 1013.0)],
    &[(1, 100.0), (3, 1012.75)],
    &[(1, 1.0), (3, 1013.25)],
    &[(1, 100.0), (2, 15.1)],
    &[(1, 0.0), (4, 1013.25)],
    &HOT_HUMID_AIR,
    &[(6, 0.0)],
    &[(6, 0.0), (2, 15.0)],
    &[(6, 44_283.0)],
    &[(6, 44_284.0)],
    &[(6, 54_852.0), (2, 15.0)],
    &[(6, 54_853.0), (2, 15.0)],
    &[(6, 0.0), (2, -273.15)],
    &[(6, f64::NAN), (2, f64::NAN)],
    &AS_STATION_PRESSURE,
    &AS_MEASURED,
    &[(1, 5.0), (2, 20.0), (5, 50.0), (7, 1013.1)],
    // a density altitude dry, at 0 percent, and humid with and without a temperature
    &[(6, 1500.0), (2, 30.0)],
    &[(6, 1500.0), (2, 30.0), (5, 0.0)],
    &[(6, 1500.0), (2, 30.0), (5, 60.0)],
    &[(6, 1500.0), (5, 60.0)],
    // the humidity after 1 to 4
    &[(6, f64::NAN), (5, f64::NAN)],
    &[(6, 0.0), (2, -273.15), (5, 101.0)],
    &[(6, 44_284.0), (5, 101.0)],
    &[(6, 44_283.0), (5, 101.0)],
    &[(6, 0.0), (5, f64::INFINITY)],
    // more vapour than air
    &[(6, 44_283.0), (5, 100.0)],
];

pub fn all(random: &mut Random) -> Vec<Vec<u8>> {
    let mut all: Vec<Vec<u8>> = CORNERS.iter().map(|fields| record(fields)).collect();
    all.extend(defaults());
    all.extend(reduced_to_a_default());
    all.extend(bad_values(random));
    all.extend(pairs_of_bad_values(random));
    all.extend(bad_values_in_any_set());
    all.extend(edges_of_values(random));
    all.extend(edges_of_functions());
    all.extend(humid_density_altitudes());
    all.extend(pressures_there_and_back(random));
    all.extend(infinite_densities(random));
    all.extend(changes());
    for (count, draw) in DRAWN {
        for _ in 0..count {
            let tags = READINGS[random.next() as usize % READINGS.len()];
            all.push(record(&shuffled(&drawn(tags, draw, random), random)));
        }
    }
    all
}

/// Either of temperature and pressure a default or not, about the altitudes from which defaults count. A
/// measured pressure never is one.
fn defaults() -> Vec<Vec<u8>> {
    let mut all = Vec::new();
    for altitude in [0.0, 1.0, -1.0, 100.0, -100.0] {
        for temperature in [15.0, 20.0] {
            for pressure in [1013.0, 900.0] {
                for tag in [3, 7] {
                    let fields = [(1, altitude), (2, temperature), (tag, pressure)];
                    all.push(record(&fields));
                    all.push(record(&[&fields[..], &[(5, 50.0)]].concat()));
                }
            }
        }
    }
    all
}

/// A QNH whose station pressure looks like a default, and is none.
fn reduced_to_a_default() -> Vec<Vec<u8>> {
    let reduced = named(&FUNCTIONS, "reduce_qnh_to_station_pressure");
    let mut all = Vec::new();
    for altitude in [-300.0, 5.0, 100.0, 1500.0] {
        let (qnh, _) = edge(500.0, 2000.0, |q| reduced.value(&[q, altitude]) < 1013.25);
        for off in [-1.0, -0.3, 0.0, 0.3, 1.0] {
            all.push(record(&[(1, altitude), (4, qnh + off)]));
        }
    }
    all
}

/// What each tag refuses: not finite, then out of bounds. The last of 06 is 4.
fn bad(tag: u8) -> &'static [f64] {
    match tag {
        1 => &[f64::NAN, f64::INFINITY],
        2 => &[f64::NAN, f64::NEG_INFINITY, -273.15, -1e9],
        3 | 4 | 7 => &[f64::NAN, f64::NEG_INFINITY, 0.0, -1.0],
        5 => &[f64::NAN, f64::INFINITY, -1.0, 101.0],
        _ => &[f64::NAN, f64::INFINITY, 1e5],
    }
}

fn bad_values(random: &mut Random) -> Vec<Vec<u8>> {
    let mut all = Vec::new();
    for tags in READINGS {
        for i in 0..tags.len() {
            for x in bad(tags[i]) {
                let mut fields = drawn(tags, usual, random);
                fields[i].1 = *x;
                all.push(record(&shuffled(&fields, random)));
            }
        }
    }
    all
}

/// Each two fields' bad values, by rising tag and by falling: where they stand in the record does not count.
fn pairs_of_bad_values(random: &mut Random) -> Vec<Vec<u8>> {
    let mut all = Vec::new();
    for tags in FULL_OR_SINGLE {
        for j in 0..tags.len() {
            for i in 0..j {
                for x in bad(tags[i]) {
                    for y in bad(tags[j]) {
                        let mut fields = drawn(tags, usual, random);
                        (fields[i].1, fields[j].1) = (*x, *y);
                        all.push(record(&fields));
                        all.push(record(&reversed(&fields)));
                    }
                }
            }
        }
    }
    all
}

/// All values bad, in every set of tags: a clash and a missing altitude come before any of them.
fn bad_values_in_any_set() -> Vec<Vec<u8>> {
    let mut all = Vec::new();
    for tags in sets_of_tags() {
        let with = |pick: fn(&[f64]) -> f64| -> Vec<u8> {
            let fields: Vec<Field> = tags.iter().map(|tag| (*tag, pick(bad(*tag)))).collect();
            record(&fields)
        };
        all.push(with(|bad| bad[0]));
        all.push(with(|bad| bad[bad.len() - 1]));
    }
    all
}

/// The edges of each field's quantity: its bounds and bands, zeros, subnormals, the largest doubles,
/// infinities and NaNs.
fn edges_of_values(random: &mut Random) -> Vec<Vec<u8>> {
    let mut all = Vec::new();
    for tags in FULL_OR_SINGLE {
        for i in 0..tags.len() {
            for x in quantity(tags[i]).edges() {
                let mut fields = drawn(tags, usual, random);
                fields[i].1 = x;
                all.push(record(&shuffled(&fields, random)));
            }
        }
    }
    all
}

/// At 0 m where the function takes no altitude.
fn edges_of_functions() -> Vec<Vec<u8>> {
    let mut all = Vec::new();
    for (function, tags) in EDGES_OF {
        for inputs in edges(function) {
            let given = tags.iter().zip(inputs);
            let mut fields: Vec<Field> = given.filter_map(|(tag, x)| Some((*tag, x?))).collect();
            if !tags.contains(&1) && !tags.contains(&6) {
                fields.push((1, 0.0));
            }
            all.push(record(&fields));
        }
    }
    all
}

/// The greatest and least density altitudes for a dozen temperatures and none, with a humidity that is good or
/// out of range, in turns: it is refused only where there is air.
fn humid_density_altitudes() -> Vec<Vec<u8>> {
    let mut all = Vec::new();
    let humidities = [101.0, 50.0, -1.0, 100.0];
    let inputs = edges("station_for_density_altitude").into_iter();
    for (inputs, humidity) in inputs.zip(humidities.into_iter().cycle()) {
        let given = [6, 2].into_iter().zip(inputs);
        let mut fields: Vec<Field> = given.filter_map(|(tag, x)| Some((tag, x?))).collect();
        fields.push((5, humidity));
        all.push(record(&fields));
    }
    all
}

/// Without a pressure, in air nearly all vapour, where the sound speed tells the layer's pascals from the
/// shown hectopascals turned back into pascals. Nothing else that is answered does.
fn pressures_there_and_back(random: &mut Random) -> Vec<Vec<u8>> {
    let layers = named(&FUNCTIONS, "calculate_icao_standard_atmosphere");
    let speed = named(&FUNCTIONS, "moist_speed_of_sound");
    let mut all = Vec::new();
    while all.len() < 10 {
        let altitude = random.between(13_000.0, 14_800.0);
        let pascals = f64::from_bits(layers.at(&[altitude])[1].word());
        let speed_at = |pascals: f64| speed.value(&[50.0 + 273.15, pascals, 100.0]);
        if speed_at(pascals) != speed_at(pascals / 100.0 * 100.0) {
            all.push(record(&[(1, altitude), (2, 50.0), (5, 100.0)]));
        }
    }
    all
}

/// Dense moist air whose compressibility is exactly 0, so that the density is infinite. Between the densities
/// above 0 and those below there are few such pressures, and not at every temperature.
fn infinite_densities(random: &mut Random) -> Vec<Vec<u8>> {
    let density = named(&FUNCTIONS, "calculate_air_density_cimp");
    let mut all = Vec::new();
    while all.len() < 5 {
        let temperature = random.between(290.0, 310.0);
        let density_at = |p: f64| density.value(&[temperature, p, 100.0]);
        let (last, _) = edge(2e5, 1e6, |p| density_at(p) > 0.0);
        if density_at(last) == f64::INFINITY {
            for p in near(last, 1) {
                all.push(record(&[(1, 0.0), (2, temperature), (3, p), (5, 100.0)]));
            }
        }
    }
    all
}

/// The doubles about each change of the answer's number.
fn changes() -> Vec<Vec<u8>> {
    let mut all = Vec::new();
    for change in &CHANGES {
        let with = |x: f64| record(&[change.fixed, &[(change.tag, x)]].concat());
        let [low, high] = change.ends;
        assert_eq!([low, high].map(|x| number(&with(x))), change.numbers);
        let (last, _) = edge(low, high, |x| number(&with(x)) == change.numbers[0]);
        all.extend(near(last, 2).into_iter().map(with));
    }
    all
}
