//! Edges of one function that no single quantity has: two of its inputs together decide the case, or only
//! its answer shows where a case ends.

use crate::function::{named, Inputs};
use crate::quantity::{edge, near};
use crate::random::Random;
use crate::ruled::station::FUNCTIONS;

const KELVIN: f64 = 273.15;
const TEMPERATURES: [f64; 8] = [-40.0, 0.0, 15.0, 50.0, 121.7, 210.3, 300.0, 366.6];
const LAYER_TOPS: [f64; 5] = [20_000.0, 32_000.0, 47_000.0, 51_000.0, 71_000.0];

/// With none, and with a dozen temperatures.
const STATION_TEMPERATURES: [Option<f64>; 13] = [
    None,
    Some((-273.15f64).next_up()),
    Some(-200.0),
    Some(-100.0),
    Some(-40.0),
    Some(-10.0),
    Some(0.0),
    Some(15.0),
    Some(30.0),
    Some(50.0),
    Some(1000.0),
    Some(1e8),
    Some(1e15),
];

/// Sea level, the source's two altitudes, the ends of document 01's range, layers, and the clamps.
const PLAUSIBLE_ALTITUDES: [f64; 12] = [
    0.0, 645.0, 3310.128, -500.0, 5000.0, 1586.0, 11_000.0, 25_000.0, 84_000.0, 90_000.0, -5000.0,
    -6000.0,
];

pub fn edges(name: &str) -> Vec<Inputs> {
    match name {
        "enhanced_compressibility_factor" => dense_air(),
        "calculate_air_density_cimp" | "water_vapor_mole_fraction_uncapped" => {
            much_vapor().map(|air| given(&air)).collect()
        }
        "moist_speed_of_sound" | "moist_air_vapor_mole_fraction" => much_vapor()
            .map(|[t, p, h]| given(&[t + KELVIN, p * 100.0, h]))
            .collect(),
        "calculate_atmosphere" => much_vapor()
            .map(|[t, p, h]| given(&[0.0, t, p, h]))
            .chain(temperatures_there_and_back())
            .collect(),
        "density_matched_altitude_m" => matched_at_tropopause(),
        "resolve_station_pressure" => default_bands(&[1012.75, 1013.75]),
        "resolve_station_temperature" => default_bands(&[14.9, 15.1]),
        "station_pressure_plausibility" => plausible_ends(),
        "nws_pressure_altitude_ft" => nws_ends(),
        "pressure_altitude_m" => [nws_ends(), layer_tops(name, &LAYER_TOPS, 1000.0)].concat(),
        "standard_pressure_altitude_m" => {
            let tops = [&[11_000.0], &LAYER_TOPS[..]].concat();
            layer_tops(name, &tops, 101_325.0)
        }
        "standard_altitude_above_tropopause_m" => layer_tops(name, &LAYER_TOPS, 0.29),
        "resolve_atmosphere_for_density_altitude" | "station_for_density_altitude" => acceptance(),
        _ => Vec::new(),
    }
}

fn given(inputs: &[f64]) -> Inputs {
    inputs.iter().map(|x| Some(*x)).collect()
}

/// So dense that each coefficient shows in the answer, where ordinary air is nearly an ideal gas. At one of
/// the mole fractions the last term all but vanishes.
fn dense_air() -> Vec<Inputs> {
    let mut inputs = Vec::new();
    for p in [1e6, 1e7, 3e7, 1e8] {
        for t in [180.3, 250.7, 300.1, 400.9, 640.3] {
            inputs.extend([0.0, 0.0489, 0.9].map(|x| given(&[p, t, x])));
        }
    }
    inputs
}

/// Temperature, pressure and humidity about where the air would be all vapour, and from there on.
fn much_vapor() -> impl Iterator<Item = [f64; 3]> {
    let fraction = named(&FUNCTIONS, "water_vapor_mole_fraction_uncapped");
    let humid = TEMPERATURES.iter().flat_map(|t| [(*t, 1.0), (*t, 100.0)]);
    humid.flat_map(|(t, h)| {
        let (reached, _) = edge(1e-6, 1e6, |p| fraction.value(&[t, p, h]) > 1.0);
        let mut pressures = near(reached, 1);
        pressures.extend([1.1, 1.3, 1.7, 2.9].map(|times| reached * times));
        pressures.into_iter().map(move |p| [t, p, h])
    })
}

/// Air whose density changes when its temperature goes to kelvin and back, as in `calculate_atmosphere`.
/// The last bit of a temperature seldom counts, and most in hot moist air.
fn temperatures_there_and_back() -> Vec<Inputs> {
    let density = named(&FUNCTIONS, "calculate_air_density_cimp");
    let random = &mut Random(0);
    let mut inputs = Vec::new();
    while inputs.len() < 5 {
        let t = random.between(250.0, 370.0);
        let p = random.between(1e5, 3e5);
        if density.value(&[t, p, 50.0]) != density.value(&[t + KELVIN - KELVIN, p, 50.0]) {
            inputs.push(given(&[0.0, t, p, 50.0]));
        }
    }
    inputs
}

fn matched_at_tropopause() -> Vec<Inputs> {
    let altitude = named(&FUNCTIONS, "density_matched_altitude_m");
    let mut inputs = Vec::new();
    for t in TEMPERATURES {
        for h in [0.0, 100.0] {
            let (reached, _) = edge(1e-3, 2000.0, |p| !(altitude.value(&[t, p, h]) <= 11_000.0));
            inputs.extend(near(reached, 1).iter().map(|p| given(&[t, *p, h])));
        }
    }
    inputs
}

/// The sides of a default's band, at the altitudes about which it begins to count.
fn default_bands(sides: &[f64]) -> Vec<Inputs> {
    let mut inputs = Vec::new();
    for x in sides.iter().flat_map(|side| near(*side, 1)) {
        for altitude in [near(1.0, 1), near(-1.0, 1)].concat() {
            inputs.push(given(&[x, altitude]));
        }
    }
    inputs
}

/// Pressures about the two ends of the plausible ratios, at altitudes low and high.
fn plausible_ends() -> Vec<Inputs> {
    let plausibility = named(&FUNCTIONS, "station_pressure_plausibility");
    let mut inputs = Vec::new();
    for altitude in PLAUSIBLE_ALTITUDES {
        let ratio = |p: f64| f64::from_bits(plausibility.at(&[p, altitude])[1].word());
        let (_, least) = edge(0.0, 300_000.0, |p| ratio(p) < 0.85);
        let (greatest, _) = edge(0.0, 300_000.0, |p| ratio(p) <= 1.08);
        for p in [near(least, 3), near(greatest, 3)].concat() {
            inputs.push(given(&[p, altitude]));
        }
        for p in [
            101_325.0,
            0.0,
            -0.0,
            -101_325.0,
            5e-324,
            f64::MAX,
            f64::INFINITY,
            f64::NAN,
        ] {
            inputs.push(given(&[p, altitude]));
        }
    }
    inputs
}

/// Pressures about the two ends of the altitudes for which the NWS figure is kept.
fn nws_ends() -> Vec<Inputs> {
    let feet = named(&FUNCTIONS, "nws_pressure_altitude_ft");
    let metres = |p: f64| feet.value(&[p]) * 0.3048;
    let (_, low_pressure) = edge(1.0, 2000.0, |p| metres(p) > 11_000.0);
    let (high_pressure, _) = edge(1.0, 2000.0, |p| metres(p) >= -5000.0);
    let pressures = [near(low_pressure, 2), near(high_pressure, 2)].concat();
    pressures.iter().map(|p| given(&[*p])).collect()
}

/// What a function reads as the top of a layer. Its answer is rounded more than once, so the case may
/// part a few doubles away.
fn layer_tops(name: &str, tops: &[f64], most: f64) -> Vec<Inputs> {
    let altitude = named(&FUNCTIONS, name);
    let top = |top: f64| edge(1e-9, most, |x| altitude.value(&[x]) > top).1;
    let about = tops.iter().flat_map(|height| near(top(*height), 12));
    about.map(|x| given(&[x])).collect()
}

/// The least and the greatest density altitude that has air, for each temperature.
fn acceptance() -> Vec<Inputs> {
    let station = named(&FUNCTIONS, "station_for_density_altitude");
    let mut inputs = Vec::new();
    for temperature in STATION_TEMPERATURES {
        let refused = |d: f64| (station.answer)(&[Some(d), temperature])[0].word() != 0;
        // where the pressure altitude is about 0, there is air
        let middle = temperature.map_or(0.0, |t| 36.576 * (t - 15.0));
        let (_, least) = edge(f64::MIN, middle, refused);
        let (greatest, _) = edge(middle, f64::MAX, |d| !refused(d));
        for d in [near(least, 2), near(greatest, 2)].concat() {
            inputs.push(vec![Some(d), temperature]);
        }
    }
    inputs
}
