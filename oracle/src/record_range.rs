//! Records on both sides of every end of the range that CIPM-2007 states, by each way to a temperature or pressure
//! that is shown: the mark of request K11.

use crate::field::{record, Field};
use crate::quantity::{edge, near};
use crate::ruled::record::read;

const TEMPERATURE_ENDS: [f64; 2] = [15.0, 27.0];
const PRESSURE_ENDS: [f64; 2] = [600.0, 1100.0];

/// Where temperature and pressure stand among the figures.
const TEMPERATURE: usize = 1;
const PRESSURE: usize = 2;

/// Readings that are replaced by the layer's, so that the mark is not that of the readings: beside each the same
/// air where they are kept.
const REPLACED: [&[Field]; 10] = [
    // 15.05 °C, in the range, becomes 8.5 °C
    &[(1, 1000.0), (2, 15.05), (7, 900.0)],
    &[(1, 1.0), (2, 15.05), (7, 900.0)],
    // 14.95 °C, below it, becomes 15.65 °C
    &[(1, -100.0), (2, 14.95), (7, 900.0)],
    &[(1, -1.0), (2, 14.95), (7, 900.0)],
    // 1013 hPa become 540 hPa, and in a pit 1187 hPa
    &[(1, 5000.0), (2, 20.0), (3, 1013.0)],
    &[(1, 5000.0), (2, 20.0), (7, 1013.0)],
    &[(1, -1400.0), (2, 20.0), (3, 1013.0)],
    &[(1, -1400.0), (2, 20.0), (7, 1013.0)],
    // a QNH out of the range with a station pressure in it, and the other way round
    &[(1, 1500.0), (2, 20.0), (4, 1150.0)],
    &[(1, 4500.0), (2, 20.0), (4, 1013.25)],
];

pub fn all() -> Vec<Vec<u8>> {
    let mut all = given();
    all.extend(resolved());
    all.extend(REPLACED.iter().map(|fields| record(fields)));
    all
}

/// Both given, one or both at an end; 15 °C and its neighbours are defaults away from sea level.
fn given() -> Vec<Vec<u8>> {
    let mut all = Vec::new();
    let about = |ends: [f64; 2]| ends.into_iter().flat_map(|end| near(end, 2));
    for t in about(TEMPERATURE_ENDS).chain([20.0]) {
        for p in about(PRESSURE_ENDS).chain([800.0]) {
            all.push(record(&[(1, 0.0), (2, t), (7, p)]));
        }
        all.push(record(&[(1, 1000.0), (2, t), (3, 850.0)]));
        all.push(record(&[(1, 0.5), (2, t), (3, 850.0), (5, 40.0)]));
        all.push(record(&[(6, 1200.0), (2, t)]));
    }
    all
}

/// A figure that goes past an end of its range as one field's value goes from one end of an interval to the other.
struct Crossing {
    fixed: &'static [Field],
    tag: u8,
    interval: [f64; 2],
    figure: usize,
    end: f64,
}

const fn crossing(
    fixed: &'static [Field],
    tag: u8,
    interval: [f64; 2],
    figure: usize,
    end: f64,
) -> Crossing {
    Crossing {
        fixed,
        tag,
        interval,
        figure,
        end,
    }
}

/// From a layer, a QNH and a density altitude.
const CROSSINGS: [Crossing; 15] = [
    crossing(&[(7, 800.0)], 1, [-4000.0, 4000.0], TEMPERATURE, 15.0),
    crossing(&[(7, 800.0)], 1, [-4000.0, 4000.0], TEMPERATURE, 27.0),
    crossing(&[], 1, [-500.0, 4000.0], TEMPERATURE, 15.0),
    crossing(&[(2, 20.0)], 1, [-4000.0, 8000.0], PRESSURE, 600.0),
    crossing(&[(2, 20.0)], 1, [-4000.0, 8000.0], PRESSURE, 1100.0),
    crossing(&[], 1, [-4000.0, 0.0], PRESSURE, 1100.0),
    crossing(
        &[(1, 700.0), (2, 20.0)],
        4,
        [500.0, 1500.0],
        PRESSURE,
        600.0,
    ),
    crossing(
        &[(1, 700.0), (2, 20.0)],
        4,
        [500.0, 1500.0],
        PRESSURE,
        1100.0,
    ),
    crossing(&[], 6, [-500.0, 4000.0], TEMPERATURE, 15.0),
    crossing(&[], 6, [-4000.0, 4000.0], PRESSURE, 1100.0),
    crossing(&[(2, 15.0)], 6, [-4000.0, 8000.0], PRESSURE, 600.0),
    crossing(&[(2, 15.0)], 6, [-4000.0, 8000.0], PRESSURE, 1100.0),
    crossing(&[(2, 27.0)], 6, [-4000.0, 8000.0], PRESSURE, 600.0),
    crossing(
        &[(2, 27.0), (5, 80.0)],
        6,
        [-4000.0, 8000.0],
        PRESSURE,
        1100.0,
    ),
    crossing(
        &[(2, 20.0), (5, 80.0)],
        6,
        [-4000.0, 8000.0],
        PRESSURE,
        600.0,
    ),
];

/// The values about each crossing: the last before the end, the first at or past it, and as many more as it may
/// take until the figure has left the end, since several values can show the same figure.
fn resolved() -> Vec<Vec<u8>> {
    let mut all = Vec::new();
    for crossing in &CROSSINGS {
        let with = |x: f64| record(&[crossing.fixed, &[(crossing.tag, x)]].concat());
        let shown = |x: f64| read(&with(x)).expect("figures").figures[crossing.figure];
        let [low, high] = crossing.interval;
        let falls = shown(low) > shown(high);
        let before = |x: f64| (shown(x) > crossing.end) == falls && shown(x) != crossing.end;
        let until = |x: f64| before(x) || shown(x) == crossing.end;
        for has in [&before as &dyn Fn(f64) -> bool, &until] {
            let (last, _) = edge(low, high, has);
            all.extend(near(last, 2).into_iter().map(with));
        }
    }
    all
}
