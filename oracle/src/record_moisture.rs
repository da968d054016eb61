//! Records about the vapour mole fraction of request K11: where the density's differs from the sound speed's and
//! from that of check 14, where it is capped, and where it is a zero.

use crate::draw::usual;
use crate::field::{record, Field};
use crate::function::named;
use crate::quantity::{edge, near};
use crate::random::Random;
use crate::record_fields::drawn;
use crate::records::number;
use crate::ruled::density_vapor::{arguments, kelvin_and_pascals};
use crate::ruled::station::FUNCTIONS;

/// Records of a set of tags that tell the density's mole fraction from another.
const TOLD_APART: usize = 10;

pub fn all(random: &mut Random) -> Vec<Vec<u8>> {
    let mut all = told_apart(random);
    all.extend(capped(random));
    all.extend(zeros());
    all
}

/// The mole fractions of a reading, by place; the last two uncapped.
const DENSITY: usize = 0;
const SOUND: usize = 1;
const CHECK: usize = 2;

fn fractions(fields: &[Field]) -> [f64; 3] {
    let value = |tag: u8| fields.iter().find(|field| field.0 == tag).map(|f| f.1);
    let [altitude, humidity] = [1, 5].map(|tag| value(tag).expect("altitude and humidity"));
    let (temperature, pressure) = (value(2), value(7));
    let density = arguments(altitude, temperature, pressure, humidity);
    let (kelvin, pascals) = kelvin_and_pascals(altitude, temperature, pressure);
    let shown_temperature = temperature.unwrap_or(kelvin - 273.15);
    let shown_pressure = pressure.unwrap_or(pascals / 100.0);
    let sound = named(&FUNCTIONS, "moist_air_vapor_mole_fraction");
    let check = named(&FUNCTIONS, "water_vapor_mole_fraction_uncapped");
    [
        density.mole_fraction(),
        sound.value(&[kelvin, pascals, humidity]),
        check.value(&[shown_temperature, shown_pressure, humidity]),
    ]
}

/// From the sound speed's where the pressure is the layer's, which only the density takes through hectopascals. From
/// that of check 14 where the temperature is given, which only the density takes through kelvin and back.
fn told_apart(random: &mut Random) -> Vec<Vec<u8>> {
    let mut all = Vec::new();
    for (tags, other) in [
        (&[1, 5][..], SOUND),
        (&[1, 2, 5], SOUND),
        (&[1, 2, 5], CHECK),
        (&[1, 2, 5, 7], CHECK),
    ] {
        let mut wanted = TOLD_APART;
        while wanted > 0 {
            let fields = drawn(tags, usual, random);
            let fractions = fractions(&fields);
            if fractions[DENSITY] != fractions[other] {
                wanted -= 1;
                all.push(record(&fields));
            }
        }
    }
    all
}

/// Air that check 14 lets pass at a mole fraction of 1 or the last below it, and that is above 1 on its way to the
/// density. It is rare, and least so in hot air, where the last bit of a temperature counts for more.
fn capped(random: &mut Random) -> Vec<Vec<u8>> {
    let check = named(&FUNCTIONS, "water_vapor_mole_fraction_uncapped");
    let mut all = Vec::new();
    while all.len() < 10 {
        let temperature = random.between(250.0, 330.0);
        let humidity = random.between(50.0, 100.0);
        let passes = |p: f64| check.value(&[temperature, p, humidity]) <= 1.0;
        let (_, least) = edge(1e-3, 1e6, |p| !passes(p));
        for p in near(least, 2) {
            let fields = [(1, 0.0), (2, temperature), (7, p), (5, humidity)];
            let inside = arguments(0.0, Some(temperature), Some(p), humidity);
            if inside.uncapped() > 1.0 && number(&record(&fields)) == 0 {
                all.push(record(&fields));
            }
        }
    }
    all
}

/// Dry air with a humidity of either sign, hot air too, which has no saturation pressure.
fn zeros() -> Vec<Vec<u8>> {
    let readings: [&[Field]; 10] = [
        &[(1, 0.0)],
        &[(1, 1000.0)],
        &[(1, 1000.0), (2, 15.05)],
        &[(1, 0.0), (2, 20.0)],
        &[(1, 0.0), (2, 1000.0), (3, 900.0)],
        &[(1, 300.0), (4, 1020.0)],
        &[(1, 5.0), (7, 1013.1)],
        &[(1, 5.0), (2, -10.0), (7, 950.0)],
        &[(6, 1500.0)],
        &[(2, 30.0), (6, 1500.0)],
    ];
    let mut all = Vec::new();
    for fields in readings {
        // and the least humidities
        for humidity in [0.0, -0.0, 5e-324, f64::MIN_POSITIVE] {
            all.push(record(&[fields, &[(5, humidity)]].concat()));
        }
    }
    all
}
