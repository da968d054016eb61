//! The mast record, read as document 01's section and document 02's requests K3, K4, K5, K11 and K12 say. It is
//! built twice, as a child of the stock source and of the one with our rules, whose station functions it takes. The
//! stock one is only timed.

use super::density_vapor;
use super::station::refusal;
use super::*;
use crate::field::{fields, Order, Stored};
use crate::refusal::{refused, Refusal};
use std::collections::BTreeMap;
use std::ops::RangeInclusive;

// meanings, which are the tags of doubles
pub const ALTITUDE: u8 = 0x01;
pub const TEMPERATURE: u8 = 0x02;
pub const PRESSURE: u8 = 0x03;
const QNH: u8 = 0x04;
pub const HUMIDITY: u8 = 0x05;
const DENSITY_ALTITUDE: u8 = 0x06;
pub const MEASURED_PRESSURE: u8 = 0x07;

/// A record has one of them at most.
const PRESSURES: [u8; 3] = [PRESSURE, QNH, MEASURED_PRESSURE];

/// What stands with no density altitude.
const NOT_WITH_DENSITY_ALTITUDE: [u8; 4] = [ALTITUDE, PRESSURE, QNH, MEASURED_PRESSURE];

/// The range that CIPM-2007 states, °C and hPa, ends included.
const STATED_TEMPERATURES: RangeInclusive<f64> = 15.0..=27.0;
const STATED_PRESSURES: RangeInclusive<f64> = 600.0..=1100.0;

/// Altitude, temperature, pressure, density, sound speed, pressure altitude, matched altitude, and the vapour mole
/// fraction that the density uses.
pub type Figures = [f64; 8];

/// What a record that is not refused gives.
#[derive(Clone, Copy, Debug, PartialEq)]
pub struct Answer {
    pub figures: Figures,
    /// The mark: the shown temperature and pressure lie in the stated range.
    pub in_range: bool,
}

pub type Outcome = Result<Answer, Refusal>;

/// Doubles by meaning. A map goes through them by rising meaning, as the checks of the values do.
pub type Values = BTreeMap<u8, f64>;

/// The first reader.
pub fn read(record: &[u8]) -> Outcome {
    judge(&values(fields(record, Order::Any)?))
}

pub fn read_strictly(record: &[u8]) -> Outcome {
    judge(&values(fields(record, Order::Rising)?))
}

/// What the fields mean, in whichever form.
pub fn values(fields: Vec<Stored>) -> Values {
    let fields = fields.into_iter();
    fields
        .map(|(meaning, value)| (meaning, value.double()))
        .collect()
}

pub fn judge(values: &Values) -> Outcome {
    check_presence(values)?;
    match values.get(&DENSITY_ALTITUDE) {
        Some(density_altitude) => by_density_altitude(*density_altitude, values),
        None => by_altitude(values),
    }
}

/// Which meanings may stand together, and which must be there: 9 and 10.
fn check_presence(values: &Values) -> Result<(), Refusal> {
    let has = |meaning: u8| values.contains_key(&meaning);
    if PRESSURES.into_iter().filter(|m| has(*m)).count() > 1 {
        return refused(9, &[]);
    }
    if has(DENSITY_ALTITUDE) && NOT_WITH_DENSITY_ALTITUDE.into_iter().any(has) {
        return refused(9, &[]);
    }
    if !has(ALTITUDE) && !has(DENSITY_ALTITUDE) {
        return refused(10, &[]);
    }
    Ok(())
}

/// With 06. The source's own function refuses 1 to 4, in document 01's order; the humidity, which it does not
/// take, is looked at after that.
fn by_density_altitude(density_altitude: f64, values: &Values) -> Outcome {
    let given = values.get(&TEMPERATURE).copied();
    let resolved = station_for_density_altitude(density_altitude, given);
    let (altitude, temperature, pressure) = match resolved {
        Ok(station) => station,
        Err(error) => {
            let handed_out = [Some(error.value), error.altitude_m].into_iter().flatten();
            return refused(refusal(&error), &handed_out.collect::<Vec<f64>>());
        }
    };
    let humidity = humidity(values);
    check_value(HUMIDITY, humidity)?;
    let given = (Some(temperature), Some(pressure));
    answer(altitude, given, (temperature, pressure), humidity)
}

/// Without 06.
fn by_altitude(values: &Values) -> Outcome {
    for (meaning, value) in values {
        check_value(*meaning, *value)?;
    }
    let altitude = values[&ALTITUDE];
    let humidity = humidity(values);

    // None where a value is absent or a default
    let resolved_temperature = values
        .get(&TEMPERATURE)
        .and_then(|t| resolve_station_temperature(*t, altitude));
    let resolved_pressure = match PRESSURES.map(|meaning| values.get(&meaning)) {
        [Some(pressure), _, _] => resolve_station_pressure(*pressure, altitude),
        [_, Some(qnh), _] => Some(reduce_qnh_to_station_pressure(*qnh, altitude)),
        // a reading is a reading, whatever the altitude
        [_, _, measured] => measured.copied(),
    };

    let (standard_kelvin, standard_pascals) = calculate_icao_standard_atmosphere(altitude);
    let temperature = resolved_temperature.unwrap_or(standard_kelvin - 273.15);
    let pressure = resolved_pressure.unwrap_or(standard_pascals / 100.0);
    let given = (resolved_temperature, resolved_pressure);
    answer(altitude, given, (temperature, pressure), humidity)
}

fn humidity(values: &Values) -> f64 {
    values.get(&HUMIDITY).copied().unwrap_or(0.0)
}

/// One field's value, all of a record without 06 and the humidity with it: 2, 3, 11, 12 and 13.
pub fn check_value(meaning: u8, value: f64) -> Result<(), Refusal> {
    let number = match meaning {
        TEMPERATURE if !value.is_finite() => 2,
        TEMPERATURE if value <= -273.15 => 3,
        ALTITUDE | PRESSURE | QNH | HUMIDITY | MEASURED_PRESSURE if !value.is_finite() => 11,
        PRESSURE | QNH | MEASURED_PRESSURE if value <= 0.0 => 12,
        HUMIDITY if value < 0.0 || value > 100.0 => 13,
        _ => return Ok(()),
    };
    refused(number, &[value])
}

/// What good readings give, or 14 or 15. Density, sound speed and mole fraction come from the given temperature and
/// pressure, where there are any; the two altitudes and the mark from those that are shown.
pub fn answer(
    altitude: f64,
    given: (Option<f64>, Option<f64>),
    shown: (f64, f64),
    humidity: f64,
) -> Outcome {
    let (temperature, pressure) = shown;
    if water_vapor_mole_fraction_uncapped(temperature, pressure, humidity) > 1.0 {
        return refused(14, &[]);
    }
    let (density, sound_speed) = calculate_atmosphere(altitude, given.0, given.1, humidity);
    let figures = [
        altitude,
        temperature,
        pressure,
        density,
        sound_speed,
        pressure_altitude_m(pressure),
        density_matched_altitude_m(temperature, pressure, humidity),
        density_vapor::arguments(altitude, given.0, given.1, humidity).mole_fraction(),
    ];
    let above_0 = [pressure, density, sound_speed].iter().all(|x| *x > 0.0);
    if !(figures.iter().all(|x| x.is_finite()) && above_0) {
        return refused(15, &[]);
    }
    let in_range =
        STATED_TEMPERATURES.contains(&temperature) && STATED_PRESSURES.contains(&pressure);
    Ok(Answer { figures, in_range })
}
