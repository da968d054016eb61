//! A record judged in plain Rust without heap, as a child of the source: the values stand in an array, and what the
//! answer does not need is not computed. It is only timed, and held to `oracle/src/record.rs` on what is timed.

use super::record::{answer, check_value, Answer, HUMIDITY};
use super::*;

/// What a record is judged by.
const FIRST_BYTES: usize = 256;

/// The values by meaning, 1 to 7.
type Values = [Option<f64>; 8];

/// The answer, and none where the record is refused.
pub fn read(record: &[u8]) -> Option<Answer> {
    let values = values(record)?;
    let [_, altitude, temperature, pressure, qnh, humidity, density_altitude, measured] = values;
    let pressures = [pressure, qnh, measured].into_iter().flatten().count();
    let humidity = humidity.unwrap_or(0.0);
    if let Some(density_altitude) = density_altitude {
        if altitude.is_some() || pressures > 0 {
            return None;
        }
        let station = station_for_density_altitude(density_altitude, temperature);
        let (altitude, temperature, pressure) = station.ok()?;
        check_value(HUMIDITY, humidity).ok()?;
        let shown = (temperature, pressure);
        return answer(altitude, (Some(temperature), Some(pressure)), shown, humidity).ok();
    }
    if pressures > 1 {
        return None;
    }
    let altitude = altitude?;
    for (meaning, value) in values.into_iter().enumerate() {
        if let Some(value) = value {
            check_value(meaning as u8, value).ok()?;
        }
    }
    let temperature = temperature.and_then(|t| resolve_station_temperature(t, altitude));
    let pressure = match (pressure, qnh) {
        (Some(pressure), _) => resolve_station_pressure(pressure, altitude),
        (_, Some(qnh)) => Some(reduce_qnh_to_station_pressure(qnh, altitude)),
        _ => measured,
    };
    let shown = match (temperature, pressure) {
        (Some(temperature), Some(pressure)) => (temperature, pressure),
        _ => {
            let (kelvin, pascals) = calculate_icao_standard_atmosphere(altitude);
            let temperature = temperature.unwrap_or(kelvin - 273.15);
            (temperature, pressure.unwrap_or(pascals / 100.0))
        }
    };
    answer(altitude, (temperature, pressure), shown, humidity).ok()
}

fn values(record: &[u8]) -> Option<Values> {
    let mut rest = &record[..record.len().min(FIRST_BYTES)];
    let mut values = [None; 8];
    while !rest.is_empty() {
        let (&[tag, high, low], after) = rest.split_first_chunk()?;
        let (meaning, value, after) = match (tag, u16::from_be_bytes([high, low])) {
            (0x01..=0x07, 8) => {
                let (data, after) = after.split_first_chunk()?;
                (tag, f64::from_be_bytes(*data), after)
            }
            (0x11..=0x17, 4) => {
                let (data, after) = after.split_first_chunk()?;
                (tag - 0x10, f64::from(i32::from_be_bytes(*data)) / 1000.0, after)
            }
            _ => return None,
        };
        if values[usize::from(meaning)].replace(value).is_some() {
            return None;
        }
        rest = after;
    }
    Some(values)
}
