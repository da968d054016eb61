//! The setting sheet of request K1: a page of 51 rows, or a refusal that leaves the page as it was.

use crate::decimal::decimal;
use crate::refusal::{refused, Refusal};
use crate::ruled::record::{answer, check_value, ALTITUDE, HUMIDITY, PRESSURE};
use std::ops::RangeInclusive;

/// Bytes of a page.
pub const PAGE: usize = 1530;

const DEGREES: RangeInclusive<i8> = -10..=40;

/// Places and decimals of a figure.
struct Column(usize, usize);

const TEMPERATURE: Column = Column(6, 1);
const DENSITY: Column = Column(7, 4);
const SOUND_SPEED: Column = Column(6, 1);
const MATCHED_ALTITUDE: Column = Column(7, 0);

/// 16; the inputs' 11 to 13, as a record's; then row by row 14, 15 and 17.
pub fn write(altitude: f64, pressure: f64, humidity: f64, page: &mut [u8]) -> Result<(), Refusal> {
    let Some(page) = page.get_mut(..PAGE) else {
        return refused(16, &[]);
    };
    check_value(ALTITUDE, altitude)?;
    check_value(PRESSURE, pressure)?;
    check_value(HUMIDITY, humidity)?;
    let mut rows = String::new();
    for degrees in DEGREES {
        rows += &row(altitude, f64::from(degrees), pressure, humidity)?;
    }
    page.copy_from_slice(rows.as_bytes());
    Ok(())
}

/// Temperature and pressure count as given.
fn row(altitude: f64, temperature: f64, pressure: f64, humidity: f64) -> Result<String, Refusal> {
    let given = (Some(temperature), Some(pressure));
    let air = answer(altitude, given, (temperature, pressure), humidity)?;
    let [_, temperature, _, density, sound_speed, _, matched_altitude, _] = air.figures;
    let columns = [
        column(temperature, TEMPERATURE)?,
        column(density, DENSITY)?,
        column(sound_speed, SOUND_SPEED)?,
        column(matched_altitude, MATCHED_ALTITUDE)?,
    ];
    Ok(columns.join(" ") + "\n")
}

/// The figure at the right of its places, or 17 where it is wider.
fn column(figure: f64, Column(places, decimals): Column) -> Result<String, Refusal> {
    match decimal(figure, decimals) {
        Some(text) if text.len() <= places => Ok(format!("{text:>places$}")),
        _ => refused(17, &[]),
    }
}
