//! The setting sheet.

use crate::{sys, Refusal};

const PAGE: usize = 1530;

/// The setting sheet of a station: 51 rows of 30 bytes, −10 to 40 °C, each of temperature, density, speed of sound and
/// density-matched altitude.
///
/// ```
/// use station_air::{setting_sheet, Refusal};
///
/// let sheet = setting_sheet(1586.0, 841.897, 32.0)?;
/// assert_eq!(sheet.lines().count(), 51);
/// assert!(sheet.starts_with(" -10.0  1.11"));
/// assert_eq!(setting_sheet(1586.0, -1.0, 32.0), Err(Refusal::PressureNotPositive(-1.0)));
/// # Ok::<(), Refusal>(())
/// ```
pub fn setting_sheet(
    altitude_m: f64,
    pressure_hpa: f64,
    humidity_percent: f64,
) -> Result<String, Refusal> {
    let mut page = vec![0; PAGE];
    let mut places = [0.0];
    // SAFETY: each array goes with its length, and nothing overlaps.
    let status = unsafe {
        sys::station_air_setting_sheet(
            altitude_m,
            pressure_hpa,
            humidity_percent,
            page.as_mut_ptr(),
            PAGE,
            places.as_mut_ptr(),
            1,
        )
    };
    match status {
        0 => Ok(String::from_utf8(page).expect("ASCII")),
        _ => Err(Refusal::of(status, &places)),
    }
}
