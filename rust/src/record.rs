//! Readings to records and back: the writer, the readers, the conversions and the acceptance bench's load.

use crate::{sys, Refusal};

/// A reading in one of a record's two forms.
#[derive(Debug, Clone, Copy, PartialEq)]
pub enum Reading {
    /// A double.
    Double(f64),
    /// A count of thousandths.
    Count(i32),
}

/// The readings of a record; what is none is absent.
#[derive(Debug, Clone, Copy, PartialEq, Default)]
pub struct Readings {
    /// Altitude, m: tag 01 or 11.
    pub altitude: Option<Reading>,
    /// Temperature, °C: tag 02 or 12.
    pub temperature: Option<Reading>,
    /// Station pressure, hPa, which may be a default: tag 03 or 13.
    pub station_pressure: Option<Reading>,
    /// QNH, hPa: tag 04 or 14.
    pub qnh: Option<Reading>,
    /// Relative humidity, percent: tag 05 or 15.
    pub humidity: Option<Reading>,
    /// Density altitude by the FAA's rule, m: tag 06 or 16.
    pub density_altitude: Option<Reading>,
    /// Measured station pressure, hPa, used as it comes: tag 07 or 17.
    pub measured_pressure: Option<Reading>,
}

const READINGS: usize = 7;
/// Seven fields of a tag, a length and a double: no record that is written or converted has more.
const BYTES_AT_MOST: usize = 77;

/// Runs a call that writes a record to lent bytes and says its length.
fn written(
    call: impl FnOnce(&mut [u8; BYTES_AT_MOST], &mut usize) -> u32,
) -> Result<Vec<u8>, Refusal> {
    let (mut out, mut length) = ([0; BYTES_AT_MOST], 0);
    match call(&mut out, &mut length) {
        0 => Ok(out[..length].to_vec()),
        status => Err(Refusal::of(status, &[])),
    }
}

/// The record of readings, its tags rising. Any readings may be written, such as [`judge`](crate::judge) refuses too.
///
/// ```
/// use station_air::{judge, write, Reading, Readings};
///
/// let record = write(&Readings {
///     altitude: Some(Reading::Count(1_586_000)),
///     temperature: Some(Reading::Count(24_000)),
///     qnh: Some(Reading::Double(1019.3)),
///     ..Readings::default()
/// });
/// assert_eq!(record.len(), 7 + 7 + 11);
/// assert_eq!(judge(&record)?.altitude_m, 1586.0);
/// # Ok::<(), station_air::Refusal>(())
/// ```
pub fn write(readings: &Readings) -> Vec<u8> {
    let (mut forms, mut values, mut counts) = ([0; READINGS], [0.0; READINGS], [0; READINGS]);
    let by_tag = [
        readings.altitude,
        readings.temperature,
        readings.station_pressure,
        readings.qnh,
        readings.humidity,
        readings.density_altitude,
        readings.measured_pressure,
    ];
    for (i, reading) in by_tag.into_iter().enumerate() {
        match reading {
            None => {}
            Some(Reading::Double(x)) => (forms[i], values[i]) = (1, x),
            Some(Reading::Count(n)) => (forms[i], counts[i]) = (2, n),
        }
    }
    // SAFETY: each array goes with its length, and nothing that is written overlaps anything else.
    written(|out, length| unsafe {
        sys::station_air_write(
            forms.as_ptr(),
            READINGS,
            values.as_ptr(),
            READINGS,
            counts.as_ptr(),
            READINGS,
            out.as_mut_ptr(),
            out.len(),
            length,
        )
    })
    .expect("known forms and enough room")
}

type Reader =
    unsafe extern "C" fn(*const u8, usize, *mut u8, usize, *mut f64, usize, *mut i32, usize) -> u32;

fn read_by(reader: Reader, record: &[u8]) -> Result<Readings, Refusal> {
    let (mut forms, mut values, mut counts) = ([0; READINGS], [0.0; READINGS], [0; READINGS]);
    // SAFETY: each array goes with its length, and nothing that is written overlaps anything else.
    let status = unsafe {
        reader(
            record.as_ptr(),
            record.len(),
            forms.as_mut_ptr(),
            READINGS,
            values.as_mut_ptr(),
            READINGS,
            counts.as_mut_ptr(),
            READINGS,
        )
    };
    if status != 0 {
        return Err(Refusal::of(status, &[]));
    }
    let reading = |i: usize| match forms[i] {
        0 => None,
        1 => Some(Reading::Double(values[i])),
        _ => Some(Reading::Count(counts[i])),
    };
    Ok(Readings {
        altitude: reading(0),
        temperature: reading(1),
        station_pressure: reading(2),
        qnh: reading(3),
        humidity: reading(4),
        density_altitude: reading(5),
        measured_pressure: reading(6),
    })
}

/// The readings of a record, its tags in any order, whether [`judge`](crate::judge) accepts them or not.
///
/// ```
/// use station_air::{read, write, Reading, Readings, Refusal};
///
/// let readings = Readings {
///     altitude: Some(Reading::Double(60.0)),
///     temperature: Some(Reading::Count(17_600)),
///     ..Readings::default()
/// };
/// assert_eq!(read(&write(&readings)), Ok(readings));
/// assert_eq!(read(&[1, 0]), Err(Refusal::Cut));
/// ```
pub fn read(record: &[u8]) -> Result<Readings, Refusal> {
    read_by(sys::station_air_read, record)
}

/// As [`read`], of a record whose tags rise.
pub fn read_strictly(record: &[u8]) -> Result<Readings, Refusal> {
    read_by(sys::station_air_read_strictly, record)
}

/// The record with each field as a count of thousandths, its fields in their old order; [`judge`](crate::judge)
/// answers the same before and after.
///
/// ```
/// use station_air::{to_counts, to_doubles, write, Reading, Readings, Refusal};
///
/// let of = |altitude| write(&Readings { altitude: Some(altitude), ..Readings::default() });
/// assert_eq!(to_counts(&of(Reading::Double(1.5))), Ok(of(Reading::Count(1500))));
/// assert_eq!(to_doubles(&of(Reading::Count(1500))), Ok(of(Reading::Double(1.5))));
/// assert_eq!(to_counts(&of(Reading::Double(0.0001))), Err(Refusal::NoCount));
/// ```
pub fn to_counts(record: &[u8]) -> Result<Vec<u8>, Refusal> {
    // SAFETY: each array goes with its length, and nothing overlaps.
    written(|out, length| unsafe {
        sys::station_air_to_counts(
            record.as_ptr(),
            record.len(),
            out.as_mut_ptr(),
            out.len(),
            length,
        )
    })
}

/// The record with each field as a double, its fields in their old order; [`judge`](crate::judge) answers the same
/// before and after.
pub fn to_doubles(record: &[u8]) -> Result<Vec<u8>, Refusal> {
    // SAFETY: as above.
    written(|out, length| unsafe {
        sys::station_air_to_doubles(
            record.as_ptr(),
            record.len(),
            out.as_mut_ptr(),
            out.len(),
            length,
        )
    })
}

/// The record of the acceptance bench's load with this number, 0 for the first: the same on every site.
///
/// ```
/// assert!(station_air::judge(&station_air::load_record(0)).is_ok());
/// ```
pub fn load_record(number: u64) -> Vec<u8> {
    // SAFETY: the array goes with its length, and nothing overlaps.
    written(|out, length| unsafe {
        sys::station_air_load_record(number, out.as_mut_ptr(), out.len(), length)
    })
    .expect("28 bytes hold any record of the load")
}
