//! Why there are no figures, or no record, sheet or class.

use crate::report;
use std::fmt;

/// Why there is no answer: the cause, with the values that it hands out. The first check that fails decides, in the
/// order of `docs/RECORD.md`, "Refusals". It is displayed in that table's words.
///
/// ```
/// use station_air::{judge, Refusal};
///
/// let refused = judge(&[]).unwrap_err();
/// assert_eq!(refused, Refusal::NoAltitude);
/// assert_eq!(refused.number(), 10);
/// assert_eq!(refused.to_string(), "neither altitude nor density altitude");
/// ```
#[derive(Debug, Clone, Copy, PartialEq)]
#[non_exhaustive]
pub enum Refusal {
    /// 1: the density altitude, which is handed out.
    DensityAltitudeNotFinite(f64),
    /// 2: the temperature, which is handed out.
    TemperatureNotFinite(f64),
    /// 3: the temperature, which is handed out.
    TemperatureTooLow(f64),
    /// 4: what the density altitude resolves to is not finite, or no air.
    NoAir {
        /// The density altitude that was asked for, m.
        density_altitude_m: f64,
        /// The altitude that it resolves to, m.
        resolved_altitude_m: f64,
    },
    /// 5
    Cut,
    /// 6
    UnknownTag,
    /// 7
    WrongLength,
    /// 8
    RepeatedTag,
    /// 9
    Clash,
    /// 10
    NoAltitude,
    /// 11: the reading, which is handed out.
    NotFinite(f64),
    /// 12: the pressure, which is handed out.
    PressureNotPositive(f64),
    /// 13: the humidity, which is handed out.
    HumidityOutOfRange(f64),
    /// 14
    TooMuchVapor,
    /// 15
    NotAir,
    /// 17
    TooWide,
    /// 19
    TagFalls,
    /// 20
    NoCount,
    /// 21
    FieldNotInAll,
    /// 22
    NoReadingToChange,
    /// A number that this crate does not know: the library is newer. 16 and 18, which are about lent memory, do not
    /// occur: this crate lends enough.
    Other(u32),
}

impl Refusal {
    /// The cause of a status that is not 0, with what the first places hold.
    pub(crate) fn of(status: u32, places: &[f64]) -> Self {
        match status {
            1 => Self::DensityAltitudeNotFinite(places[0]),
            2 => Self::TemperatureNotFinite(places[0]),
            3 => Self::TemperatureTooLow(places[0]),
            4 => Self::NoAir {
                density_altitude_m: places[0],
                resolved_altitude_m: places[1],
            },
            5 => Self::Cut,
            6 => Self::UnknownTag,
            7 => Self::WrongLength,
            8 => Self::RepeatedTag,
            9 => Self::Clash,
            10 => Self::NoAltitude,
            11 => Self::NotFinite(places[0]),
            12 => Self::PressureNotPositive(places[0]),
            13 => Self::HumidityOutOfRange(places[0]),
            14 => Self::TooMuchVapor,
            15 => Self::NotAir,
            17 => Self::TooWide,
            19 => Self::TagFalls,
            20 => Self::NoCount,
            21 => Self::FieldNotInAll,
            22 => Self::NoReadingToChange,
            other => Self::Other(other),
        }
    }

    /// The number of the cause.
    pub fn number(&self) -> u32 {
        match *self {
            Self::DensityAltitudeNotFinite(_) => 1,
            Self::TemperatureNotFinite(_) => 2,
            Self::TemperatureTooLow(_) => 3,
            Self::NoAir { .. } => 4,
            Self::Cut => 5,
            Self::UnknownTag => 6,
            Self::WrongLength => 7,
            Self::RepeatedTag => 8,
            Self::Clash => 9,
            Self::NoAltitude => 10,
            Self::NotFinite(_) => 11,
            Self::PressureNotPositive(_) => 12,
            Self::HumidityOutOfRange(_) => 13,
            Self::TooMuchVapor => 14,
            Self::NotAir => 15,
            Self::TooWide => 17,
            Self::TagFalls => 19,
            Self::NoCount => 20,
            Self::FieldNotInAll => 21,
            Self::NoReadingToChange => 22,
            Self::Other(number) => number,
        }
    }

    /// The cause and what to do, a line each, as [`report`](crate::report) has them; none of causes that a record or a
    /// setting sheet cannot have.
    ///
    /// ```
    /// assert_eq!(
    ///     station_air::Refusal::NoAltitude.words().unwrap(),
    ///     "cause: neither altitude nor density altitude\nwhat to do: set the mast's altitude\n"
    /// );
    /// ```
    pub fn words(&self) -> Option<String> {
        report::words(self.number())
    }

    /// The values that the cause hands out, at most two.
    pub fn values(&self) -> Vec<f64> {
        match *self {
            Self::DensityAltitudeNotFinite(x)
            | Self::TemperatureNotFinite(x)
            | Self::TemperatureTooLow(x)
            | Self::NotFinite(x)
            | Self::PressureNotPositive(x)
            | Self::HumidityOutOfRange(x) => vec![x],
            Self::NoAir {
                density_altitude_m,
                resolved_altitude_m,
            } => vec![density_altitude_m, resolved_altitude_m],
            _ => vec![],
        }
    }
}

impl fmt::Display for Refusal {
    fn fmt(&self, f: &mut fmt::Formatter<'_>) -> fmt::Result {
        f.write_str(match self {
            Self::DensityAltitudeNotFinite(_) => "density altitude not finite",
            Self::TemperatureNotFinite(_) => "temperature not finite",
            Self::TemperatureTooLow(_) => "temperature at or below -273.15 C",
            Self::NoAir { .. } => "no air has this density altitude",
            Self::Cut => "header or data cut",
            Self::UnknownTag => "unknown tag",
            Self::WrongLength => "length not 8 (double) or 4 (count)",
            Self::RepeatedTag => "tag repeated, or a reading in both forms",
            Self::Clash => {
                "two of station pressure, QNH and measured pressure, or a density altitude with an altitude or a pressure"
            }
            Self::NoAltitude => "neither altitude nor density altitude",
            Self::NotFinite(_) => "altitude, a pressure or humidity not finite",
            Self::PressureNotPositive(_) => "a pressure not above 0 hPa",
            Self::HumidityOutOfRange(_) => "humidity below 0 or above 100 percent",
            Self::TooMuchVapor => "more water vapour than there is air",
            Self::NotAir => "a figure not finite, or pressure, density or sound speed not above 0",
            Self::TooWide => "setting sheet: a figure wider than its column",
            Self::TagFalls => "strict reader: a tag below the one before",
            Self::NoCount => "to counts: no count gives exactly this double",
            Self::FieldNotInAll => "vote: a reading in one or two of the records",
            Self::NoReadingToChange => "trim class: no temperature or no measured pressure",
            Self::Other(number) => return write!(f, "refused {number}"),
        })
    }
}

impl std::error::Error for Refusal {}
