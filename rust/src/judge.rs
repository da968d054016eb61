//! Records to figures: the two judges, the vote of three masts, the next trim class.

use crate::{sys, Refusal};
use std::fmt;

/// The figures of a station.
#[derive(Debug, Clone, Copy, PartialEq)]
pub struct Figures {
    /// Altitude, m.
    pub altitude_m: f64,
    /// Temperature that the figures were computed from, °C.
    pub temperature_c: f64,
    /// Station pressure that the figures were computed from, hPa.
    pub pressure_hpa: f64,
    /// Density, kg/m³.
    pub density_kg_m3: f64,
    /// Speed of sound, m/s.
    pub speed_of_sound_mps: f64,
    /// Pressure altitude, m.
    pub pressure_altitude_m: f64,
    /// The height at which the standard atmosphere has this density, m. It is not the FAA's density altitude.
    pub density_matched_altitude_m: f64,
    /// Mole fraction of water vapour in the density, 0 to 1.
    pub vapor_mole_fraction: f64,
    /// Whether temperature and pressure lie in the range for which CIPM-2007 states its formula.
    pub in_cipm_range: bool,
}

const FIGURES: usize = 8;

impl Figures {
    fn of(places: [f64; FIGURES], in_cipm_range: bool) -> Self {
        let [altitude_m, temperature_c, pressure_hpa, density_kg_m3, speed_of_sound_mps, rest @ ..] =
            places;
        let [pressure_altitude_m, density_matched_altitude_m, vapor_mole_fraction] = rest;
        Self {
            altitude_m,
            temperature_c,
            pressure_hpa,
            density_kg_m3,
            speed_of_sound_mps,
            pressure_altitude_m,
            density_matched_altitude_m,
            vapor_mole_fraction,
            in_cipm_range,
        }
    }
}

type Judge = unsafe extern "C" fn(*const u8, usize, *mut f64, usize, *mut bool) -> u32;

#[inline]
fn judged(by: Judge, record: &[u8]) -> Result<Figures, Refusal> {
    let mut places = [0.0; FIGURES];
    let mut in_range = false;
    // SAFETY: each array goes with its length, the mark is a bool, and nothing overlaps.
    let status = unsafe {
        by(
            record.as_ptr(),
            record.len(),
            places.as_mut_ptr(),
            FIGURES,
            &mut in_range,
        )
    };
    match status {
        0 => Ok(Figures::of(places, in_range)),
        _ => Err(Refusal::of(status, &places)),
    }
}

/// Judges a mast record (`docs/RECORD.md` has its form), of any length, its tags in any order.
///
/// ```
/// // altitude 60 m, 17.6 °C, 60 percent and a measured pressure of 1008.3 hPa, as counts of thousandths
/// let record = [
///     0x11, 0, 4, 0, 0, 0xEA, 0x60, 0x12, 0, 4, 0, 0, 0x44, 0xC0,
///     0x15, 0, 4, 0, 0, 0xEA, 0x60, 0x17, 0, 4, 0, 0x0F, 0x62, 0xAC,
/// ];
/// let figures = station_air::judge(&record)?;
/// assert_eq!(format!("{:.4}", figures.density_kg_m3), "1.2031");
/// assert!(figures.in_cipm_range);
/// # Ok::<(), station_air::Refusal>(())
/// ```
#[inline]
pub fn judge(record: &[u8]) -> Result<Figures, Refusal> {
    judged(sys::station_air_judge, record)
}

/// As [`judge`], of a record whose tags rise, as [`write`](crate::write) writes them.
///
/// ```
/// use station_air::{judge, judge_strictly, Refusal};
///
/// // 15.5 °C before the altitude of 60 m
/// let record = [0x12, 0, 4, 0, 0, 0x3C, 0x8C, 0x11, 0, 4, 0, 0, 0xEA, 0x60];
/// assert!(judge(&record).is_ok());
/// assert_eq!(judge_strictly(&record), Err(Refusal::TagFalls));
/// ```
#[inline]
pub fn judge_strictly(record: &[u8]) -> Result<Figures, Refusal> {
    judged(sys::station_air_judge_strictly, record)
}

/// Why three masts have no figures.
#[derive(Debug, Clone, Copy, PartialEq)]
pub struct VoteRefusal {
    /// The mast whose record is refused by itself, 1 to 3; none where the three together are.
    pub mast: Option<u32>,
    /// The cause.
    pub refusal: Refusal,
}

impl fmt::Display for VoteRefusal {
    fn fmt(&self, f: &mut fmt::Formatter<'_>) -> fmt::Result {
        match self.mast {
            Some(mast) => write!(f, "mast {mast}: {}", self.refusal),
            None => self.refusal.fmt(f),
        }
    }
}

impl std::error::Error for VoteRefusal {
    fn source(&self) -> Option<&(dyn std::error::Error + 'static)> {
        Some(&self.refusal)
    }
}

/// Judges three masts' records as one: each reading takes the middle of the three values.
///
/// ```
/// use station_air::{judge, vote, write, Reading, Readings, Refusal};
///
/// let at = |altitude| write(&Readings { altitude: Some(Reading::Double(altitude)), ..Default::default() });
/// let (low, middle, high) = (at(100.0), at(101.0), at(900.0));
/// assert_eq!(vote([&high, &low, &middle]).ok(), judge(&middle).ok());
///
/// let refused = vote([&low, &[], &high]).unwrap_err();
/// assert_eq!((refused.mast, refused.refusal), (Some(2), Refusal::NoAltitude));
/// ```
pub fn vote(records: [&[u8]; 3]) -> Result<Figures, VoteRefusal> {
    let mut places = [0.0; FIGURES];
    let (mut in_range, mut mast) = (false, 0);
    let [first, second, third] = records;
    // SAFETY: each array goes with its length, the mark is a bool, the mast a number, and nothing that is written
    // overlaps anything else.
    let status = unsafe {
        sys::station_air_vote(
            first.as_ptr(),
            first.len(),
            second.as_ptr(),
            second.len(),
            third.as_ptr(),
            third.len(),
            places.as_mut_ptr(),
            FIGURES,
            &mut in_range,
            &mut mast,
        )
    };
    match status {
        0 => Ok(Figures::of(places, in_range)),
        _ => Err(VoteRefusal {
            mast: (mast != 0).then_some(mast),
            refusal: Refusal::of(status, &places),
        }),
    }
}

/// The trim class of a density, kg/m³: how many of 1.00, 1.05, 1.10, 1.15, 1.20 and 1.25 are at or below it; 0 of NaN.
///
/// ```
/// assert_eq!(station_air::trim_class(1.2031), 5);
/// ```
#[inline]
pub fn trim_class(density_kg_m3: f64) -> u32 {
    // SAFETY: numbers alone.
    unsafe { sys::station_air_trim_class(density_kg_m3) }
}

/// The reading that is changed.
#[derive(Debug, Clone, Copy, PartialEq, Eq)]
pub enum Changed {
    /// The temperature, by tenths of a degree.
    Temperature,
    /// The measured station pressure, by tenths of a hectopascal.
    MeasuredPressure,
}

/// A change that gives another trim class.
#[derive(Debug, Clone, Copy, PartialEq, Eq)]
pub struct TrimChange {
    /// The reading.
    pub changed: Changed,
    /// By how many tenths, up or down.
    pub tenths: i32,
    /// The class that it gives.
    pub class: u32,
}

/// A record's trim class, and how close the next one is.
#[derive(Debug, Clone, Copy, PartialEq, Eq)]
pub struct NextTrimClass {
    /// The record's class, 0 to 6.
    pub class: u32,
    /// The smallest change that gives another, of those within 200 tenths; none where there is none.
    pub next: Option<TrimChange>,
}

/// The trim class of a record with temperature and measured pressure, and the smallest change of one of them that
/// gives another. Where there is none this takes 801 judgements, most of a millisecond.
///
/// ```
/// use station_air::{next_trim_class, Changed, TrimChange};
///
/// let record = [
///     0x11, 0, 4, 0, 0, 0xEA, 0x60, 0x12, 0, 4, 0, 0, 0x44, 0xC0,
///     0x15, 0, 4, 0, 0, 0xEA, 0x60, 0x17, 0, 4, 0, 0x0F, 0x62, 0xAC,
/// ];
/// let trim = next_trim_class(&record)?;
/// assert_eq!(trim.class, 5);
/// assert_eq!(trim.next, Some(TrimChange { changed: Changed::Temperature, tenths: 7, class: 4 }));
/// # Ok::<(), station_air::Refusal>(())
/// ```
pub fn next_trim_class(record: &[u8]) -> Result<NextTrimClass, Refusal> {
    let mut places = [0.0; 2];
    let mut answer = [0; 4];
    // SAFETY: each array goes with its length, and nothing overlaps.
    let status = unsafe {
        sys::station_air_next_trim_class(
            record.as_ptr(),
            record.len(),
            places.as_mut_ptr(),
            places.len(),
            answer.as_mut_ptr(),
            answer.len(),
        )
    };
    if status != 0 {
        return Err(Refusal::of(status, &places));
    }
    let [class, tag, tenths, new] = answer;
    let changed = match tag {
        0 => None,
        2 => Some(Changed::Temperature),
        _ => Some(Changed::MeasuredPressure),
    };
    Ok(NextTrimClass {
        class: class as u32,
        next: changed.map(|changed| TrimChange {
            changed,
            tenths,
            class: new as u32,
        }),
    })
}
