//! The ported functions of `src/atmosphere.rs` of ballistics-engine, with its names and signatures: a caller of these
//! changes `use ballistics_engine::atmosphere::..` to `use station_air::atmosphere::..`. Answers differ from that
//! crate's by less than one part in 10^9 at ordinary stations, since `exp`, `ln` and `powf` follow fixed rules here.

use crate::{sys, Refusal};
use std::fmt;

/// Density, kg/m³, and speed of sound, m/s, of moist air. A temperature, °C, or pressure, hPa, that is not given is the
/// standard atmosphere's at the altitude. A humidity outside 0 to 100 percent is clamped; a NaN that counts gives NaNs.
///
/// ```
/// use station_air::atmosphere::calculate_atmosphere;
///
/// let (density, sound) = calculate_atmosphere(0.0, None, None, 0.0);
/// assert!((density - 1.225).abs() < 0.002);
/// assert!((sound - 340.294).abs() < 0.001);
/// ```
#[inline]
pub fn calculate_atmosphere(
    altitude_m: f64,
    temp_override_c: Option<f64>,
    press_override_hpa: Option<f64>,
    humidity_percent: f64,
) -> (f64, f64) {
    let mut places = [0.0; 2];
    // SAFETY: the array goes with its length.
    unsafe {
        sys::station_air_calculate_atmosphere(
            altitude_m,
            temp_override_c.is_some(),
            temp_override_c.unwrap_or(0.0),
            press_override_hpa.is_some(),
            press_override_hpa.unwrap_or(0.0),
            humidity_percent,
            places.as_mut_ptr(),
            places.len(),
        )
    };
    places.into()
}

/// Temperature, K, and pressure, Pa, of the ICAO standard atmosphere at a geometric altitude, clamped to −5,000 to
/// 84,000 m. The source keeps it to itself.
///
/// ```
/// use station_air::atmosphere::calculate_icao_standard_atmosphere;
///
/// assert_eq!(calculate_icao_standard_atmosphere(0.0), (288.15, 101325.0));
/// ```
#[inline]
pub fn calculate_icao_standard_atmosphere(altitude_m: f64) -> (f64, f64) {
    let mut places = [0.0; 2];
    // SAFETY: the array goes with its length.
    unsafe { sys::station_air_standard_atmosphere(altitude_m, places.as_mut_ptr(), places.len()) };
    places.into()
}

/// The density, kg/m³, of moist air by CIPM-2007.
///
/// ```
/// use station_air::atmosphere::calculate_air_density_cimp;
///
/// assert!((calculate_air_density_cimp(20.0, 1013.25, 50.0) - 1.199).abs() < 0.001);
/// ```
#[inline]
pub fn calculate_air_density_cimp(temp_c: f64, pressure_hpa: f64, humidity_percent: f64) -> f64 {
    // SAFETY: numbers alone.
    unsafe { sys::station_air_calculate_air_density_cimp(temp_c, pressure_hpa, humidity_percent) }
}

/// The speed of sound, m/s, in moist air, of kelvin and pascals.
///
/// ```
/// use station_air::atmosphere::moist_speed_of_sound;
///
/// assert!((moist_speed_of_sound(288.15, 101_325.0, 0.0) - 340.294).abs() < 0.001);
/// ```
#[inline]
pub fn moist_speed_of_sound(temp_k: f64, pressure_pa: f64, humidity_percent: f64) -> f64 {
    // SAFETY: numbers alone.
    unsafe { sys::station_air_moist_speed_of_sound(temp_k, pressure_pa, humidity_percent) }
}

/// The station pressure, or none where it is taken for a default: within 0.5 hPa of 1013.25 hPa, more than 1 m above or
/// below sea level.
///
/// ```
/// use station_air::atmosphere::resolve_station_pressure;
///
/// assert_eq!(resolve_station_pressure(1013.0, 100.0), None);
/// assert_eq!(resolve_station_pressure(1012.75, 100.0), Some(1012.75));
/// ```
#[inline]
pub fn resolve_station_pressure(pressure_hpa: f64, altitude_m: f64) -> Option<f64> {
    // SAFETY: numbers alone.
    unsafe { sys::station_air_keeps_pressure(pressure_hpa, altitude_m) }.then_some(pressure_hpa)
}

/// The temperature, or none where it is taken for a default: within 0.1 °C of 15 °C, more than 1 m above or below sea
/// level.
///
/// ```
/// use station_air::atmosphere::resolve_station_temperature;
///
/// assert_eq!(resolve_station_temperature(15.1, 100.0), None);
/// assert_eq!(resolve_station_temperature(15.2, 100.0), Some(15.2));
/// ```
#[inline]
pub fn resolve_station_temperature(temperature_c: f64, altitude_m: f64) -> Option<f64> {
    // SAFETY: numbers alone.
    unsafe { sys::station_air_keeps_temperature(temperature_c, altitude_m) }
        .then_some(temperature_c)
}

/// The station pressure, hPa, at an altitude under a QNH; NaN where there is none.
///
/// ```
/// use station_air::atmosphere::reduce_qnh_to_station_pressure;
///
/// assert_eq!(reduce_qnh_to_station_pressure(1013.25, 0.0), 1013.25);
/// ```
#[inline]
pub fn reduce_qnh_to_station_pressure(qnh_hpa: f64, altitude_m: f64) -> f64 {
    // SAFETY: numbers alone.
    unsafe { sys::station_air_reduced_qnh(qnh_hpa, altitude_m) }
}

/// The lowest ratio of station pressure to the standard pressure at its altitude that is taken for weather.
pub const STATION_PRESSURE_MIN_PLAUSIBLE_RATIO: f64 = 0.85;
/// The highest ratio of station pressure to the standard pressure at its altitude that is taken for weather.
pub const STATION_PRESSURE_MAX_PLAUSIBLE_RATIO: f64 = 1.08;

/// How a station pressure compares with the standard pressure at its altitude.
#[derive(Debug, Clone, Copy, PartialEq)]
pub struct StationPressurePlausibility {
    /// The ICAO standard pressure at the altitude, Pa.
    pub icao_standard_pa: f64,
    /// The station pressure divided by it.
    pub ratio: f64,
    /// Whether the ratio lies outside [`STATION_PRESSURE_MIN_PLAUSIBLE_RATIO`] to
    /// [`STATION_PRESSURE_MAX_PLAUSIBLE_RATIO`], both inside, or is NaN.
    pub implausible: bool,
}

/// Whether a station pressure, Pa, can belong to an altitude.
///
/// ```
/// use station_air::atmosphere::station_pressure_plausibility;
///
/// // a pressure of sea level at Cusco's altitude
/// let compared = station_pressure_plausibility(101_325.0, 3310.128);
/// assert!(compared.implausible);
/// assert!((compared.ratio - 1.503).abs() < 0.001);
/// ```
pub fn station_pressure_plausibility(
    station_pressure_pa: f64,
    altitude_m: f64,
) -> StationPressurePlausibility {
    let mut places = [0.0; 2];
    let mut implausible = false;
    // SAFETY: the array goes with its length, and does not overlap the bool.
    unsafe {
        sys::station_air_station_pressure_plausibility(
            station_pressure_pa,
            altitude_m,
            places.as_mut_ptr(),
            places.len(),
            &mut implausible,
        )
    };
    let [icao_standard_pa, ratio] = places;
    StationPressurePlausibility {
        icao_standard_pa,
        ratio,
        implausible,
    }
}

/// CIPM-2007's mole fraction of water vapour, above 1 where there is more vapour than air. The source keeps it to
/// itself.
#[inline]
pub fn water_vapor_mole_fraction_uncapped(
    temp_c: f64,
    pressure_hpa: f64,
    humidity_percent: f64,
) -> f64 {
    // SAFETY: numbers alone.
    unsafe {
        sys::station_air_water_vapor_mole_fraction_uncapped(temp_c, pressure_hpa, humidity_percent)
    }
}

/// The National Weather Service's pressure altitude, ft, of a station pressure.
#[inline]
pub fn nws_pressure_altitude_ft(station_pressure_hpa: f64) -> f64 {
    // SAFETY: numbers alone.
    unsafe { sys::station_air_nws_pressure_altitude_ft(station_pressure_hpa) }
}

/// The pressure altitude, m: the National Weather Service's from −5,000 to 11,000 m, elsewhere the standard
/// atmosphere's height of the pressure. The example is the source's.
///
/// ```
/// use station_air::atmosphere::{nws_pressure_altitude_ft, pressure_altitude_m};
///
/// // Inside the band, the NWS formula to the bit.
/// assert_eq!(pressure_altitude_m(850.0).to_bits(), (nws_pressure_altitude_ft(850.0) * 0.3048).to_bits());
/// // Standard pressure at 20 km reads 20 km.
/// assert!((pressure_altitude_m(54.7489) - 20_000.0).abs() < 1.0);
/// // A near vacuum still has an altitude.
/// assert!(pressure_altitude_m(0.01).is_finite());
/// ```
#[inline]
pub fn pressure_altitude_m(station_pressure_hpa: f64) -> f64 {
    // SAFETY: numbers alone.
    unsafe { sys::station_air_pressure_altitude_m(station_pressure_hpa) }
}

/// The density altitude, ft, by the FAA's rule, of a station pressure and a temperature in °F.
///
/// ```
/// use station_air::atmosphere::faa_rule_density_altitude_ft;
///
/// assert_eq!(faa_rule_density_altitude_ft(1013.25, 59.0), 0.0);
/// ```
#[inline]
pub fn faa_rule_density_altitude_ft(station_pressure_hpa: f64, temperature_f: f64) -> f64 {
    // SAFETY: numbers alone.
    unsafe { sys::station_air_faa_density_altitude_ft(station_pressure_hpa, temperature_f) }
}

/// The density-matched altitude, m: the height at which the standard atmosphere has this air's density.
///
/// ```
/// use station_air::atmosphere::density_matched_altitude_m;
///
/// assert_eq!(density_matched_altitude_m(15.0, 1013.25, 0.0), 0.0);
/// assert!((density_matched_altitude_m(15.0, 1013.25, 50.0) - 33.1).abs() < 0.1);
/// ```
#[inline]
pub fn density_matched_altitude_m(
    temperature_c: f64,
    station_pressure_hpa: f64,
    humidity_percent: f64,
) -> f64 {
    // SAFETY: numbers alone.
    unsafe {
        sys::station_air_density_matched_altitude_m(
            temperature_c,
            station_pressure_hpa,
            humidity_percent,
        )
    }
}

/// As [`station_for_density_altitude`], without its checks: what the formulas give, air or not.
///
/// ```
/// use station_air::atmosphere::resolve_atmosphere_for_density_altitude;
///
/// assert_eq!(resolve_atmosphere_for_density_altitude(0.0, None), (0.0, 15.0, 1013.25));
/// ```
pub fn resolve_atmosphere_for_density_altitude(
    density_altitude_m: f64,
    explicit_temperature_c: Option<f64>,
) -> (f64, f64, f64) {
    let mut places = [0.0; 3];
    // SAFETY: the array goes with its length.
    unsafe {
        sys::station_air_resolve_atmosphere_for_density_altitude(
            density_altitude_m,
            explicit_temperature_c.is_some(),
            explicit_temperature_c.unwrap_or(0.0),
            places.as_mut_ptr(),
            places.len(),
        )
    };
    places.into()
}

/// Altitude, m, temperature, °C, and pressure, hPa, of the station whose air has a density altitude by the FAA's rule,
/// at a temperature that is given or the standard one. The example is the source's.
///
/// ```
/// use station_air::atmosphere::station_for_density_altitude;
///
/// assert!(station_for_density_altitude(-10_000.0, None).is_ok()); // far below sea level
/// assert!(station_for_density_altitude(40_000.0, None).is_ok()); // far above the troposphere
/// assert!(station_for_density_altitude(50_000.0, None).is_err()); // below 0 K by the rule
/// assert!(station_for_density_altitude(50_000.0, Some(40.0)).is_ok()); // hot air that thin
/// ```
pub fn station_for_density_altitude(
    density_altitude_m: f64,
    explicit_temperature_c: Option<f64>,
) -> Result<(f64, f64, f64), AtmosphereError> {
    let mut places = [0.0; 3];
    // SAFETY: the array goes with its length.
    let status = unsafe {
        sys::station_air_for_density_altitude(
            density_altitude_m,
            explicit_temperature_c.is_some(),
            explicit_temperature_c.unwrap_or(0.0),
            places.as_mut_ptr(),
            places.len(),
        )
    };
    match status {
        0 => Ok(places.into()),
        _ => Err(AtmosphereError(Refusal::of(status, &places))),
    }
}

/// Why an atmosphere value was refused: of the source's reasons those that the ported functions have.
#[derive(Debug, Clone, Copy, PartialEq, Eq, Hash)]
#[non_exhaustive]
pub enum AtmosphereErrorReason {
    /// The value is NaN or infinite.
    NotFinite,
    /// A temperature at or below absolute zero, −273.15 °C.
    AtOrBelowAbsoluteZero,
    /// A density altitude that no air has by the FAA's rule.
    NoAirAtDensityAltitude,
}

/// An atmosphere value that was refused: the field, the value and why, as the source has them. It is displayed in this
/// crate's words, those of the [`Refusal`] that it is.
///
/// ```
/// use station_air::atmosphere::{station_for_density_altitude, AtmosphereErrorReason};
/// use station_air::Refusal;
///
/// let error = station_for_density_altitude(0.0, Some(-300.0)).unwrap_err();
/// assert_eq!((error.field(), error.value()), ("temperature_c", -300.0));
/// assert_eq!(error.reason(), AtmosphereErrorReason::AtOrBelowAbsoluteZero);
/// assert_eq!(error.to_string(), "temperature_c = -300: temperature at or below -273.15 C");
/// assert_eq!(Refusal::from(error).number(), 3);
/// ```
#[derive(Debug, Clone, Copy, PartialEq)]
pub struct AtmosphereError(Refusal);

impl AtmosphereError {
    /// The refused field's name.
    pub fn field(&self) -> &str {
        match self.0 {
            Refusal::TemperatureNotFinite(_) | Refusal::TemperatureTooLow(_) => "temperature_c",
            _ => "density_altitude_m",
        }
    }

    /// The value that was refused, unchanged.
    pub fn value(&self) -> f64 {
        self.0.values()[0]
    }

    /// Why it was refused.
    pub fn reason(&self) -> AtmosphereErrorReason {
        match self.0 {
            Refusal::TemperatureTooLow(_) => AtmosphereErrorReason::AtOrBelowAbsoluteZero,
            Refusal::NoAir { .. } => AtmosphereErrorReason::NoAirAtDensityAltitude,
            _ => AtmosphereErrorReason::NotFinite,
        }
    }

    /// The altitude, m, that a density altitude resolves to which no air has; none for every other refusal.
    pub fn altitude_m(&self) -> Option<f64> {
        match self.0 {
            Refusal::NoAir {
                resolved_altitude_m,
                ..
            } => Some(resolved_altitude_m),
            _ => None,
        }
    }
}

impl From<AtmosphereError> for Refusal {
    fn from(error: AtmosphereError) -> Self {
        error.0
    }
}

impl fmt::Display for AtmosphereError {
    fn fmt(&self, f: &mut fmt::Formatter<'_>) -> fmt::Result {
        write!(f, "{} = {}: {}", self.field(), self.value(), self.0)
    }
}

impl std::error::Error for AtmosphereError {}
