//! The vapour mole fraction that the density uses inside a call of `calculate_atmosphere`: the source computes it
//! and hands it to nobody. It is built twice, as `station.rs` is.

use super::*;

/// Kelvin and pascals, as that call takes them.
pub fn kelvin_and_pascals(
    altitude: f64,
    temperature: Option<f64>,
    pressure: Option<f64>,
) -> (f64, f64) {
    let (standard_kelvin, standard_pascals) = calculate_icao_standard_atmosphere(altitude);
    let kelvin = temperature.map_or(standard_kelvin, |celsius| celsius + 273.15);
    let pascals = pressure.map_or(standard_pascals, |hectopascals| hectopascals * 100.0);
    (kelvin, pascals)
}

/// What that call hands to `calculate_air_density_cimp`.
pub struct Arguments {
    pub celsius: f64,
    pub hectopascals: f64,
    pub percent: f64,
}

pub fn arguments(
    altitude: f64,
    temperature: Option<f64>,
    pressure: Option<f64>,
    humidity: f64,
) -> Arguments {
    let (kelvin, pascals) = kelvin_and_pascals(altitude, temperature, pressure);
    Arguments {
        celsius: kelvin - 273.15,
        hectopascals: pascals / 100.0,
        percent: humidity.clamp(0.0, 100.0),
    }
}

impl Arguments {
    /// `calculate_air_density_cimp` forms it as `water_vapor_mole_fraction_uncapped` does, and caps it.
    pub fn mole_fraction(&self) -> f64 {
        capped_vapor_mole_fraction(self.uncapped())
    }

    pub fn uncapped(&self) -> f64 {
        water_vapor_mole_fraction_uncapped(self.celsius, self.hectopascals, self.percent)
    }

    /// The density that follows from the mole fraction: `cases.rs` holds it to that of `calculate_atmosphere`.
    pub fn density(&self) -> f64 {
        let fraction = self.mole_fraction();
        let kelvin = self.celsius + 273.15;
        let pascals = (self.hectopascals * 100.0).max(f64::MIN_POSITIVE);
        let compressibility = enhanced_compressibility_factor(pascals, kelvin, fraction);
        ((pascals * M_A) / (compressibility * R * kelvin)) * moist_molar_mass_ratio(fraction)
    }
}
