//! The functions of the station part, in the order of their numbers. It is built twice, as a child of
//! the stock source and of the one with our rules: a child sees what its parent keeps private.

use super::*;
use crate::function::Figure::{Choice, Feet, Metres, Number};
use crate::function::Input::{Given, Maybe};
use crate::function::{Figure, Function};
use crate::quantity::Quantity::*;

fn at(x: &[Option<f64>], i: usize) -> f64 {
    x[i].expect("an input that is always given")
}

fn option(name: &'static str, value: Option<f64>) -> Vec<Figure> {
    vec![
        Choice("given", value.is_some().into()),
        Number(name, value.unwrap_or(0.0)),
    ]
}

/// Document 01's number of a refusal.
pub(super) fn refusal(error: &AtmosphereError) -> u64 {
    match (error.reason, &*error.field) {
        (AtmosphereErrorReason::NotFinite, "density_altitude_m") => 1,
        (AtmosphereErrorReason::NotFinite, "temperature_c") => 2,
        (AtmosphereErrorReason::AtOrBelowAbsoluteZero, "temperature_c") => 3,
        (AtmosphereErrorReason::NoAirAtDensityAltitude, "density_altitude_m") => 4,
        _ => unreachable!("a refusal that document 01 does not name"),
    }
}

/// The first figure is 0 or the refusal's number; a refusal has its value and altitude after it.
fn station(answer: Result<(f64, f64, f64), AtmosphereError>) -> Vec<Figure> {
    match answer {
        Ok((altitude, temperature, pressure)) => vec![
            Choice("refusal", 0),
            Metres("altitude", altitude),
            Number("temperature", temperature),
            Number("pressure", pressure),
        ],
        Err(error) => vec![
            Choice("refusal", refusal(&error)),
            Number("value", error.value),
            Metres("altitude", error.altitude_m.unwrap_or(0.0)),
            Choice("none", 0),
        ],
    }
}

pub const FUNCTIONS: [Function; 28] = [
    Function {
        list: "layers",
        name: "geometric_to_geopotential_height_m",
        inputs: &[Given(Altitude)],
        answer: |x| {
            vec![Metres(
                "height",
                geometric_to_geopotential_height_m(at(x, 0)),
            )]
        },
    },
    Function {
        list: "layers",
        name: "calculate_icao_standard_atmosphere",
        inputs: &[Given(Altitude)],
        answer: |x| {
            let (temperature, pressure) = calculate_icao_standard_atmosphere(at(x, 0));
            vec![
                Number("temperature", temperature),
                Number("pressure", pressure),
            ]
        },
    },
    Function {
        list: "humid",
        name: "enhanced_saturation_vapor_pressure",
        inputs: &[Given(Kelvin)],
        answer: |x| {
            vec![Number(
                "pressure",
                enhanced_saturation_vapor_pressure(at(x, 0)),
            )]
        },
    },
    Function {
        list: "humid",
        name: "enhanced_enhancement_factor",
        inputs: &[Given(Pascals), Given(Celsius)],
        answer: |x| {
            vec![Number(
                "factor",
                enhanced_enhancement_factor(at(x, 0), at(x, 1)),
            )]
        },
    },
    Function {
        list: "humid",
        name: "enhanced_compressibility_factor",
        inputs: &[Given(Pascals), Given(Kelvin), Given(MoleFraction)],
        answer: |x| {
            let factor = enhanced_compressibility_factor(at(x, 0), at(x, 1), at(x, 2));
            vec![Number("factor", factor)]
        },
    },
    Function {
        list: "humid",
        name: "vapor_mole_fraction",
        inputs: &[
            Given(VaporHectopascals),
            Given(EnhancementFactor),
            Given(Percent),
            Given(Pascals),
        ],
        answer: |x| {
            let fraction = vapor_mole_fraction(at(x, 0), at(x, 1), at(x, 2), at(x, 3));
            vec![Number("fraction", fraction)]
        },
    },
    Function {
        list: "humid",
        name: "capped_vapor_mole_fraction",
        inputs: &[Given(MoleFraction)],
        answer: |x| vec![Number("fraction", capped_vapor_mole_fraction(at(x, 0)))],
    },
    Function {
        list: "humid",
        name: "water_vapor_mole_fraction_uncapped",
        inputs: &[Given(Celsius), Given(Hectopascals), Given(Percent)],
        answer: |x| {
            let fraction = water_vapor_mole_fraction_uncapped(at(x, 0), at(x, 1), at(x, 2));
            vec![Number("fraction", fraction)]
        },
    },
    Function {
        list: "humid",
        name: "moist_air_vapor_mole_fraction",
        inputs: &[Given(Kelvin), Given(Pascals), Given(Percent)],
        answer: |x| {
            let fraction = moist_air_vapor_mole_fraction(at(x, 0), at(x, 1), at(x, 2));
            vec![Number("fraction", fraction)]
        },
    },
    Function {
        list: "humid",
        name: "moist_molar_mass_ratio",
        inputs: &[Given(MoleFraction)],
        answer: |x| vec![Number("ratio", moist_molar_mass_ratio(at(x, 0)))],
    },
    Function {
        list: "humid",
        name: "calculate_air_density_cimp",
        inputs: &[Given(Celsius), Given(Hectopascals), Given(Percent)],
        answer: |x| {
            let density = calculate_air_density_cimp(at(x, 0), at(x, 1), at(x, 2));
            vec![Number("density", density)]
        },
    },
    Function {
        list: "humid",
        name: "moist_sound_speed_at_mole_fraction",
        inputs: &[Given(Kelvin), Given(MoleFraction)],
        answer: |x| {
            let speed = moist_sound_speed_at_mole_fraction(at(x, 0), at(x, 1));
            vec![Number("sound speed", speed)]
        },
    },
    Function {
        list: "humid",
        name: "moist_speed_of_sound",
        inputs: &[Given(Kelvin), Given(Pascals), Given(Percent)],
        answer: |x| {
            let speed = moist_speed_of_sound(at(x, 0), at(x, 1), at(x, 2));
            vec![Number("sound speed", speed)]
        },
    },
    Function {
        list: "station",
        name: "calculate_atmosphere",
        inputs: &[
            Given(Altitude),
            Maybe(Celsius),
            Maybe(Hectopascals),
            Given(Percent),
        ],
        answer: |x| {
            let (density, speed) = calculate_atmosphere(at(x, 0), x[1], x[2], at(x, 3));
            vec![Number("density", density), Number("sound speed", speed)]
        },
    },
    Function {
        list: "station",
        name: "in_legacy_default_pressure_band",
        inputs: &[Given(Hectopascals)],
        answer: |x| {
            vec![Choice(
                "inside",
                in_legacy_default_pressure_band(at(x, 0)).into(),
            )]
        },
    },
    Function {
        list: "station",
        name: "in_legacy_default_temperature_band",
        inputs: &[Given(Celsius)],
        answer: |x| {
            vec![Choice(
                "inside",
                in_legacy_default_temperature_band(at(x, 0)).into(),
            )]
        },
    },
    Function {
        list: "station",
        name: "resolve_station_pressure",
        inputs: &[Given(Hectopascals), Given(Altitude)],
        answer: |x| option("pressure", resolve_station_pressure(at(x, 0), at(x, 1))),
    },
    Function {
        list: "station",
        name: "resolve_station_temperature",
        inputs: &[Given(Celsius), Given(Altitude)],
        answer: |x| {
            option(
                "temperature",
                resolve_station_temperature(at(x, 0), at(x, 1)),
            )
        },
    },
    Function {
        list: "station",
        name: "reduce_qnh_to_station_pressure",
        inputs: &[Given(Hectopascals), Given(Altitude)],
        answer: |x| {
            let pressure = reduce_qnh_to_station_pressure(at(x, 0), at(x, 1));
            vec![Number("pressure", pressure)]
        },
    },
    Function {
        list: "altitudes",
        name: "nws_pressure_altitude_ft",
        inputs: &[Given(Hectopascals)],
        answer: |x| vec![Feet("altitude", nws_pressure_altitude_ft(at(x, 0)))],
    },
    Function {
        list: "altitudes",
        name: "pressure_altitude_m",
        inputs: &[Given(Hectopascals)],
        answer: |x| vec![Metres("altitude", pressure_altitude_m(at(x, 0)))],
    },
    Function {
        list: "altitudes",
        name: "standard_pressure_altitude_m",
        inputs: &[Given(Pascals)],
        answer: |x| vec![Metres("altitude", standard_pressure_altitude_m(at(x, 0)))],
    },
    Function {
        list: "altitudes",
        name: "faa_rule_density_altitude_ft",
        inputs: &[Given(Hectopascals), Given(Fahrenheit)],
        answer: |x| {
            vec![Feet(
                "altitude",
                faa_rule_density_altitude_ft(at(x, 0), at(x, 1)),
            )]
        },
    },
    Function {
        list: "altitudes",
        name: "density_matched_altitude_m",
        inputs: &[Given(Celsius), Given(Hectopascals), Given(Percent)],
        answer: |x| {
            let altitude = density_matched_altitude_m(at(x, 0), at(x, 1), at(x, 2));
            vec![Metres("altitude", altitude)]
        },
    },
    Function {
        list: "altitudes",
        name: "standard_altitude_above_tropopause_m",
        inputs: &[Given(DensityRatio)],
        answer: |x| {
            // the one exponent that the source passes
            let exponent = G_ACCEL_MPS2 / (R_AIR * ISA_LAPSE_K_PER_M) - 1.0;
            let altitude = standard_altitude_above_tropopause_m(at(x, 0), exponent);
            vec![Metres("altitude", altitude)]
        },
    },
    Function {
        list: "inverse",
        name: "resolve_atmosphere_for_density_altitude",
        inputs: &[Given(DensityAltitude), Maybe(Celsius)],
        answer: |x| {
            let (altitude, temperature, pressure) =
                resolve_atmosphere_for_density_altitude(at(x, 0), x[1]);
            vec![
                Metres("altitude", altitude),
                Number("temperature", temperature),
                Number("pressure", pressure),
            ]
        },
    },
    Function {
        list: "inverse",
        name: "station_for_density_altitude",
        inputs: &[Given(DensityAltitude), Maybe(Celsius)],
        answer: |x| station(station_for_density_altitude(at(x, 0), x[1])),
    },
    Function {
        list: "station",
        name: "station_pressure_plausibility",
        inputs: &[Given(Pascals), Given(Altitude)],
        answer: |x| {
            let judged = station_pressure_plausibility(at(x, 0), at(x, 1));
            vec![
                Number("standard", judged.icao_standard_pa),
                Number("ratio", judged.ratio),
                Choice("implausible", judged.implausible.into()),
            ]
        },
    },
];
