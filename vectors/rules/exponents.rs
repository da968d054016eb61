//! The exponents of the `powf` calls in src/atmosphere.rs, each by its expression there, in the order of
//! crates/elementary/specs/Exponents.antt.

/// An exponent q, a double for which q * 2^58 is whole.
#[derive(Clone, Copy)]
pub struct Exponent {
    pub q: f64,
    pub times_2_58: i128,
}

const fn exponent(q: f64) -> Exponent {
    let scaled = q * (1u64 << 58) as f64;
    let times_2_58 = scaled as i128;
    assert!(times_2_58 as f64 == scaled);
    Exponent { q, times_2_58 }
}

const G_ACCEL_MPS2: f64 = 9.80665;
const R_AIR: f64 = 287.0531;
const DA_NWS_EXPONENT: f64 = 0.190_284;
const ISA_LAPSE_K_PER_M: f64 = 0.0065;

/// The lapse rates of ICAO_LAYERS that are not 0: layers 0, 2, 3, 5 and 6.
const LAPSE: [f64; 5] = [-0.0065, 0.001, 0.0028, -0.0028, -0.002];

const fn pressure(lapse: f64) -> f64 {
    -G_ACCEL_MPS2 / (lapse * R_AIR)
}

const fn temperature(lapse: f64) -> f64 {
    -lapse * R_AIR / G_ACCEL_MPS2
}

const fn density(lapse: f64) -> f64 {
    -G_ACCEL_MPS2 / (R_AIR * lapse) - 1.0
}

const TROPOSPHERE: f64 = G_ACCEL_MPS2 / (R_AIR * ISA_LAPSE_K_PER_M) - 1.0;

pub const EXPONENTS: [Exponent; 27] = [
    exponent(pressure(LAPSE[0])),
    exponent(pressure(LAPSE[1])),
    exponent(pressure(LAPSE[2])),
    exponent(pressure(LAPSE[3])),
    exponent(pressure(LAPSE[4])),
    exponent(1.0 / pressure(LAPSE[0])),
    exponent(temperature(LAPSE[0])),
    exponent(temperature(LAPSE[1])),
    exponent(temperature(LAPSE[2])),
    exponent(temperature(LAPSE[3])),
    exponent(temperature(LAPSE[4])),
    exponent(DA_NWS_EXPONENT),
    exponent(1.0 / DA_NWS_EXPONENT),
    exponent(TROPOSPHERE),
    exponent(1.0 / TROPOSPHERE),
    exponent(density(LAPSE[1])),
    exponent(density(LAPSE[2])),
    exponent(density(LAPSE[3])),
    exponent(1.0 / density(LAPSE[1])),
    exponent(1.0 / density(LAPSE[2])),
    exponent(1.0 / density(LAPSE[3])),
    exponent(1.0 / density(LAPSE[4])),
    exponent(1.5),
    exponent(3.0),
    exponent(3.5),
    exponent(4.0),
    exponent(7.5),
];
