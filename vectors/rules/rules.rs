//! Document 01, "Added: three functions by whole numbers", in plain Rust with 128-bit integers.
//!
//! It follows the document's text and shares no code with the Rattle functions, so that the two can be held
//! against each other. The number of places is the first argument of each function that depends on it: document 01
//! has 52, request K10 of document 02 has 60.

use crate::exponents::Exponent;

/// 1 / ln 2 and ln 2, times 2^62, as document 01 prints them.
const LOG2_E: i128 = 0x5C55_1D94_AE0B_F85D;
const LN_2: i128 = 0x2C5C_85FD_F473_DE6A;

/// A finite double's size as `m` * 2^`e`, with whole `m`.
fn parts(x: f64) -> (u64, i32) {
    let bits = x.to_bits();
    let field = (bits >> 52 & 0x7FF) as i32;
    let fraction = bits & ((1 << 52) - 1);
    if field == 0 {
        (fraction, -1074)
    } else {
        (fraction | 1 << 52, field - 1075)
    }
}

/// The double nearest to `m` * 2^`e`, ties to even, subnormals and infinity as IEEE 754.
fn nearest(m: u128, e: i64) -> f64 {
    if m == 0 {
        return 0.0;
    }
    let top = e + 127 - i64::from(m.leading_zeros());
    if top > 1023 {
        return f64::INFINITY;
    }
    // the exponent of the last place of a double of this size
    let last = (top - 52).max(-1074);
    let drop = last - e;
    let places = if drop <= 0 {
        m << -drop
    } else if drop > 128 {
        0
    } else {
        let kept = m.checked_shr(drop as u32).unwrap_or(0);
        let half = 1 << (drop - 1);
        let rest = m & (half | (half - 1));
        kept + u128::from(rest > half || rest == half && kept & 1 == 1)
    };
    // A carry out of the places raises the exponent field, at the top to infinity.
    f64::from_bits(((last + 1074) as u64) * (1 << 52) + places as u64)
}

/// floor(a * b / 2^shift), where a * b may take more than 127 bits.
fn scaled(a: i128, b: i128, shift: u32) -> i128 {
    let high = a >> shift;
    let low = a - (high << shift);
    high * b + (low * b >> shift)
}

/// L of a positive finite double, else nothing.
pub fn log_word(places: u32, x: f64) -> Option<i128> {
    if !(x > 0.0 && x < f64::INFINITY) {
        return None;
    }
    let (m, e) = parts(x);
    let zeros = m.leading_zeros();
    let exponent = e + 63 - zeros as i32;
    let bits = log_bits(places, m << zeros >> 1);
    Some((i128::from(exponent) << places) + i128::from(bits))
}

/// The bits of a mantissa M, from 2^62 to 2^63.
pub fn log_bits(places: u32, mut mantissa: u64) -> u64 {
    let mut bits = 0;
    for _ in 0..places {
        let q = (u128::from(mantissa) * u128::from(mantissa) >> 62) as u64;
        let bit = q >> 63;
        mantissa = q >> bit;
        bits = bits << 1 | bit;
    }
    bits
}

/// Y of the fraction `f`.
pub fn antilog_root(places: u32, f: u64) -> u64 {
    let mut y: u64 = 1 << 62;
    for place in 0..places {
        let bit = f >> place & 1;
        y = (u128::from(y) << (62 + bit)).isqrt() as u64;
    }
    y
}

/// The antilog of the whole number `p`.
pub fn antilog(places: u32, p: i128) -> f64 {
    let whole = p >> places;
    let fraction = p - (whole << places);
    let y = antilog_root(places, fraction as u64);
    nearest(y.into(), whole as i64 - 62)
}

fn positive_power(places: u32, x: f64, q: Exponent) -> Option<f64> {
    log_word(places, x).map(|l| antilog(places, scaled(l, q.times_2_58, 58)))
}

/// x to the power q.
pub fn power(places: u32, x: f64, q: Exponent) -> f64 {
    let negative = q.q < 0.0;
    if x.is_nan() {
        f64::NAN
    } else if let Some(r) = positive_power(places, x, q) {
        r
    } else if x == 0.0 {
        match (negative, q.q == 3.0 && x.is_sign_negative()) {
            (true, _) => f64::INFINITY,
            (false, true) => -0.0,
            (false, false) => 0.0,
        }
    } else if x.is_infinite() {
        match (negative, q.q == 3.0 && x < 0.0) {
            (true, _) => 0.0,
            (false, true) => f64::NEG_INFINITY,
            (false, false) => f64::INFINITY,
        }
    } else if q.q == 3.0 {
        -power(places, -x, q)
    } else if q.q == 4.0 {
        power(places, -x, q)
    } else {
        f64::NAN
    }
}

/// floor(x * 2^places) of a finite double below 2^11 in size.
fn scaled_floor(places: u32, x: f64) -> i128 {
    let (m, e) = parts(x);
    let signed = if x < 0.0 {
        -i128::from(m)
    } else {
        i128::from(m)
    };
    let shift = e + places as i32;
    if shift >= 0 {
        signed << shift
    } else {
        signed >> (-shift).min(127)
    }
}

pub fn exp(places: u32, x: f64) -> f64 {
    if x.is_nan() {
        f64::NAN
    } else if x >= 1024.0 {
        f64::INFINITY
    } else if x <= -1100.0 {
        0.0
    } else {
        antilog(places, scaled(scaled_floor(places, x), LOG2_E, 62))
    }
}

/// What ln of a positive finite double is before it is rounded, in units of the last place.
pub fn ln_units(places: u32, x: f64) -> Option<i128> {
    log_word(places, x).map(|l| scaled(l, LN_2, 62))
}

pub fn ln(places: u32, x: f64) -> f64 {
    if let Some(n) = ln_units(places, x) {
        let size = nearest(n.unsigned_abs(), -i64::from(places));
        if n < 0 {
            -size
        } else {
            size
        }
    } else if x == 0.0 {
        f64::NEG_INFINITY
    } else if x == f64::INFINITY {
        x
    } else {
        f64::NAN
    }
}

/// The square root, correctly rounded: a root of 62 or 63 binary digits, and one more that says whether
/// something is left over, are rounded once.
pub fn sqrt(x: f64) -> f64 {
    if x == 0.0 || x == f64::INFINITY {
        return x;
    }
    if !(x > 0.0) {
        return f64::NAN;
    }
    let (m, e) = parts(x);
    let zeros = m.leading_zeros();
    // the radicand lies from 2^124 to 2^126, and the exponent that is left is even
    let shift = 61 + zeros as i32;
    let shift = shift + ((shift ^ e) & 1);
    let radicand = u128::from(m) << shift;
    let root = radicand.isqrt();
    let left = u128::from(root * root < radicand);
    nearest(root << 1 | left, i64::from((e - shift) / 2 - 1))
}
