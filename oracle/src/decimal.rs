//! A double's text with a fixed number of decimals, by its exact value: request K1's rounding.

/// No text is longer than this.
pub const LONGEST: usize = 16;

/// A greater number of decimals counts as this one.
pub const MOST_DECIMALS: usize = 15;

/// Rounded to nearest, halves away from zero; what rounds to zero has no sign. None where the text would be longer
/// than 16 bytes, or the double is not finite.
pub fn decimal(x: f64, decimals: usize) -> Option<String> {
    let units = units(x, decimals)?;
    let digits = format!("{units:0least$}", least = decimals + 1);
    let (whole, part) = digits.split_at(digits.len() - decimals);
    let sign = if x < 0.0 && units > 0 { "-" } else { "" };
    let point = if decimals > 0 { "." } else { "" };
    let text = format!("{sign}{whole}{point}{part}");
    (text.len() <= LONGEST).then_some(text)
}

/// The number of units of the last decimal, without its sign. None where it is not finite, or 2^72 or more before
/// it is counted in units, and so too long.
fn units(x: f64, decimals: usize) -> Option<u128> {
    let (fraction, exponent) = parts(x)?;
    let units = u128::from(fraction) * 10u128.pow(decimals as u32);
    match exponent {
        0..=20 => Some(units << exponent),
        21.. => None,
        // less than 2^103 units of 2^-126 or less: below a half
        ..=-126 => Some(0),
        _ => {
            let half = 1u128 << (-exponent - 1);
            Some((units + half) >> -exponent)
        }
    }
}

/// Whole numbers f and e with |x| = f 2^e.
fn parts(x: f64) -> Option<(u64, i32)> {
    let bits = x.to_bits();
    let fraction = bits & ((1 << 52) - 1);
    match (bits >> 52 & 0x7FF) as i32 {
        0 => Some((fraction, -1074)),
        0x7FF => None,
        exponent => Some((fraction | 1 << 52, exponent - 1075)),
    }
}
