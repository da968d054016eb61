//! `exp`, `ln`, `sqrt` and the powers by rules in whole numbers: one double for each input, on every machine.

use crate::sys;

/// e to the power of `x`.
///
/// ```
/// assert_eq!(station_air::rules::exp(0.0), 1.0);
/// ```
#[inline]
pub fn exp(x: f64) -> f64 {
    // SAFETY: numbers alone.
    unsafe { sys::station_air_exp(x) }
}

/// The natural logarithm.
///
/// ```
/// assert_eq!(station_air::rules::ln(1.0), 0.0);
/// assert!(station_air::rules::ln(-1.0).is_nan());
/// ```
#[inline]
pub fn ln(x: f64) -> f64 {
    // SAFETY: numbers alone.
    unsafe { sys::station_air_ln(x) }
}

/// The square root, the nearest double.
///
/// ```
/// assert_eq!(station_air::rules::sqrt(2.0), 2f64.sqrt());
/// ```
#[inline]
pub fn sqrt(x: f64) -> f64 {
    // SAFETY: numbers alone.
    unsafe { sys::station_air_sqrt(x) }
}

/// `x` to the power of an exponent of the table in `station_air_rules.h`, by its number, 0 to 26; NaN for any other.
///
/// ```
/// assert_eq!(station_air::rules::power(1.0, 0), 1.0);
/// ```
#[inline]
pub fn power(x: f64, number: usize) -> f64 {
    // SAFETY: numbers alone.
    unsafe { sys::station_air_power(x, number) }
}

/// The logarithm to the base 2 times 2^60, a whole number: `whole` 2^60 + `part`, or where it is negative
/// −(`whole` 2^60 + `part` + 1).
#[derive(Debug, Clone, Copy, PartialEq, Eq)]
pub struct LogWord {
    /// Whether it is below 0.
    pub negative: bool,
    /// The whole part.
    pub whole: u32,
    /// The rest, below 2^60.
    pub part: u64,
}

/// The log word of a number that is finite and above 0.
///
/// ```
/// use station_air::rules::{antilog, log_word};
///
/// let word = log_word(8.0).unwrap();
/// assert_eq!((word.whole, word.part), (3, 0));
/// assert_eq!(antilog(word), 8.0);
/// assert_eq!(log_word(0.0), None);
/// ```
pub fn log_word(x: f64) -> Option<LogWord> {
    let mut word = LogWord {
        negative: false,
        whole: 0,
        part: 0,
    };
    // SAFETY: three numbers that do not overlap.
    unsafe { sys::station_air_log_word(x, &mut word.negative, &mut word.whole, &mut word.part) }
        .then_some(word)
}

/// 2 to the power of the word's number / 2^60.
pub fn antilog(word: LogWord) -> f64 {
    // SAFETY: numbers alone.
    unsafe { sys::station_air_antilog(word.negative, word.whole, word.part) }
}
