//! The air at a station, from the readings of a mast: density, speed of sound and the altitudes around them, by
//! functions that are proved to give one fixed answer for every double and every record, bit for bit.
//!
//! ```
//! use station_air::{judge, write, Reading, Readings};
//!
//! let record = write(&Readings {
//!     altitude: Some(Reading::Double(60.0)),
//!     temperature: Some(Reading::Double(17.6)),
//!     measured_pressure: Some(Reading::Double(1008.3)),
//!     humidity: Some(Reading::Double(60.0)),
//!     ..Readings::default()
//! });
//! match judge(&record) {
//!     Ok(figures) => println!("{:.4} kg/m3", figures.density_kg_m3),
//!     Err(refusal) => println!("refused {}: {refusal}", refusal.number()),
//! }
//! ```
//!
//! [`atmosphere`] has the functions of the published module that this is a port of, with its names and signatures.
//!
//! The proved code is a static or shared library, x86-64-v2 only. `build.rs` finds it in the folder that the variable
//! `STATION_AIR_LIB_DIR` names, or in the repository's own build. It computes in the floating-point environment that a
//! program starts with, allocates nothing and keeps nothing, so any thread may call at any time.
#![deny(missing_docs)]

#[cfg(not(target_arch = "x86_64"))]
compile_error!("the proved library is x86-64 code");

pub mod atmosphere;
mod judge;
mod record;
mod refusal;
mod report;
pub mod rules;
mod sheet;
mod sys;

pub use judge::{
    judge, judge_strictly, next_trim_class, trim_class, vote, Changed, Figures, NextTrimClass,
    TrimChange, VoteRefusal,
};
pub use record::{
    load_record, read, read_strictly, to_counts, to_doubles, write, Reading, Readings,
};
pub use refusal::Refusal;
pub use report::report;
pub use sheet::setting_sheet;

/// The version of the library that is linked, `STATION_AIR_VERSION` of its header: the first number of this crate's.
///
/// ```
/// assert_eq!(station_air::version(), 7);
/// ```
pub fn version() -> u32 {
    // SAFETY: it takes nothing.
    unsafe { sys::station_air_version() }
}
