//! Stands in for the source's own gravity.rs, which needs a library for vectors. The station part does
//! not use it.

#[derive(Clone, Copy)]
pub struct Gravity;

impl Gravity {
    pub const EARTH: Self = Self;
}
