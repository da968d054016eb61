//! What the source leans on and does not bring: just enough for its text to build. The station part
//! uses none of it.

use super::GoverningAir;
use crate::gravity::Gravity;

pub mod serde {
    pub trait Serializer {
        type Ok;
        type Error;
        fn serialize_f64(self, value: f64) -> Result<Self::Ok, Self::Error>;
    }

    pub trait Serialize {
        fn serialize<S: Serializer>(&self, serializer: S) -> Result<S::Ok, S::Error>;
    }

    pub trait Deserializer<'de> {
        type Error;
    }

    pub trait Deserialize<'de>: Sized {
        fn deserialize<D: Deserializer<'de>>(deserializer: D) -> Result<Self, D::Error>;
    }

    impl<'de> Deserialize<'de> for f64 {
        fn deserialize<D: Deserializer<'de>>(_: D) -> Result<Self, D::Error> {
            unimplemented!()
        }
    }
}

/// Temperature, pressure, humidity, and the distance to which they hold.
pub type AtmoSegment = (f64, f64, f64, f64);

pub struct AtmoSock;

impl AtmoSock {
    pub(super) fn governing_air_for_range(&self, _: f64) -> Option<&GoverningAir> {
        unimplemented!()
    }
}

pub fn local_temp_pressure_density_with_gravity(
    _: f64,
    _: f64,
    _: f64,
    _: f64,
    _: f64,
    _: f64,
    _: Gravity,
) -> (f64, f64, f64) {
    unimplemented!()
}
