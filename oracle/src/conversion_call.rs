//! A call of a conversion by the C interface: which, a record, and the length of the buffer.

use crate::buffer::Written;
use crate::conversion::{convert, Target};

pub struct ConversionCall {
    pub target: Target,
    pub record: Vec<u8>,
    pub room: usize,
}

impl ConversionCall {
    pub fn answer(&self) -> Written {
        Written::by(self.room, |out| convert(&self.record, self.target, out))
    }
}
