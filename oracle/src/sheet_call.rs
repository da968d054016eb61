//! A call of the setting sheet by the C interface: three readings and the length of the page.

use crate::buffer::filled;
use crate::sheet::write;

#[derive(Clone, Copy)]
pub struct SheetCall {
    pub altitude: f64,
    pub pressure: f64,
    pub humidity: f64,
    pub room: usize,
}

pub struct Sheet {
    pub status: u64,
    /// What a refusal hands out.
    pub values: Vec<f64>,
    pub page: Vec<u8>,
}

impl SheetCall {
    pub fn answer(&self) -> Sheet {
        let mut page = filled(self.room);
        let written = write(self.altitude, self.pressure, self.humidity, &mut page);
        let (status, values) = match written {
            Ok(()) => (0, Vec::new()),
            Err(refusal) => (refusal.number, refusal.values),
        };
        Sheet {
            status,
            values,
            page,
        }
    }
}
