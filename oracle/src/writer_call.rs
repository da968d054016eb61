//! A call of the writer by the C interface: three arrays by meaning, of forms, values and counts, and a buffer.

use crate::buffer::Written;
use crate::field::Value;
use crate::refusal::{refused, Refusal};
use crate::writer::{write, Entries};

pub const MEANINGS: usize = 7;

/// The forms of an entry.
pub const ABSENT: u8 = 0;
pub const DOUBLE: u8 = 1;
pub const COUNT: u8 = 2;

/// Statuses that are no refusal of the documents.
const UNKNOWN_FORM: u64 = 254;
const TOO_FEW_PLACES: u64 = 255;

/// A value or count that the entry's form does not name counts for nothing.
pub struct WriterCall {
    pub forms: Vec<u8>,
    pub values: Vec<f64>,
    pub counts: Vec<i32>,
    pub room: usize,
}

impl WriterCall {
    pub fn answer(&self) -> Written {
        Written::by(self.room, |out| write(&self.entries()?, out))
    }

    fn entries(&self) -> Result<Entries, Refusal> {
        let places = [self.forms.len(), self.values.len(), self.counts.len()];
        if places.into_iter().any(|places| places < MEANINGS) {
            return refused(TOO_FEW_PLACES, &[]);
        }
        let mut entries = [None; MEANINGS];
        for (i, entry) in entries.iter_mut().enumerate() {
            *entry = match self.forms[i] {
                ABSENT => None,
                DOUBLE => Some(Value::Double(self.values[i])),
                COUNT => Some(Value::Count(self.counts[i])),
                _ => return refused(UNKNOWN_FORM, &[]),
            };
        }
        Ok(entries)
    }
}
