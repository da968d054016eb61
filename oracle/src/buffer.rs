//! A lent buffer: what it holds before a call, a record written to its start, and what it holds after the call.

use crate::refusal::{refused, Refusal};

/// A pattern, so that what a call leaves untouched shows.
pub fn filled(room: usize) -> Vec<u8> {
    (0..room).map(|i| (i * 7 + 165) as u8).collect()
}

/// The number of bytes, or 18 where the buffer is shorter; nothing is written then.
pub fn put(bytes: &[u8], out: &mut [u8]) -> Result<usize, Refusal> {
    let Some(start) = out.get_mut(..bytes.len()) else {
        return refused(18, &[]);
    };
    start.copy_from_slice(bytes);
    Ok(bytes.len())
}

/// What comes of a call that writes a record.
pub struct Written {
    pub status: u64,
    /// None where it stays what it was.
    pub length: Option<usize>,
    pub out: Vec<u8>,
}

impl Written {
    pub fn by(room: usize, call: impl FnOnce(&mut [u8]) -> Result<usize, Refusal>) -> Self {
        let mut out = filled(room);
        let (status, length) = match call(&mut out) {
            Ok(length) => (0, Some(length)),
            Err(refusal) => (refusal.number, None),
        };
        Self {
            status,
            length,
            out,
        }
    }
}
