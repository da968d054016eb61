//! The writer of request K4: a record of any set of fields in either form, by rising tag.

use crate::buffer::put;
use crate::field::{stored, tag, Stored, Value};
use crate::function::word;
use crate::refusal::Refusal;

/// By meaning: the first is 01's.
pub type Entries = [Option<Value>; 7];

/// The record's length. 18 where the buffer is shorter.
pub fn write(entries: &Entries, out: &mut [u8]) -> Result<usize, Refusal> {
    let fields = (1..).zip(entries);
    let fields = fields.filter_map(|(meaning, value)| Some((meaning, one_nan((*value)?))));
    let mut fields: Vec<Stored> = fields.collect();
    fields.sort_by_key(|field| tag(*field));
    put(&stored(&fields), out)
}

/// All NaNs are written as one.
fn one_nan(value: Value) -> Value {
    match value {
        Value::Double(x) => Value::Double(f64::from_bits(word(x))),
        Value::Count(_) => value,
    }
}
