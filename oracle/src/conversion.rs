//! The conversions of request K5: a stored record to counts, and to doubles, its fields in their order.

use crate::buffer::put;
use crate::field::{fields, stored, Order, Stored, Value};
use crate::refusal::{refused, Refusal};

#[derive(Clone, Copy, Debug, PartialEq)]
pub enum Target {
    Counts,
    Doubles,
}

/// The converted record's length: 5 to 8 of the whole record, then 20, and 18 last.
pub fn convert(record: &[u8], target: Target, out: &mut [u8]) -> Result<usize, Refusal> {
    let mut converted: Vec<Stored> = Vec::new();
    for (meaning, value) in fields(record, Order::Any)? {
        let value = match (target, value) {
            (Target::Counts, Value::Double(x)) => match count(x) {
                Some(n) => Value::Count(n),
                None => return refused(20, &[]),
            },
            (Target::Doubles, Value::Count(_)) => Value::Double(value.double()),
            // already in that form, a NaN with its pattern
            _ => value,
        };
        converted.push((meaning, value));
    }
    put(&stored(&converted), out)
}

/// The count that gives exactly this double. 0 gives 0, so -0 has none.
pub fn count(x: f64) -> Option<i32> {
    // a count's double, times 1,000, lies far less than a half from the count
    let nearest = (x * 1000.0).round();
    let n = nearest as i32;
    let gives_x = Value::Count(n).double().to_bits() == x.to_bits();
    gives_x.then_some(n)
}
