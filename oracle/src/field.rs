//! The fields of a record: from its bytes, with refusals 5 to 8 and the strict reader's 19, and back to bytes.

use crate::refusal::{refused, Refusal};

/// What a record is judged by.
const FIRST_BYTES: usize = 256;

/// What is added to the tag of a double, which is the field's meaning, to have the tag of a count.
const OF_COUNTS: u8 = 0x10;

/// A meaning, 01 to 07, with a double.
pub type Field = (u8, f64);

/// A field's value as it is stored: document 01's double, or request K5's count of thousandths.
#[derive(Clone, Copy, Debug)]
pub enum Value {
    Double(f64),
    Count(i32),
}

/// A meaning with its value in either form.
pub type Stored = (u8, Value);

impl Value {
    /// What the value means. The quotient is the double nearest to it.
    pub fn double(self) -> f64 {
        match self {
            Self::Double(x) => x,
            Self::Count(n) => f64::from(n) / 1000.0,
        }
    }

    fn data(self) -> Vec<u8> {
        match self {
            Self::Double(x) => x.to_be_bytes().to_vec(),
            Self::Count(n) => n.to_be_bytes().to_vec(),
        }
    }
}

pub fn tag((meaning, value): Stored) -> u8 {
    match value {
        Value::Double(_) => meaning,
        Value::Count(_) => meaning + OF_COUNTS,
    }
}

/// The orders of tags that a reader takes: any, or request K4's, in which no tag is below the one before it.
#[derive(Clone, Copy, PartialEq)]
pub enum Order {
    Any,
    Rising,
}

/// A record's fields, in its order.
pub fn fields(record: &[u8], order: Order) -> Result<Vec<Stored>, Refusal> {
    let mut rest = &record[..record.len().min(FIRST_BYTES)];
    let mut fields: Vec<Stored> = Vec::new();
    while !rest.is_empty() {
        let Some((&[this, high, low], after_header)) = rest.split_first_chunk() else {
            return refused(5, &[]);
        };
        let (meaning, length) = match this {
            0x01..=0x07 => (this, 8),
            0x11..=0x17 => (this - OF_COUNTS, 4),
            _ => return refused(6, &[]),
        };
        if u16::from_be_bytes([high, low]) != length {
            return refused(7, &[]);
        }
        let Some((data, after_data)) = after_header.split_at_checked(length.into()) else {
            return refused(5, &[]);
        };
        if fields.iter().any(|field| field.0 == meaning) {
            return refused(8, &[]);
        }
        if order == Order::Rising && fields.last().is_some_and(|before| this < tag(*before)) {
            return refused(19, &[]);
        }
        fields.push((meaning, value(data)));
        rest = after_data;
    }
    Ok(fields)
}

/// Of as many bytes as one of the forms has.
fn value(data: &[u8]) -> Value {
    match data.try_into() {
        Ok(data) => Value::Count(i32::from_be_bytes(data)),
        Err(_) => Value::Double(f64::from_be_bytes(data.try_into().expect("eight bytes"))),
    }
}

/// The fields one after the other.
pub fn stored(fields: &[Stored]) -> Vec<u8> {
    let mut bytes = Vec::new();
    for field in fields {
        let data = field.1.data();
        bytes.extend([tag(*field), 0, data.len() as u8]);
        bytes.extend(data);
    }
    bytes
}

pub fn in_doubles(fields: &[Field]) -> Vec<Stored> {
    let fields = fields.iter();
    fields
        .map(|(meaning, x)| (*meaning, Value::Double(*x)))
        .collect()
}

/// Doubles one after the other.
pub fn record(fields: &[Field]) -> Vec<u8> {
    stored(&in_doubles(fields))
}
