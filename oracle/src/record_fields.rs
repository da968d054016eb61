//! The fields from which the records of the list are made.

use crate::draw::Draw;
use crate::field::{Field, Stored, Value};
use crate::function::Input::Given;
use crate::quantity::Quantity;
use crate::random::Random;

/// Of doubles, which are the meanings too.
pub const TAGS: [u8; 7] = [1, 2, 3, 4, 5, 6, 7];

/// The sets of meanings that are neither 9 nor 10.
pub const READINGS: [&[u8]; 20] = [
    &[1],
    &[1, 2],
    &[1, 3],
    &[1, 4],
    &[1, 5],
    &[1, 7],
    &[1, 2, 3],
    &[1, 2, 4],
    &[1, 2, 5],
    &[1, 2, 7],
    &[1, 3, 5],
    &[1, 4, 5],
    &[1, 5, 7],
    &[1, 2, 3, 5],
    &[1, 2, 4, 5],
    &[1, 2, 5, 7],
    &[6],
    &[2, 6],
    &[5, 6],
    &[2, 5, 6],
];

pub fn quantity(tag: u8) -> Quantity {
    match tag {
        1 => Quantity::Altitude,
        2 => Quantity::Celsius,
        3 | 4 | 7 => Quantity::Hectopascals,
        5 => Quantity::Percent,
        6 => Quantity::DensityAltitude,
        _ => unreachable!("a tag of the record"),
    }
}

/// A field for each tag, with a value that is always given.
pub fn drawn(tags: &[u8], draw: Draw, random: &mut Random) -> Vec<Field> {
    let value = |tag: u8, random: &mut Random| draw(Given(quantity(tag)), random);
    let field = |tag: &u8| (*tag, value(*tag, random).expect("a value"));
    tags.iter().map(field).collect()
}

/// As counts, each the nearest to its double.
pub fn in_counts(fields: &[Field]) -> Vec<Stored> {
    let count = |x: f64| Value::Count((x * 1000.0).round() as i32);
    fields
        .iter()
        .map(|(meaning, x)| (*meaning, count(*x)))
        .collect()
}

/// Each as it is or as a count.
pub fn in_either_form(fields: &[Field], random: &mut Random) -> Vec<Stored> {
    let mut stored = in_counts(fields);
    for (place, (_, x)) in stored.iter_mut().zip(fields) {
        if random.next() % 2 == 0 {
            place.1 = Value::Double(*x);
        }
    }
    stored
}

pub fn reversed<T: Copy>(items: &[T]) -> Vec<T> {
    items.iter().rev().copied().collect()
}

pub fn shuffled<T: Copy>(items: &[T], random: &mut Random) -> Vec<T> {
    let mut items = items.to_vec();
    for i in 1..items.len() {
        items.swap(i, random.next() as usize % (i + 1));
    }
    items
}

/// Every order of the items.
pub fn orders<T: Copy>(items: &[T]) -> Vec<Vec<T>> {
    if items.is_empty() {
        return vec![Vec::new()];
    }
    let mut all = Vec::new();
    for i in 0..items.len() {
        let mut rest = items.to_vec();
        let first = rest.remove(i);
        all.extend(
            orders(&rest)
                .into_iter()
                .map(|rest| [&[first], &rest[..]].concat()),
        );
    }
    all
}

/// Every set of tags, the empty one too.
pub fn sets_of_tags() -> impl Iterator<Item = Vec<u8>> {
    (0..1u8 << TAGS.len()).map(|set| {
        let within = |tag: &u8| set >> (tag - 1) & 1 == 1;
        TAGS.into_iter().filter(within).collect()
    })
}
