//! The trim class of a reading, and the smallest single change that gives another: request K9.

use crate::field::{fields, Order};
use crate::refusal::{refused, Refusal};
use crate::ruled::record::{judge, values, Values, MEASURED_PRESSURE, TEMPERATURE};

/// The class is the number of these densities, kg/m³, at or below the reading's.
pub const LIMITS: [f64; 6] = [1.00, 1.05, 1.10, 1.15, 1.20, 1.25];

const MOST_TENTHS: i32 = 200;

/// Where the density stands among the figures.
const DENSITY: usize = 3;

#[derive(Clone, Copy)]
pub struct Trim {
    pub class: i32,
    /// None within 200 tenths.
    pub change: Option<Change>,
}

/// Tenths of a degree or of a hectopascal, by the field's meaning, and the class that they give.
#[derive(Clone, Copy)]
pub struct Change {
    pub meaning: u8,
    pub tenths: i32,
    pub class: i32,
}

/// The record's own refusal, then 22.
pub fn trim(record: &[u8]) -> Result<Trim, Refusal> {
    let reading = values(fields(record, Order::Any)?);
    let class = class(&reading)?;
    if ![TEMPERATURE, MEASURED_PRESSURE]
        .iter()
        .all(|meaning| reading.contains_key(meaning))
    {
        return refused(22, &[]);
    }
    let change = changes().find_map(|(meaning, tenths)| {
        let new_class = class_after(&reading, meaning, tenths)?;
        (new_class != class).then_some(Change {
            meaning,
            tenths,
            class: new_class,
        })
    });
    Ok(Trim { class, change })
}

fn class(reading: &Values) -> Result<i32, Refusal> {
    let density = judge(reading)?.figures[DENSITY];
    Ok(LIMITS.iter().filter(|limit| **limit <= density).count() as i32)
}

/// All 800, in the order of trial.
fn changes() -> impl Iterator<Item = (u8, i32)> {
    (1..=MOST_TENTHS).flat_map(|k| {
        [
            (TEMPERATURE, k),
            (TEMPERATURE, -k),
            (MEASURED_PRESSURE, k),
            (MEASURED_PRESSURE, -k),
        ]
    })
}

/// None where the changed reading is refused.
fn class_after(reading: &Values, meaning: u8, tenths: i32) -> Option<i32> {
    let mut changed = reading.clone();
    *changed.get_mut(&meaning)? += f64::from(tenths) / 10.0;
    class(&changed).ok()
}
