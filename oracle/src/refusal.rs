//! A refusal: its number in the documents' tables, and the values that the table names after it.

#[derive(Debug, PartialEq)]
pub struct Refusal {
    pub number: u64,
    pub values: Vec<f64>,
}

pub fn refused<T>(number: u64, values: &[f64]) -> Result<T, Refusal> {
    let values = values.to_vec();
    Err(Refusal { number, values })
}
