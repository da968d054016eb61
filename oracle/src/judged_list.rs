//! A list of records that a reader judges, and its answers in words.

use crate::function::word;
use crate::ruled::record::Outcome;
use crate::words::{record_word, save};
use std::collections::{BTreeMap, HashSet};
use std::io;
use std::path::Path;

/// No number is answered less often than this, nor either mark.
const LEAST: usize = 20;

/// How a reader is asked, how it reads, and all numbers that it has.
pub struct Reader {
    pub question: &'static str,
    pub read: fn(&[u8]) -> Outcome,
    pub numbers: &'static [u64],
}

/// Each record once, without the values of a refusal and with them.
pub fn write(folder: &Path, list: &str, records: Vec<Vec<u8>>, reader: Reader) -> io::Result<()> {
    let Reader {
        question,
        read,
        numbers,
    } = reader;
    let mut seen = HashSet::new();
    let mut times: BTreeMap<u64, usize> = numbers.iter().map(|number| (*number, 0)).collect();
    let mut in_range = 0;
    let mut questions = Vec::new();
    for record in records {
        if seen.insert(record.clone()) {
            let outcome = read(&record);
            let words = Words::of(&outcome);
            *times
                .get_mut(&words.number)
                .expect("a number of the reader") += 1;
            in_range += words.mark as usize;
            for question in [question, &format!("{question}-values")] {
                questions.push(format!("{question} {}", record_word(&record)));
            }
        }
    }
    assert!(times.values().all(|n| *n >= LEAST), "{times:?}");
    assert!(
        (LEAST..=times[&0] - LEAST).contains(&in_range),
        "{in_range}"
    );
    save(folder, list, &questions)
}

/// What is answered, in words.
#[derive(PartialEq)]
pub struct Words {
    /// 0, or the refusal's.
    pub number: u64,
    /// Or the refusal's values, and zeros.
    pub figures: [u64; 8],
    /// 0 for a refusal.
    pub mark: u64,
}

impl Words {
    pub fn of(outcome: &Outcome) -> Self {
        let (number, values, in_range) = match outcome {
            Ok(answer) => (0, &answer.figures[..], answer.in_range),
            Err(refusal) => (refusal.number, &refusal.values[..], false),
        };
        let mut figures = [0; 8];
        for (place, value) in figures.iter_mut().zip(values) {
            *place = word(*value);
        }
        Self {
            number,
            figures,
            mark: in_range.into(),
        }
    }
}
