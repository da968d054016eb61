//! One function of the library beside its counterpart: calls, differences, and the first of them.

use crate::function::{word, Inputs};
use crate::words::hex;

/// What a function is called with, as hex digits.
pub trait Hex {
    fn hex(&self) -> String;
}

impl Hex for f64 {
    fn hex(&self) -> String {
        format!("{:016x}", self.to_bits())
    }
}

impl Hex for Inputs {
    fn hex(&self) -> String {
        let shown = self.iter().map(|x| x.map_or("none".into(), |x| x.hex()));
        shown.collect::<Vec<String>>().join(" ")
    }
}

impl Hex for Vec<u8> {
    fn hex(&self) -> String {
        hex(self)
    }
}

/// An answer in words, all NaNs of one pattern.
pub type Answer = Vec<u64>;

/// What a lent array holds before a call. No answer has it.
const UNTOUCHED: f64 = 1.234_567_890_123_456_7e-89;

/// More places than any function writes.
const PLACES: usize = 9;

/// The status of a call with a lent array, and what the array holds after it.
pub fn lent(call: impl FnOnce(&mut [f64]) -> u32) -> Answer {
    let mut lent = [UNTOUCHED; PLACES];
    let status = call(&mut lent);
    with_status(status.into(), &lent)
}

/// The status and the array of a function that answers with these values.
pub fn expected(status: u64, values: &[f64]) -> Answer {
    let mut lent = [UNTOUCHED; PLACES];
    lent[..values.len()].copy_from_slice(values);
    with_status(status, &lent)
}

fn with_status(status: u64, lent: &[f64]) -> Answer {
    let mut answer = vec![status];
    answer.extend(lent.iter().map(|x| word(*x)));
    answer
}

/// Calls after which a line on standard error says how far it is.
const PROGRESS: u64 = 100_000;

pub struct Row {
    pub name: &'static str,
    pub calls: u64,
    pub differences: u64,
    /// Inputs, our answer and the counterpart's.
    pub first: Option<[String; 3]>,
}

impl Row {
    pub fn new(name: &'static str) -> Self {
        Self {
            name,
            calls: 0,
            differences: 0,
            first: None,
        }
    }

    pub fn call(&mut self, inputs: &impl Hex, ours: &[u64], theirs: &[u64]) {
        self.calls += 1;
        if self.calls % PROGRESS == 0 {
            eprintln!("{:>9} {}", self.calls, self.name);
        }
        if ours != theirs {
            self.differences += 1;
            let words = |answer: &[u64]| {
                let words: Vec<String> = answer.iter().map(|w| format!("{w:016x}")).collect();
                words.join(" ")
            };
            self.first
                .get_or_insert_with(|| [inputs.hex(), words(ours), words(theirs)]);
        }
    }
}

/// Compares at every edge, then at what is drawn, until there are as many calls. The draw is handed the turn's
/// number, so that the kinds of draws take turns.
pub fn compare<I: Hex>(
    name: &'static str,
    calls: u64,
    edges: impl IntoIterator<Item = I>,
    mut draw: impl FnMut(u64) -> I,
    ours: impl Fn(&I) -> Answer,
    mut theirs: impl FnMut(&I) -> Answer,
) -> Row {
    let mut row = Row::new(name);
    for inputs in edges {
        row.call(&inputs, &ours(&inputs), &theirs(&inputs));
    }
    for turn in row.calls..calls {
        let inputs = draw(turn);
        row.call(&inputs, &ours(&inputs), &theirs(&inputs));
    }
    row
}
