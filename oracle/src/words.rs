//! The words of a question to the program `ask`: a double's pattern and a record's bytes, in hex digits; and lists of questions.

use std::collections::HashSet;
use std::path::Path;
use std::{fs, io};

pub fn double_word(x: f64) -> String {
    format!("{:016X}", x.to_bits())
}

pub fn double_of(word: &str) -> f64 {
    f64::from_bits(number_of(word))
}

pub fn number_of(word: &str) -> u64 {
    u64::from_str_radix(word, 16).expect("hex digits")
}

pub fn hex(bytes: &[u8]) -> String {
    bytes.iter().map(|byte| format!("{byte:02X}")).collect()
}

/// A record's bytes; the empty one is a dash.
pub fn record_word(record: &[u8]) -> String {
    match record {
        [] => "-".into(),
        _ => hex(record),
    }
}

pub fn record_of(word: &str) -> Vec<u8> {
    let byte = |i: usize| u8::from_str_radix(&word[i..i + 2], 16).expect("hex digits");
    match word {
        "-" => Vec::new(),
        _ => (0..word.len()).step_by(2).map(byte).collect(),
    }
}

/// Writes a list of questions, a line each.
pub fn save(folder: &Path, list: &str, questions: &[String]) -> io::Result<()> {
    let text: String = questions.iter().map(|q| format!("{q}\n")).collect();
    fs::write(folder.join(format!("{list}.questions")), text)
}

/// Without those that are there already.
pub fn once(questions: impl Iterator<Item = String>) -> Vec<String> {
    let mut seen = HashSet::new();
    questions.filter(|q| seen.insert(q.clone())).collect()
}
