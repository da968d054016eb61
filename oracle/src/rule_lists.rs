//! The lists `rules_*`: the functions by whole numbers, over the whole range.

use crate::exponents::EXPONENTS;
use crate::function::word;
use crate::inputs;
use crate::random::Random;
use crate::rules::sqrt;
use crate::words::{double_word, save};
use std::io;
use std::path::Path;

pub fn write(folder: &Path) -> io::Result<()> {
    let random = &mut Random(0);
    save(
        folder,
        "rules_log",
        &asked("log_word", inputs::positive(random)),
    )?;
    save(folder, "rules_antilog", &antilogs(random))?;
    save(folder, "rules_power", &powers(random))?;
    save(
        folder,
        "rules_exp",
        &asked("exp", inputs::arguments(random)),
    )?;
    save(folder, "rules_ln", &asked("ln", inputs::logarithms(random)))?;
    let squares = inputs::squares(random);
    // Rust's own root is correctly rounded too
    assert!(squares.iter().all(|x| word(sqrt(*x)) == word(x.sqrt())));
    save(folder, "rules_sqrt", &asked("sqrt", squares))
}

fn asked(function: &str, xs: Vec<f64>) -> Vec<String> {
    xs.into_iter()
        .map(|x| format!("{function} {}", double_word(x)))
        .collect()
}

fn antilogs(random: &mut Random) -> Vec<String> {
    inputs::words(random)
        .into_iter()
        .map(|(whole, part)| format!("antilog {whole:016X} {part:016X}"))
        .collect()
}

fn powers(random: &mut Random) -> Vec<String> {
    let question = |number: u64, x: f64| format!("power {number} {}", double_word(x));
    let mut questions = Vec::new();
    for (number, q) in (0..).zip(EXPONENTS) {
        let bases = inputs::bases(q, random);
        questions.extend(bases.into_iter().map(|x| question(number, x)));
    }
    for number in inputs::NO_EXPONENT {
        questions.extend(inputs::WITHOUT_EXPONENT.map(|x| question(number, x)));
    }
    questions
}
