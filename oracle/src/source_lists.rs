//! The lists `source_*`: the source's functions.

use crate::draw::{mixed, pattern, usual, wide, Draw};
use crate::edges;
use crate::function::{Function, Inputs};
use crate::random::Random;
use crate::ruled::station::FUNCTIONS;
use crate::words::{double_word, save};
use std::io;
use std::path::Path;

/// Questions of each function that are drawn.
const DRAWN: [(usize, Draw); 4] = [(100, usual), (100, wide), (200, mixed), (50, pattern)];

const LISTS: [&str; 5] = ["layers", "humid", "station", "altitudes", "inverse"];

pub fn write(folder: &Path) -> io::Result<()> {
    for name in LISTS {
        let mut questions = Vec::new();
        for (number, function) in FUNCTIONS.iter().enumerate() {
            if function.list == name {
                let all = all_inputs(function, &mut Random(number as u64));
                questions.extend(all.iter().map(|inputs| question(function, inputs)));
            }
        }
        save(folder, &format!("source_{name}"), &questions)?;
    }
    Ok(())
}

/// The function's name and its inputs.
fn question(function: &Function, inputs: &Inputs) -> String {
    let mut words = vec![function.name.into()];
    words.extend(inputs.iter().map(|x| x.map_or("none".into(), double_word)));
    words.join(" ")
}

fn all_inputs(function: &Function, random: &mut Random) -> Vec<Inputs> {
    let mut all = edge_inputs(function, random);
    for (count, draw) in DRAWN {
        all.extend((0..count).map(|_| drawn(function, draw, random)));
    }
    all
}

/// The edges of the function and of each quantity that it takes, and pairs of special inputs.
pub fn edge_inputs(function: &Function, random: &mut Random) -> Vec<Inputs> {
    let mut all = edges::edges(function.name);
    for (i, input) in function.inputs.iter().enumerate() {
        for x in input.quantity().edges() {
            let mut inputs = drawn(function, usual, random);
            inputs[i] = Some(x);
            all.push(inputs);
        }
    }
    all.extend(pairs_of_specials(function, random));
    all
}

/// Each two inputs together zero, infinite, negative or NaN.
fn pairs_of_specials(function: &Function, random: &mut Random) -> Vec<Inputs> {
    let specials = [
        0.0,
        -0.0,
        f64::INFINITY,
        f64::NEG_INFINITY,
        -300.0,
        f64::NAN,
    ];
    let mut all = Vec::new();
    for j in 0..function.inputs.len() {
        for i in 0..j {
            for x in specials {
                for y in specials {
                    let mut inputs = drawn(function, usual, random);
                    (inputs[i], inputs[j]) = (Some(x), Some(y));
                    all.push(inputs);
                }
            }
        }
    }
    all
}

pub fn drawn(function: &Function, draw: Draw, random: &mut Random) -> Inputs {
    function.inputs.iter().map(|i| draw(*i, random)).collect()
}
