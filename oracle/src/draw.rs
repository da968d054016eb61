//! Inputs drawn at random. What may be missing is so half of the time, unless any pattern will do.

use crate::function::Input;
use crate::random::Random;

pub type Draw = fn(Input, &mut Random) -> Option<f64>;

/// In document 01's range.
pub fn usual(input: Input, random: &mut Random) -> Option<f64> {
    between(input, input.quantity().range(), random)
}

pub fn wide(input: Input, random: &mut Random) -> Option<f64> {
    between(input, input.quantity().wide_range(), random)
}

/// Any bit pattern.
pub fn pattern(_: Input, random: &mut Random) -> Option<f64> {
    Some(f64::from_bits(random.next()))
}

/// In document 01's range, each of its ends once in sixteen times.
pub fn usual_or_end(input: Input, random: &mut Random) -> Option<f64> {
    let (low, high) = input.quantity().range();
    match random.next() % 16 {
        0 => Some(low),
        1 => Some(high),
        _ => usual(input, random),
    }
}

/// Any of the above, or an edge.
pub fn mixed(input: Input, random: &mut Random) -> Option<f64> {
    match random.next() % 8 {
        0 => pattern(input, random),
        1 => {
            let edges = input.quantity().edges();
            Some(edges[random.next() as usize % edges.len()])
        }
        2..=4 => wide(input, random),
        _ => usual_or_end(input, random),
    }
}

fn between(input: Input, (low, high): (f64, f64), random: &mut Random) -> Option<f64> {
    let x = random.between(low, high);
    match input {
        Input::Maybe(_) if random.next() % 2 == 0 => None,
        _ => Some(x),
    }
}
