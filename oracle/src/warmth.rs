//! Request K8 by test, on the source with our rules: warmer means lower, the FAA's density altitude never
//! falls with the temperature, and how much a station's altitude falls for a degree.

use crate::draw::{mixed, pattern, usual_or_end, wide, Draw};
use crate::function::Figure::{self, Choice, Feet, Metres, Number};
use crate::function::Input::Given;
use crate::function::{named, Function};
use crate::quantity::Quantity::{self, Celsius, DensityAltitude, Fahrenheit, Hectopascals};
use crate::random::Random;
use crate::ruled::station::FUNCTIONS;

const DRAWS: [(&str, Draw); 4] = [
    ("document 01's ranges", usual_or_end),
    ("wider ranges", wide),
    ("any pattern", pattern),
    ("a mixture", mixed),
];

/// Prints a row for each kind of draw and statement, and says whether all cases hold.
pub fn measure(cases: u64) -> bool {
    let inverse = named(&FUNCTIONS, "station_for_density_altitude");
    let faa = named(&FUNCTIONS, "faa_rule_density_altitude_ft");
    let mut broken = 0;
    for (number, (name, draw)) in DRAWS.iter().enumerate() {
        let mut random = Random(number as u64);
        let mut asked = [0u64; 2];
        for _ in 0..cases / DRAWS.len() as u64 {
            let d = drawn(*draw, DensityAltitude, &mut random);
            let t = rising([(); 3].map(|()| drawn(*draw, Celsius, &mut random)));
            if let Some(held) = t.and_then(|t| warmer_means_lower(inverse, d, t)) {
                asked[0] += 1;
                broken += u64::from(!held);
            }
            let p = drawn(*draw, Hectopascals, &mut random);
            let t = rising([(); 2].map(|()| drawn(*draw, Fahrenheit, &mut random)));
            if let Some(held) = t.and_then(|t| never_falls(faa, p, t)) {
                asked[1] += 1;
                broken += u64::from(!held);
            }
        }
        println!(
            "{name}: {} of the inverse and {} of the FAA's rule ask for something",
            asked[0], asked[1]
        );
    }
    let (least, most) = falls_for_a_degree(inverse, cases / 10);
    println!("a degree lowers the altitude by {least:.4} to {most:.4} m");
    println!("{cases} cases of each, {broken} broken");
    broken == 0
}

fn drawn(draw: Draw, quantity: Quantity, random: &mut Random) -> f64 {
    draw(Given(quantity), random).expect("an input that is always given")
}

/// In rising order; none where one is NaN.
fn rising<const N: usize>(mut t: [f64; N]) -> Option<[f64; N]> {
    if t.iter().any(|x| x.is_nan()) {
        return None;
    }
    t.sort_by(f64::total_cmp);
    Some(t)
}

/// Altitude and pressure, where the answer is a station.
fn accepted(answer: &[Figure]) -> Option<(f64, f64)> {
    match answer[..] {
        [Choice(_, 0), Metres(_, altitude), Number(..), Number(_, pressure)] => {
            Some((altitude, pressure))
        }
        _ => None,
    }
}

/// None where the outer two are not both accepted.
fn warmer_means_lower(inverse: &Function, d: f64, t: [f64; 3]) -> Option<bool> {
    let [cold, middle, warm] = t.map(|t| accepted(&inverse.at(&[d, t])));
    let (cold, warm) = (cold?, warm?);
    Some(middle.is_some_and(|middle| is_lower(cold, middle) && is_lower(middle, warm)))
}

fn is_lower(from: (f64, f64), to: (f64, f64)) -> bool {
    to.0 <= from.0 && from.1 <= to.1
}

/// None where a temperature is not finite, or the pressure is neither finite nor at least 0.
fn never_falls(faa: &Function, p: f64, t: [f64; 2]) -> Option<bool> {
    if !(p.is_finite() && p >= 0.0 && t.iter().all(|x| x.is_finite())) {
        return None;
    }
    match t.map(|t| faa.at(&[p, t])[0]) {
        [Feet(_, cold), Feet(_, warm)] => Some(cold <= warm),
        _ => Some(false),
    }
}

/// The least and the greatest, in document 01's ranges.
fn falls_for_a_degree(inverse: &Function, cases: u64) -> (f64, f64) {
    let mut random = Random(8);
    let (mut least, mut most) = (f64::INFINITY, f64::NEG_INFINITY);
    for _ in 0..cases {
        let d = drawn(usual_or_end, DensityAltitude, &mut random);
        let t = drawn(usual_or_end, Celsius, &mut random).min(49.0);
        let answers = [t, t + 1.0].map(|t| accepted(&inverse.at(&[d, t])));
        if let [Some(cold), Some(warm)] = answers {
            least = least.min(cold.0 - warm.0);
            most = most.max(cold.0 - warm.0);
        }
    }
    (least, most)
}
