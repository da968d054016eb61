//! How far the source with our rules lies from the stock source, over document 01's ranges: with the 52 places of
//! document 01, and with the 60 of request K10.

use crate::draw::usual_or_end;
use crate::function::Figure::{self, Choice, Feet, Metres, Number};
use crate::function::{Function, Inputs};
use crate::places;
use crate::random::Random;
use crate::{ruled, stock};

/// Document 01's distance: a part of the figure, or metres for an altitude.
const MOST_RELATIVE: f64 = 1e-9;
const MOST_METRES: f64 = 1e-6;

const METRES_PER_FOOT: f64 = 0.3048;

/// A figure where it lies farthest from the stock source's, and how often it is equal.
struct Worst {
    figure: Figure,
    distance: f64,
    inputs: Inputs,
    equal: u64,
}

/// Prints a row for each figure, and says whether all lie within the distance.
pub fn measure(points: u64) -> bool {
    println!(
        "{:<40} {:<12} {:>10}   {:>8} {:>10}   {:>8} at",
        "function", "figure", "52 places", "equal", "60 places", "equal"
    );
    let mut within = true;
    let builds = ruled::station::FUNCTIONS
        .iter()
        .zip(&stock::station::FUNCTIONS);
    for (number, (ours, stock)) in builds.enumerate() {
        let [before, now] = [52, 60].map(|places| {
            places::set(places);
            worst_of(ours, stock, points, &mut Random(number as u64))
        });
        for (before, now) in before.iter().zip(&now) {
            let columns = [before, now].map(|worst| column(worst, points));
            println!(
                "{:<40} {:<12} {} {}",
                ours.name,
                now.figure.name(),
                columns.join(" "),
                place(now)
            );
            within &= is_within(before) && is_within(now);
        }
    }
    let verdict = if within { "all within" } else { "NOT within" };
    println!(
        "{points} points for each function, {verdict} {MOST_RELATIVE:e} and {MOST_METRES:e} m"
    );
    within
}

fn worst_of(ours: &Function, stock: &Function, points: u64, random: &mut Random) -> Vec<Worst> {
    let mut worst: Vec<Worst> = Vec::new();
    for _ in 0..points {
        let inputs: Inputs = ours
            .inputs
            .iter()
            .map(|i| usual_or_end(*i, random))
            .collect();
        let figures = (ours.answer)(&inputs)
            .into_iter()
            .zip((stock.answer)(&inputs));
        for (i, (figure, stock_figure)) in figures.enumerate() {
            let distance = distance(figure, stock_figure);
            if i == worst.len() {
                worst.push(Worst {
                    figure,
                    distance,
                    inputs: inputs.clone(),
                    equal: 0,
                });
            }
            let worst = &mut worst[i];
            worst.equal += u64::from(distance == 0.0);
            if distance > worst.distance {
                (worst.figure, worst.distance) = (figure, distance);
                worst.inputs.clone_from(&inputs);
            }
        }
    }
    worst
}

/// Infinite where the two are not alike.
fn distance(ours: Figure, stock: Figure) -> f64 {
    let distance = match (ours, stock) {
        _ if ours.word() == stock.word() => 0.0,
        (Number(_, x), Number(_, y)) => ((x - y) / y).abs(),
        (Metres(_, x), Metres(_, y)) => (x - y).abs(),
        (Feet(_, x), Feet(_, y)) => (x - y).abs() * METRES_PER_FOOT,
        _ => f64::INFINITY,
    };
    if distance.is_nan() {
        f64::INFINITY
    } else {
        distance
    }
}

fn is_within(worst: &Worst) -> bool {
    match worst.figure {
        Number(..) => worst.distance <= MOST_RELATIVE,
        Metres(..) | Feet(..) => worst.distance <= MOST_METRES,
        Choice(..) => worst.distance == 0.0,
    }
}

/// The distance, and the percentage of figures that are equal.
fn column(worst: &Worst, points: u64) -> String {
    if worst.distance == 0.0 {
        return format!("{:>10}   {:>8}", "equal", "");
    }
    let unit = match worst.figure {
        Metres(..) | Feet(..) => "m",
        Number(..) | Choice(..) => "",
    };
    let equal = 100.0 * worst.equal as f64 / points as f64;
    format!("{:>10.2e} {unit:<1} {equal:>7.3}%", worst.distance)
}

/// Where it lies farthest away.
fn place(worst: &Worst) -> String {
    if worst.distance == 0.0 {
        return String::new();
    }
    let inputs = worst
        .inputs
        .iter()
        .map(|x| x.map_or("none".to_string(), |x| x.to_string()));
    let inputs: Vec<String> = inputs.collect();
    inputs.join(", ")
}
