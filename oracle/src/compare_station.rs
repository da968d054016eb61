//! The station functions against those of the source with our rules.

use crate::compare_row::{compare, expected, lent, Answer, Row};
use crate::draw::{mixed, pattern, usual, usual_or_end, wide, Draw};
use crate::exports;
use crate::function::{named, word, Function, Inputs};
use crate::random::Random;
use crate::ruled::station::FUNCTIONS;
use crate::source_lists::{drawn, edge_inputs};

/// They take turns.
const DRAWS: [Draw; 4] = [usual_or_end, wide, pattern, mixed];

pub struct Pair {
    /// The source's name.
    name: &'static str,
    ours: fn(&[Option<f64>]) -> Answer,
    /// The answer of ours that stands for the words of the source's.
    theirs: fn(Vec<u64>) -> Answer,
}

impl Pair {
    pub fn row(&self, calls: u64, seed: u64) -> Row {
        let function = named(&FUNCTIONS, self.name);
        let random = &mut Random(seed);
        let mut edges = edge_inputs(function, random);
        edges.extend(pairs_of_edges(function, random));
        let draw = |turn| drawn(function, DRAWS[turn as usize % DRAWS.len()], random);
        let theirs = |inputs: &Inputs| {
            let figures = (function.answer)(inputs).into_iter();
            (self.theirs)(figures.map(|figure| figure.word()).collect())
        };
        let ours = |inputs: &Inputs| (self.ours)(inputs);
        compare(self.name, calls, edges, draw, ours, theirs)
    }
}

pub const PAIRS: [Pair; 15] = [
    Pair {
        name: "calculate_icao_standard_atmosphere",
        ours: |x| lent(|places| exports::standard_atmosphere(at(x, 0), places)),
        theirs: figures,
    },
    Pair {
        name: "water_vapor_mole_fraction_uncapped",
        ours: |x| {
            number(exports::water_vapor_mole_fraction_uncapped(
                at(x, 0),
                at(x, 1),
                at(x, 2),
            ))
        },
        theirs: same,
    },
    Pair {
        name: "calculate_atmosphere",
        ours: |x| {
            lent(|places| exports::calculate_atmosphere(at(x, 0), x[1], x[2], at(x, 3), places))
        },
        theirs: figures,
    },
    Pair {
        name: "resolve_station_pressure",
        ours: |x| kept(exports::keeps_pressure(at(x, 0), at(x, 1)), at(x, 0)),
        theirs: same,
    },
    Pair {
        name: "resolve_station_temperature",
        ours: |x| kept(exports::keeps_temperature(at(x, 0), at(x, 1)), at(x, 0)),
        theirs: same,
    },
    Pair {
        name: "reduce_qnh_to_station_pressure",
        ours: |x| number(exports::reduced_qnh(at(x, 0), at(x, 1))),
        theirs: same,
    },
    Pair {
        name: "nws_pressure_altitude_ft",
        ours: |x| number(exports::nws_pressure_altitude_ft(at(x, 0))),
        theirs: same,
    },
    Pair {
        name: "pressure_altitude_m",
        ours: |x| number(exports::pressure_altitude_m(at(x, 0))),
        theirs: same,
    },
    Pair {
        name: "faa_rule_density_altitude_ft",
        ours: |x| number(exports::faa_density_altitude_ft(at(x, 0), at(x, 1))),
        theirs: same,
    },
    Pair {
        name: "density_matched_altitude_m",
        ours: |x| {
            number(exports::density_matched_altitude_m(
                at(x, 0),
                at(x, 1),
                at(x, 2),
            ))
        },
        theirs: same,
    },
    Pair {
        name: "calculate_air_density_cimp",
        ours: |x| {
            number(exports::calculate_air_density_cimp(
                at(x, 0),
                at(x, 1),
                at(x, 2),
            ))
        },
        theirs: same,
    },
    Pair {
        name: "moist_speed_of_sound",
        ours: |x| number(exports::moist_speed_of_sound(at(x, 0), at(x, 1), at(x, 2))),
        theirs: same,
    },
    Pair {
        name: "resolve_atmosphere_for_density_altitude",
        ours: |x| {
            lent(|places| exports::resolve_atmosphere_for_density_altitude(at(x, 0), x[1], places))
        },
        theirs: figures,
    },
    Pair {
        name: "station_pressure_plausibility",
        ours: |x| {
            let mut implausible = false;
            let mut answer = lent(|places| {
                exports::station_pressure_plausibility(at(x, 0), at(x, 1), places, &mut implausible)
            });
            answer.push(implausible.into());
            answer
        },
        theirs: |words| {
            let mut answer = figures(words[..2].to_vec());
            answer.push(words[2]);
            answer
        },
    },
    Pair {
        name: "station_for_density_altitude",
        ours: |x| lent(|places| exports::for_density_altitude(at(x, 0), x[1], places)),
        theirs: station,
    },
];

/// Each two inputs together at an edge.
fn pairs_of_edges(function: &Function, random: &mut Random) -> Vec<Inputs> {
    let mut all = Vec::new();
    for j in 0..function.inputs.len() {
        for i in 0..j {
            let ys = function.inputs[j].quantity().edges();
            for x in function.inputs[i].quantity().edges() {
                for y in &ys {
                    let mut inputs = drawn(function, usual, random);
                    (inputs[i], inputs[j]) = (Some(x), Some(*y));
                    all.push(inputs);
                }
            }
        }
    }
    all
}

fn at(x: &[Option<f64>], i: usize) -> f64 {
    x[i].expect("an input that is always given")
}

fn number(x: f64) -> Answer {
    vec![word(x)]
}

/// A reading that is kept is the answer.
fn kept(kept: bool, reading: f64) -> Answer {
    vec![kept.into(), if kept { word(reading) } else { 0 }]
}

fn same(words: Vec<u64>) -> Answer {
    words
}

fn figures(words: Vec<u64>) -> Answer {
    expected(
        0,
        &words.into_iter().map(f64::from_bits).collect::<Vec<_>>(),
    )
}

/// The refusal's number, and as many values as document 01's table names after it.
fn station(words: Vec<u64>) -> Answer {
    let values = match words[0] {
        0 => 3,
        4 => 2,
        _ => 1,
    };
    let values = words[1..=values].iter().map(|w| f64::from_bits(*w));
    expected(words[0], &values.collect::<Vec<_>>())
}
