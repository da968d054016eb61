//! The quantities that the functions take: document 01's ranges, wider ones, and edges.

use crate::function::named;
use crate::ruled::station::FUNCTIONS;

#[derive(Clone, Copy)]
pub enum Quantity {
    Altitude,
    DensityAltitude,
    Celsius,
    Fahrenheit,
    Kelvin,
    Hectopascals,
    Pascals,
    Percent,
    /// The saturation pressure, which the source has in hectopascals.
    VaporHectopascals,
    EnhancementFactor,
    MoleFraction,
    /// A density over that of standard air at sea level.
    DensityRatio,
}

impl Quantity {
    /// Document 01's range, or what follows from it. No density in it is as thin as
    /// `standard_altitude_above_tropopause_m` takes, so density ratios have the layers' own range.
    pub fn range(self) -> (f64, f64) {
        match self {
            Self::Altitude | Self::DensityAltitude => (-500.0, 5000.0),
            Self::Celsius => (-40.0, 50.0),
            Self::Fahrenheit => (-40.0, 122.0),
            Self::Kelvin => (233.15, 323.15),
            Self::Hectopascals => (500.0, 1100.0),
            Self::Pascals => (50_000.0, 110_000.0),
            Self::Percent => (0.0, 100.0),
            Self::VaporHectopascals => (0.1, 124.0),
            Self::EnhancementFactor => (1.002, 1.006),
            Self::MoleFraction => (0.0, 0.25),
            Self::DensityRatio => (0.000_01, 0.297),
        }
    }

    /// What still says something about air, and what lies around it.
    pub fn wide_range(self) -> (f64, f64) {
        match self {
            Self::Altitude => (-6000.0, 90_000.0),
            Self::DensityAltitude => (-50_000.0, 80_000.0),
            Self::Celsius => (-300.0, 1000.0),
            Self::Fahrenheit => (-500.0, 1000.0),
            Self::Kelvin => (-10.0, 1000.0),
            Self::Hectopascals => (-1.0, 3000.0),
            Self::Pascals => (-100.0, 300_000.0),
            Self::Percent => (-20.0, 120.0),
            Self::VaporHectopascals => (-1.0, 230_000.0),
            Self::EnhancementFactor => (-1.0, 3.0),
            Self::MoleFraction => (-0.5, 2.0),
            Self::DensityRatio => (-0.000_1, 0.4),
        }
    }

    /// Where the source's cases part or its formulas end, and the ends of all doubles.
    pub fn edges(self) -> Vec<f64> {
        let mut edges = vec![
            0.0,
            -0.0,
            5e-324,
            -5e-324,
            f64::MIN_POSITIVE,
            -1.0,
            1e300,
            f64::MAX,
            f64::MIN,
        ];
        edges.extend(NOT_FINITE.map(f64::from_bits));
        let (low, high) = self.range();
        edges.extend([low, high]);
        match self {
            Self::Altitude => {
                edges.extend([10.0, 100.0, 150.0, 1500.0, 11_000.0]);
                // the resolvers' metre, the clamps, the pole of the geopotential height
                for x in [1.0, -1.0, -5000.0, 84_000.0, -6_356_766.0] {
                    edges.extend(near(x, 1));
                }
                let height = named(&FUNCTIONS, "geometric_to_geopotential_height_m");
                for base in [
                    -5000.0, 11_000.0, 20_000.0, 32_000.0, 47_000.0, 51_000.0, 71_000.0,
                ] {
                    let (_, reached) = edge(-6000.0, 84_000.0, |x| height.value(&[x]) < base);
                    edges.extend(near(reached, 1));
                }
            }
            Self::DensityAltitude => {
                edges.extend([1.0, 3000.0, 44_283.0, 44_284.0, 54_852.0, 54_853.0]);
                edges.extend(near(145_366.45 * 0.3048, 2));
            }
            Self::Celsius => {
                edges.extend([1.0, 15.0, 15.1, 27.0, 200.0]);
                edges.extend(near(-273.15, 1));
                for kelvin in [173.15, 647.096] {
                    let (_, reached) = edge(-300.0, 1000.0, |x| x + 273.15 < kelvin);
                    edges.extend(near(reached, 2));
                }
                for side in [14.9, 15.1] {
                    edges.extend(near(side, 1));
                }
            }
            Self::Fahrenheit => edges.extend([1.0, 32.0, 59.0, -459.67]),
            Self::Kelvin => {
                edges.extend([1.0, 273.15, 273.16, 288.15, 373.1243, 500.0]);
                for kelvin in [173.15, 647.096] {
                    edges.extend(near(kelvin, 2));
                }
            }
            Self::Hectopascals => {
                edges.extend([1.0, 1013.0]);
                for x in [1012.75, 1013.25, 1013.75, f64::MIN_POSITIVE / 100.0] {
                    edges.extend(near(x, 1));
                }
            }
            Self::Pascals => {
                edges.extend([100.0, 101_325.0, 22_632.1]);
                edges.extend(near(f64::MIN_POSITIVE, 1));
            }
            Self::Percent => {
                edges.extend([1.0, 50.0, 101.0]);
                edges.extend(near(100.0, 1));
            }
            Self::VaporHectopascals => edges.extend([6.11657, 1013.25, 220_640.0]),
            Self::EnhancementFactor | Self::MoleFraction | Self::DensityRatio => {
                edges.extend(near(1.0, 1))
            }
        }
        edges
    }
}

/// The infinities, and NaNs of several patterns.
const NOT_FINITE: [u64; 5] = [
    0x7FF0_0000_0000_0000,
    0xFFF0_0000_0000_0000,
    0x7FF8_0000_0000_0000,
    0x7FF0_0000_0000_0001,
    0xFFFF_FFFF_FFFF_FFFF,
];

/// x and its `n` neighbours to either side.
pub fn near(x: f64, n: usize) -> Vec<f64> {
    let mut xs = vec![x];
    for _ in 0..n {
        xs.insert(0, xs[0].next_down());
        xs.push(xs[xs.len() - 1].next_up());
    }
    xs
}

/// Two neighbours, from `low` to `high`, of which the first has the property and the second has not.
pub fn edge(low: f64, high: f64, has: impl Fn(f64) -> bool) -> (f64, f64) {
    let (mut low, mut high) = (place(low), place(high));
    assert!(has(at_place(low)) && !has(at_place(high)));
    loop {
        let middle = i64::midpoint(low, high);
        if middle == low || middle == high {
            return (at_place(low), at_place(high));
        }
        if has(at_place(middle)) {
            low = middle;
        } else {
            high = middle;
        }
    }
}

/// A double's place in the order of all: the number of doubles between it and 0, with its sign.
fn place(x: f64) -> i64 {
    let size = x.abs().to_bits() as i64;
    if x < 0.0 {
        -size
    } else {
        size
    }
}

fn at_place(place: i64) -> f64 {
    let size = f64::from_bits(place.unsigned_abs());
    if place < 0 {
        -size
    } else {
        size
    }
}
