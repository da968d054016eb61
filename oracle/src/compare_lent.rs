//! Lent arrays by their length: one with too few places gets status 255 and is left as it was, and so is the mark;
//! in any other, and behind it, the places past the answer are.

use crate::buffer::filled;
use crate::compare_row::{Hex, Row};
use crate::exports;
use crate::field::record;
use crate::sheet::PAGE;

const TOO_SHORT: u64 = 255;

/// The array before a call. A call is lent the first places of it.
const UNTOUCHED: [f64; 9] = [-1.5; 9];

/// A call's name.
struct Name(&'static str);

impl Hex for Name {
    fn hex(&self) -> String {
        self.0.to_string()
    }
}

/// Every length, for calls that are accepted and refused.
pub fn row() -> Row {
    let mut row = Row::new("lent arrays of 0 to 8 places");
    let mut check = |name, needs: usize, call: &dyn Fn(&mut [f64], &mut bool) -> u32| {
        let words = |status: u64, mark: bool, places: [f64; UNTOUCHED.len()]| {
            [&[status, mark.into()], &places.map(f64::to_bits)[..]].concat()
        };
        for before in [false, true] {
            let answer = |length: usize| {
                let (mut places, mut mark) = (UNTOUCHED, before);
                let status = call(&mut places[..length], &mut mark);
                words(status.into(), mark, places)
            };
            let too_short = words(TOO_SHORT, before, UNTOUCHED);
            let whole = answer(UNTOUCHED.len());
            for length in 0..UNTOUCHED.len() {
                let expected = if length < needs { &too_short } else { &whole };
                row.call(&Name(name), &answer(length), expected);
            }
        }
    };
    check("standard_atmosphere", 2, &|lent, _| {
        exports::standard_atmosphere(0.0, lent)
    });
    for given in [None, Some(20.0)] {
        check("calculate_atmosphere", 2, &|lent, _| {
            exports::calculate_atmosphere(0.0, given, given, 50.0, lent)
        });
    }
    for (d, t) in [
        (0.0, None),
        (0.0, Some(15.0)),
        (f64::NAN, None),
        (0.0, Some(f64::NAN)),
        (0.0, Some(-300.0)),
        (1e5, None),
    ] {
        check("for_density_altitude", 3, &|lent, _| {
            exports::for_density_altitude(d, t, lent)
        });
    }
    check("resolve_atmosphere_for_density_altitude", 3, &|lent, _| {
        exports::resolve_atmosphere_for_density_altitude(0.0, None, lent)
    });
    check("station_pressure_plausibility", 2, &|lent, mark| {
        exports::station_pressure_plausibility(101_325.0, 3000.0, lent, mark)
    });
    for (altitude, room) in [(0.0, PAGE), (f64::NAN, PAGE), (0.0, 0)] {
        check("setting_sheet", 1, &|lent, _| {
            exports::setting_sheet(altitude, 1000.0, 50.0, &mut filled(room), lent)
        });
    }
    for bytes in [
        record(&[(1, 0.0)]),
        record(&[(1, 1000.0)]),
        record(&[(1, 0.0), (2, 20.0), (7, 1000.0)]),
        record(&[(6, 0.0)]),
        record(&[(6, 1e5)]),
        record(&[(5, 50.0), (6, 0.0)]),
        record(&[(6, 0.0), (5, 101.0)]),
        record(&[(1, f64::NAN)]),
        vec![8, 0, 8],
        vec![],
    ] {
        check("judge", 8, &|lent, mark| exports::judge(&bytes, lent, mark));
        check("judge_strictly", 8, &|lent, mark| {
            exports::judge_strictly(&bytes, lent, mark)
        });
        check("next_trim_class", 2, &|lent, _| {
            exports::next_trim_class(&bytes, lent, &mut [0; 4])
        });
        let masts = [(); 3].map(|()| bytes.clone());
        check("vote", 8, &|lent, mark| {
            exports::vote(&masts, lent, mark, &mut 0)
        });
    }
    row
}
