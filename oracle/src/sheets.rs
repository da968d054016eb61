//! The list `sheets`: setting sheets of parks, and those that are refused.

use crate::function::named;
use crate::quantity::{edge, near};
use crate::random::Random;
use crate::ruled::station::FUNCTIONS;
use crate::sheet::PAGE;
use crate::sheet_call::SheetCall;
use crate::words::{double_word, once, save};
use std::io;
use std::path::Path;

/// Parks that are drawn.
const PARKS: usize = 45;

pub fn write(folder: &Path) -> io::Result<()> {
    let calls = all(&mut Random(1));
    save(folder, "sheets", &once(calls.iter().map(question)))
}

pub fn all(random: &mut Random) -> Vec<SheetCall> {
    let mut all = known();
    all.extend((0..PARKS).map(|_| drawn_park(random)));
    all.extend(refused_inputs());
    all.extend(rooms());
    all.extend(ends_of_air());
    all
}

/// Without the call's room.
fn question(call: &SheetCall) -> String {
    let readings = [call.altitude, call.pressure, call.humidity].map(double_word);
    format!("sheet {}", readings.join(" "))
}

fn sheet(altitude: f64, pressure: f64, humidity: f64) -> SheetCall {
    SheetCall {
        altitude,
        pressure,
        humidity,
        room: PAGE,
    }
}

/// At sea level; readings that a record would take for defaults; extremes.
fn known() -> Vec<SheetCall> {
    let at = |altitude, pressure, humidity| sheet(altitude, pressure, humidity);
    vec![
        at(0.0, 1013.25, 0.0),
        at(0.0, 1013.25, 50.0),
        at(0.0, 1013.25, 100.0),
        at(0.0, 1013.25, -0.0),
        // matched altitudes that round to no metre from below
        at(0.0, 1013.27, 0.0),
        at(5.0, 1013.1, 40.0),
        at(100.0, 1013.0, 0.0),
        at(1586.0, 841.897, 32.0),
        at(-430.0, 1065.0, 20.0),
        at(4300.0, 600.0, 10.0),
        // the altitude only has to be finite
        at(f64::MAX, 900.0, 30.0),
        at(-1e300, 900.0, 30.0),
        // thin and thick air
        at(0.0, 100.0, 50.0),
        at(0.0, 0.04, 0.0),
        at(0.0, 1e-4, 0.0),
        at(0.0, 5e-324, 0.0),
        at(0.0, 20_000.0, 80.0),
    ]
}

/// Whole readings or any doubles, with a page of 1,530 bytes or some more.
pub fn drawn_park(random: &mut Random) -> SheetCall {
    let layers = named(&FUNCTIONS, "calculate_icao_standard_atmosphere");
    let altitude = random.between(-400.0, 4500.0);
    let standard = f64::from_bits(layers.at(&[altitude])[1].word()) / 100.0;
    let pressure = standard + random.between(-40.0, 40.0);
    let humidity = random.between(0.0, 100.0);
    let room = PAGE + (random.next() % 16) as usize;
    let [altitude, pressure, humidity] = match random.next() % 2 {
        0 => [altitude, pressure, humidity].map(f64::round),
        _ => [altitude, pressure, humidity],
    };
    SheetCall {
        room,
        ..sheet(altitude, pressure, humidity)
    }
}

/// Each reading refused, alone, and before the next: altitude, pressure, humidity. The page may be too short.
fn refused_inputs() -> Vec<SheetCall> {
    let nan = f64::NAN;
    let infinite = f64::INFINITY;
    let bad = [
        sheet(nan, 1000.0, 50.0),
        sheet(-infinite, 1000.0, 50.0),
        sheet(nan, -1.0, 101.0),
        sheet(infinite, nan, nan),
        sheet(100.0, nan, 50.0),
        sheet(100.0, infinite, 50.0),
        sheet(100.0, 0.0, 50.0),
        sheet(100.0, -0.0, -1.0),
        sheet(100.0, -1.0, nan),
        sheet(100.0, f64::from_bits(0xFFF0_0000_0000_0001), 101.0),
        sheet(100.0, 1000.0, nan),
        sheet(100.0, 1000.0, infinite),
        sheet(100.0, 1000.0, -5e-324),
        sheet(100.0, 1000.0, 100.0f64.next_up()),
        sheet(100.0, 1e200, 101.0),
    ];
    let rooms = [PAGE - 1, PAGE, PAGE + 1].into_iter().cycle();
    let mut all = bad.to_vec();
    all.extend(
        bad.into_iter()
            .zip(rooms)
            .map(|(call, room)| SheetCall { room, ..call }),
    );
    all
}

/// Pages about 1,530 bytes, and none, for a good sheet and for one that is refused in its last rows.
fn rooms() -> Vec<SheetCall> {
    let mut all = Vec::new();
    for call in [sheet(300.0, 980.0, 60.0), sheet(300.0, 65.0, 100.0)] {
        for room in [0, 1, 30, PAGE - 30, PAGE - 1, PAGE, PAGE + 1, PAGE + 30] {
            all.push(SheetCall { room, ..call });
        }
    }
    all
}

/// Pressures about each change of the status: at the first end the sheet has it, at the second it has another.
/// Air is too humid when it is thin, and too wide for its column when it is thick; the formula's air is thin once
/// more under pressures that there are not, and none beyond.
fn ends_of_air() -> Vec<SheetCall> {
    let mut all = Vec::new();
    for (humidity, ends, status) in [
        (100.0, [1000.0, 50.0], 0),
        (20.0, [1000.0, 1.0], 0),
        (0.0, [1000.0, 90_000.0], 0),
        (100.0, [1000.0, 90_000.0], 0),
        (0.0, [90_000.0, 1e8], 17),
        (0.0, [1e300, 1e8], 15),
        (100.0, [1e300, 1e8], 15),
    ] {
        let at = |pressure: f64| sheet(0.0, pressure, humidity);
        let [has, has_not] = ends;
        let (last, _) = edge(has, has_not, |p| at(p).answer().status == status);
        all.extend(near(last, 1).into_iter().map(at));
    }
    all
}
