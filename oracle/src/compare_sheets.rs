//! The setting sheet against that of `sheet.rs`.

use crate::buffer::filled;
use crate::compare_row::{compare, expected, lent, Answer, Hex, Row};
use crate::draw::{mixed, pattern, usual_or_end, wide};
use crate::exports;
use crate::function::Input::Given;
use crate::quantity::Quantity::{Altitude, Hectopascals, Percent};
use crate::random::Random;
use crate::sheet::PAGE;
use crate::sheet_call::{Sheet, SheetCall};
use crate::sheets::{all, drawn_park};

impl Hex for SheetCall {
    fn hex(&self) -> String {
        let readings = [self.altitude, self.pressure, self.humidity];
        format!(
            "{}, page {}",
            readings.map(|x| x.hex()).join(" "),
            self.room
        )
    }
}

pub fn row(calls: u64) -> Row {
    let random = &mut Random(0);
    let edges = all(random);
    let draw = |turn| drawn_call(turn, random);
    compare("setting_sheet", calls, edges, draw, ours, theirs)
}

/// Half of them parks, the rest of the other kinds of draw.
fn drawn_call(turn: u64, random: &mut Random) -> SheetCall {
    let draw = match turn % 8 {
        0..=3 => return drawn_park(random),
        4 => usual_or_end,
        5 => wide,
        6 => mixed,
        _ => pattern,
    };
    let mut reading = |quantity| draw(Given(quantity), random).expect("a reading");
    SheetCall {
        altitude: reading(Altitude),
        pressure: reading(Hectopascals),
        humidity: reading(Percent),
        room: PAGE + 2 - (random.next() % 8 / 5) as usize,
    }
}

fn ours(call: &SheetCall) -> Answer {
    let mut page = filled(call.room);
    let SheetCall {
        altitude,
        pressure,
        humidity,
        ..
    } = *call;
    let answer =
        lent(|places| exports::setting_sheet(altitude, pressure, humidity, &mut page, places));
    with_page(answer, &page)
}

fn theirs(call: &SheetCall) -> Answer {
    let Sheet {
        status,
        values,
        page,
    } = call.answer();
    with_page(expected(status, &values), &page)
}

fn with_page(mut answer: Answer, page: &[u8]) -> Answer {
    answer.extend(page.iter().map(|byte| u64::from(*byte)));
    answer
}
