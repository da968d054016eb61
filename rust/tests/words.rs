//! Holds what a refusal displays to the table of docs/RECORD.md and to the library's words, and the crate's version to the
//! header's and the library's.

use station_air::{judge, setting_sheet, to_counts, version, vote, Refusal};
use std::collections::HashMap;
use std::fs;

fn file(name: &str) -> String {
    fs::read_to_string(format!("{}/../{name}", env!("CARGO_MANIFEST_DIR"))).unwrap()
}

#[test]
fn causes() {
    let page = file("docs/RECORD.md");
    let (_, table) = page.split_once("## Refusals").unwrap();
    let rows = table.lines().filter_map(|line| {
        let cells: Vec<&str> = line.split('|').map(str::trim).collect();
        Some((cells.get(1)?.parse::<u32>().ok()?, *cells.get(2)?))
    });
    let causes: HashMap<u32, &str> = rows.collect();
    let all = [
        Refusal::DensityAltitudeNotFinite(0.0),
        Refusal::TemperatureNotFinite(0.0),
        Refusal::TemperatureTooLow(0.0),
        Refusal::NoAir {
            density_altitude_m: 0.0,
            resolved_altitude_m: 0.0,
        },
        Refusal::Cut,
        Refusal::UnknownTag,
        Refusal::WrongLength,
        Refusal::RepeatedTag,
        Refusal::Clash,
        Refusal::NoAltitude,
        Refusal::NotFinite(0.0),
        Refusal::PressureNotPositive(0.0),
        Refusal::HumidityOutOfRange(0.0),
        Refusal::TooMuchVapor,
        Refusal::NotAir,
        Refusal::TooWide,
        Refusal::TagFalls,
        Refusal::NoCount,
        Refusal::FieldNotInAll,
        Refusal::NoReadingToChange,
    ];
    for refusal in all {
        assert_eq!(refusal.to_string(), causes[&refusal.number()]);
        // the table says of some whose refusals they are
        let cause = refusal.to_string().replace("setting sheet: ", "");
        let words = refusal.words();
        let line = words.as_ref().map(|words| words.lines().next().unwrap());
        match refusal.number() {
            1..=17 => assert_eq!(line, Some(&*format!("cause: {cause}"))),
            _ => assert_eq!(line, None),
        }
    }
    // 16 and 18 are about lent memory
    assert_eq!(causes.len(), all.len() + 2);
}

#[test]
fn a_refusal_is_an_error() {
    let errors: [Box<dyn std::error::Error>; 3] = [
        Box::new(judge(&[7, 0, 8]).unwrap_err()),
        Box::new(setting_sheet(0.0, 0.0, 0.0).unwrap_err()),
        Box::new(to_counts(&[8, 0, 8]).unwrap_err()),
    ];
    let words = [
        "header or data cut",
        "a pressure not above 0 hPa",
        "unknown tag",
    ];
    assert_eq!(errors.map(|error| error.to_string()), words);
    let error = vote([&[], &[], &[]]).unwrap_err();
    assert_eq!(
        error.to_string(),
        "mast 1: neither altitude nor density altitude"
    );
}

#[test]
fn versions() {
    assert_eq!(version().to_string(), env!("CARGO_PKG_VERSION_MAJOR"));
    let header = file("include/station_air.h");
    let line = format!(
        "#define STATION_AIR_VERSION {}",
        env!("CARGO_PKG_VERSION_MAJOR")
    );
    assert!(header.lines().any(|other| other == line));
}
