//! Judges the mast record in a file: prints its eight figures and whether they lie in the range of
//! CIPM-2007, or `refused` and the number of the cause. Ends with 0 for figures, 1 for a refusal, 2
//! where there is no file to read.

use station_air::{judge, Figures};
use std::fs::File;
use std::io::{self, Read};
use std::process::ExitCode;

const RECORD_LENGTH: u64 = 256;

type Figure = fn(&Figures) -> f64;

const FIGURES: [(&str, Figure, &str); 8] = [
    ("altitude", |f| f.altitude_m, "m"),
    ("temperature", |f| f.temperature_c, "°C"),
    ("station pressure", |f| f.pressure_hpa, "hPa"),
    ("density", |f| f.density_kg_m3, "kg/m³"),
    ("speed of sound", |f| f.speed_of_sound_mps, "m/s"),
    ("pressure altitude", |f| f.pressure_altitude_m, "m"),
    (
        "density-matched altitude",
        |f| f.density_matched_altitude_m,
        "m",
    ),
    ("vapour mole fraction", |f| f.vapor_mole_fraction, "mol/mol"),
];

fn read(path: &str) -> io::Result<Vec<u8>> {
    let mut record = Vec::new();
    File::open(path)?
        .take(RECORD_LENGTH)
        .read_to_end(&mut record)?;
    Ok(record)
}

fn main() -> ExitCode {
    let arguments: Vec<String> = std::env::args().collect();
    let [program, path] = &arguments[..] else {
        eprintln!("usage: {} RECORD", arguments[0]);
        return ExitCode::from(2);
    };
    let record = match read(path) {
        Ok(record) => record,
        Err(error) => {
            eprintln!("{program}: {path}: {error}");
            return ExitCode::from(2);
        }
    };
    match judge(&record) {
        Ok(figures) => {
            for (name, figure, unit) in FIGURES {
                println!("{name:<25}{:>14.6} {unit}", figure(&figures));
            }
            let range = if figures.in_cipm_range {
                "in"
            } else {
                "outside"
            };
            println!("{range} the range of CIPM-2007");
            ExitCode::SUCCESS
        }
        Err(refusal) => {
            println!("refused {}", refusal.number());
            ExitCode::from(1)
        }
    }
}
