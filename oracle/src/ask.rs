//! Answers questions, a line each, as the program `ask` does: `oracle ask`. They have to be understood, and neither
//! `root`, `report` nor `park`: those, and what is said of the others, are `vectors/ask.py`'s.

use crate::conversion::{convert, Target};
use crate::decimal::{decimal, MOST_DECIMALS};
use crate::exponents::EXPONENTS;
use crate::field::{Stored, Value};
use crate::function::{named, Figure, Function, Inputs};
use crate::load;
use crate::places::places;
use crate::records::text;
use crate::refusal::Refusal;
use crate::ruled::record::{read, read_strictly, Outcome, TEMPERATURE};
use crate::ruled::station::FUNCTIONS;
use crate::rules;
use crate::sheet::{self, PAGE};
use crate::trim::{trim, Change, Trim};
use crate::vote::vote;
use crate::words::{double_of, double_word, number_of, record_of, record_word};
use crate::writer::{self, Entries};
use std::io::{self, BufRead, Write};

/// More than any record needs.
const ROOM: usize = 80;

pub fn answer_lines(input: impl BufRead, output: impl Write) -> io::Result<()> {
    let mut output = io::BufWriter::new(output);
    for line in input.lines() {
        output.write_all(answer(&line?).as_bytes())?;
    }
    output.flush()
}

fn answer(question: &str) -> String {
    let words: Vec<&str> = question.split(' ').collect();
    let of = |i: usize| double_of(words[i + 1]);
    match (words[0], &words[1..]) {
        ("judge", [record]) => text(&read(&record_of(record))),
        ("strict", [record]) => text(&read_strictly(&record_of(record))),
        ("judge-values", [record]) => text_with_values(&read(&record_of(record))),
        ("strict-values", [record]) => text_with_values(&read_strictly(&record_of(record))),
        ("vote", [first, second, third]) => voted([first, second, third].map(|r| record_of(r))),
        ("class", [record]) => classed(trim(&record_of(record))),
        ("counts", [record]) => converted(record, Target::Counts),
        ("doubles", [record]) => converted(record, Target::Doubles),
        ("write", items) => written(items),
        ("sheet", [_, _, _]) => sheet_rows(of(0), of(1), of(2)),
        ("load", [number]) => line(&record_word(&load::record(decimal_number(number)))),
        ("log_word", [_]) => match rules::log_word(places(), of(0)) {
            Some(l) => line(&whole_and_fraction(l)),
            None => line("none"),
        },
        ("antilog", [whole, fraction]) => {
            let p =
                (i128::from(number_of(whole) as i64) << places()) + i128::from(number_of(fraction));
            line(&shown(rules::antilog(places(), p)))
        }
        ("power", [number, _]) => {
            let exponent = EXPONENTS.get(decimal_number(number) as usize);
            line(&shown(
                exponent.map_or(f64::NAN, |q| rules::power(places(), of(1), *q)),
            ))
        }
        ("exp", [_]) => line(&shown(rules::exp(places(), of(0)))),
        ("ln", [_]) => line(&shown(rules::ln(places(), of(0)))),
        ("sqrt", [_]) => line(&shown(rules::sqrt(of(0)))),
        ("decimal", [decimals, _]) => {
            let decimals = decimal_number(decimals).min(MOST_DECIMALS as u64);
            let text = decimal(of(1), decimals as usize);
            line(text.as_deref().unwrap_or("none"))
        }
        (name, inputs) => called(named(&FUNCTIONS, name), inputs),
    }
}

fn decimal_number(word: &str) -> u64 {
    word.parse().expect("a number")
}

fn line(text: &str) -> String {
    format!("{text}\n")
}

/// A double of an answer.
fn shown(x: f64) -> String {
    if x.is_nan() {
        "nan".into()
    } else {
        double_word(x)
    }
}

fn all_shown(values: &[f64]) -> String {
    let values: Vec<String> = values.iter().map(|x| shown(*x)).collect();
    values.join(" ")
}

/// floor(p / 2^places) in two's complement, and the remainder.
fn whole_and_fraction(p: i128) -> String {
    let fraction = p as u64 & ((1 << places()) - 1);
    format!("{:016X} {fraction:016X}", (p >> places()) as u64)
}

fn refused(refusal: &Refusal) -> String {
    line(&format!("refused {}", refusal.number))
}

/// The number and the values that it hands out.
fn refused_with_values(Refusal { number, values }: &Refusal) -> String {
    let values: String = values.iter().map(|x| format!(" {}", shown(*x))).collect();
    line(&format!("refused {number}{values}"))
}

fn text_with_values(outcome: &Outcome) -> String {
    match outcome {
        Ok(_) => text(outcome),
        Err(refusal) => refused_with_values(refusal),
    }
}

fn voted(records: [Vec<u8>; 3]) -> String {
    let vote = vote(&records);
    match vote.mast {
        0 => text(&vote.outcome),
        mast => format!("mast {mast} {}", text(&vote.outcome)),
    }
}

fn classed(trim: Result<Trim, Refusal>) -> String {
    match trim {
        Ok(Trim {
            class,
            change: None,
        }) => line(&format!("class {class} none")),
        Ok(Trim {
            class,
            change: Some(change),
        }) => line(&format!("class {class} {}", changed(change))),
        Err(refusal) => refused(&refusal),
    }
}

fn changed(
    Change {
        meaning,
        tenths,
        class,
    }: Change,
) -> String {
    let field = if meaning == TEMPERATURE {
        "temperature"
    } else {
        "pressure"
    };
    let way = if tenths > 0 { "up" } else { "down" };
    format!("{field} {way} {} class {class}", tenths.abs())
}

/// The length and the bytes that a call writes, or its refusal.
fn with_length(call: impl FnOnce(&mut [u8]) -> Result<usize, Refusal>) -> String {
    let mut out = [0; ROOM];
    match call(&mut out) {
        Ok(length) => line(&format!("{length} {}", record_word(&out[..length]))),
        Err(refusal) => refused(&refusal),
    }
}

fn converted(record: &str, target: Target) -> String {
    with_length(|out| convert(&record_of(record), target, out))
}

fn written(items: &[&str]) -> String {
    let mut entries: Entries = [None; 7];
    for item in items {
        let (meaning, value) = entry(item);
        entries[usize::from(meaning) - 1] = Some(value);
    }
    with_length(|out| writer::write(&entries, out))
}

/// TAG=DATA.
fn entry(item: &str) -> Stored {
    let (tag, data) = item.split_once('=').expect("a tag and data");
    let tag = u8::from_str_radix(tag, 16).expect("a tag");
    match tag {
        0x01..=0x07 => (tag, Value::Double(double_of(data))),
        _ => (tag - 0x10, Value::Count(number_of(data) as u32 as i32)),
    }
}

fn sheet_rows(altitude: f64, pressure: f64, humidity: f64) -> String {
    let mut page = [0; PAGE];
    match sheet::write(altitude, pressure, humidity, &mut page) {
        Ok(()) => String::from_utf8(page.to_vec()).expect("rows"),
        Err(refusal) => refused(&refusal),
    }
}

/// A function of the source.
fn called(function: &Function, inputs: &[&str]) -> String {
    let inputs: Inputs = inputs
        .iter()
        .map(|word| (*word != "none").then(|| double_of(word)))
        .collect();
    let figures = (function.answer)(&inputs);
    line(&match function.name {
        "in_legacy_default_pressure_band" | "in_legacy_default_temperature_band" => {
            (figures[0].word() == 1).to_string()
        }
        "resolve_station_pressure" | "resolve_station_temperature" => match figures[0].word() {
            0 => "none".into(),
            _ => format!("some {}", shown(value(figures[1]))),
        },
        "station_for_density_altitude" => station(&figures),
        "station_pressure_plausibility" => {
            let implausible = figures[2].word() == 1;
            format!("{} {implausible}", all_shown(&values(&figures[..2])))
        }
        _ => all_shown(&values(&figures)),
    })
}

fn value(figure: Figure) -> f64 {
    f64::from_bits(figure.word())
}

fn values(figures: &[Figure]) -> Vec<f64> {
    figures.iter().map(|figure| value(*figure)).collect()
}

/// Three figures; or a number, with the refused value, and for 4 the altitude too.
fn station(figures: &[Figure]) -> String {
    match figures[0].word() {
        0 => format!("accepted {}", all_shown(&values(&figures[1..4]))),
        4 => format!("refused 4 {}", all_shown(&values(&figures[1..3]))),
        number => format!("refused {number} {}", shown(value(figures[1]))),
    }
}
