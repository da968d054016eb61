//! Holds the crate to the gate's lists: the questions of `crates/ask` and `crates/ask_functions` (docs/ASK.md has their
//! form), and the oracle's answers, byte for byte.

use station_air::atmosphere::*;
use station_air::rules::{antilog, exp, ln, log_word, power, sqrt, LogWord};
use station_air::*;
use std::collections::HashMap;
use std::fs;

const PART: u64 = 1 << 60;

fn double(word: &str) -> f64 {
    f64::from_bits(u64::from_str_radix(word, 16).unwrap())
}

fn given(word: &str) -> Option<f64> {
    (word != "none").then(|| double(word))
}

fn bytes(word: &str) -> Vec<u8> {
    let digits = word.trim_matches('-').as_bytes();
    let pairs = digits
        .chunks(2)
        .map(|pair| std::str::from_utf8(pair).unwrap());
    pairs
        .map(|pair| u8::from_str_radix(pair, 16).unwrap())
        .collect()
}

fn value(x: f64) -> String {
    if x.is_nan() {
        "nan".into()
    } else {
        format!("{:016X}", x.to_bits())
    }
}

fn values(xs: &[f64]) -> String {
    xs.iter().map(|&x| value(x)).collect::<Vec<_>>().join(" ")
}

fn hex(record: &[u8]) -> String {
    match record {
        [] => "-".into(),
        _ => record.iter().map(|byte| format!("{byte:02X}")).collect(),
    }
}

fn option(x: Option<f64>) -> String {
    x.map_or("none".into(), |x| format!("some {}", value(x)))
}

fn refused(refusal: Refusal) -> String {
    format!("refused {}", refusal.number())
}

fn refused_with_values(refusal: Refusal) -> String {
    [refused(refusal), values(&refusal.values())]
        .join(" ")
        .trim_end()
        .into()
}

fn figures(f: Figures) -> String {
    format!(
        "station {}\nair {} {}",
        values(&[f.altitude_m, f.temperature_c, f.pressure_hpa]),
        values(&[
            f.density_kg_m3,
            f.speed_of_sound_mps,
            f.pressure_altitude_m,
            f.density_matched_altitude_m,
            f.vapor_mole_fraction
        ]),
        u8::from(f.in_cipm_range)
    )
}

fn judged(answer: Result<Figures, Refusal>, refused: fn(Refusal) -> String) -> String {
    answer.map_or_else(refused, figures)
}

/// A reader refuses what its judge refuses by 5 to 8 or 19, and nothing else.
fn read_as(
    judged: Result<Figures, Refusal>,
    read: Result<Readings, Refusal>,
) -> Result<Figures, Refusal> {
    let unreadable = judged
        .err()
        .filter(|refusal| matches!(refusal.number(), 5..=8 | 19));
    assert_eq!(read.err(), unreadable);
    judged
}

fn loosely(word: &str) -> Result<Figures, Refusal> {
    let record = bytes(word);
    read_as(judge(&record), read(&record))
}

fn strictly(word: &str) -> Result<Figures, Refusal> {
    let record = bytes(word);
    read_as(judge_strictly(&record), read_strictly(&record))
}

fn voted(words: &[&str]) -> String {
    let [a, b, c] = [0, 1, 2].map(|i| bytes(words[i]));
    match vote([&a, &b, &c]) {
        Ok(f) => figures(f),
        Err(VoteRefusal {
            mast: Some(mast),
            refusal,
        }) => format!("mast {mast} {}", refused(refusal)),
        Err(VoteRefusal {
            mast: None,
            refusal,
        }) => refused(refusal),
    }
}

fn class(record: &[u8]) -> String {
    let trim = match next_trim_class(record) {
        Ok(trim) => trim,
        Err(refusal) => return refused(refusal),
    };
    assert_eq!(
        Ok(trim.class),
        judge(record).map(|figures| trim_class(figures.density_kg_m3))
    );
    let next = trim.next.map_or("none".into(), |next| {
        let reading = match next.changed {
            Changed::Temperature => "temperature",
            Changed::MeasuredPressure => "pressure",
        };
        let way = if next.tenths > 0 { "up" } else { "down" };
        format!("{reading} {way} {} class {}", next.tenths.abs(), next.class)
    });
    format!("class {} {next}", trim.class)
}

fn record(answer: Result<Vec<u8>, Refusal>) -> String {
    answer.map_or_else(refused, |record| {
        format!("{} {}", record.len(), hex(&record))
    })
}

fn written(items: &[&str]) -> String {
    let mut readings = Readings::default();
    for item in items {
        let (tag, data) = item.split_once('=').unwrap();
        let reading = match &tag[..1] {
            "0" => Reading::Double(double(data)),
            _ => Reading::Count(u32::from_str_radix(data, 16).unwrap() as i32),
        };
        *match &tag[1..] {
            "1" => &mut readings.altitude,
            "2" => &mut readings.temperature,
            "3" => &mut readings.station_pressure,
            "4" => &mut readings.qnh,
            "5" => &mut readings.humidity,
            "6" => &mut readings.density_altitude,
            _ => &mut readings.measured_pressure,
        } = Some(reading);
    }
    let written = write(&readings);
    // as text, where a NaN is like a NaN
    assert_eq!(
        format!("{:?}", read(&written)),
        format!("{:?}", Ok::<_, Refusal>(readings))
    );
    record(Ok(written))
}

/// A log word as floor(L / 2^60) and the remainder.
fn floored(word: LogWord) -> String {
    let LogWord {
        negative,
        whole,
        part,
    } = word;
    let (whole, part) = match negative {
        false => (u64::from(whole), part),
        true => (!u64::from(whole), PART - 1 - part),
    };
    format!("{whole:016X} {part:016X}")
}

fn unfloored(whole: &str, part: &str) -> LogWord {
    let [whole, part] = [whole, part].map(|word| u64::from_str_radix(word, 16).unwrap());
    match whole >> 63 {
        0 => LogWord {
            negative: false,
            whole: whole as u32,
            part,
        },
        _ => LogWord {
            negative: true,
            whole: !whole as u32,
            part: PART - 1 - part,
        },
    }
}

fn inverse(answer: Result<(f64, f64, f64), AtmosphereError>) -> String {
    match answer {
        Ok((altitude, temperature, pressure)) => {
            format!("accepted {}", values(&[altitude, temperature, pressure]))
        }
        Err(error) => refused_with_values(error.into()),
    }
}

fn triple((a, b, c): (f64, f64, f64)) -> String {
    values(&[a, b, c])
}

fn compared(answer: StationPressurePlausibility) -> String {
    format!(
        "{} {}",
        values(&[answer.icao_standard_pa, answer.ratio]),
        answer.implausible
    )
}

fn pair((a, b): (f64, f64)) -> String {
    values(&[a, b])
}

/// A report as `ask` answers it, which says of an unreadable record no more than that.
fn reported(record: &[u8]) -> String {
    let report = report(record);
    let first = report.lines().next().unwrap();
    match first {
        "refused 5" | "refused 6" | "refused 7" | "refused 8" => first.into(),
        _ => report.trim_end_matches('\n').into(),
    }
}

/// What the crate answers to a question; none where it has no such function.
fn answer(question: &str) -> Option<String> {
    let words: Vec<&str> = question.split(' ').collect();
    let (name, words) = (words[0], &words[1..]);
    let x = |i: usize| double(words[i]);
    Some(match name {
        "judge" => judged(loosely(words[0]), refused),
        "judge-values" => judged(loosely(words[0]), refused_with_values),
        "strict" => judged(strictly(words[0]), refused),
        "strict-values" => judged(strictly(words[0]), refused_with_values),
        "vote" => voted(words),
        "class" => class(&bytes(words[0])),
        "counts" => record(to_counts(&bytes(words[0]))),
        "doubles" => record(to_doubles(&bytes(words[0]))),
        "write" => written(words),
        "sheet" => setting_sheet(x(0), x(1), x(2))
            .map_or_else(refused, |page| page.trim_end_matches('\n').into()),
        "load" => hex(&load_record(words[0].parse().unwrap())),
        "report" => reported(&bytes(words[0])),
        "power" => value(
            words[0]
                .parse()
                .map_or(f64::NAN, |number| power(x(1), number)),
        ),
        "log_word" => log_word(x(0)).map_or("none".into(), floored),
        "antilog" => value(antilog(unfloored(words[0], words[1]))),
        "exp" => value(exp(x(0))),
        "ln" => value(ln(x(0))),
        "sqrt" => value(sqrt(x(0))),
        "calculate_atmosphere" => pair(calculate_atmosphere(
            x(0),
            given(words[1]),
            given(words[2]),
            x(3),
        )),
        "calculate_icao_standard_atmosphere" => pair(calculate_icao_standard_atmosphere(x(0))),
        "resolve_station_pressure" => option(resolve_station_pressure(x(0), x(1))),
        "resolve_station_temperature" => option(resolve_station_temperature(x(0), x(1))),
        "station_pressure_plausibility" => compared(station_pressure_plausibility(x(0), x(1))),
        "calculate_air_density_cimp" => value(calculate_air_density_cimp(x(0), x(1), x(2))),
        "moist_speed_of_sound" => value(moist_speed_of_sound(x(0), x(1), x(2))),
        "resolve_atmosphere_for_density_altitude" => triple(
            resolve_atmosphere_for_density_altitude(x(0), given(words[1])),
        ),
        "reduce_qnh_to_station_pressure" => value(reduce_qnh_to_station_pressure(x(0), x(1))),
        "water_vapor_mole_fraction_uncapped" => {
            value(water_vapor_mole_fraction_uncapped(x(0), x(1), x(2)))
        }
        "nws_pressure_altitude_ft" => value(nws_pressure_altitude_ft(x(0))),
        "pressure_altitude_m" => value(pressure_altitude_m(x(0))),
        "faa_rule_density_altitude_ft" => value(faa_rule_density_altitude_ft(x(0), x(1))),
        "density_matched_altitude_m" => value(density_matched_altitude_m(x(0), x(1), x(2))),
        "station_for_density_altitude" => {
            inverse(station_for_density_altitude(x(0), given(words[1])))
        }
        _ => return None,
    })
}

/// Asks a program's list up to the first question that begins with `end`; says how often each function was asked.
fn held(program: &str, end: &str) -> HashMap<String, usize> {
    let [questions, answers] = ["stdin", "stdout"].map(|name| {
        let path = format!("{}/../crates/{program}/{name}", env!("CARGO_MANIFEST_DIR"));
        String::from_utf8_lossy(&fs::read(path).expect("the gate's list")).into_owned()
    });
    let mut answers = answers.split('\n');
    let mut asked = HashMap::new();
    for question in questions
        .split('\n')
        .map(|line| line.trim_end_matches('\r'))
    {
        if question.starts_with(end) {
            break;
        }
        let ours = answer(question);
        let lines = ours.iter().flat_map(|text| text.split('\n')).count().max(1);
        let right: Vec<&str> = answers.by_ref().take(lines).collect();
        if let Some(ours) = ours {
            assert_eq!(ours, right.join("\n"), "{question}");
            *asked
                .entry(question.split(' ').next().unwrap().to_string())
                .or_default() += 1;
        }
    }
    asked
}

fn all_asked(asked: HashMap<String, usize>, names: &[&str]) {
    for name in names {
        assert!(
            asked.get(*name).is_some_and(|&times| times >= 100),
            "{name} was hardly asked"
        );
    }
    assert_eq!(asked.len(), names.len());
}

/// The questions of `park` come after all that the crate answers.
#[test]
fn records() {
    all_asked(
        held("ask", "park"),
        &[
            "judge",
            "judge-values",
            "strict",
            "strict-values",
            "vote",
            "class",
            "write",
            "counts",
            "doubles",
            "sheet",
            "load",
            "report",
        ],
    );
}

/// The carriage return ends the last line, which is a question too.
#[test]
fn functions() {
    all_asked(
        held("ask_functions", "\0"),
        &[
            "power",
            "log_word",
            "antilog",
            "exp",
            "ln",
            "sqrt",
            "calculate_atmosphere",
            "calculate_icao_standard_atmosphere",
            "resolve_station_pressure",
            "resolve_station_temperature",
            "station_pressure_plausibility",
            "calculate_air_density_cimp",
            "moist_speed_of_sound",
            "resolve_atmosphere_for_density_altitude",
            "reduce_qnh_to_station_pressure",
            "water_vapor_mole_fraction_uncapped",
            "nws_pressure_altitude_ft",
            "pressure_altitude_m",
            "faa_rule_density_altitude_ft",
            "density_matched_altitude_m",
            "station_for_density_altitude",
        ],
    );
}
