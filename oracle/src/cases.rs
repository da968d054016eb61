//! Document 01's own cases of its rules, its "Corners in src/atmosphere.rs", held against a build of the source, and
//! the examples of records in documents 01 and 02, held against the reader.

use crate::draw::mixed;
use crate::exponents::EXPONENTS;
use crate::field::{record, Field};
use crate::function::{named, word, Function};
use crate::load;
use crate::random::Random;
use crate::record_values::{AS_MEASURED, AS_STATION_PRESSURE, HOT_HUMID_AIR};
use crate::records::number;
use crate::ruled::density_vapor::arguments;
use crate::ruled::record::{read, Figures};
use crate::ruled::station::FUNCTIONS;
use crate::ruled::{resolve_station_conditions_with_pressure_mode, PressureReferenceMode};
use crate::rules::{antilog_root, log_word, power};
use crate::sheet;

/// Document 01's, which document 02 scales.
pub fn hold_rules() {
    for places in [52, 60] {
        assert_eq!(log_word(places, 1.0), Some(0));
        assert_eq!(log_word(places, 8.0), Some(3 << places));
        assert_eq!(log_word(places, 0.5), Some(-1 << places));
        let half = 1 << (places - 1);
        assert_eq!(antilog_root(places, half), 0x5A82_7999_FCEF_3242);
        assert!(EXPONENTS.iter().all(|q| power(places, 1.0, *q) == 1.0));
    }
    assert_eq!(log_word(52, 1.0 + f64::EPSILON), Some(1));
}

pub fn hold(functions: &[Function]) {
    let at = |name: &str, inputs: &[f64]| -> Vec<u64> {
        let figures = named(functions, name).at(inputs);
        figures.into_iter().map(|figure| figure.word()).collect()
    };
    let value = |name: &str, inputs: &[f64]| named(functions, name).value(inputs);
    let words = |figures: &[f64]| -> Vec<u64> { figures.iter().map(|x| x.to_bits()).collect() };

    let standard = |h: f64| at("calculate_icao_standard_atmosphere", &[h]);
    let standard_temperature = |h: f64| f64::from_bits(standard(h)[0]);
    assert_eq!(standard(0.0), words(&[288.15, 101_325.0]));
    assert_eq!(standard(f64::NAN), words(&[f64::NAN, f64::NAN]));
    assert_eq!(standard_temperature(-5000.0), 288.15 + -0.0065 * -5000.0);
    assert_eq!(standard_temperature(-1e9), standard_temperature(-5000.0));
    assert!(standard_temperature(11_000.0) > 216.65);
    let height = |h: f64| value("geometric_to_geopotential_height_m", &[h]);
    assert!((height(-5000.0) + 5003.9).abs() < 0.05);
    assert!((height(11_000.0) - 10_981.0).abs() < 0.5);

    let pressure = |p: f64, h: f64| at("resolve_station_pressure", &[p, h]);
    assert_eq!(pressure(1013.0, 100.0), [0, 0]);
    assert_eq!(pressure(1012.75, 100.0), [1, 1012.75f64.to_bits()]);
    assert_eq!(pressure(1013.25, 1.0), [1, 1013.25f64.to_bits()]);
    assert_eq!(at("resolve_station_temperature", &[15.1, 100.0]), [0, 0]);
    assert_eq!(
        value("reduce_qnh_to_station_pressure", &[1013.25, 0.0]),
        1013.25
    );

    // the source's own figures of its plausible station pressures
    let implausible = |p: f64, h: f64| at("station_pressure_plausibility", &[p, h])[2] == 1;
    let ratio = at("station_pressure_plausibility", &[101_325.0, 3310.128])[1];
    assert!((f64::from_bits(ratio) - 1.503).abs() < 5e-4 && implausible(101_325.0, 3310.128));
    assert!(!implausible(101_325.0, 640.0) && implausible(101_325.0, 650.0));
    assert!(!implausible(86_126.25, 0.0) && implausible(86_126.2, 0.0));
    assert!(!implausible(109_431.0, 0.0) && implausible(109_431.1, 0.0));
    assert!(implausible(f64::NAN, 0.0) && implausible(101_325.0, f64::NAN));

    assert!((value("pressure_altitude_m", &[0.0]) - 178_325.0).abs() < 0.5);
    assert!(value("pressure_altitude_m", &[-1.0]).is_nan());

    let density = |t: f64, h: f64| value("calculate_air_density_cimp", &[t, 1013.25, h]);
    assert!(density(374.0, 0.0) > 0.0 && density(374.0, -0.0) > 0.0);
    assert!(density(374.0, 1.0).is_nan());
    let air = |h: f64| at("calculate_atmosphere", &[h, 20.0, 1000.0, 50.0]);
    assert_eq!(air(0.0), air(f64::NAN));

    let station = named(functions, "station_for_density_altitude");
    let refusal = |d: f64, t: Option<f64>| (station.answer)(&[Some(d), t])[0].word();
    let figures = |d: f64, t: Option<f64>| -> Vec<u64> {
        let answer = (station.answer)(&[Some(d), t]);
        answer.into_iter().map(|figure| figure.word()).collect()
    };
    let sea_level = words(&[0.0, 0.0, 15.0, 1013.25]);
    assert_eq!(figures(0.0, None), sea_level);
    assert_eq!(figures(0.0, Some(15.0)), sea_level);
    assert_eq!((refusal(44_283.0, None), refusal(44_284.0, None)), (0, 4));
    assert_eq!(refusal(54_852.0, Some(15.0)), 0);
    assert_eq!(refusal(54_853.0, Some(15.0)), 4);
    assert_eq!(refusal(0.0, Some(-273.15)), 3);
    let next = (-273.15f64).next_up();
    assert_eq!(refusal(0.0, Some(next)), 0);
    assert_eq!(figures(0.0, Some(next))[2], next.to_bits());
    assert_eq!(refusal(f64::NAN, Some(f64::NAN)), 1);
}

pub fn hold_reader() {
    assert_eq!(number(&[0x07, 0x00, 0x08]), 5);
    assert_eq!(number(&[0x08, 0x00, 0x08]), 6);
    assert_eq!(number(&[]), 10);
    assert_eq!(number(&record(&HOT_HUMID_AIR)), 15);

    let sea_level = [&[0x01, 0x00, 0x08][..], &[0; 8]].concat();
    assert_eq!(sea_level, record(&[(1, 0.0)]));
    let figures = shown(&[(1, 0.0)]);
    let digits = figures.map(|x| format!("{:016X}", x.to_bits()));
    assert_eq!(
        digits[..3].join(" "),
        "0000000000000000 402E000000000000 408FAA0000000000"
    );
    assert_eq!(figures[..3], [0.0, 15.0, 1013.25]);
    // with 06 the same station
    assert_eq!(shown(&[(6, 0.0)])[..3], figures[..3]);
    hold_measured();
    hold_humid_density_altitudes();
    hold_shown_pair();
    hold_moisture();
    hold_range();
    hold_sheet();
    hold_load();
}

fn shown(fields: &[Field]) -> Figures {
    read(&record(fields)).expect("figures").figures
}

/// Where the default band replaces a station pressure, a measured one is shown as it came.
fn hold_measured() {
    let standard = shown(&[(1, 5.0)]);
    assert_eq!(shown(&AS_STATION_PRESSURE), standard);
    assert_ne!(standard[2], 1013.1);
    assert_eq!(shown(&AS_MEASURED)[..3], [5.0, standard[1], 1013.1]);
}

/// Humidity moves density, sound speed, matched altitude and mole fraction, nothing else, and 0 percent is as if
/// absent.
fn hold_humid_density_altitudes() {
    let random = &mut Random(0);
    for turn in 0..500 {
        let mut fields = vec![(6, random.between(-500.0, 5000.0))];
        if turn % 2 == 0 {
            fields.push((2, random.between(-40.0, 50.0)));
        }
        let with = |humidity: f64| shown(&[&fields[..], &[(5, humidity)]].concat());
        let (dry, humid) = (shown(&fields), with(random.between(10.0, 100.0)));
        assert_eq!(with(0.0), dry);
        assert_eq!(humid[..3], dry[..3]);
        assert_eq!(humid[5], dry[5]);
        assert!(humid[3] < dry[3] && humid[4] > dry[4] && humid[6] > dry[6]);
        assert!(dry[7] == 0.0 && humid[7] > 0.0);
    }
}

/// With altitude, temperature and pressure or QNH a record shows the pair that the source resolves from them.
fn hold_shown_pair() {
    let random = &mut Random(0);
    for turn in 0..2000 {
        let (tag, mode) = match turn % 2 {
            0 => (3, PressureReferenceMode::Absolute),
            _ => (4, PressureReferenceMode::Qnh),
        };
        // about the default bands every third time, and about the metre where they begin
        let pick = |near: (f64, f64), (low, high): (f64, f64), random: &mut Random| match turn % 3 {
            0 => random.between(near.0, near.1),
            _ => random.between(low, high),
        };
        let altitude = match turn % 5 {
            0 => random.between(-2.0, 2.0),
            _ => random.between(-500.0, 5000.0),
        };
        let temperature = pick((14.8, 15.2), (-40.0, 50.0), random);
        let pressure = pick((1012.5, 1014.0), (500.0, 1100.0), random);
        let fields = [(1, altitude), (2, temperature), (tag, pressure)];
        let figures = shown(&fields);
        let pair =
            resolve_station_conditions_with_pressure_mode(temperature, pressure, altitude, mode);
        assert_eq!((figures[1], figures[2]), pair);
    }
}

/// The density of `calculate_atmosphere` follows from the mole fraction that stands for its own, whichever of
/// temperature and pressure are given. -0 percent gives -0.
fn hold_moisture() {
    let random = &mut Random(0);
    let air = named(&FUNCTIONS, "calculate_atmosphere");
    for _ in 0..1000 {
        let x: Vec<Option<f64>> = air.inputs.iter().map(|i| mixed(*i, random)).collect();
        let [Some(altitude), temperature, pressure, Some(humidity)] = x[..] else {
            unreachable!("altitude and humidity are always given");
        };
        let inside = arguments(altitude, temperature, pressure, humidity);
        assert_eq!(word(inside.density()), (air.answer)(&x)[0].word());
    }
    let fraction = |humidity: f64| shown(&[(1, 100.0), (5, humidity)])[7];
    assert_eq!(fraction(-0.0).to_bits(), (-0.0f64).to_bits());
    assert_eq!(fraction(0.0).to_bits(), 0);
}

/// Both ends are in the range that CIPM-2007 states, and the mark is that of the shown temperature.
fn hold_range() {
    let mark = |fields: &[Field]| read(&record(fields)).expect("figures").in_range;
    let given = |t: f64, p: f64| mark(&[(1, 0.0), (2, t), (7, p)]);
    assert!(given(15.0, 600.0) && given(27.0, 1100.0));
    assert!(!given(15.0f64.next_down(), 800.0) && !given(27.0f64.next_up(), 800.0));
    assert!(!given(20.0, 600.0f64.next_down()) && !given(20.0, 1100.0f64.next_up()));
    assert!(!mark(&[(1, 1000.0), (2, 15.05)]) && mark(&[(1, 1.0), (2, 15.05)]));
}

/// Rows of 30 bytes, by whole degrees; the 15 °C row is 15 °C, where a record would have a default.
fn hold_sheet() {
    let row = |altitude: f64, pressure: f64, degrees: usize| {
        let mut page = [0; sheet::PAGE];
        sheet::write(altitude, pressure, 0.0, &mut page).expect("a sheet");
        let row = &page[30 * (degrees + 10)..][..30];
        String::from_utf8(row.to_vec()).expect("a text")
    };
    assert_eq!(row(0.0, 1013.25, 15), "  15.0  1.2255  340.3       0\n");
    assert_eq!(row(1000.0, 1013.25, 15), row(0.0, 1013.25, 15));
    assert_eq!(&row(0.0, 1013.25, 40)[..6], "  40.0");
}

/// SplitMix64 from state 0, as published, and the load's records one after the other and by number.
fn hold_load() {
    let random = &mut Random(0);
    let published = [
        0xE220_A839_7B1D_CDAF,
        0x6E78_9E6A_A1B9_65F4,
        0x06C4_5D18_8009_454F,
    ];
    assert_eq!(published.map(|_| random.next()), published);
    let random = &mut Random(0);
    for number in 0..20 {
        assert_eq!(load::next_record(random), load::record(number));
    }
}
