//! The oracle: the station part of the source, built once as it stands and once with document 01's
//! rules for its `powf`, `exp` and `ln`. `README.md` has the commands. With `library` it is the driver too,
//! over the static library of the proved functions. The variable PLACES is the number of the rules' places.

mod ask;
#[cfg_attr(not(library), allow(dead_code))]
mod buffer;
mod cases;
#[cfg(library)]
mod compare;
#[cfg(library)]
mod compare_buffer;
#[cfg(library)]
mod compare_conversions;
#[cfg(library)]
mod compare_lent;
#[cfg(library)]
mod compare_loads;
#[cfg(library)]
mod compare_records;
#[cfg(library)]
mod compare_row;
#[cfg(library)]
mod compare_rules;
#[cfg(library)]
mod compare_sheets;
#[cfg(library)]
mod compare_station;
#[cfg(library)]
mod compare_trims;
#[cfg(library)]
mod compare_votes;
#[cfg(library)]
mod compare_writes;
mod conversion;
mod conversion_call;
mod conversions;
mod decimal;
mod decimals;
mod distance;
mod draw;
mod edges;
#[cfg(library)]
mod exports;
mod field;
mod function;
mod gravity;
mod judged_list;
mod load;
mod promises;
mod quantity;
mod record_changes;
mod record_counts;
mod record_fields;
mod record_forms;
mod record_moisture;
mod record_range;
mod record_refused;
mod record_values;
mod records;
mod refusal;
mod rule_calls;
mod rule_lists;
mod sheet;
#[cfg_attr(not(library), allow(dead_code))]
mod sheet_call;
mod sheets;
mod source_lists;
mod strict;
mod trim;
mod trims;
mod vote;
mod vote_refused;
mod votes;
mod warmth;
mod words;
mod writer;
#[cfg_attr(not(library), allow(dead_code))]
mod writer_call;
mod writes;

#[path = "../../vectors/rules/exponents.rs"]
mod exponents;
#[path = "../../vectors/rules/inputs.rs"]
mod inputs;
#[path = "../../vectors/rules/places.rs"]
mod places;
#[path = "../../vectors/rules/random.rs"]
mod random;
#[allow(dead_code)]
#[path = "../../vectors/rules/rules.rs"]
mod rules;

#[cfg(library)]
#[path = "../../bench/memory.rs"]
mod memory;
#[cfg(library)]
#[path = "../../bench/times.rs"]
mod times;

#[allow(dead_code)]
#[path = "../../target/oracle/constants.rs"]
mod constants;
#[allow(dead_code, unused_imports)]
#[path = "../../target/oracle/ruled.rs"]
mod ruled;
#[allow(dead_code, unused_imports)]
#[path = "../../target/oracle/stock.rs"]
mod stock;

use std::io;
use std::path::Path;
use std::process::ExitCode;

const USE: &str = "oracle lists FOLDER, oracle ask, oracle load [COUNT], oracle distance [POINTS], or oracle warmth [CASES]; driver compare CALLS RECORDS, driver compare-rules CALLS, or driver bench";
const POINTS: u64 = 100_000;
const CASES: u64 = 1_000_000;

fn main() -> ExitCode {
    let arguments: Vec<String> = std::env::args().skip(1).collect();
    let arguments: Vec<&str> = arguments.iter().map(String::as_str).collect();
    places::set_by_environment();
    cases::hold_rules();
    cases::hold(&stock::station::FUNCTIONS);
    cases::hold(&ruled::station::FUNCTIONS);
    cases::hold_reader();
    promises::hold();
    let done = match arguments[..] {
        ["lists", folder] => match write_lists(Path::new(folder)) {
            Ok(()) => true,
            Err(error) => {
                eprintln!("{folder}: {error}");
                false
            }
        },
        ["ask"] => match ask::answer_lines(io::stdin().lock(), io::stdout().lock()) {
            Ok(()) => true,
            Err(error) => {
                eprintln!("{error}");
                false
            }
        },
        ["load"] => {
            load::print(load::RECORDS);
            true
        }
        ["load", count] => {
            load::print(count.parse().expect(USE));
            true
        }
        ["distance"] => distance::measure(POINTS),
        ["distance", points] => distance::measure(points.parse().expect(USE)),
        ["warmth"] => warmth::measure(CASES),
        ["warmth", cases] => warmth::measure(cases.parse().expect(USE)),
        #[cfg(library)]
        ["compare", calls, records] => {
            compare::compare(calls.parse().expect(USE), records.parse().expect(USE))
        }
        #[cfg(library)]
        ["compare-rules", calls] => compare::compare_rules(calls.parse().expect(USE)),
        #[cfg(library)]
        ["bench"] => {
            times::measure();
            memory::measure();
            true
        }
        _ => {
            eprintln!("{USE}");
            false
        }
    };
    if done {
        ExitCode::SUCCESS
    } else {
        ExitCode::FAILURE
    }
}

fn write_lists(folder: &Path) -> io::Result<()> {
    rule_lists::write(folder)?;
    source_lists::write(folder)?;
    records::write(folder)?;
    strict::write(folder)?;
    writes::write(folder)?;
    conversions::write(folder)?;
    sheets::write(folder)?;
    decimals::write(folder)?;
    votes::write(folder)?;
    trims::write(folder)
}
