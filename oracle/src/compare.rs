//! The proved functions against the rules and the source with our rules, call by call and bit for bit.

use crate::compare_records::{Numbers, JUDGE, STRICT_JUDGE};
use crate::compare_row::Row;
use crate::{
    compare_conversions, compare_lent, compare_loads, compare_rules, compare_sheets,
    compare_station, compare_trims, compare_votes, compare_writes,
};

/// One strict judgement to so many of the first judge: it shares all but the order of the tags with it.
const STRICT_SHARE: u64 = 4;

/// One record of the load to so many: it has no other input than its number.
const LOAD_SHARE: u64 = 10;

/// One sheet to so many records: it has 51 rows, each of which costs as much as a record.
const SHEET_SHARE: u64 = 500;

/// One vote to so many records: it judges four.
const VOTE_SHARE: u64 = 10;

/// One trim class to so many records: it judges up to 801.
const TRIM_SHARE: u64 = 2000;

/// Prints a row for each function, and says whether nothing differs.
pub fn compare(calls: u64, records: u64) -> bool {
    let functions = (compare_rules::ROWS.len() + compare_station::PAIRS.len()) as u64;
    let each = calls.div_ceil(functions);
    let mut rows: Vec<Row> = Vec::new();
    rows.extend(compare_rules::ROWS.map(|row| row(each)));
    for (pair, seed) in compare_station::PAIRS.iter().zip(1000..) {
        rows.push(pair.row(each, seed));
    }
    let called: u64 = rows.iter().map(|row| row.calls).sum();
    let (judged, numbers) = JUDGE.row(records);
    let (judged_strictly, strict_numbers) = STRICT_JUDGE.row(records / STRICT_SHARE);
    let with_records = [
        judged,
        judged_strictly,
        compare_writes::row(records),
        compare_conversions::row(records),
        compare_loads::row(records / LOAD_SHARE),
        compare_sheets::row(records / SHEET_SHARE),
        compare_votes::row(records / VOTE_SHARE),
        compare_trims::row(records / TRIM_SHARE),
    ];
    let records: u64 = with_records.iter().map(|row| row.calls).sum();
    rows.extend(with_records);
    rows.push(compare_lent::row());

    show(&rows);
    println!("records by number, 0 accepted: {}", by_number(&numbers));
    println!("strictly: {}", by_number(&strict_numbers));
    let differences: u64 = rows.iter().map(|row| row.differences).sum();
    println!("{called} calls of functions, {records} with records, {differences} differences");
    show_first(&rows);
    differences == 0
}

/// The same of the functions by whole numbers alone, so many calls of each.
pub fn compare_rules(calls: u64) -> bool {
    let rows = compare_rules::ROWS.map(|row| row(calls));
    show(&rows);
    show_first(&rows);
    rows.iter().all(|row| row.differences == 0)
}

fn show(rows: &[Row]) {
    println!("{:<40}{:>12}{:>13}", "function", "calls", "differences");
    for row in rows {
        println!("{:<40}{:>12}{:>13}", row.name, row.calls, row.differences);
    }
}

fn show_first(rows: &[Row]) {
    for row in rows {
        if let Some([inputs, ours, theirs]) = &row.first {
            println!("first difference of {}, at {inputs}", row.name);
            println!("  ours   {ours}\n  theirs {theirs}");
        }
    }
}

fn by_number(numbers: &Numbers) -> String {
    let counts = numbers.iter();
    let counts = counts.map(|(number, count)| format!("{number}: {count}"));
    counts.collect::<Vec<String>>().join(", ")
}
