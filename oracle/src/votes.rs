//! The list `votes`: votes of three masts.

use crate::draw::{mixed, usual};
use crate::field::{in_doubles, record, stored, Field, Stored, Value};
use crate::random::Random;
use crate::record_fields::{drawn, in_either_form, shuffled, READINGS};
use crate::vote::Records;
use crate::vote_refused;
use crate::words::{record_word, save};
use std::io;
use std::path::Path;

/// Votes that are drawn.
const DRAWN: usize = 160;

pub fn write(folder: &Path) -> io::Result<()> {
    let questions: Vec<String> = all(&mut Random(7)).iter().map(question).collect();
    save(folder, "votes", &questions)
}

pub fn all(random: &mut Random) -> Vec<Records> {
    let mut all: Vec<Records> = (0..DRAWN).map(|_| drawn_vote(random)).collect();
    all.extend(zeros(random));
    all.extend(about_defaults(random));
    all.extend(vote_refused::all(random));
    all
}

fn question(records: &Records) -> String {
    let [first, second, third] = records.each_ref().map(|record| record_word(record));
    format!("vote {first} {second} {third}")
}

/// Readings of one kind, in any forms and orders. Half of the masts are near each other, as masts of one park are.
pub fn drawn_vote(random: &mut Random) -> Records {
    let tags = READINGS[random.next() as usize % READINGS.len()];
    let near = random.next() % 2 == 0;
    let park = drawn(tags, usual, random);
    [(); 3].map(|()| {
        let mut fields = match random.next() % 16 {
            0 => drawn(tags, mixed, random),
            _ if near => park.clone(),
            _ => drawn(tags, usual, random),
        };
        for field in &mut fields {
            field.1 += random.between(-0.5, 0.5);
            if field.0 == 5 {
                field.1 = field.1.clamp(0.0, 100.0);
            }
        }
        in_any_form(&fields, random)
    })
}

/// In one of the forms or both, shuffled.
fn in_any_form(fields: &[Field], random: &mut Random) -> Vec<u8> {
    let fields = match random.next() % 2 {
        0 => in_doubles(fields),
        _ => in_either_form(fields, random),
    };
    stored(&shuffled(&fields, random))
}

/// Zeros of both signs and counts of zero, in each field that may be zero: which of them is shown tells the order.
fn zeros(random: &mut Random) -> Vec<Records> {
    let kinds = [Value::Double(-0.0), Value::Double(0.0), Value::Count(0)];
    let mut all = Vec::new();
    for (fixed, meaning) in [
        (&[(7, 1000.0)][..], 1),
        (&[(1, 0.0)], 2),
        (&[(1, 10.0)], 5),
        (&[], 6),
    ] {
        let with = |value: Value| -> Vec<u8> {
            let field: Stored = (meaning, value);
            [&record(fixed)[..], &stored(&[field])].concat()
        };
        for first in kinds {
            for second in kinds {
                let third = kinds[random.next() as usize % kinds.len()];
                all.push([first, second, third].map(with));
            }
            // a zero between others
            all.push([Value::Double(5e-324), first, Value::Double(-0.0)].map(with));
        }
    }
    all
}

/// Temperatures and pressures about the default bands: the voted ones count.
fn about_defaults(random: &mut Random) -> Vec<Records> {
    let mut all = Vec::new();
    for _ in 0..20 {
        all.push([(); 3].map(|()| {
            let temperature = random.between(14.85, 15.15);
            let pressure = random.between(1012.5, 1014.0);
            let fields = [(1, 300.0), (2, temperature), (3, pressure)];
            in_any_form(&fields, random)
        }));
    }
    all
}
