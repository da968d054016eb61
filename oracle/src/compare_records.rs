//! The two record judges against the readers of `record.rs`.

use crate::compare_row::{compare, expected, lent, Answer, Row};
use crate::draw::{mixed, pattern, usual_or_end, wide, Draw};
use crate::field::{in_doubles, stored, tag};
use crate::random::Random;
use crate::record_fields::{drawn, in_counts, in_either_form, shuffled, READINGS};
use crate::record_forms::{bytes, changed, nearly_fields};
use crate::ruled::record::{read, read_strictly, Outcome};
use crate::{exports, records, strict};
use std::collections::BTreeMap;

/// They take turns.
const DRAWS: [Draw; 4] = [usual_or_end, wide, mixed, pattern];

/// How often each number was answered; 0 is an accepted record.
pub type Numbers = BTreeMap<u64, u64>;

pub struct Judge {
    name: &'static str,
    ours: fn(&[u8], &mut [f64], &mut bool) -> u32,
    theirs: fn(&[u8]) -> Outcome,
    list: fn(&mut Random) -> Vec<Vec<u8>>,
    /// One of so many drawn records is shuffled, the others have rising tags.
    shuffled: u64,
}

pub const JUDGE: Judge = Judge {
    name: "judge (records)",
    ours: exports::judge,
    theirs: read,
    list: records::all,
    shuffled: 1,
};

pub const STRICT_JUDGE: Judge = Judge {
    name: "judge_strictly (records)",
    ours: exports::judge_strictly,
    theirs: read_strictly,
    list: strict::all,
    shuffled: 4,
};

impl Judge {
    /// The row, and how often the reader answered each number.
    pub fn row(&self, calls: u64) -> (Row, Numbers) {
        let random = &mut Random(0);
        let mut numbers = Numbers::new();
        let list = (self.list)(random);
        let theirs = |record: &Vec<u8>| {
            let (number, values, mark) = match (self.theirs)(record) {
                Ok(answer) => (0, answer.figures.to_vec(), answer.in_range),
                Err(refusal) => (refusal.number, refusal.values, mark_before(record)),
            };
            *numbers.entry(number).or_default() += 1;
            [expected(number, &values), vec![mark.into(), 0]].concat()
        };
        let ours = |record: &Vec<u8>| self.judged(record);
        let draw = |turn| self.drawn_record(turn, random);
        let row = compare(self.name, calls, list, draw, ours, theirs);
        (row, numbers)
    }

    /// The last two words are the mark, and whether the record was changed.
    fn judged(&self, record: &Vec<u8>) -> Answer {
        let copy = record.clone();
        let mut mark = mark_before(record);
        let mut answer = lent(|places| (self.ours)(&copy, places, &mut mark));
        answer.extend([mark.into(), u64::from(copy != *record)]);
        answer
    }

    /// Half of them good, a quarter good with some bytes changed, the rest nearly fields and random bytes.
    fn drawn_record(&self, turn: u64, random: &mut Random) -> Vec<u8> {
        match turn % 8 {
            0..=3 => {
                let tags = READINGS[random.next() as usize % READINGS.len()];
                let draw = DRAWS[turn as usize % DRAWS.len()];
                let doubles = drawn(tags, draw, random);
                let mut fields = match random.next() % 4 {
                    0 => in_counts(&doubles),
                    1 => in_either_form(&doubles, random),
                    _ => in_doubles(&doubles),
                };
                fields.sort_by_key(|field| tag(*field));
                if random.next() % self.shuffled == 0 {
                    fields = shuffled(&fields, random);
                }
                stored(&fields)
            }
            4 | 5 => changed(random),
            6 => nearly_fields(random),
            _ => {
                let length = random.next() as usize % 300;
                bytes(length, random)
            }
        }
    }
}

/// What the mark is before the call, and stays where the record is refused. Both values serve.
fn mark_before(record: &[u8]) -> bool {
    record.len() % 2 == 1
}
