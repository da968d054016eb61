//! The vote of three masts against that of `vote.rs`.

use crate::compare_row::{compare, expected, lent, Answer, Hex, Row};
use crate::exports;
use crate::random::Random;
use crate::vote::{vote, Records};
use crate::votes::{all, drawn_vote};

impl Hex for Records {
    fn hex(&self) -> String {
        self.each_ref().map(|record| record.hex()).join(" ")
    }
}

/// What the mast's number is before the call. Every vote sets it.
const NO_MAST: u32 = 77;

pub fn row(calls: u64) -> Row {
    let random = &mut Random(0);
    let edges = all(random);
    let draw = |_| drawn_vote(random);
    compare("vote", calls, edges, draw, ours, theirs)
}

/// What the mark is before the call, and stays where the vote is refused. Both values serve.
fn mark_before(records: &Records) -> bool {
    records[0].len() % 2 == 1
}

/// The last three words are the mark, the mast, and whether a record was changed.
fn ours(records: &Records) -> Answer {
    let copies = records.clone();
    let (mut mark, mut mast) = (mark_before(records), NO_MAST);
    let mut answer = lent(|places| exports::vote(&copies, places, &mut mark, &mut mast));
    answer.extend([mark.into(), mast.into(), u64::from(copies != *records)]);
    answer
}

fn theirs(records: &Records) -> Answer {
    let vote = vote(records);
    let (number, values, mark) = match vote.outcome {
        Ok(answer) => (0, answer.figures.to_vec(), answer.in_range),
        Err(refusal) => (refusal.number, refusal.values, mark_before(records)),
    };
    [expected(number, &values), vec![mark.into(), vote.mast, 0]].concat()
}
