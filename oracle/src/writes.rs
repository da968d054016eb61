//! The list `writes`: sets of fields for the writer of `writer.rs`.

use crate::draw::{mixed, pattern, usual, Draw};
use crate::random::Random;
use crate::record_fields::{drawn, shuffled, TAGS};
use crate::words::{double_word, once, save};
use crate::writer_call::{WriterCall, ABSENT, COUNT, DOUBLE, MEANINGS};
use std::io;
use std::path::Path;

/// Calls that are drawn.
const DRAWN: usize = 400;

/// The forms of the seven meanings.
type Forms = [u8; MEANINGS];

/// Patterns of which each is written in each field.
const SPECIAL: [u64; 12] = [
    // NaNs, all written as one
    0x7FF8_0000_0000_0000,
    0xFFF8_0000_0000_0000,
    0x7FF0_0000_0000_0001,
    0x7FFF_FFFF_FFFF_FFFF,
    0xFFF0_0000_0000_0001,
    // the infinities
    0x7FF0_0000_0000_0000,
    0xFFF0_0000_0000_0000,
    // zeros, the least and the greatest
    0x0000_0000_0000_0000,
    0x8000_0000_0000_0000,
    0x0000_0000_0000_0001,
    0xFFEF_FFFF_FFFF_FFFF,
    0x0123_4567_89AB_CDEF,
];

const SPECIAL_COUNTS: [i32; 6] = [i32::MIN, i32::MAX, 0, 1, -1, 0x0123_4567];

pub fn write(folder: &Path) -> io::Result<()> {
    let random = &mut Random(4);
    let calls = all(random);
    let questions = calls.iter().map(|call| question(call, random));
    save(folder, "writes", &once(questions))
}

pub fn all(random: &mut Random) -> Vec<WriterCall> {
    let mut all = every_set(random);
    all.extend(every_room(random));
    all.extend(special_values(random));
    all.extend((0..DRAWN).map(|_| drawn_call(random)));
    all
}

/// The call's fields, in any order. A question has no room.
fn question(call: &WriterCall, random: &mut Random) -> String {
    let mut fields = Vec::new();
    for (i, form) in call.forms.iter().enumerate() {
        match *form {
            DOUBLE => fields.push(format!("{:02X}={}", i + 1, double_word(call.values[i]))),
            COUNT => fields.push(format!("{:02X}={:08X}", i + 0x11, call.counts[i])),
            _ => {}
        }
    }
    let order = shuffled(&(0..fields.len()).collect::<Vec<usize>>(), random);
    let fields: String = order.iter().map(|i| format!(" {}", fields[*i])).collect();
    format!("write{fields}")
}

/// A call with values and counts for all meanings that are drawn.
fn call(forms: Forms, room: usize, draw: Draw, random: &mut Random) -> WriterCall {
    let values = drawn(&TAGS, draw, random);
    WriterCall {
        forms: forms.to_vec(),
        values: values.into_iter().map(|(_, value)| value).collect(),
        counts: forms.map(|_| random.next() as i32).to_vec(),
        room,
    }
}

/// Bytes of the record.
fn needed(forms: Forms) -> usize {
    let bytes = |form: u8| match form {
        DOUBLE => 11,
        COUNT => 7,
        _ => 0,
    };
    forms.into_iter().map(bytes).sum()
}

/// A set of meanings, a bit each, all in one form.
fn in_form(set: usize, form: u8) -> Forms {
    std::array::from_fn(|meaning| {
        if set >> meaning & 1 == 1 {
            form
        } else {
            ABSENT
        }
    })
}

/// The same, each in either form.
fn in_either_form(set: usize, random: &mut Random) -> Forms {
    in_form(set, DOUBLE).map(|form| form << (random.next() % 2))
}

/// Every set of fields, clashing or not, in a buffer a byte too short, just long enough, and longer.
fn every_set(random: &mut Random) -> Vec<WriterCall> {
    let mut all = Vec::new();
    for set in 0..1 << MEANINGS {
        let either = in_either_form(set, random);
        for forms in [in_form(set, DOUBLE), in_form(set, COUNT), either] {
            let needed = needed(forms);
            for room in [needed.checked_sub(1), Some(needed), Some(needed + 9)] {
                all.extend(room.map(|room| call(forms, room, usual, random)));
            }
        }
    }
    all
}

/// Buffers of every length for some sets: none, the first field, the last, three, and all in both forms.
fn every_room(random: &mut Random) -> Vec<WriterCall> {
    let mut all = Vec::new();
    for forms in [
        in_form(0, DOUBLE),
        in_form(1, DOUBLE),
        in_form(1 << 6, COUNT),
        in_form(0b101_0010, COUNT),
        in_form(0b111_1111, DOUBLE),
        [COUNT, DOUBLE, COUNT, DOUBLE, COUNT, DOUBLE, COUNT],
    ] {
        for room in 0..needed(forms) + 20 {
            all.push(call(forms, room, usual, random));
        }
    }
    all
}

/// Each pattern and count in each field, alone, among all, and as what the form does not name.
fn special_values(random: &mut Random) -> Vec<WriterCall> {
    let mut all = Vec::new();
    let mut special = |forms: Forms, meaning: usize, bits: u64, count: i32| {
        let mut call = call(forms, needed(forms) + 3, usual, random);
        call.values[meaning] = f64::from_bits(bits);
        call.counts[meaning] = count;
        all.push(call);
    };
    let everyone = (1 << MEANINGS) - 1;
    for meaning in 0..MEANINGS {
        for (bits, count) in SPECIAL.into_iter().zip(SPECIAL_COUNTS.into_iter().cycle()) {
            special(in_form(1 << meaning, DOUBLE), meaning, bits, count);
            special(in_form(everyone, DOUBLE), meaning, bits, count);
        }
        for (count, bits) in SPECIAL_COUNTS.into_iter().zip(SPECIAL) {
            special(in_form(1 << meaning, COUNT), meaning, bits, count);
            special(in_form(everyone, COUNT), meaning, bits, count);
            special(
                in_form(everyone ^ 1 << meaning, COUNT),
                meaning,
                bits,
                count,
            );
        }
    }
    all
}

/// Any set in any forms, with room about as much as it needs.
pub fn drawn_call(random: &mut Random) -> WriterCall {
    let forms = in_either_form(random.next() as usize % (1 << MEANINGS), random);
    let room = (needed(forms) + 4).saturating_sub(random.next() as usize % 8);
    let draw = if random.next() % 2 == 0 {
        pattern
    } else {
        mixed
    };
    call(forms, room, draw, random)
}
