//! The functions by whole numbers against `vectors/rules/rules.rs`.

use crate::compare_row::{compare, Answer, Hex, Row};
use crate::exponents::EXPONENTS;
use crate::exports;
use crate::function::word;
use crate::inputs;
use crate::places::places;
use crate::random::Random;
use crate::rules;

pub const ROWS: [fn(u64) -> Row; 6] = [log_word, antilog, power, exp, ln, sqrt];

fn log_word(calls: u64) -> Row {
    // what the three numbers are before the call, and stay where there is no word
    let before = (true, 0x89AB_CDEF, 0x0123_4567_89AB_CDEF);
    let answer = |defined: bool, (negative, whole, part): (bool, u32, u64)| {
        vec![defined.into(), negative.into(), whole.into(), part]
    };
    let ours = |x: &f64| {
        let (mut negative, mut whole, mut part) = before;
        let defined = exports::log_word(*x, &mut negative, &mut whole, &mut part);
        answer(defined, (negative, whole, part))
    };
    let theirs = |x: &f64| match rules::log_word(places(), *x) {
        Some(l) => {
            let Word(negative, whole, part) = Word::of(l);
            answer(true, (negative, whole, part))
        }
        None => answer(false, before),
    };
    let random = &mut Random(1);
    compare(
        "log_word",
        calls,
        inputs::positive(random),
        |turn| positive(turn, random),
        ours,
        theirs,
    )
}

/// Whether it is negative, and its digits above and below the point: a, or -(a + 1) where negative.
struct Word(bool, u32, u64);

impl Word {
    fn of(p: i128) -> Self {
        let a = if p < 0 { -p - 1 } else { p };
        let part = a as u64 & ((1 << places()) - 1);
        Self(p < 0, (a >> places()) as u32, part)
    }

    fn value(&self) -> i128 {
        let Self(negative, whole, part) = *self;
        let a = (i128::from(whole) << places()) + i128::from(part);
        if negative {
            -a - 1
        } else {
            a
        }
    }
}

impl Hex for Word {
    fn hex(&self) -> String {
        let Self(negative, whole, part) = self;
        format!("{} {whole:08x} {part:016x}", u8::from(*negative))
    }
}

fn antilog(calls: u64) -> Row {
    let random = &mut Random(2);
    let edges = inputs::words(random).into_iter();
    let edges = edges.map(|(k, f)| Word::of((i128::from(k) << places()) + i128::from(f)));
    let draw = |turn| {
        let (bits, any) = (random.next(), random.next());
        let part = any >> (64 - places());
        match turn % 5 {
            // any three numbers: the part may have more bits than places
            0 => Word(bits & 1 == 1, (bits >> 32) as u32, any),
            // answers from zero to infinity
            1 => Word(bits & 1 == 1, (bits >> 32) as u32 % 1100, part),
            // subnormal ones
            2 => Word(true, 1020 + (bits >> 32) as u32 % 56, part),
            // next to where the rounding turns
            3 => Word(false, (bits >> 32) as u32 % 1000, inputs::near_a_turn(random)),
            _ => Word(bits & 1 == 1, (bits >> 32) as u32 % 16, part),
        }
    };
    compare(
        "antilog",
        calls,
        edges,
        draw,
        |word| number(exports::antilog(word.0, word.1, word.2)),
        |word| number(rules::antilog(places(), word.value())),
    )
}

/// The base, and the number of the exponent.
struct Base(f64, u64);

impl Hex for Base {
    fn hex(&self) -> String {
        format!("{} {:x}", self.0.hex(), self.1)
    }
}

fn power(calls: u64) -> Row {
    let random = &mut Random(3);
    let mut edges = Vec::new();
    for (number, q) in EXPONENTS.iter().enumerate() {
        let bases = inputs::bases(*q, random).into_iter();
        edges.extend(bases.map(|x| Base(x, number as u64)));
    }
    for number in inputs::NO_EXPONENT {
        edges.extend(inputs::WITHOUT_EXPONENT.map(|x| Base(x, number)));
    }
    let draw = |turn| {
        let number = random.next() as usize % EXPONENTS.len();
        let base = if turn % 5 == 0 {
            // answers over the whole range, whatever the exponent
            inputs::two_to(random.between(-1080.0, 1030.0) / EXPONENTS[number].q)
        } else {
            positive(turn, random)
        };
        Base(base, number as u64)
    };
    let theirs = |base: &Base| match EXPONENTS.get(base.1 as usize) {
        Some(q) => number(rules::power(places(), base.0, *q)),
        None => number(f64::NAN),
    };
    let ours = |base: &Base| number(exports::power(base.0, base.1 as usize));
    compare("power", calls, edges, draw, ours, theirs)
}

fn exp(calls: u64) -> Row {
    let random = &mut Random(4);
    let edges = inputs::arguments(random);
    let draw = |turn| match turn % 4 {
        0 => f64::from_bits(random.next()),
        1 => random.between(-1110.0, 1030.0),
        2 => random.between(-745.2, -708.0),
        _ => random.between(-20.0, 20.0),
    };
    compare(
        "exp",
        calls,
        edges,
        draw,
        |x| number(exports::exp(*x)),
        |x| number(rules::exp(places(), *x)),
    )
}

fn ln(calls: u64) -> Row {
    let random = &mut Random(5);
    compare(
        "ln",
        calls,
        inputs::logarithms(random),
        |turn| positive(turn, random),
        |x| number(exports::ln(*x)),
        |x| number(rules::ln(places(), *x)),
    )
}

fn sqrt(calls: u64) -> Row {
    let random = &mut Random(6);
    compare(
        "sqrt",
        calls,
        inputs::squares(random),
        |turn| positive(turn, random),
        |x| number(exports::sqrt(*x)),
        |x| number(rules::sqrt(*x)),
    )
}

fn number(x: f64) -> Answer {
    vec![word(x)]
}

/// Any pattern; one with a clear sign; about 1, where the source's bases lie; or subnormal.
fn positive(turn: u64, random: &mut Random) -> f64 {
    match turn % 4 {
        0 => f64::from_bits(random.next()),
        1 => inputs::positive_pattern(random),
        2 => random.between(0.0, 4.0),
        _ if turn % 8 == 3 => inputs::subnormal(random),
        _ => random.between(0.0, 1200.0),
    }
}
