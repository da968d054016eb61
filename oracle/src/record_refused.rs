//! A record for each of document 01's refusals, in the order of their numbers.

use crate::field::record;
use crate::records::number;

pub fn refused_records() -> Vec<Vec<u8>> {
    let good = record(&[(1, 100.0), (2, 20.0)]);
    let refused = vec![
        record(&[(6, f64::NAN)]),
        record(&[(1, 100.0), (2, f64::INFINITY)]),
        record(&[(1, 100.0), (2, -300.0)]),
        record(&[(6, 1e5)]),
        good[..20].to_vec(),
        [&good[..], &[8, 0, 8]].concat(),
        [&good[..], &[0x13, 0, 8]].concat(),
        [&good[..], &record(&[(1, 1.0)])].concat(),
        record(&[(1, 100.0), (6, 100.0)]),
        record(&[(2, 20.0)]),
        record(&[(1, f64::NEG_INFINITY), (2, 20.0)]),
        record(&[(1, 100.0), (7, -1.0)]),
        record(&[(1, 100.0), (5, 101.0)]),
        record(&[(1, 100.0), (2, 50.0), (5, 100.0), (7, 10.0)]),
        record(&[(1, 100.0), (2, 1000.0), (5, 1.0)]),
    ];
    for (record, expected) in refused.iter().zip(1..) {
        assert_eq!(number(record), expected);
    }
    refused
}
