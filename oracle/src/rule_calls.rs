//! The calls that `build.sh` puts in the place of the source's `powf`, `exp` and `ln`: document 01's rules.

use crate::exponents::EXPONENTS;
use crate::places::places;
use crate::rules;

pub trait RuleCalls {
    fn rule_powf(self, q: f64) -> f64;
    fn rule_exp(self) -> f64;
    fn rule_ln(self) -> f64;
}

impl RuleCalls for f64 {
    /// Stops at an exponent that is not in the table, so that none of the source's is missing there.
    fn rule_powf(self, q: f64) -> f64 {
        let exponent = EXPONENTS.iter().find(|e| e.q == q);
        rules::power(places(), self, *exponent.expect("an exponent of the table"))
    }

    fn rule_exp(self) -> f64 {
        rules::exp(places(), self)
    }

    fn rule_ln(self) -> f64 {
        rules::ln(places(), self)
    }
}
