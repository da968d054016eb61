//! A function of the source as the oracle sees it: what it takes, and what it answers.

use crate::quantity::Quantity;

#[derive(Clone, Copy)]
pub enum Input {
    Given(Quantity),
    /// Given, or left to the standard atmosphere.
    Maybe(Quantity),
}

impl Input {
    pub fn quantity(self) -> Quantity {
        match self {
            Self::Given(quantity) | Self::Maybe(quantity) => quantity,
        }
    }
}

/// One input each. Only where the function takes an `Option` may it be missing.
pub type Inputs = Vec<Option<f64>>;

/// One figure of an answer. Its kind decides how far it may lie from the stock source's.
#[derive(Clone, Copy)]
pub enum Figure {
    Number(&'static str, f64),
    Metres(&'static str, f64),
    Feet(&'static str, f64),
    /// A yes, a refusal's number, or whether a value follows.
    Choice(&'static str, u64),
}

impl Figure {
    pub fn name(self) -> &'static str {
        match self {
            Self::Number(name, _) | Self::Metres(name, _) | Self::Feet(name, _) => name,
            Self::Choice(name, _) => name,
        }
    }

    pub fn word(self) -> u64 {
        match self {
            Self::Number(_, x) | Self::Metres(_, x) | Self::Feet(_, x) => word(x),
            Self::Choice(_, n) => n,
        }
    }
}

/// The double's bits, of one pattern for all NaNs.
pub fn word(x: f64) -> u64 {
    if x.is_nan() {
        0x7FF8_0000_0000_0000
    } else {
        x.to_bits()
    }
}

pub struct Function {
    /// The list that has it, named by our module.
    pub list: &'static str,
    pub name: &'static str,
    pub inputs: &'static [Input],
    pub answer: fn(&[Option<f64>]) -> Vec<Figure>,
}

impl Function {
    /// The answer to inputs that are all given.
    pub fn at(&self, inputs: &[f64]) -> Vec<Figure> {
        let inputs: Inputs = inputs.iter().map(|x| Some(*x)).collect();
        (self.answer)(&inputs)
    }

    /// The first figure's value, where that is a double.
    pub fn value(&self, inputs: &[f64]) -> f64 {
        f64::from_bits(self.at(inputs)[0].word())
    }
}

pub fn named<'a>(functions: &'a [Function], name: &str) -> &'a Function {
    let function = functions.iter().find(|f| f.name == name);
    function.expect("a function of this name")
}
