//! Exact numbers.
use std::fmt;
use std::str::FromStr;

/// A fraction in lowest terms.
#[derive(Clone, Copy, Debug, Eq, Hash, PartialEq)]
pub struct Fraction {
    /// The number above the line.
    pub numerator: u128,
    /// The number below it, at least 1.
    pub denominator: u128,
}

impl fmt::Display for Fraction {
    fn fmt(&self, f: &mut fmt::Formatter<'_>) -> fmt::Result {
        write!(f, "{}/{}", self.numerator, self.denominator)
    }
}

/// The nearest `f64`, but for the last bits.
impl From<Fraction> for f64 {
    fn from(it: Fraction) -> f64 {
        it.numerator as f64 / it.denominator as f64
    }
}

impl FromStr for Fraction {
    type Err = std::num::ParseIntError;

    fn from_str(text: &str) -> Result<Self, Self::Err> {
        let (above, below) = text.split_once('/').unwrap_or((text, "1"));
        Ok(Fraction { numerator: above.parse()?, denominator: below.parse()? })
    }
}

/// Two fractions between which a mass lies.
#[derive(Clone, Copy, Debug, Eq, PartialEq)]
pub struct Bounds {
    /// At least so much.
    pub low: Fraction,
    /// At most so much.
    pub high: Fraction,
}
