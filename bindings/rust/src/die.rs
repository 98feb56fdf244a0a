//! Loaded dice.
use crate::library::{Four, Source};
use crate::{runs, Error, Outcome};
use std::ops::Range;

/// A loaded die: the face i, from 0 on, comes with the chance `weights[i]` in their sum, exactly, by the fewest coin flips.
#[derive(Clone, Debug, Eq, Hash, PartialEq)]
pub struct Die {
    weights: Vec<u64>,
}

/// The limits of a roll. Those of `default` are the commands'.
#[derive(Clone, Copy, Debug, Eq, PartialEq)]
pub struct RollLimits {
    /// Bits of a stream that there are for it, 0 to 1,000,000,000. 65,536 by default.
    pub budget: u64,
    /// Of these it may read so many, 0 to 1,000,000,000. 1000 by default, of which 2^1000 strings fewer give no face than there are faces.
    pub flips: u64,
}

impl Default for RollLimits {
    fn default() -> Self {
        RollLimits { budget: 65_536, flips: 1000 }
    }
}

impl Die {
    /// The die of 2 to 2^32 weights, with a sum up to 2^62 that is none of them; else they are `OutOfRange`.
    pub fn new(weights: impl Into<Vec<u64>>) -> Result<Self, Error> {
        let die = Die { weights: weights.into() };
        die.runs(0, 0..0, &RollLimits::default())?;
        Ok(die)
    }

    /// How the rolls on these streams of the seed end.
    pub fn runs(&self, seed: u64, streams: Range<u64>, limits: &RollLimits) -> Result<Vec<Outcome>, Error> {
        runs::outcomes(&Source::Weights(&self.weights), seed, streams, &limits.four())
    }

    /// The faces of these rolls. The first roll without one is `NoValue`.
    pub fn draws(&self, seed: u64, streams: Range<u64>, limits: &RollLimits) -> Result<Vec<i64>, Error> {
        runs::values(&Source::Weights(&self.weights), seed, streams, &limits.four())
    }
}

impl RollLimits {
    fn four(&self) -> Four {
        Four(self.budget, self.flips, 0, 0)
    }
}
