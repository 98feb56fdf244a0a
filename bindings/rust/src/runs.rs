//! Runs on the streams of a seed.
use crate::library::{ends, Four, Source};
use crate::{Error, Outcome};
use std::ops::Range;

/// The limits of a run. Those of `default` are the commands'.
#[derive(Clone, Copy, Debug, Eq, PartialEq)]
pub struct Limits {
    /// Bits of its stream that it may read, 0 to 1,000,000,000. 65,536 by default.
    pub budget: u64,
    /// Turns of each entry of a loop, 0 to 1,000,000,000. 1000 by default.
    pub turns: u64,
    /// Attempts of each draw, 1 to 1,000,000,000. 1000 by default.
    pub attempts: u64,
    /// Rounds, 1 to 1,000,000,000: where an `observe` fails the next begins. 1000 by default.
    pub rounds: u64,
}

impl Default for Limits {
    fn default() -> Self {
        Limits { budget: 65_536, turns: 1000, attempts: 1000, rounds: 1000 }
    }
}

impl Limits {
    pub(crate) fn four(&self) -> Four {
        Four(self.budget, self.turns, self.attempts, self.rounds)
    }
}

/// How the runs on the streams end.
pub(crate) fn outcomes(source: &Source, seed: u64, streams: Range<u64>, limits: &Four) -> Result<Vec<Outcome>, Error> {
    let (values, ends) = of(source, seed, &streams, limits)?;
    Ok(ends.into_iter().zip(values).map(|(end, value)| Outcome::of_end(end, value)).collect())
}

/// The values of the runs on the streams. The first run without one is `NoValue`.
pub(crate) fn values(source: &Source, seed: u64, streams: Range<u64>, limits: &Four) -> Result<Vec<i64>, Error> {
    let (values, ends) = of(source, seed, &streams, limits)?;
    match ends.iter().position(|end| *end != 0) {
        None => Ok(values),
        Some(place) => Err(Error::NoValue { stream: streams.start + place as u64, outcome: Outcome::of_end(ends[place], 0) }),
    }
}

fn of(source: &Source, seed: u64, streams: &Range<u64>, limits: &Four) -> Result<(Vec<i64>, Vec<u8>), Error> {
    let count = usize::try_from(streams.end.saturating_sub(streams.start)).map_err(|_| Error::OutOfMemory)?;
    ends(source, seed, streams.start, count, limits)
}
