//! Programs and dice as distributions of the crate `rand`.
use crate::{Die, Limits, Outcome, Program, RollLimits};
use rand::distributions::Distribution;
use rand::Rng;

const NO_MEMORY: &str = "the library has memory";

/// The outcome of a run under the usual limits, on the stream 0 of a seed that is the next 64 bits of the generator. Each sample compiles the text:
/// for many, `draws` is faster.
impl Distribution<Outcome> for Program {
    fn sample<R: Rng + ?Sized>(&self, rng: &mut R) -> Outcome {
        self.runs(rng.next_u64(), 0..1, &Limits::default()).expect(NO_MEMORY)[0]
    }
}

/// The same of a roll.
impl Distribution<Outcome> for Die {
    fn sample<R: Rng + ?Sized>(&self, rng: &mut R) -> Outcome {
        self.runs(rng.next_u64(), 0..1, &RollLimits::default()).expect(NO_MEMORY)[0]
    }
}
