//! Programs, and what is asked of them.
use crate::library::{check, hunt, lines, row, run, Ask, Source};
use crate::{runs, Bounds, Error, Fraction, Limits, Outcome};
use std::ops::Range;

/// How many there are on average.
#[derive(Clone, Copy, Debug, Eq, PartialEq)]
pub enum Count {
    /// So many.
    Expected(Fraction),
    /// There is no bound.
    Unbounded,
    /// The number was not found, which says nothing of the program.
    Unknown,
}

/// A program of cpGCL. Programs of one text are equal.
#[derive(Clone, Debug, Eq, Hash, PartialEq)]
pub struct Program {
    text: String,
}

impl Program {
    /// The program of a text. A text that is none is `Refused`.
    pub fn new(text: impl Into<String>) -> Result<Self, Error> {
        let text = text.into();
        check(&text)?;
        Ok(Program { text })
    }

    /// Its text.
    pub fn text(&self) -> &str {
        &self.text
    }

    /// Its canonical text.
    pub fn show(&self) -> Result<String, Error> {
        lines(&self.text, &Ask::Show)
    }

    /// The listing of the code that samples it.
    pub fn code(&self) -> Result<String, Error> {
        lines(&self.text, &Ask::Code)
    }

    /// The exact probability of each outcome, with at most so many `turns` of each entry of a loop, 0 to 1,000,000,000; without a limit of
    /// `attempts` or `rounds` where it is `None`. `zar` takes 30 turns. Refused where the masses are too wide, too many or none.
    pub fn mass(&self, turns: u64, attempts: Option<u64>, rounds: Option<u64>) -> Result<Vec<(Outcome, Fraction)>, Error> {
        if attempts == Some(0) || rounds == Some(0) {
            return Err(Error::OutOfRange);
        }
        let ask = Ask::Mass(turns, attempts.unwrap_or(0), rounds.unwrap_or(0));
        Ok(rows(&lines(&self.text, &ask)?, " mass ", fraction))
    }

    /// The exact probability of each value and fault where nothing is limited, and of `Endless`. Refused as `mass`.
    pub fn exact(&self) -> Result<Vec<(Outcome, Fraction)>, Error> {
        Ok(rows(&lines(&self.text, &Ask::Exact)?, " mass ", fraction))
    }

    /// Bounds of the probability of each value and fault, and of `Other`, that hold at every limit of turns from `turns` on. Refused as
    /// `mass`.
    pub fn posterior(&self, turns: u64) -> Result<Vec<(Outcome, Bounds)>, Error> {
        Ok(rows(&lines(&self.text, &Ask::Posterior(turns))?, " from ", bounds))
    }

    /// Two fractions between which the probability of each outcome lies, however wide that is, and of `Other`; with `all_turns` at every
    /// limit of turns from `turns` on. The limits are those of `mass`. Refused for its states, or for rounds of which too few pass.
    pub fn enclose(
        &self,
        turns: u64,
        attempts: Option<u64>,
        rounds: Option<u64>,
        all_turns: bool,
    ) -> Result<Vec<(Outcome, Bounds)>, Error> {
        if attempts == Some(0) || rounds == Some(0) {
            return Err(Error::OutOfRange);
        }
        let ask = Ask::Enclose(turns, attempts.unwrap_or(0), rounds.unwrap_or(0), all_turns);
        Ok(rows(&lines(&self.text, &ask)?, " from ", bounds))
    }

    /// How many bits a run reads on average where nothing is limited, or `None` where there is no bound. Refused as `exact`.
    pub fn cost_in_the_limit(&self) -> Result<Option<Fraction>, Error> {
        let line = lines(&self.text, &Ask::CostInTheLimit)?;
        let bits = line.trim_start_matches("bits ").trim_end();
        Ok((bits != "unbounded").then(|| fraction(bits)))
    }

    /// How many rounds a run begins on average where nothing is limited, or `None` where there is no bound. Refused as `exact`.
    pub fn rounds_in_the_limit(&self) -> Result<Option<Fraction>, Error> {
        let line = lines(&self.text, &Ask::RoundsInTheLimit)?;
        let rounds = line.trim_start_matches("rounds ").trim_end();
        Ok((rounds != "unbounded").then(|| fraction(rounds)))
    }

    /// How many draws a run makes on average where nothing is limited. One counts 1 once it is decided, whatever attempts it takes, one of
    /// `choice` or of `choose`, too. Never refused.
    pub fn draws_in_the_limit(&self) -> Result<Count, Error> {
        Ok(count(lines(&self.text, &Ask::DrawsInTheLimit)?.trim_start_matches("draws ")))
    }

    /// How many turns of loops it makes, likewise. One counts 1 when its guard is found true.
    pub fn turns_in_the_limit(&self) -> Result<Count, Error> {
        Ok(count(lines(&self.text, &Ask::TurnsInTheLimit)?.trim_start_matches("turns ")))
    }

    /// How many bits it reads under these limits. `zar` takes 30 turns. Refused as `mass`.
    pub fn cost(&self, turns: u64, attempts: u64, rounds: u64) -> Result<Fraction, Error> {
        let line = lines(&self.text, &Ask::Cost(turns, attempts, rounds))?;
        Ok(fraction(line.trim_start_matches("bits ").trim_end()))
    }

    /// How the run on the bits of these bytes ends, each byte's most significant bit first, and how many bits it read. It may read all of
    /// them, whatever the budget.
    pub fn run(&self, bits: &[u8], limits: &Limits) -> Result<(Outcome, u64), Error> {
        let (value, end, read) = run(&self.text, bits, &limits.four())?;
        Ok((Outcome::of_end(end, value), read))
    }

    /// How so many runs in a row on a stream of the seed end, each on the bits that those before it left, and how many bits they read. The
    /// budget is that of all of them.
    pub fn row(&self, seed: u64, stream: u64, count: usize, limits: &Limits) -> Result<(Vec<Outcome>, u64), Error> {
        let (values, ends, read) = row(&self.text, seed, stream, count, &limits.four())?;
        Ok((ends.into_iter().zip(values).map(|(end, value)| Outcome::of_end(end, value)).collect(), read))
    }

    /// How the runs on these streams of the seed end.
    pub fn runs(&self, seed: u64, streams: Range<u64>, limits: &Limits) -> Result<Vec<Outcome>, Error> {
        runs::outcomes(&Source::Text(&self.text), seed, streams, &limits.four())
    }

    /// How many of these runs end in each outcome that comes. Memory does not grow with the streams, which are at most 2^40.
    pub fn tally(&self, seed: u64, streams: Range<u64>, limits: &Limits) -> Result<Vec<(Outcome, u64)>, Error> {
        let told = lines(&self.text, &Ask::Tally(seed, &streams, &limits.four()))?;
        Ok(rows(&told, " count ", |count| count.parse().expect("a count of the library")))
    }

    /// The first of these streams, at most 2^40, whose run ends in the outcome, if there is one. What no run ends in is `OutOfRange`.
    pub fn hunt(&self, outcome: Outcome, seed: u64, streams: Range<u64>, limits: &Limits) -> Result<Option<u64>, Error> {
        let (value, end) = outcome.to_end();
        hunt(&self.text, seed, &streams, &limits.four(), value, end)
    }

    /// For each outcome the share of all strings of `depth` bits, 0 to 20, on which the run ends in it, and of `Undecided`, whatever the
    /// budget. So the probability of an outcome is at least this, and exactly this where nothing is undecided.
    pub fn audit(&self, depth: u32, limits: &Limits) -> Result<Vec<(Outcome, Fraction)>, Error> {
        Ok(rows(&lines(&self.text, &Ask::Audit(depth, &limits.four()))?, " mass ", fraction))
    }

    /// The values of these runs. The first run without one is `NoValue`.
    pub fn draws(&self, seed: u64, streams: Range<u64>, limits: &Limits) -> Result<Vec<i64>, Error> {
        runs::values(&Source::Text(&self.text), seed, streams, &limits.four())
    }
}

/// What a line says of a count, behind its word.
fn count(told: &str) -> Count {
    match told.trim_end() {
        "unbounded" => Count::Unbounded,
        "unknown" => Count::Unknown,
        number => Count::Expected(fraction(number)),
    }
}

/// The rows of lines: an outcome, a word, and what is read of the rest.
fn rows<T>(lines: &str, word: &str, read: impl Fn(&str) -> T) -> Vec<(Outcome, T)> {
    let row = |line: &str| {
        let (outcome, rest) = line.split_once(word)?;
        Some((Outcome::of_words(outcome)?, read(rest)))
    };
    lines.lines().map(|line| row(line).expect("a line of the library")).collect()
}

fn fraction(text: &str) -> Fraction {
    text.parse().expect("a fraction of the library")
}

fn bounds(text: &str) -> Bounds {
    let (low, high) = text.split_once(" to ").expect("bounds of the library");
    Bounds { low: fraction(low), high: fraction(high) }
}
