//! How runs end.
use std::fmt;

/// A fault of the program, which ended its run.
#[derive(Clone, Copy, Debug, Eq, Hash, Ord, PartialEq, PartialOrd)]
pub enum Fault {
    /// A result outside the numbers of 64 bits.
    Overflow,
    /// A division or a remainder by 0.
    ZeroDivisor,
    /// A uniform draw of a bound below 1.
    BadBound,
}

/// A limit that cut a run off.
#[derive(Clone, Copy, Debug, Eq, Hash, Ord, PartialEq, PartialOrd)]
pub enum Limit {
    /// Of the turns of a loop.
    Turns,
    /// Of the attempts of a draw.
    Attempts,
    /// Of the rounds of a run.
    Rounds,
    /// Of the flips of a roll.
    Flips,
}

/// How a run ends, or what a mass or bounds are of. The order is that in which `zar` prints them.
#[derive(Clone, Copy, Debug, Eq, Hash, Ord, PartialEq, PartialOrd)]
pub enum Outcome {
    /// A value.
    Value(i64),
    /// A fault of the program.
    Fault(Fault),
    /// A limit.
    Limit(Limit),
    /// The run needs more bits than its budget has.
    MoreBits,
    /// Of audits alone: the run needs more bits than the strings have.
    Undecided,
    /// Of masses alone: the run never ends.
    Endless,
    /// Of bounds alone: all that has none of its own.
    Other,
}

/// The outcomes without a value, each with its words. The first eight are the ends of the library, from 1 on.
const NAMED: [(Outcome, &str); 11] = [
    (Outcome::Fault(Fault::Overflow), "fault overflow"),
    (Outcome::Fault(Fault::ZeroDivisor), "fault zero divisor"),
    (Outcome::Fault(Fault::BadBound), "fault bad bound"),
    (Outcome::Limit(Limit::Turns), "limit turns"),
    (Outcome::Limit(Limit::Attempts), "limit attempts"),
    (Outcome::Limit(Limit::Rounds), "limit rounds"),
    (Outcome::MoreBits, "more bits"),
    (Outcome::Limit(Limit::Flips), "limit flips"),
    (Outcome::Undecided, "undecided"),
    (Outcome::Endless, "endless"),
    (Outcome::Other, "other"),
];

impl Outcome {
    /// The value, where there is one.
    pub fn value(self) -> Option<i64> {
        match self {
            Outcome::Value(value) => Some(value),
            _ => None,
        }
    }

    /// The outcome of an end as the library numbers it, and of the value beside it.
    pub(crate) fn of_end(end: u8, value: i64) -> Self {
        end.checked_sub(1).map_or(Outcome::Value(value), |it| NAMED[it as usize].0)
    }

    /// The value, or 0, and the end by which the library tells it; an end that there is not, where no run ends so.
    pub(crate) fn to_end(self) -> (i64, u8) {
        match self {
            Outcome::Value(value) => (value, 0),
            _ => (0, NAMED[..7].iter().position(|(it, _)| *it == self).map_or(u8::MAX, |place| place as u8 + 1)),
        }
    }

    /// The outcome of these words.
    pub(crate) fn of_words(words: &str) -> Option<Self> {
        match words.strip_prefix("value ") {
            Some(number) => number.parse().ok().map(Outcome::Value),
            None => NAMED.iter().find(|(_, it)| *it == words).map(|(it, _)| *it),
        }
    }
}

/// The words of `zar`.
impl fmt::Display for Outcome {
    fn fmt(&self, f: &mut fmt::Formatter<'_>) -> fmt::Result {
        match self {
            Outcome::Value(value) => write!(f, "value {value}"),
            _ => f.write_str(NAMED.iter().find(|(it, _)| it == self).map_or("", |(_, words)| words)),
        }
    }
}
