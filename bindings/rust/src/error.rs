//! Why there is no answer.
use crate::library::explained;
use crate::Outcome;

/// Why a call has no answer.
#[derive(Clone, Debug, Eq, PartialEq, thiserror::Error)]
pub enum Error {
    /// A text is no program, or a program has no masses that can be given.
    #[error(transparent)]
    Refused(#[from] Refused),
    /// A number is out of its range, which the parameter's comment says, or the weights are none.
    #[error("a number is out of its range")]
    OutOfRange,
    /// The library has no more memory.
    #[error("out of memory")]
    OutOfMemory,
    /// A draw ended without a value. To leave it out would be to condition on its not coming.
    #[error("the run on stream {stream} has no value: {outcome}")]
    NoValue {
        /// The number of its stream.
        stream: u64,
        /// How it ended.
        outcome: Outcome,
    },
}

/// A refusal: its code, its place where it has one in the text, and what is wrong there where the library finds it.
#[derive(Clone, Debug, Eq, PartialEq, thiserror::Error)]
#[error("E{code} {}{}{}", self.reason(), self.where_it_is(), hint.as_ref().map_or(String::new(), |it| format!(": {it}")))]
pub struct Refused {
    /// The code, as 5 for E5.
    pub code: u8,
    /// Line and column in characters, both from 1 on.
    pub place: Option<(usize, usize)>,
    /// A sentence that says what is wrong, as a terminal shows it.
    pub hint: Option<String>,
}

/// The words of the codes, from 1 on.
const REASONS: [&str; 17] = [
    "text too long",
    "bad byte",
    "number too wide",
    "name too long",
    "unexpected",
    "too deep",
    "kind mismatch",
    "unknown name",
    "too many names",
    "zero denominator",
    "weight above one",
    "weight too fine",
    "fraction too wide",
    "too many states",
    "every round fails",
    "",
    "too unlikely to enclose",
];

impl Refused {
    /// The refusal at a place of a text, in bytes.
    pub(crate) fn of(code: u8, place: Option<usize>, text: &str) -> Self {
        let hint = place.and_then(|at| explained(text, code, at));
        let place = place.map(|at| {
            let before = String::from_utf8_lossy(&text.as_bytes()[..at]);
            let line = before.rsplit('\n').next().unwrap_or_default();
            (before.matches('\n').count() + 1, line.chars().count() + 1)
        });
        Refused { code, place, hint }
    }

    fn where_it_is(&self) -> String {
        self.place.map_or(String::new(), |(line, column)| format!(", line {line}, column {column}"))
    }

    /// The words of the code.
    pub fn reason(&self) -> &'static str {
        REASONS[self.code as usize - 1]
    }
}
