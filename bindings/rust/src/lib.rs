//! Exact sampling of cpGCL programs, proved correct: the library `libzar`.
//!
//! ```
//! use zar::{Limits, Outcome, Program};
//!
//! let die = Program::new("face ~ uniform(6); observe face % 2 = 1; return face + 1;")?;
//! assert_eq!(die.draws(1, 0..5, &Limits::default())?, [4, 2, 4, 2, 6]);
//! let (outcome, mass) = die.mass(30, None, None)?[0];
//! assert_eq!((outcome, mass.to_string()), (Outcome::Value(2), "1/3".to_owned()));
//! # Ok::<(), zar::Error>(())
//! ```
//!
//! What is answered comes from the library, whose code is proved; the Rust between is tested. With the feature `rand` a program and a
//! die are a `Distribution` of the crate `rand`.
#![warn(missing_docs)]

mod die;
#[cfg(feature = "rand")]
mod distribution;
mod error;
mod fraction;
mod library;
mod outcome;
mod program;
mod runs;

pub use die::{Die, RollLimits};
pub use error::{Error, Refused};
pub use fraction::{Bounds, Fraction};
pub use library::version;
pub use outcome::{Fault, Limit, Outcome};
pub use program::{Count, Program};
pub use runs::Limits;
