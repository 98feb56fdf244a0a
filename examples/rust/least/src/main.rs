//! A test at random by proptest: the bits that a run reads are bytes of proptest, so a run that fails shrinks to the least that does.
//! It prints `fails with 200`.

use proptest::collection::vec;
use proptest::prelude::*;
use proptest::test_runner::{Config, TestError, TestRunner};
use zar::{Limits, Program};

/// The values of runs of a program. A run without a value, or one that reads more than these bytes, is no example.
fn values(program: Program) -> impl Strategy<Value = i64> {
    vec(any::<u8>(), 64).prop_filter_map("a value", move |bits| program.run(&bits, &Limits::default()).ok()?.0.value())
}

fn main() -> Result<(), zar::Error> {
    let numbers = values(Program::new("x ~ uniform(1000); return x;")?);
    let config = Config { failure_persistence: None, ..Config::default() };
    let tried = TestRunner::new(config).run(&numbers, |x| {
        prop_assert!(x < 200); // the property that is tried
        Ok(())
    });
    if let Err(TestError::Fail(_, x)) = tried {
        println!("fails with {x}");
    }
    Ok(())
}
