//! Ten draws of a die that shows an even number, and the exact probability of each.

use zar::{Limits, Program};

fn main() -> Result<(), zar::Error> {
    let die = Program::new("face ~ uniform(6); observe face % 2 = 1; return face + 1;")?;
    println!("{:?}", die.draws(1, 0..10, &Limits::default())?); // seed 1
    for (outcome, mass) in die.mass(30, None, None)? {
        println!("{outcome} mass {mass}");
    }
    Ok(())
}
