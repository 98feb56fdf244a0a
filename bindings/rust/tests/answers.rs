//! What the library answers through the crate, beside what is worked out by hand or stands in the documents.
use std::thread;
use zar::{Bounds, Count, Die, Error, Fault, Fraction, Limit, Limits, Outcome, Program, Refused, RollLimits};

const USUAL: Limits = Limits { budget: 65_536, turns: 1000, attempts: 1000, rounds: 1000 };
const LOOP: &str = "x ~ uniform(2); while x = 1 { x ~ uniform(2); } return x;";
const MANY: &str = "x ~ uniform(400); while i < 200 { x := 399 - x; i := i + 1; } return x;";

fn program(text: &str) -> Program {
    Program::new(text).unwrap()
}

fn over(numerator: u128, denominator: u128) -> Fraction {
    Fraction { numerator, denominator }
}

fn refused(code: u8) -> Error {
    Refused { code, place: None, hint: None }.into()
}

#[test]
fn limits_are_those_of_the_commands() {
    assert_eq!(Limits::default(), USUAL);
    assert_eq!(RollLimits::default(), RollLimits { budget: 65_536, flips: 1000 });
}

#[test]
fn masses_are_exact() {
    let faulty = program("x ~ uniform(2); while x = 1 { skip; } return 1 / x;");
    let half = over(1, 2);
    let divided = (Outcome::Fault(Fault::ZeroDivisor), half);
    assert_eq!(faulty.mass(1, None, None), Ok(vec![divided, (Outcome::Limit(Limit::Turns), half)]));
    assert_eq!(faulty.exact(), Ok(vec![divided, (Outcome::Endless, half)]));
    let die = program("face ~ uniform(6); observe face % 2 = 1; return face + 1;");
    assert_eq!(die.mass(30, None, Some(2)).unwrap().last(), Some(&(Outcome::Limit(Limit::Rounds), over(1, 4))));
    assert_eq!(die.cost(30, 1, 1), Ok(over(11, 4)));
    assert_eq!(die.cost_in_the_limit(), Ok(Some(over(22, 3))));
    assert_eq!(program("x ~ uniform(2); observe false; return x;").cost_in_the_limit(), Ok(None));
    assert_eq!(f64::from(half), 0.5);
}

#[test]
fn counts_are_exact_or_unknown() {
    let tossed = program("while x = 0 { x ~ uniform(2); y ~ uniform(2); } return x;");
    assert_eq!(tossed.draws_in_the_limit(), Ok(Count::Expected(over(4, 1))));
    assert_eq!(tossed.turns_in_the_limit(), Ok(Count::Expected(over(2, 1))));
    assert_eq!(program("while true { skip; } return 0;").turns_in_the_limit(), Ok(Count::Unbounded));
    assert_eq!(program(MANY).draws_in_the_limit(), Ok(Count::Unknown));
}

#[test]
fn bounds_are_exact() {
    let bounds = program(LOOP).posterior(0).unwrap();
    let told: Vec<_> = bounds.iter().map(|(it, bounds)| format!("{it} from {} to {}", bounds.low, bounds.high)).collect();
    assert_eq!(told, ["value 0 from 1/2 to 1/1", "other from 0/1 to 1/2"]);
}

// The stream 0 of the seed 0 begins with the byte ad (RFC 8439, appendix A.1, test vector 1).
#[test]
fn bits_are_read_in_their_order() {
    let die = program("x ~ uniform(4); return x;");
    assert_eq!(die.run(&[0b1011_0001], &USUAL), Ok((Outcome::Value(2), 2)));
    assert_eq!(die.run(&[], &USUAL), Ok((Outcome::MoreBits, 0)));
    assert_eq!(die.run(&[0], &Limits { rounds: 0, ..USUAL }), Err(Error::OutOfRange));
    let values = |values: &[i64]| values.iter().copied().map(Outcome::Value).collect::<Vec<_>>();
    assert_eq!(die.row(0, 0, 4, &USUAL), Ok((values(&[2, 2, 3, 1]), 8)));
    let few = die.row(0, 0, 2, &Limits { budget: 3, ..USUAL });
    assert_eq!(few, Ok((vec![Outcome::Value(2), Outcome::MoreBits], 3)));
}

#[test]
fn bounds_enclose() {
    let whole = Bounds { low: over(1, 1), high: over(1, 1) };
    assert_eq!(program("return 1;").enclose(30, None, None, true).unwrap()[0], (Outcome::Value(1), whole));
    assert_eq!(program("observe false; return 1;").enclose(30, None, None, false), Err(refused(15)));
}

// A choice of 2/3 by three bits, as the documents have it.
#[test]
fn strings_are_audited() {
    let coin = program("choice 2/3 { x := 1; } or { x := 2; } return x;");
    let half = [(Outcome::Value(1), over(1, 2)), (Outcome::Undecided, over(1, 2))];
    assert_eq!(coin.audit(1, &USUAL), Ok(half.to_vec()));
    let shares = coin.audit(3, &USUAL).unwrap();
    assert_eq!(shares, [(Outcome::Value(1), over(5, 8)), (Outcome::Value(2), over(1, 4)), (Outcome::Undecided, over(1, 8))]);
    assert_eq!(coin.audit(21, &USUAL), Err(Error::OutOfRange));
}

#[test]
fn streams_are_counted_and_sought() {
    let coin = program("x ~ uniform(2); return x;");
    let runs = coin.runs(7, 5..1005, &USUAL).unwrap();
    let ones = runs.iter().filter(|it| **it == Outcome::Value(1)).count() as u64;
    assert_eq!(coin.tally(7, 5..1005, &USUAL), Ok(vec![(Outcome::Value(0), 1000 - ones), (Outcome::Value(1), ones)]));
    let first = runs.iter().position(|it| *it == Outcome::Value(1)).map(|place| 5 + place as u64);
    assert_eq!(coin.hunt(Outcome::Value(1), 7, 5..1005, &USUAL), Ok(first));
    assert_eq!(coin.hunt(Outcome::Value(2), 7, 5..1005, &USUAL), Ok(None));
    let empty = Limits { budget: 0, ..USUAL };
    assert_eq!(coin.tally(7, 5..9, &empty), Ok(vec![(Outcome::MoreBits, 4)]));
    assert_eq!(coin.hunt(Outcome::MoreBits, 7, 5..9, &empty), Ok(Some(5)));
    for it in [Outcome::Limit(Limit::Flips), Outcome::Undecided, Outcome::Endless, Outcome::Other] {
        assert_eq!(coin.hunt(it, 7, 5..9, &USUAL), Err(Error::OutOfRange));
    }
    assert_eq!(coin.tally(7, 0..(1 << 40) + 1, &USUAL), Err(Error::OutOfRange));
}

#[test]
fn texts_are_laid_out() {
    let laid_out = program("x:=1;return x;").show().unwrap();
    assert_eq!(laid_out, "x := 1;\nreturn x;\n");
    assert!(program(&laid_out).code().unwrap().ends_with('\n'));
}

#[test]
fn refusals_have_places() {
    let why = Program::new("x := 1;\n\t# é\n\ty := x +;\nreturn y;").unwrap_err();
    let hint = "a number or a name is missing before this";
    assert_eq!(why, Refused { code: 5, place: Some((3, 10)), hint: Some(hint.into()) }.into());
    assert_eq!(why.to_string(), format!("E5 unexpected, line 3, column 10: {hint}"));
    assert_eq!(Program::new("return y;").unwrap_err().to_string(), "E8 unknown name, line 1, column 1: 'y' is never set");
    assert_eq!(Program::new("#".repeat(70_000)).unwrap_err().to_string(), "E1 text too long");
    assert_eq!(program("observe false; return 1;").mass(30, None, None), Err(refused(15)));
    assert_eq!(program("x ~ uniform(300); y ~ uniform(300); return x * 300 + y;").exact(), Err(refused(14)));
}

#[test]
fn numbers_have_ranges() {
    let coin = program(LOOP);
    assert_eq!(coin.mass(1_000_000_001, None, None), Err(Error::OutOfRange));
    assert_eq!(coin.mass(1, Some(0), None), Err(Error::OutOfRange));
    assert_eq!(coin.cost(1, 1, 0), Err(Error::OutOfRange));
    assert_eq!(coin.draws(1, 0..2, &Limits { budget: 1_000_000_001, ..USUAL }), Err(Error::OutOfRange));
    assert_eq!(coin.draws(1, 0..u64::MAX, &USUAL), Err(Error::OutOfMemory));
    for weights in [vec![], vec![5], vec![0, 5], vec![1 << 62, 1]] {
        assert_eq!(Die::new(weights), Err(Error::OutOfRange));
    }
}

#[test]
fn a_draw_without_a_value_is_an_error() {
    let coin = program(LOOP);
    let empty = Limits { budget: 0, ..USUAL };
    assert_eq!(coin.runs(1, 3..5, &empty), Ok(vec![Outcome::MoreBits; 2]));
    let why = coin.draws(1, 3..5, &empty).unwrap_err();
    assert_eq!(why, Error::NoValue { stream: 3, outcome: Outcome::MoreBits });
    assert_eq!(why.to_string(), "the run on stream 3 has no value: more bits");
}

#[test]
fn a_die_is_rolled_by_its_weights() {
    // The stream 0 of the seed 0 begins with 1010, on which the weights 3, 2 and 1 give the label 1.
    let die = Die::new([3, 2, 1]).unwrap();
    assert_eq!(die.draws(0, 0..1, &RollLimits::default()), Ok(vec![1]));
    assert_eq!(die.runs(0, 0..1, &RollLimits { budget: 9, flips: 0 }), Ok(vec![Outcome::Limit(Limit::Flips)]));
}

#[test]
fn threads_draw_parts() {
    let die = program("x ~ uniform(6); return x;");
    let whole = die.draws(7, 0..4000, &USUAL).unwrap();
    let parts: Vec<i64> = thread::scope(|scope| {
        let of = |first| {
            scope.spawn({
                let die = &die;
                move || die.draws(7, first..first + 1000, &USUAL).unwrap()
            })
        };
        let workers: Vec<_> = [0, 1000, 2000, 3000].map(of).into();
        workers.into_iter().flat_map(|it| it.join().unwrap()).collect()
    });
    assert_eq!(parts, whole);
    assert_eq!(die.draws(7, 5..5, &USUAL), Ok(vec![]));
}

#[cfg(feature = "rand")]
#[test]
fn a_generator_samples() {
    use rand::distributions::Distribution;
    use rand::rngs::StdRng;
    use rand::{RngCore, SeedableRng};
    let die = program("x ~ uniform(6); return x;");
    let sampled: Vec<Outcome> = (&die).sample_iter(StdRng::seed_from_u64(1)).take(50).collect();
    let mut seeds = StdRng::seed_from_u64(1);
    let drawn: Vec<Outcome> = (0..50).map(|_| die.runs(seeds.next_u64(), 0..1, &USUAL).unwrap()[0]).collect();
    assert_eq!(sampled, drawn);
    assert!(sampled.iter().all(|it| matches!(it.value(), Some(0..=5))));
    assert!(Die::new([1, 1]).unwrap().sample(&mut seeds).value() < Some(2));
}
