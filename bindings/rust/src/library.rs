//! The calls of the library, by the types of its header `zar.h`, and what they answer.
use crate::error::{Error, Refused};
use std::ops::Range;

/// `zar_said`.
#[repr(C)]
pub(crate) struct Said {
    status: u8,
    code: u8,
    has_place: bool,
    place: u32,
    length: u64,
}

/// `zar_limits`, and `zar_roll_limits` by its first two numbers.
#[repr(C)]
pub(crate) struct Four(pub u64, pub u64, pub u64, pub u64);

/// `zar_ran`.
#[repr(C)]
struct Ran {
    value: i64,
    read: u64,
    end: u8,
}

/// `zar_found`.
#[repr(C)]
struct Found {
    stream: u64,
    found: bool,
}

extern "C" {
    fn zar_version(lines: *mut u8, capacity: usize) -> Said;
    fn zar_check(text: *const u8, length: usize) -> Said;
    fn zar_show(text: *const u8, length: usize, lines: *mut u8, capacity: usize) -> Said;
    fn zar_code(text: *const u8, length: usize, lines: *mut u8, capacity: usize) -> Said;
    fn zar_mass(text: *const u8, length: usize, turns: u64, attempts: u64, rounds: u64, lines: *mut u8, capacity: usize) -> Said;
    fn zar_posterior(text: *const u8, length: usize, turns: u64, lines: *mut u8, capacity: usize) -> Said;
    #[rustfmt::skip]
    fn zar_enclose(
        text: *const u8,
        length: usize,
        turns: u64,
        attempts: u64,
        rounds: u64,
        all_turns: bool,
        lines: *mut u8,
        capacity: usize,
    ) -> Said;
    fn zar_exact(text: *const u8, length: usize, lines: *mut u8, capacity: usize) -> Said;
    fn zar_cost(text: *const u8, length: usize, turns: u64, attempts: u64, rounds: u64, lines: *mut u8, capacity: usize) -> Said;
    fn zar_cost_in_the_limit(text: *const u8, length: usize, lines: *mut u8, capacity: usize) -> Said;
    fn zar_rounds_in_the_limit(text: *const u8, length: usize, lines: *mut u8, capacity: usize) -> Said;
    fn zar_draws_in_the_limit(text: *const u8, length: usize, lines: *mut u8, capacity: usize) -> Said;
    fn zar_turns_in_the_limit(text: *const u8, length: usize, lines: *mut u8, capacity: usize) -> Said;
    #[rustfmt::skip]
    fn zar_audit(
        text: *const u8,
        length: usize,
        depth: u32,
        turns: u64,
        attempts: u64,
        rounds: u64,
        lines: *mut u8,
        capacity: usize,
    ) -> Said;
    fn zar_explain(text: *const u8, length: usize, code: u8, place: u32, lines: *mut u8, capacity: usize) -> Said;
    #[rustfmt::skip]
    fn zar_tally(
        text: *const u8,
        length: usize,
        seed: u64,
        from: u64,
        to: u64,
        limits: *const Four,
        lines: *mut u8,
        capacity: usize,
    ) -> Said;
    #[rustfmt::skip]
    fn zar_hunt(
        text: *const u8,
        length: usize,
        seed: u64,
        from: u64,
        to: u64,
        limits: *const Four,
        value: i64,
        end: u8,
        found: *mut Found,
    ) -> Said;
    #[rustfmt::skip]
    fn zar_draws(
        text: *const u8,
        length: usize,
        seed: u64,
        first: u64,
        limits: *const Four,
        values: *mut i64,
        values_length: usize,
        ends: *mut u8,
        ends_length: usize,
    ) -> Said;
    #[rustfmt::skip]
    fn zar_run(
        text: *const u8,
        length: usize,
        bits: *const u8,
        bits_length: usize,
        turns: u64,
        attempts: u64,
        rounds: u64,
        ran: *mut Ran,
    ) -> Said;
    #[rustfmt::skip]
    fn zar_draws_in_a_row(
        text: *const u8,
        length: usize,
        seed: u64,
        stream: u64,
        limits: *const Four,
        values: *mut i64,
        values_length: usize,
        ends: *mut u8,
        ends_length: usize,
        read: *mut u64,
    ) -> Said;
    #[rustfmt::skip]
    fn zar_roll(
        weights: *const u64,
        length: usize,
        seed: u64,
        first: u64,
        limits: *const Four,
        labels: *mut u64,
        labels_length: usize,
        ends: *mut u8,
        ends_length: usize,
    ) -> Said;
}

/// A call that writes lines about a text.
pub(crate) enum Ask<'a> {
    Show,
    Code,
    Mass(u64, u64, u64),
    Posterior(u64),
    Enclose(u64, u64, u64, bool),
    Exact,
    Cost(u64, u64, u64),
    CostInTheLimit,
    RoundsInTheLimit,
    DrawsInTheLimit,
    TurnsInTheLimit,
    Audit(u32, &'a Four),
    Tally(u64, &'a Range<u64>, &'a Four),
}

/// What a call said of a text, where that is an answer.
fn taken(said: Said, text: &str) -> Result<Said, Error> {
    match said.status {
        0 => Ok(said),
        2 => Err(Error::OutOfRange),
        5 => Err(Error::OutOfMemory),
        _ => Err(Refused::of(said.code, said.has_place.then_some(said.place as usize), text).into()),
    }
}

/// Whether a text spells a program.
pub(crate) fn check(text: &str) -> Result<(), Error> {
    // SAFETY: the pointer and the length are those of one text, which nothing writes.
    taken(unsafe { zar_check(text.as_ptr(), text.len()) }, text).map(|_| ())
}

/// The lines that a call about a text writes.
pub(crate) fn lines(text: &str, ask: &Ask) -> Result<String, Error> {
    let (from, length) = (text.as_ptr(), text.len());
    written(text, |to, room| {
        // SAFETY: the pointers and the lengths are those of a text, which nothing writes, and of an array of its own.
        unsafe {
            match *ask {
                Ask::Show => zar_show(from, length, to, room),
                Ask::Code => zar_code(from, length, to, room),
                Ask::Mass(turns, attempts, rounds) => zar_mass(from, length, turns, attempts, rounds, to, room),
                Ask::Posterior(turns) => zar_posterior(from, length, turns, to, room),
                Ask::Enclose(turns, attempts, rounds, all) => zar_enclose(from, length, turns, attempts, rounds, all, to, room),
                Ask::Exact => zar_exact(from, length, to, room),
                Ask::Cost(turns, attempts, rounds) => zar_cost(from, length, turns, attempts, rounds, to, room),
                Ask::CostInTheLimit => zar_cost_in_the_limit(from, length, to, room),
                Ask::RoundsInTheLimit => zar_rounds_in_the_limit(from, length, to, room),
                Ask::DrawsInTheLimit => zar_draws_in_the_limit(from, length, to, room),
                Ask::TurnsInTheLimit => zar_turns_in_the_limit(from, length, to, room),
                Ask::Audit(depth, Four(_, turns, attempts, rounds)) => zar_audit(from, length, depth, *turns, *attempts, *rounds, to, room),
                Ask::Tally(seed, streams, limits) => zar_tally(from, length, seed, streams.start, streams.end, limits, to, room),
            }
        }
    })
}

/// What is found wrong with a text that is refused, if it is found.
pub(crate) fn explained(text: &str, code: u8, place: usize) -> Option<String> {
    let call = |to, room| {
        // SAFETY: as in `lines`.
        unsafe { zar_explain(text.as_ptr(), text.len(), code, place as u32, to, room) }
    };
    let line = written(text, call).ok()?;
    Some(line.trim_end().to_owned()).filter(|it| !it.is_empty())
}

/// The version of the library.
pub fn version() -> String {
    // SAFETY: the pointer and the length are those of an array of its own.
    let line = written("", |to, room| unsafe { zar_version(to, room) }).expect("a version is never refused");
    line.trim_start_matches("zar ").trim_end().to_owned()
}

/// The lines that a call writes, asked for again where they have no room at first. Memory that nothing is written to is not taken.
fn written(text: &str, call: impl Fn(*mut u8, usize) -> Said) -> Result<String, Error> {
    let mut room = 1 << 24;
    loop {
        let mut lines = vec![0; room];
        let length = taken(call(lines.as_mut_ptr(), room), text)?.length as usize;
        if length <= room {
            lines.truncate(length);
            lines.shrink_to_fit();
            return Ok(String::from_utf8(lines).expect("the library writes ASCII"));
        }
        room = length;
    }
}

/// Draws of the program of a text, or rolls by weights.
pub(crate) enum Source<'a> {
    Text(&'a str),
    Weights(&'a [u64]),
}

/// So many zeros, where there is memory for them.
fn zeros<T: Clone + Default>(count: usize) -> Result<Vec<T>, Error> {
    let mut zeros = Vec::new();
    zeros.try_reserve_exact(count).map_err(|_| Error::OutOfMemory)?;
    zeros.resize(count, T::default());
    Ok(zeros)
}

/// How the runs on so many streams of a seed end, from the first on: the values, and the numbers of the ends.
pub(crate) fn ends(source: &Source, seed: u64, first: u64, count: usize, limits: &Four) -> Result<(Vec<i64>, Vec<u8>), Error> {
    let (mut values, mut ends) = (zeros::<i64>(count)?, zeros(count)?);
    let (to, end) = (values.as_mut_ptr(), ends.as_mut_ptr());
    // SAFETY: the pointers and the lengths are those of what is borrowed, which nothing writes, and of two arrays of its own. A label is
    // below 2^32, so it is the same number with a sign.
    let said = unsafe {
        match source {
            Source::Text(text) => zar_draws(text.as_ptr(), text.len(), seed, first, limits, to, count, end, count),
            Source::Weights(weights) => zar_roll(weights.as_ptr(), weights.len(), seed, first, limits, to.cast(), count, end, count),
        }
    };
    taken(said, "").map(|_| (values, ends))
}

/// How a run on bits ends: the value, the number of the end, and how many bits it read.
pub(crate) fn run(text: &str, bits: &[u8], limits: &Four) -> Result<(i64, u8, u64), Error> {
    let mut ran = Ran { value: 0, read: 0, end: 0 };
    let Four(_, turns, attempts, rounds) = *limits;
    // SAFETY: the pointers and the lengths are those of what is borrowed, which nothing writes, and of a place of its own.
    let said = unsafe { zar_run(text.as_ptr(), text.len(), bits.as_ptr(), bits.len(), turns, attempts, rounds, &mut ran) };
    taken(said, "").map(|_| (ran.value, ran.end, ran.read))
}

/// The first of some streams of a seed whose run has this value and this end, if there is one.
pub(crate) fn hunt(text: &str, seed: u64, streams: &Range<u64>, limits: &Four, value: i64, end: u8) -> Result<Option<u64>, Error> {
    let mut it = Found { stream: 0, found: false };
    // SAFETY: as in `run`.
    let said = unsafe { zar_hunt(text.as_ptr(), text.len(), seed, streams.start, streams.end, limits, value, end, &mut it) };
    taken(said, "").map(|_| it.found.then_some(it.stream))
}

/// How so many runs in a row on a stream of a seed end: the values, the numbers of the ends, and how many bits they read.
pub(crate) fn row(text: &str, seed: u64, stream: u64, count: usize, limits: &Four) -> Result<(Vec<i64>, Vec<u8>, u64), Error> {
    let (mut values, mut ends, mut read) = (zeros::<i64>(count)?, zeros(count)?, 0);
    let (to, end) = (values.as_mut_ptr(), ends.as_mut_ptr());
    // SAFETY: as in `ends`.
    let said = unsafe { zar_draws_in_a_row(text.as_ptr(), text.len(), seed, stream, limits, to, count, end, count, &mut read) };
    taken(said, "").map(|_| (values, ends, read))
}
