//! How a row is measured and checked.

use std::hint::black_box;
use std::time::{Duration, Instant};
use twin::random::Random;

pub const CASES: usize = 4096;
const ROUNDS: usize = 1000;
pub const SEED: u64 = 1;

/// The nanoseconds of one call on each side that the row has.
pub struct Nanoseconds {
    pub proved: Option<f64>,
    pub twin: f64,
    /// Of plain Rust that changes its book in place.
    pub in_place: Option<f64>,
}

/// The nanoseconds, or why the row says nothing.
pub type Measurement = Result<Nanoseconds, String>;

/// What a side did in one round: the checksum of its answers, and how long they took.
pub struct Pass {
    sum: u64,
    time: Duration,
}

/// A side, which makes so many calls in a pass.
type Side<'a> = &'a dyn Fn() -> Pass;

/// Times the work alone, so that a side can make its books ready before.
pub fn timed(work: impl FnOnce() -> u64) -> Pass {
    let start = Instant::now();
    let sum = black_box(work());
    Pass {
        sum,
        time: start.elapsed(),
    }
}

/// Measures a row that has no book; each side makes so many calls and gives their checksum.
pub fn without_book(count: usize, proved: impl Fn() -> u64, twin: impl Fn() -> u64) -> Measurement {
    let [proved, twin] = best(count, [&|| timed(&proved), &|| timed(&twin)])?;
    Ok(Nanoseconds {
        proved: Some(proved),
        twin,
        in_place: None,
    })
}

/// Measures a row whose book is handed over by value, and in place.
pub fn with_book(
    count: usize,
    proved: impl Fn() -> u64,
    twin: impl Fn() -> u64,
    in_place: impl Fn() -> Pass,
) -> Measurement {
    let sides: [Side; 3] = [&|| timed(&proved), &|| timed(&twin), &in_place];
    let [proved, twin, in_place] = best(count, sides)?;
    Ok(Nanoseconds {
        proved: Some(proved),
        twin,
        in_place: Some(in_place),
    })
}

/// Measures a row that the proved side has no part in.
pub fn without_proved(
    count: usize,
    twin: impl Fn() -> u64,
    in_place: impl Fn() -> Pass,
) -> Measurement {
    let [twin, in_place] = best(count, [&|| timed(&twin), &in_place])?;
    Ok(Nanoseconds {
        proved: None,
        twin,
        in_place: Some(in_place),
    })
}

/// The best of all rounds, the sides in turn; every pass of every side must have the same checksum.
fn best<const SIDES: usize>(count: usize, sides: [Side; SIDES]) -> Result<[f64; SIDES], String> {
    let sum = sides[0]().sum;
    if sum == 0 {
        return Err("the checksum is 0, so nothing was measured".to_string());
    }
    let mut best = [Duration::MAX; SIDES];
    for _ in 0..ROUNDS {
        for (best, side) in best.iter_mut().zip(sides) {
            let pass = side();
            if pass.sum != sum {
                return Err(format!("checksums {sum} and {} differ", pass.sum));
            }
            *best = pass.time.min(*best);
        }
    }
    Ok(best.map(|time| time.as_nanos() as f64 / count as f64))
}

/// The checksum with one more word, to which the order matters.
pub fn add(sum: u64, word: u64) -> u64 {
    sum.rotate_left(1) ^ word
}

pub fn prepare<Input>(case: impl Fn(&mut Random) -> Input) -> Vec<Input> {
    let mut random = Random::new(SEED);
    (0..CASES).map(|_| case(&mut random)).collect()
}
