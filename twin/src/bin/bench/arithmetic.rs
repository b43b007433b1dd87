//! Rows of rounding and weights.

use crate::measure::{add, prepare, without_book, Measurement};
use crate::rows::Row;
use std::hint::black_box;
use twin::random::Random;
use twin::{proved, rounding};

pub fn rows() -> Vec<Row> {
    vec![
        Row::new("round_div", || round_div(ledger_quotient)),
        Row::new("round_div_extremes", || round_div(extreme_quotient)),
        Row::new("weight", weight),
    ]
}

fn round_div(case: fn(&mut Random) -> (i64, i64)) -> Measurement {
    measure(&prepare(case), proved::round_div, rounding::round_div)
}

fn weight() -> Measurement {
    measure(&prepare(ledger_amounts), proved::weight, rounding::weight)
}

fn measure(
    inputs: &[(i64, i64)],
    proved: impl Fn(i64, i64) -> i64,
    twin: impl Fn(i64, i64) -> i64,
) -> Measurement {
    without_book(
        inputs.len(),
        || pass(inputs, &proved),
        || pass(inputs, &twin),
    )
}

/// Calls the function on every input, and gives a checksum that the order matters to.
fn pass(inputs: &[(i64, i64)], function: impl Fn(i64, i64) -> i64) -> u64 {
    let inputs = black_box(inputs).iter();
    inputs.fold(0, |sum, &(first, second)| {
        add(sum, function(first, second) as u64)
    })
}

/// A sum of money of either sign, over a unit of the ledger or over sales.
fn ledger_quotient(random: &mut Random) -> (i64, i64) {
    let sum = random.within(-1_000_000_000_000_000, 1_000_000_000_000_000);
    let sales = random.within(100_000, 100_000_000);
    (sum, random.one_of(&[100, 1_000, 100_000, sales]))
}

/// A dividend near either end of 64-bit numbers, over a divisor of any size, some below 1.
fn extreme_quotient(random: &mut Random) -> (i64, i64) {
    let from_end = random.up_to(1_000);
    let dividend = random.one_of(&[i64::MIN + from_end, i64::MAX - from_end]);
    let large = i64::MAX - random.up_to(1_000);
    let any = random.signed_of_any_length();
    (dividend, random.one_of(&[1, 2, large, any]))
}

/// Secondary and primary sales, each times its loss factor.
fn ledger_amounts(random: &mut Random) -> (i64, i64) {
    let mut amount = || {
        let sales = random.within(0, 1_000_000_000);
        sales * random.within(100_000, 112_000)
    };
    (amount(), amount())
}
