//! Postings by the paper's table, apart from both sides.

use crate::generate::fields::{beyond, field, Range, Size};
use crate::random::Random;
use crate::records::{Posting, ADJUST, BILL, COST, MONTH_END, RECONCILE, SALES, SETTLE};

pub const KINDS: [u8; 7] = [COST, SALES, BILL, SETTLE, MONTH_END, ADJUST, RECONCILE];

const CENTS: Range = (-10_000_000_000, 10_000_000_000);

/// Of a reconciliation's months only the ends are in range.
const MONTHS: Range = (12, 24);

/// The ranges of the fields of a kind by the paper's table, bit 0 first.
pub fn ranges(kind: u8) -> &'static [Range] {
    match kind {
        1 => &[CENTS],
        2 => &[(0, 100_000_000)],
        3 => &[(-10_000_000, 10_000_000)],
        4 => &[(-100_000_000, 100_000_000)],
        5 => &[],
        6 => &[CENTS, (0, 100_000_000_000)],
        7 => &[MONTHS, (1, 100_000_000)],
        _ => panic!("no fields of kind {kind}"),
    }
}

pub fn cost(cents: i64) -> Posting {
    of_one(COST, cents)
}

pub fn sales(sold: i64) -> Posting {
    of_one(SALES, sold)
}

pub fn bill(sold: i64) -> Posting {
    of_one(BILL, sold)
}

pub fn settle(adjustment: i64) -> Posting {
    of_one(SETTLE, adjustment)
}

pub fn month_end() -> Posting {
    of_one(MONTH_END, 0)
}

/// An adjustment with the annual fuel cost.
pub fn prudence(cents: i64, fuel_cost: i64) -> Posting {
    Posting {
        kind: ADJUST,
        numbers: [cents, fuel_cost, 0],
    }
}

/// An adjustment for another refund, which no fuel cost is named for.
pub fn adjust(cents: i64) -> Posting {
    prudence(cents, 0)
}

pub fn reconcile(months: i64, sold: i64) -> Posting {
    Posting {
        kind: RECONCILE,
        numbers: [months, sold, 0],
    }
}

fn of_one(kind: u8, number: i64) -> Posting {
    Posting {
        kind,
        numbers: [number, 0, 0],
    }
}

/// A posting of the kind with every field in its range.
pub fn posting_of(random: &mut Random, kind: u8, size: Size) -> Posting {
    let mut numbers = [0; 3];
    for (number, &range) in numbers.iter_mut().zip(ranges(kind)) {
        *number = match range == MONTHS {
            true => random.one_of(&[12, 24]),
            false => field(random, range, size),
        };
    }
    if kind == ADJUST {
        numbers[1] = fuel_cost(random, numbers[0], numbers[1]);
    }
    Posting { kind, numbers }
}

/// None, the one given, or one about ten times the cents, where refusal 11 begins.
fn fuel_cost(random: &mut Random, cents: i64, given: i64) -> i64 {
    let about = 10 * cents.abs() + random.within(-1, 1);
    let (low, high) = ranges(ADJUST)[1];
    let chosen = random.one_of(&[0, 0, 0, 0, given, about, about]);
    chosen.clamp(low, high)
}

/// The posting with one thing wrong: its kind, a number that the kind lacks, or a field.
pub fn spoiled(random: &mut Random, mut posting: Posting) -> Posting {
    let ranges = ranges(posting.kind);
    let choice = random.below(4);
    if choice == 0 {
        posting.kind = random.one_of(&[0, 8, 9, 10, 64, 127, 128, 255]);
    } else if choice == 1 || ranges.is_empty() {
        let lacked = ranges.len() + random.below(3 - ranges.len());
        let wild = random.signed_of_any_length();
        posting.numbers[lacked] = random.one_of(&[1, -1, i64::MIN, i64::MAX, wild]);
    } else {
        let index = random.below(ranges.len());
        let outside = beyond(random, ranges[index]);
        let between = random.within(13, 23);
        posting.numbers[index] = match ranges[index] == MONTHS {
            true => random.one_of(&[outside, between, 0, 12 + (1 << 8), 24 + (1 << 32)]),
            false => outside,
        };
    }
    posting
}
