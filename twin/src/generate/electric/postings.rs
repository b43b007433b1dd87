//! Postings by the paper's table, apart from both sides.

use crate::generate::fields::{beyond, field, Range, Size};
use crate::random::Random;
use crate::records::{Posting, ADJUST, BILL, COST, MONTH_END, SALES, SETTLE};

pub const KINDS: [u8; 6] = [COST, SALES, BILL, SETTLE, MONTH_END, ADJUST];

const LEVEL: Range = (0, 1);
const CENTS: Range = (-10_000_000_000, 10_000_000_000);

/// The ranges of the fields of a kind by the paper's table, bit 0 first.
pub fn ranges(kind: u8) -> &'static [Range] {
    match kind {
        1 => &[CENTS, CENTS, CENTS],
        2 => &[(0, 10_000_000_000), (0, 10_000_000_000)],
        3 => &[LEVEL, (-1_000_000_000, 1_000_000_000)],
        4 => &[(1, 10_000_000_000), (1, 10_000_000_000)],
        5 => &[(0, 200_000)],
        6 => &[LEVEL, CENTS],
        _ => panic!("no fields of kind {kind}"),
    }
}

pub fn cost(cents: i64) -> Posting {
    costs([cents, 0, 0])
}

pub fn costs(numbers: [i64; 3]) -> Posting {
    Posting {
        kind: COST,
        numbers,
    }
}

pub fn sales(secondary: i64, primary: i64) -> Posting {
    Posting {
        kind: SALES,
        numbers: [secondary, primary, 0],
    }
}

pub fn bill(level: i64, kwh: i64) -> Posting {
    Posting {
        kind: BILL,
        numbers: [level, kwh, 0],
    }
}

pub fn settle(secondary: i64, primary: i64) -> Posting {
    Posting {
        kind: SETTLE,
        numbers: [secondary, primary, 0],
    }
}

pub fn month_end(rate: i64) -> Posting {
    Posting {
        kind: MONTH_END,
        numbers: [rate, 0, 0],
    }
}

pub fn adjust(level: i64, cents: i64) -> Posting {
    Posting {
        kind: ADJUST,
        numbers: [level, cents, 0],
    }
}

/// A posting of the kind with every field in its range.
pub fn posting_of(random: &mut Random, kind: u8, size: Size) -> Posting {
    let mut numbers = [0; 3];
    for (number, &range) in numbers.iter_mut().zip(ranges(kind)) {
        // A level has no size.
        *number = match range == LEVEL {
            true => random.within(0, 1),
            false => field(random, range, size),
        };
    }
    Posting { kind, numbers }
}

/// The posting with one thing wrong: its kind, a number that the kind lacks, or a field.
pub fn spoiled(random: &mut Random, mut posting: Posting) -> Posting {
    let ranges = ranges(posting.kind);
    match random.below(4) {
        0 => posting.kind = random.one_of(&[0, 7, 8, 9, 64, 127, 128, 255]),
        1 if ranges.len() < 3 => {
            let lacked = ranges.len() + random.below(3 - ranges.len());
            let wild = random.signed_of_any_length();
            posting.numbers[lacked] = random.one_of(&[1, -1, i64::MIN, i64::MAX, wild]);
        }
        _ => {
            let index = random.below(ranges.len());
            posting.numbers[index] = beyond(random, ranges[index]);
        }
    }
    posting
}
