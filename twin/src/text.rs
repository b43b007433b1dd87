//! The paper's text of amounts.

use crate::written::{write_to_front, Written};

/// The longest text: a minus, 19 digits and a point.
const LONGEST: usize = 21;

/// The two digits of every number below 100.
const DIGIT_PAIRS: [[u8; 2]; 100] = digit_pairs();

const fn digit_pairs() -> [[u8; 2]; 100] {
    let mut pairs = [[0; 2]; 100];
    let mut number = 0;
    while number < 100 {
        pairs[number] = [digit(number as u64 / 10), digit(number as u64 % 10)];
        number += 1;
    }
    pairs
}

const fn digit(number: u64) -> u8 {
    b'0' + number as u8
}

// The proved functions are behind a C call, so for a fair benchmark these two are never inlined.

/// Cents, with two digits after the point.
#[inline(never)]
pub fn write_cents(cents: i64, buffer: &mut [u8]) -> Written {
    write_amount::<1>(cents, buffer)
}

/// Points, with four digits after the point.
#[inline(never)]
pub fn write_points(points: i32, buffer: &mut [u8]) -> Written {
    write_amount::<2>(i64::from(points), buffer)
}

/// A minus if below zero, the whole part without leading zeros, a point, and the pairs after it.
#[inline]
fn write_amount<const PAIRS_AFTER_POINT: usize>(amount: i64, buffer: &mut [u8]) -> Written {
    // The last digit is found first, so the text grows from its end.
    let mut text = [0; LONGEST];
    let mut start = LONGEST;
    let mut rest = amount.unsigned_abs();
    for _ in 0..PAIRS_AFTER_POINT {
        start = put_pair_before(start, &mut text, rest % 100);
        rest /= 100;
    }
    start = put_before(start, &mut text, b'.');
    while rest >= 100 {
        start = put_pair_before(start, &mut text, rest % 100);
        rest /= 100;
    }
    // The first one or two digits; a whole part of 0 has one.
    if rest >= 10 {
        start = put_pair_before(start, &mut text, rest);
    } else {
        start = put_before(start, &mut text, digit(rest));
    }
    if amount < 0 {
        start = put_before(start, &mut text, b'-');
    }
    write_to_front(&text[start..], buffer)
}

/// Puts a byte before the start, and gives the new start.
#[inline]
fn put_before(start: usize, text: &mut [u8; LONGEST], byte: u8) -> usize {
    text[start - 1] = byte;
    start - 1
}

/// Puts the two digits of a number below 100 before the start, and gives the new start.
#[inline]
fn put_pair_before(start: usize, text: &mut [u8; LONGEST], number: u64) -> usize {
    text[start - 2..start].copy_from_slice(&DIGIT_PAIRS[number as usize]);
    start - 2
}
