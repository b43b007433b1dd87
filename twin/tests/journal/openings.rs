//! Openings of journals, accepted and refused.

use crate::sides::expect;
use crate::written::{openings, steam};

const SEVEN: &str = "refused 7\n";

/// A record of two bytes, a bill of nothing, and its line as the first one.
const BILL: [u8; 2] = [3, 0];
const BILLED: &str = "1 3 line 0.00\n";

/// The opening alone, and with a record after it.
fn is_accepted(opening: &[u8]) {
    expect("", opening);
    expect(BILLED, &[opening, &BILL].concat());
}

fn is_refused(opening: &[u8]) {
    expect(SEVEN, opening);
    expect(SEVEN, &[opening, &BILL].concat());
}

#[test]
fn nothing_is_refused_by_one() {
    expect("refused 1\n", &[]);
}

#[test]
fn every_first_byte_opens_a_division_or_is_refused() {
    for first in 0..=255 {
        match first {
            0 | 1 => is_accepted(&[first]),
            _ => is_refused(&[first]),
        }
        // With room for quarters, which 02 alone has.
        let mut quarters = steam([0; 4]);
        quarters[0] = first;
        match first {
            0 | 1 => expect("1 0 refused 2\n", &quarters),
            2 => is_accepted(&quarters),
            _ => is_refused(&quarters),
        }
    }
}

#[test]
fn quarters_cut_short_are_refused() {
    let opening = steam([10_000; 4]);
    for length in 1..opening.len() {
        expect(SEVEN, &opening[..length]);
    }
    is_accepted(&opening);
}

#[test]
fn every_quarter_is_held_to_its_limits() {
    for index in 0..4 {
        let with = |sales| {
            let mut quarters = [7; 4];
            quarters[index] = sales;
            steam(quarters)
        };
        for sales in [0, 1, 99_999_999, 100_000_000] {
            is_accepted(&with(sales));
        }
        let in_range_when_narrowed = [1 << 32, (1 << 32) + 100];
        for sales in [-1, 100_000_001, i64::MIN, i64::MAX] {
            is_refused(&with(sales));
        }
        for sales in in_range_when_narrowed {
            is_refused(&with(sales));
        }
    }
}

#[test]
fn no_journal_is_longer_than_65536_bytes() {
    for opening in openings() {
        let mut longest = opening.clone();
        while longest.len() < 65_535 {
            longest.extend(BILL);
        }
        let records = (65_535 - opening.len()) / 2;
        let lines: Vec<String> = (1..=records)
            .map(|n| format!("{n} 3 line 0.00\n"))
            .collect();
        let text = lines.concat();
        expect(&text, &longest);
        // An opening and whole records have an odd length, so one byte is left.
        longest.push(3);
        expect(&format!("{text}{} 0 refused 1\n", records + 1), &longest);
        longest.push(0);
        expect(SEVEN, &longest);
        longest.resize(70_000, 0);
        expect(SEVEN, &longest);
    }
}
