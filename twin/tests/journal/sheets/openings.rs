//! Inputs that open no electric book.

use super::expect;
use crate::written::{journal, steam};
use std::iter;

const SEVEN: &str = "refused 7\n";

#[test]
fn nothing_is_refused_by_one() {
    expect("refused 1\n", &[]);
}

#[test]
fn an_opening_alone_prints_nothing() {
    expect("", &[0]);
    expect("", &[1]);
}

#[test]
fn a_steam_journal_has_no_sheets() {
    let opening = steam([10_000; 4]);
    let records = [
        (1, &[3_700_000][..]),
        (2, &[10_000]),
        (5, &[]),
        (5, &[]),
        (4, &[]),
    ];
    expect(SEVEN, &opening);
    expect(SEVEN, &journal(&opening, &records));
    expect(SEVEN, &opening[..1]);
    expect(SEVEN, &opening[..20]);
    expect(SEVEN, &steam([-1, 0, 0, 0]));
    // A record that cannot be read is not come to.
    expect(SEVEN, &[&opening[..], &[0, 0]].concat());
}

#[test]
fn no_other_byte_opens_a_book() {
    for first in 3..=255 {
        expect(SEVEN, &[first]);
        expect(SEVEN, &[first, 3, 0]);
    }
}

/// An opening with bills of nothing and one byte more, of the length.
fn of_length(length: usize) -> Vec<u8> {
    let bytes = [0].into_iter().chain([3, 0].into_iter().cycle());
    bytes.take(length).collect()
}

#[test]
fn no_journal_is_longer_than_65536_bytes() {
    expect("", &of_length(65_535));
    expect("32768 0 refused 1\n", &of_length(65_536));
    for length in [65_537, 65_538, 70_000, 1 << 20] {
        expect(SEVEN, &of_length(length));
    }
    let mut longer = steam([1; 4]);
    longer.extend(iter::repeat_n(3, 70_000));
    expect(SEVEN, &longer);
}
