//! Every limit of what a book holds, from both sides.

use crate::postings::{bill, KINDS};
use crate::sides::{expect, expect_refusal, number_of, opened};
use crate::stored::{stored, STORED};
use twin::records::Posting;
use twin::steam::SteamBook;

/// A posting that every book within its limits accepts, and that moves nothing.
fn nothing() -> Posting {
    bill(0)
}

/// A fresh book but for a reconciliation that runs, so that its factor and cents may be any.
fn running() -> SteamBook {
    let mut book = opened([1, 2, 3, 4]);
    book.reconciliation.months = 5;
    book
}

#[test]
fn a_stored_value_past_its_limit_is_refused_and_at_its_limit_is_not() {
    for value in &STORED {
        let with = |number| value.with(running(), number);
        for inside in [value.low, value.high, value.low + 1, value.high - 1] {
            let book = with(inside);
            let met = expect(0, book, nothing());
            assert_eq!(met, book, "{} at {inside}", value.name);
        }
        for outside in [value.low - 1, value.high + 1] {
            for kind in KINDS {
                let numbers = [0; 3];
                expect_refusal(6, with(outside), Posting { kind, numbers });
            }
        }
        // The ends of 32 bits are wild to a factor, and amounts like others to cents.
        for number in [i32::MIN, i32::MAX].map(i64::from) {
            let fits = (value.low..=value.high).contains(&number);
            let met = number_of(with(number), nothing());
            assert_eq!(met == 0, fits, "{} at {number}", value.name);
        }
    }
}

#[test]
fn the_ends_of_64_bits_are_past_every_limit() {
    for value in STORED.iter().filter(|value| !value.name.contains("factor")) {
        for number in [i64::MIN, i64::MIN + 1, i64::MAX] {
            expect_refusal(6, value.with(running(), number), nothing());
        }
    }
}

#[test]
fn month_and_settled_have_their_limits() {
    for month in 0..=255 {
        for settled in [false, true] {
            let mut book = opened([0; 4]);
            book.month = month;
            book.settled = settled;
            let fits = (1..=12).contains(&month) && (!settled || [3, 6, 9, 12].contains(&month));
            let number = number_of(book, nothing());
            assert_eq!(number, if fits { 0 } else { 6 }, "{book:?}");
        }
    }
}

#[test]
fn months_left_are_at_most_24() {
    for months in 0..=255 {
        let mut book = opened([0; 4]);
        book.reconciliation.months = months;
        let number = number_of(book, nothing());
        assert_eq!(number, if months <= 24 { 0 } else { 6 }, "{months}");
    }
}

#[test]
fn with_no_month_left_there_is_neither_factor_nor_cents() {
    for name in ["reconciliation factor", "reconciliation due"] {
        let value = stored(name);
        for number in [1, -1, value.low, value.high, 1 << 31] {
            let mut book = value.with(opened([0; 4]), number);
            assert_eq!(book.reconciliation.months, 0);
            for kind in KINDS {
                let numbers = [0; 3];
                expect_refusal(6, book, Posting { kind, numbers });
            }
            book.reconciliation.months = 1;
            let fits = (value.low..=value.high).contains(&value.get(book));
            let expected = if fits { 0 } else { 6 };
            assert_eq!(number_of(book, nothing()), expected, "{name} {number}");
        }
    }
}

#[test]
fn what_fresh_books_never_hold_may_still_be_within_limits() {
    // Settled, with cost and sales still open, and something pending beside.
    let mut odd = opened([0; 4]);
    odd.month = 6;
    odd.settled = true;
    odd.period.cost = 9;
    odd.period.sales = 8;
    odd.period.remainder = -4_999;
    odd.pending.factor = 3;
    expect(0, odd, nothing());
    // Neither odd months of a reconciliation nor a run with a factor alone is out of limits.
    odd.reconciliation.months = 23;
    odd.factors = [1, 0, -1, 0];
    odd.dues = [0, 1, 0, -1];
    expect(0, odd, nothing());
}
