//! Each refusal on both sides of its condition, and which of two comes first.

use crate::postings::{
    adjust, bill, cost, month_end, prudence, ranges, reconcile, sales, settle, KINDS,
};
use crate::sides::{expect, expect_refusal, number_of, opened};
use twin::amounts::CENTS_LIMIT;
use twin::calendar::{DECEMBER, JANUARY, MARCH};
use twin::records::{Posting, ADJUST, BILL, COST, MONTH_END, RECONCILE, SALES, SETTLE};
use twin::steam::SteamBook;

/// A book with sales to settle that cost the base, so that no share is left, in the month.
fn book(month: u8, settled: bool) -> SteamBook {
    let mut book = opened([1_000; 4]);
    book.month = month;
    book.settled = settled;
    book.period.cost = 300_500;
    book.period.sales = 1_000;
    book
}

/// The book with a reconciliation that runs.
fn running(month: u8, settled: bool) -> SteamBook {
    let mut book = book(month, settled);
    book.reconciliation.months = 24;
    book
}

/// A posting of the kind that the book below accepts in its right month.
fn plain(kind: u8) -> Posting {
    match kind {
        COST => cost(1),
        SALES => sales(2),
        BILL => bill(3),
        SETTLE => settle(4),
        MONTH_END => month_end(),
        ADJUST => prudence(5, 6),
        _ => reconcile(12, 7),
    }
}

/// A book on which the plain posting of the kind is accepted.
fn book_for(kind: u8) -> SteamBook {
    match kind {
        SETTLE => book(MARCH, false),
        _ => book(JANUARY, false),
    }
}

#[test]
fn every_kind_but_seven_is_unknown() {
    for kind in 0..=255 {
        let known = KINDS.contains(&kind);
        if known {
            assert_eq!(number_of(book_for(kind), plain(kind)), 0, "kind {kind}");
        }
        for numbers in [[0; 3], [1, 1, 0], [i64::MIN; 3], [0, 0, 1], [12, 1, 0]] {
            let number = number_of(book_for(kind), Posting { kind, numbers });
            assert_eq!(number == 2, !known, "{number} of kind {kind}, {numbers:?}");
        }
    }
}

#[test]
fn a_number_that_the_kind_lacks_is_refused() {
    for kind in KINDS {
        for lacked in ranges(kind).len()..3 {
            for number in [1, -1, 1 << 32, i64::MIN, i64::MAX] {
                let mut posting = plain(kind);
                posting.numbers[lacked] = number;
                expect_refusal(3, book_for(kind), posting);
            }
        }
    }
}

/// The number that a field at an end of its range gets all the same.
fn at_an_end(kind: u8, index: usize, end: i64) -> u8 {
    match (kind, index, end) {
        // 1000 and 10^8 more are past what is stored.
        (SALES, 0, 100_000_000) => 12,
        // 10 × 5 is not above a fuel cost of 10^11.
        (ADJUST, 1, 100_000_000_000) => 11,
        _ => 0,
    }
}

#[test]
fn fields_are_taken_to_both_ends_of_their_range_and_no_further() {
    for kind in KINDS {
        for (index, &(low, high)) in ranges(kind).iter().enumerate() {
            let with = |number| {
                let mut posting = plain(kind);
                posting.numbers[index] = number;
                posting
            };
            for end in [low, high] {
                let number = number_of(book_for(kind), with(end));
                let expected = at_an_end(kind, index, end);
                assert_eq!(number, expected, "kind {kind}, field {index}, {end}");
            }
            for outside in [low - 1, high + 1, i64::MIN, i64::MAX, 1 << 40, -(1 << 40)] {
                expect_refusal(7, book_for(kind), with(outside));
            }
        }
    }
}

#[test]
fn a_reconciliation_is_over_12_or_24_months() {
    for months in -50..=300 {
        let expected = if months == 12 || months == 24 { 0 } else { 7 };
        let number = number_of(book(JANUARY, false), reconcile(months, 1));
        assert_eq!(number, expected, "{months} months");
    }
    for high_bits in [1 << 8, 1 << 16, 1 << 32, i64::MIN] {
        for months in [12, 24] {
            expect_refusal(7, book(JANUARY, false), reconcile(high_bits + months, 1));
        }
    }
}

#[test]
fn absent_fields_are_held_to_their_range() {
    expect_refusal(7, book(JANUARY, false), reconcile(0, 0));
    expect_refusal(7, book(JANUARY, false), reconcile(12, 0));
    expect_refusal(7, book(JANUARY, false), reconcile(0, 1));
    for posting in [cost(0), sales(0), bill(0)] {
        expect(0, book(JANUARY, false), posting);
    }
    expect(0, book(MARCH, false), settle(0));
}

#[test]
fn month_and_settled_state_forbid_what_the_paper_says() {
    for month in 1..=12 {
        let settling = [3, 6, 9, 12].contains(&month);
        let states: &[bool] = if settling { &[false, true] } else { &[false] };
        for &settled in states {
            for kind in KINDS {
                let forbidden = match kind {
                    COST | SALES => settled,
                    SETTLE => settled || !settling,
                    MONTH_END => settling && !settled,
                    _ => false,
                };
                let number = number_of(book(month, settled), plain(kind));
                let expected = if forbidden { 8 } else { 0 };
                assert_eq!(number, expected, "kind {kind}, {month}, {settled}");
            }
        }
    }
}

#[test]
fn a_quarter_without_sales_neither_settles_nor_ends() {
    for month in [3, 6, 9, 12] {
        let mut unsold = book(month, false);
        unsold.period.sales = 0;
        unsold.period.cost = 0;
        expect_refusal(10, unsold, settle(0));
        expect_refusal(8, unsold, month_end());
        // One mmBtu is enough.
        let sold = expect(0, unsold, sales(1));
        let settled = expect(-8, sold, settle(0));
        expect(0, settled, month_end());
    }
}

#[test]
fn a_second_reconciliation_waits_for_the_first() {
    for months in 1..=24 {
        let mut busy = book(JANUARY, false);
        busy.reconciliation.months = months;
        expect_refusal(9, busy, reconcile(12, 1));
        expect_refusal(9, busy, reconcile(24, 100_000_000));
        // Nothing else waits.
        for kind in KINDS.into_iter().filter(|&kind| kind != RECONCILE) {
            let mut busy = book_for(kind);
            busy.reconciliation.months = months;
            assert_eq!(number_of(busy, plain(kind)), 0, "kind {kind}");
        }
    }
    expect(0, book(JANUARY, false), reconcile(12, 1));
}

#[test]
fn an_adjustment_of_a_tenth_or_less_is_refused() {
    let cases = [
        (1, 9),
        (1, 0),
        (2, 19),
        (100, 999),
        (10_000_000_000, 99_999_999_999),
    ];
    for (cents, fuel_cost) in cases {
        for sign in [1, -1] {
            let before = book(JANUARY, false);
            let taken = expect(0, before, prudence(sign * cents, fuel_cost));
            assert_eq!(taken.carried, sign * cents);
            expect_refusal(11, before, prudence(sign * cents, 10 * cents));
        }
    }
    // Nothing is never above a tenth, even of nothing.
    expect_refusal(11, book(JANUARY, false), adjust(0));
    expect_refusal(11, book(JANUARY, false), prudence(0, 1));
    expect_refusal(11, book(JANUARY, false), prudence(1, 100_000_000_000));
}

/// A book that is out of its limits by its open cost.
fn flawed(mut book: SteamBook) -> SteamBook {
    book.period.cost = CENTS_LIMIT + 1;
    book
}

#[test]
fn unknown_kind_comes_first_and_then_a_stray_number() {
    let flawed = flawed(running(JANUARY, false));
    for kind in [0, 8, 255] {
        for numbers in [[i64::MAX; 3], [0, 0, 1], [0; 3]] {
            expect_refusal(2, flawed, Posting { kind, numbers });
        }
    }
    for kind in KINDS {
        let mut stray = plain(kind);
        stray.numbers[2] = 1;
        // Before a book out of limits, a wild field, the month, a second reconciliation.
        expect_refusal(3, flawed, stray);
        expect_refusal(3, running(DECEMBER, true), stray);
        expect_refusal(3, running(MARCH, false), stray);
        if kind != MONTH_END {
            stray.numbers[0] = i64::MAX;
            expect_refusal(3, book(JANUARY, false), stray);
        }
    }
}

#[test]
fn a_book_out_of_limits_comes_before_what_is_left() {
    for kind in KINDS {
        for book in [
            book(JANUARY, false),
            running(MARCH, true),
            book(MARCH, false),
        ] {
            expect_refusal(6, flawed(book), plain(kind));
        }
        if kind != MONTH_END {
            let mut wild = plain(kind);
            wild.numbers[0] = i64::MAX;
            expect_refusal(6, flawed(book(JANUARY, false)), wild);
            expect_refusal(7, book(JANUARY, false), wild);
        }
    }
    let mut unsold = flawed(book(MARCH, false));
    unsold.period.sales = 0;
    expect_refusal(6, unsold, settle(0));
    expect_refusal(6, flawed(book(MARCH, false)), adjust(0));
}

#[test]
fn a_field_out_of_range_comes_before_the_month_and_a_running_reconciliation() {
    expect_refusal(7, book(JANUARY, false), settle(100_000_001));
    expect_refusal(8, book(JANUARY, false), settle(100_000_000));
    expect_refusal(7, book(MARCH, true), settle(-100_000_001));
    expect_refusal(8, book(MARCH, true), settle(-100_000_000));
    expect_refusal(7, book(MARCH, true), cost(10_000_000_001));
    expect_refusal(8, book(MARCH, true), cost(10_000_000_000));
    expect_refusal(7, book(MARCH, true), sales(-1));
    expect_refusal(8, book(MARCH, true), sales(0));
    expect_refusal(7, running(JANUARY, false), reconcile(13, 1));
    expect_refusal(7, running(JANUARY, false), reconcile(12, 0));
    expect_refusal(9, running(JANUARY, false), reconcile(12, 1));
    // Within 5% an adjustment of the sales has its range all the same.
    expect_refusal(7, book(MARCH, false), settle(100_000_001));
    // Before refusals 10 and 11 as well.
    let mut unsold = book(MARCH, false);
    unsold.period.sales = 0;
    expect_refusal(7, unsold, settle(100_000_001));
    expect_refusal(7, book(JANUARY, false), prudence(0, -1));
    expect_refusal(7, book(JANUARY, false), prudence(0, 100_000_000_001));
}

#[test]
fn the_month_comes_before_nothing_sold_and_that_before_the_limits() {
    let mut unsold = book(JANUARY, false);
    unsold.period.sales = 0;
    unsold.period.cost = CENTS_LIMIT;
    expect_refusal(8, unsold, settle(0));
    unsold.month = MARCH;
    expect_refusal(10, unsold, settle(0));
    unsold.period.sales = 1;
    // One mmBtu is outside 5% of 1000, so D is 3001 and this b.
    expect_refusal(10, unsold, settle(-3_001));
    expect_refusal(12, unsold, settle(-3_000));
    expect_refusal(12, unsold, settle(0));
    unsold.settled = true;
    expect_refusal(8, unsold, settle(-3_001));
    expect_refusal(8, unsold, cost(1));
}

#[test]
fn a_running_reconciliation_and_a_small_adjustment_come_before_the_limits() {
    let mut full = book(JANUARY, false);
    full.carried = CENTS_LIMIT;
    expect_refusal(12, full, reconcile(12, 1));
    full.reconciliation.months = 1;
    expect_refusal(9, full, reconcile(12, 1));
    expect_refusal(11, full, prudence(1, 10));
    expect_refusal(12, full, prudence(1, 9));
}

#[test]
fn a_pending_amount_is_written_over_in_a_settling_month() {
    let empty = book(MARCH, false);
    let mut odd = empty;
    odd.pending.due = 1_234;
    odd.pending.factor = 55;
    assert_eq!(expect(0, odd, settle(0)), expect(0, empty, settle(0)));
}
