//! Each refusal on both sides of its condition, and which of two comes first.

use crate::met::LISTED;
use crate::postings::{adjust, bill, cost, costs, month_end, ranges, sales, settle, KINDS};
use crate::sides::{expect, expect_refusal, open, post};
use twin::amounts::CENTS_LIMIT;
use twin::calendar::{JUNE, MAY, NOVEMBER};
use twin::electric::ElectricBook;
use twin::records::{Posting, BILL, COST, MONTH_END, SALES, SETTLE};

/// A book with sales to settle that cost the base, so that no share is left, in the month.
fn book(month: u8, settled: bool) -> ElectricBook {
    let mut book = open(0).book;
    book.month = month;
    book.settled = settled;
    book.period.cost = 1_799;
    book.period.sales.secondary = 1_000;
    book
}

/// A posting of the kind that the book below accepts in its right month.
fn plain(kind: u8) -> Posting {
    match kind {
        COST => costs([1, 2, 3]),
        SALES => sales(4, 5),
        BILL => bill(1, 6),
        SETTLE => settle(7, 8),
        MONTH_END => month_end(9),
        _ => adjust(1, 10),
    }
}

/// A book on which the plain posting of the kind is accepted.
fn book_for(kind: u8) -> ElectricBook {
    match kind {
        SETTLE => book(NOVEMBER, false),
        _ => book(JUNE, false),
    }
}

fn number_of(book: ElectricBook, posting: Posting) -> u8 {
    post(book, posting, LISTED).reply.number
}

#[test]
fn every_kind_but_six_is_unknown() {
    for kind in 0..=255 {
        let mut posting = plain(kind);
        posting.kind = kind;
        let known = KINDS.contains(&kind);
        if known {
            assert_eq!(number_of(book_for(kind), posting), 0, "{posting:?}");
        }
        for numbers in [[0; 3], [1, 1, 0], [i64::MIN; 3], [0, 0, 1]] {
            let number = number_of(book_for(kind), Posting { kind, numbers });
            assert_eq!(number == 2, !known, "{number} of kind {kind}, {numbers:?}");
        }
    }
}

#[test]
fn a_number_that_the_kind_lacks_is_refused() {
    for kind in KINDS {
        for lacked in ranges(kind).len()..3 {
            for number in [1, -1, 1 << 32, i64::MIN, i64::MAX] {
                let mut posting = plain(kind);
                posting.numbers[lacked] = number;
                expect_refusal(3, book_for(kind), posting);
            }
        }
    }
}

#[test]
fn fields_are_taken_to_both_ends_of_their_range_and_no_further() {
    for kind in KINDS {
        for (index, &(low, high)) in ranges(kind).iter().enumerate() {
            let with = |number| {
                let mut posting = plain(kind);
                posting.numbers[index] = number;
                posting
            };
            for inside in [low, high] {
                let number = number_of(book_for(kind), with(inside));
                // Sales of 1000 and 10^10 more are in range, but past what is stored.
                let expected = if kind == SALES && index == 0 && inside == high {
                    12
                } else {
                    0
                };
                assert_eq!(number, expected, "kind {kind}, field {index}, {inside}");
            }
            for outside in [low - 1, high + 1, i64::MIN, i64::MAX, 1 << 40, -(1 << 40)] {
                expect_refusal(7, book_for(kind), with(outside));
            }
        }
    }
}

#[test]
fn a_level_that_is_cut_to_fewer_bits_is_out_of_range() {
    for high_bits in [1 << 8, 1 << 16, 1 << 32, 1 << 63] {
        for level in [high_bits, high_bits | 1] {
            expect_refusal(7, book(JUNE, false), bill(level, 1));
            expect_refusal(7, book(JUNE, false), adjust(level, 1));
        }
    }
}

#[test]
fn absent_fields_are_held_to_their_range() {
    let november = book(NOVEMBER, false);
    expect_refusal(7, november, settle(0, 0));
    expect_refusal(7, november, settle(0, 1));
    expect_refusal(7, november, settle(1, 0));
    expect([0, 0], book(JUNE, false), bill(0, 0));
    expect([0, 0], book(JUNE, false), month_end(0));
}

#[test]
fn month_and_settled_state_forbid_what_the_paper_says() {
    for month in 1..=12 {
        let settling = month == MAY || month == NOVEMBER;
        let states: &[bool] = if settling { &[false, true] } else { &[false] };
        for &settled in states {
            for kind in KINDS {
                let forbidden = match kind {
                    COST | SALES => settled,
                    SETTLE => settled || !settling,
                    MONTH_END => settling && !settled,
                    _ => false,
                };
                let number = number_of(book(month, settled), plain(kind));
                let expected = if forbidden { 8 } else { 0 };
                assert_eq!(number, expected, "kind {kind}, {month}, {settled}");
            }
        }
    }
}

#[test]
fn nothing_sold_cannot_be_settled() {
    for month in [MAY, NOVEMBER] {
        let mut empty = book(month, false);
        empty.period.sales.secondary = 0;
        empty.period.cost = 5_000;
        expect_refusal(10, empty, settle(1, 1));
        let mut one = empty;
        one.period.sales.primary = 1;
        assert_eq!(number_of(one, settle(1_000_000, 1_000_000)), 0);
        let mut one = empty;
        one.period.sales.secondary = 1;
        assert_eq!(number_of(one, settle(1_000_000, 1_000_000)), 0);
    }
}

/// A book that is out of its limits by its open cost.
fn flawed(month: u8, settled: bool) -> ElectricBook {
    let mut flawed = book(month, settled);
    flawed.period.cost = CENTS_LIMIT + 1;
    flawed
}

#[test]
fn unknown_kind_and_stray_number_come_before_a_book_out_of_limits() {
    let unknown = Posting {
        kind: 7,
        numbers: [i64::MAX; 3],
    };
    let stray = Posting {
        kind: BILL,
        numbers: [9, 0, 1],
    };
    let unknown_stray = Posting {
        kind: 0,
        numbers: [0, 0, 1],
    };
    expect_refusal(2, flawed(JUNE, false), unknown);
    expect_refusal(2, flawed(JUNE, false), unknown_stray);
    expect_refusal(3, flawed(JUNE, false), stray);
    // Refusal 3 comes before 7 and 8 as well.
    expect_refusal(3, book(JUNE, false), stray);
    let stray_settlement = Posting {
        kind: SETTLE,
        numbers: [0, 0, 1],
    };
    expect_refusal(3, book(JUNE, false), stray_settlement);
}

#[test]
fn a_book_out_of_limits_comes_before_all_else() {
    for kind in KINDS {
        expect_refusal(6, flawed(JUNE, false), plain(kind));
        expect_refusal(6, flawed(NOVEMBER, true), plain(kind));
        let wild = Posting {
            numbers: [i64::MAX, 0, 0],
            ..plain(kind)
        };
        expect_refusal(6, flawed(JUNE, false), wild);
        expect_refusal(7, book(JUNE, false), wild);
    }
    let mut unsold = flawed(NOVEMBER, false);
    unsold.period.sales.secondary = 0;
    expect_refusal(6, unsold, settle(1, 1));
}

#[test]
fn a_field_out_of_range_comes_before_the_month() {
    expect_refusal(7, book(JUNE, false), settle(0, 1));
    expect_refusal(8, book(JUNE, false), settle(1, 1));
    expect_refusal(7, book(MAY, true), cost(10_000_000_001));
    expect_refusal(8, book(MAY, true), cost(10_000_000_000));
    expect_refusal(7, book(MAY, true), sales(-1, 0));
    expect_refusal(7, book(MAY, false), month_end(200_001));
    expect_refusal(8, book(MAY, false), month_end(200_000));
}

#[test]
fn the_month_comes_before_nothing_sold_and_that_before_the_limits() {
    let mut unsold = book(JUNE, false);
    unsold.period.sales.secondary = 0;
    expect_refusal(8, unsold, settle(1, 1));
    unsold.month = NOVEMBER;
    unsold.secondary.carried = CENTS_LIMIT;
    unsold.secondary.interest = CENTS_LIMIT;
    expect_refusal(10, unsold, settle(1, 1));
    unsold.period.sales.secondary = 1;
    expect_refusal(12, unsold, settle(1, 1));
    unsold.settled = true;
    expect_refusal(8, unsold, settle(1, 1));
    unsold.period.cost = CENTS_LIMIT;
    expect_refusal(8, unsold, cost(1));
}

#[test]
fn what_fresh_books_never_hold_may_still_be_within_limits() {
    // Settled, with cost and sales still open.
    let mut odd = book(MAY, true);
    odd.period.cost = 9;
    assert_eq!(number_of(odd, bill(0, 1)), 0);
    // Something pending in a settling month, which the settlement writes over.
    let mut odd = book(MAY, false);
    odd.secondary.pending.due = 1_234;
    odd.secondary.pending.factor = 55;
    let settled = post(odd, settle(1_000_000, 1_000_000), LISTED).book;
    odd.secondary.pending.due = 0;
    odd.secondary.pending.factor = 0;
    let plain = post(odd, settle(1_000_000, 1_000_000), LISTED).book;
    assert_eq!(settled, plain);
}
