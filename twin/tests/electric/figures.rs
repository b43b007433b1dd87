//! The paper's figures of the electric book.

use crate::postings::{bill, cost, month_end, sales, settle};
use crate::sides::{expect, expect_refusal, open};
use twin::amounts::Run;
use twin::calendar::NOVEMBER;
use twin::electric::{ElectricBook, Level, Period};

/// The book as if it were another month.
fn in_month(book: ElectricBook, month: u8) -> ElectricBook {
    ElectricBook { month, ..book }
}

#[test]
fn a_settlement_is_the_papers() {
    let fresh = in_month(open(0).book, NOVEMBER);
    let costs = expect([0, 0], fresh, cost(2_000_000));
    let sold = expect([0, 0], costs, sales(600_000, 400_000));
    let settled = expect([9, 9], sold, settle(1_250_000, 800_000));
    let pending = |due| Level {
        pending: Run { factor: 9, due },
        ..Level::default()
    };
    let expected = ElectricBook {
        settled: true,
        period: Period::default(),
        secondary: pending(115_513),
        primary: pending(75_437),
        ..sold
    };
    assert_eq!(settled, expected);
}

#[test]
fn a_remainder_is_carried_into_the_next_settlement() {
    let mut book = in_month(open(0).book, NOVEMBER);
    for (share, remainder) in [(1, -43_000), (0, 14_000)] {
        book = expect([0, 0], book, cost(1_080));
        book = expect([0, 0], book, sales(600, 0));
        book = expect([100 * share, 0], book, settle(1, 1));
        assert_eq!(book.secondary.pending.due, share);
        assert_eq!(book.period.remainder, remainder);
        book = expect([0, 0], book, month_end(0));
        // The next period is settled at once.
        book = in_month(book, NOVEMBER);
    }
}

#[test]
fn interest_is_the_papers() {
    let mut book = open(1).book;
    book.secondary.carried = 1_200_000;
    book.primary.first.due = -100;
    let next = expect([6_000, -1], book, month_end(60_000));
    assert_eq!(next.secondary.interest, 6_000);
    assert_eq!(next.primary.interest, -1);
}

#[test]
fn bills_have_the_rounding_of_the_paper() {
    let with_factor = |factor| {
        let mut book = open(0).book;
        book.secondary.first.factor = factor;
        book
    };
    for (factor, line) in [(-90, -1), (-45, 0), (50, 1), (-50, -1)] {
        let next = expect([line, 0], with_factor(factor), bill(0, 1));
        assert_eq!(next.secondary.first.due, -line);
    }
}

#[test]
fn the_papers_journal_is_answered() {
    let fresh = open(0).book;
    let costs = expect([0, 0], fresh, cost(2_000_000));
    let billed = expect([0, 0], costs, bill(0, 1_000));
    expect_refusal(8, billed, settle(1, 1));
}
