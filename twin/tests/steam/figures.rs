//! The paper's figures of the steam book.

use crate::postings::{bill, cost, month_end, prudence, sales, settle};
use crate::sides::{expect, expect_all, expect_refusal, opened};
use twin::amounts::Run;
use twin::calendar::MARCH;
use twin::steam::{Period, SteamBook};

#[test]
fn a_settlement_is_the_papers() {
    let fresh = opened([10_000; 4]);
    let sold = expect_all(fresh, &[cost(3_700_000), sales(10_000)]);
    let march = expect_all(sold, &[month_end(), month_end()]);
    assert_eq!(march.month, MARCH);
    let settled = expect(1_390, march, settle(0));
    let expected = SteamBook {
        settled: true,
        period: Period::default(),
        quarters: [10_000; 4],
        pending: Run {
            factor: 1_390,
            due: 556_000,
        },
        ..march
    };
    assert_eq!(settled, expected);
}

#[test]
fn the_four_runs_of_sheet_6_5_are_billed_together() {
    let mut book = opened([0; 4]);
    book.factors = [2_005, 1_000, 1_952, 2_552];
    // 7,509 points are 75.09 cents.
    let billed = expect(75, book, bill(1));
    assert_eq!(billed.dues, [-20, -10, -20, -25]);
    let billed = expect(7_509, book, bill(100));
    assert_eq!(billed.dues, [-2_005, -1_000, -1_952, -2_552]);
    assert_eq!(billed.reconciliation.run.due, 0);
}

#[test]
fn the_adjustment_counts_past_five_percent_alone() {
    // Each with a share of 8000 cents, over the sales alone or with 7000 more.
    for (sold, factor) in [(1_050, 762), (950, 842), (1_051, 99), (949, 101)] {
        let mut book = opened([1_000, 0, 0, 0]);
        book.month = MARCH;
        book.period = Period {
            cost: 10_000 + 601 * sold / 2,
            sales: sold,
            remainder: 0,
        };
        let settled = expect(factor, book, settle(7_000));
        assert_eq!(settled.pending.due, 8_000, "{sold}");
        assert_eq!(settled.quarters, [0, 0, 0, sold]);
    }
}

#[test]
fn an_adjustment_has_to_be_above_a_tenth_of_the_fuel_cost() {
    let book = opened([0; 4]);
    for sign in [1, -1] {
        expect_refusal(11, book, prudence(sign * 100_000, 1_000_000));
        let taken = expect(0, book, prudence(sign * 100_001, 1_000_000));
        assert_eq!(taken.carried, sign * 100_001);
    }
}

#[test]
fn bills_have_the_rounding_of_the_paper() {
    for (factor, line) in [(-90, -1), (-45, 0), (50, 1), (-50, -1)] {
        let mut book = opened([0; 4]);
        book.factors[0] = factor;
        let billed = expect(line, book, bill(1));
        assert_eq!(billed.dues, [-line, 0, 0, 0]);
    }
}
