//! The listed month ends, and short histories of them.

use super::cases::{self, book, Case};
use super::flaws::Flaw;
use super::plain;
use crate::postings::{adjust, cost, month_end, sales, settle};
use crate::sides::{expect, open};
use twin::calendar::NOVEMBER;
use twin::electric::ElectricBook;

/// Holds month ends to their interest, and to change nothing beside it but the month.
fn hold(cases: &[Case]) {
    for case in cases {
        let before = case.book;
        let mut after = before;
        after.secondary.interest += case.interest[0];
        after.primary.interest += case.interest[1];
        after.month = if before.month == 12 {
            1
        } else {
            before.month + 1
        };
        after.settled = false;
        assert_eq!(expect(case.interest, before, month_end(case.rate)), after);
        let by_plain = plain::month_end(&before, case.rate, Flaw::Nothing);
        assert_eq!(by_plain, (case.interest.map(i128::from), after), "plain");
    }
}

#[test]
fn cost_bears_nothing_while_nothing_is_sold() {
    hold(&cases::unsold());
}

#[test]
fn the_share_of_cost_and_sales_bears_interest() {
    hold(&cases::sold());
}

#[test]
fn the_share_of_a_credit_bears_interest_away_from_zero() {
    hold(&cases::credits());
}

#[test]
fn a_settled_month_has_no_provisional_share() {
    hold(&cases::settled());
}

#[test]
fn sales_at_one_level_alone_give_it_the_whole_share() {
    hold(&cases::one_level());
}

#[test]
fn the_remainder_is_in_the_share_and_stays() {
    hold(&cases::remainders());
}

#[test]
fn the_share_bears_beside_cents_but_not_beside_accrued_interest() {
    hold(&cases::beside_cents());
}

/// Half of the paper's cost and sales.
fn half_a_period(book: ElectricBook) -> ElectricBook {
    let costs = expect([0, 0], book, cost(1_000_000));
    expect([0, 0], costs, sales(300_000, 200_000))
}

#[test]
fn each_month_bears_on_the_whole_open_period() {
    // R = 95475 and w = 60494, so that shares are 57757 and 37718, a 200th of which is 288.785 and 188.59.
    let june = expect([289, 189], half_a_period(open(0).book), month_end(60_000));
    // The paper's 115513 and 75437: 577.565 and 377.185.
    let july = expect([578, 377], half_a_period(june), month_end(60_000));
    // Nothing new, and interest of two months that bears none.
    let august = expect([578, 377], july, month_end(60_000));
    assert_eq!(august.secondary.interest, 289 + 578 + 578);
    assert_eq!(august.primary.interest, 189 + 377 + 377);
    let period = half_a_period(half_a_period(open(0).book)).period;
    assert_eq!(august.period, period);
}

#[test]
fn a_settlement_turns_the_share_into_pending_cents_that_bear_once() {
    let open = book(0, NOVEMBER, 2_000_000, [600_000, 400_000]);
    let settled = expect([9, 9], open, settle(1_250_000, 800_000));
    // The shares that were filed, 115513 and 75437.
    let december = expect([578, 377], settled, month_end(60_000));
    // Of the new period there is cost, but nothing sold.
    let costs = expect([0, 0], december, cost(2_000_000));
    let january = expect([578, 377], costs, month_end(60_000));
    // The interest of two months joins what is filed in May, and bears none until then.
    assert_eq!(january.secondary.interest, 2 * 578);
    assert_eq!(january.primary.interest, 2 * 377);
    let sold = expect([0, 0], january, sales(600_000, 400_000));
    // Twice the shares: 231026 and 150874, a 200th of which is 1155.13 and 754.37.
    expect([1_155, 754], sold, month_end(60_000));
}

#[test]
fn the_remainder_of_a_settlement_moves_the_interest_of_the_next_period() {
    // The paper's 1080 cents for 600 kWh, whose R is 1 and leaves −43000.
    let first = expect([100, 0], book(0, NOVEMBER, 1_080, [600, 0]), settle(1, 1));
    let december = expect([0, 0], first, month_end(0));
    let costs = expect([0, 0], december, cost(1_080));
    let sold = expect([0, 0], costs, sales(600, 0));
    // With 48 carried and 1 pending, R = 0 bears none at 12% a year; R = 1 would bear a cent.
    let carries = expect([0, 0], sold, adjust(0, 48));
    let january = expect([0, 0], carries, month_end(120_000));
    assert_eq!(january.period.remainder, -43_000);
}

#[test]
fn a_credit_bears_before_its_settlement_and_beside_the_next_credit() {
    let costs = expect([0, 0], open(1).book, cost(2_000_000));
    let sold = expect([0, 0], costs, sales(600_000, 400_000));
    // V = 2000000000 − 2538000000, R = −511100 and w = 60734: −310411 and −200689, a 200th of which is −1552.055 and −1003.445.
    let mut book = expect([-1_552, -1_003], sold, month_end(60_000));
    for _ in 0..4 {
        book = expect([0, 0], book, month_end(0));
    }
    // −311963 and −201692 with the interest, over the estimates: −24.96 and −25.2.
    let settled = expect([-25, -25], book, settle(1_250_000, 800_000));
    // No share, but what is pending: −1559.815 and −1008.46.
    let december = expect([-1_560, -1_008], settled, month_end(60_000));
    let costs = expect([0, 0], december, cost(100_198));
    let sold = expect([0, 0], costs, sales(0, 50_100));
    // V = 100198000 − 127153800, R = round(−25608.01) = −25608, all primary: −227300 bear −1136.5.
    let january = expect([-1_560, -1_137], sold, month_end(60_000));
    assert_eq!(january.secondary.interest, -2 * 1_560);
    assert_eq!(january.primary.interest, -1_008 - 1_137);
}
