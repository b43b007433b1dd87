//! Every limit of what the next book would hold, from both sides.

use crate::met::LISTED;
use crate::postings::{adjust, bill, cost, month_end, reconcile, sales, settle};
use crate::sides::{expect, expect_refusal, opened, post};
use crate::stored::{stored, CENTS, SALES};
use twin::calendar::{AUGUST, FEBRUARY, JANUARY, JUNE, MARCH, MAY, NOVEMBER};
use twin::records::Posting;
use twin::steam::SteamBook;

const SIGNS: [i64; 2] = [1, -1];

/// A fresh book in the month with some values set, and a reconciliation that runs.
fn book(month: u8, values: &[(&str, i64)]) -> SteamBook {
    let mut book = opened([0; 4]);
    book.month = month;
    book.reconciliation.months = 8;
    for &(name, number) in values {
        stored(name).set(&mut book, number);
    }
    book
}

/// Holds a posting to be accepted and to leave the number stored under the name.
fn lands(book: SteamBook, posting: Posting, name: &str, number: i64) {
    let posted = post(book, posting, LISTED);
    assert_eq!(posted.reply.number, 0, "{posting:?} on {book:?}");
    let met = stored(name).get(posted.book);
    assert_eq!(met, number, "{name} after {posting:?} on {book:?}");
}

#[test]
fn open_cost_reaches_its_limit_and_no_further() {
    for sign in SIGNS {
        let near = book(JUNE, &[("cost", sign * (CENTS - 7))]);
        lands(near, cost(sign * 7), "cost", sign * CENTS);
        expect_refusal(12, near, cost(sign * 8));
        expect_refusal(12, near, cost(sign * 10_000_000_000));
    }
}

#[test]
fn open_sales_reach_their_limit_and_no_further() {
    let near = book(JUNE, &[("sales", SALES - 3)]);
    lands(near, sales(3), "sales", SALES);
    expect_refusal(12, near, sales(4));
    lands(book(JUNE, &[]), sales(SALES), "sales", SALES);
    expect_refusal(12, book(JUNE, &[("sales", 1)]), sales(SALES));
}

#[test]
fn the_account_reaches_its_limit_and_no_further() {
    for sign in SIGNS {
        let near = book(MAY, &[("carried", sign * (CENTS - 9))]);
        lands(near, adjust(sign * 9), "carried", sign * CENTS);
        expect_refusal(12, near, adjust(sign * 10));
    }
}

/// The names of the due cents and the factor of each run.
const RUNS: [(&str, &str); 5] = [
    ("due 1", "factor 1"),
    ("due 2", "factor 2"),
    ("due 3", "factor 3"),
    ("due 4", "factor 4"),
    ("reconciliation due", "reconciliation factor"),
];

#[test]
fn due_cents_reach_their_limit_by_bills_and_no_further() {
    for (due, factor) in RUNS {
        for sign in SIGNS {
            // At 100 points an mmBtu is a cent.
            let near = book(MAY, &[(due, sign * (CENTS - 4)), (factor, 100)]);
            lands(near, bill(-sign * 4), due, sign * CENTS);
            expect_refusal(12, near, bill(-sign * 5));
            // A half is rounded before it is stored.
            let half = book(MAY, &[(due, sign * (CENTS - 4)), (factor, 50)]);
            lands(half, bill(-sign * 7), due, sign * CENTS);
            expect_refusal(12, half, bill(-sign * 9));
        }
    }
}

#[test]
fn due_cents_reach_their_limit_from_nothing() {
    for (due, factor) in RUNS {
        let mut billed = book(JUNE, &[(factor, 80_000)]);
        let most = 10_000_000;
        let line = 8_000_000_000;
        for _ in 0..125 {
            billed = expect(line, billed, bill(most));
        }
        assert_eq!(stored(due).get(billed), -CENTS);
        expect_refusal(12, billed, bill(1));
        for _ in 0..250 {
            billed = expect(-line, billed, bill(-most));
        }
        assert_eq!(stored(due).get(billed), CENTS);
        expect_refusal(12, billed, bill(-1));
    }
}

#[test]
fn one_run_past_its_limit_refuses_the_bill_for_all() {
    for (due, _) in RUNS {
        let factors = RUNS.map(|(_, factor)| (factor, 99_999));
        let most = 10_000_000;
        let line = 5 * 9_999_900_000;
        let free = book(JUNE, &factors);
        expect(line, free, bill(most));
        expect(-line, free, bill(-most));
        let near = stored(due).with(free, -CENTS + 9_999_900_000);
        lands(near, bill(most), due, -CENTS);
        expect_refusal(
            12,
            stored(due).with(near, -CENTS + 9_999_899_999),
            bill(most),
        );
    }
}

#[test]
fn the_account_reaches_its_limit_by_handover_and_no_further() {
    let months = [FEBRUARY, MAY, AUGUST, NOVEMBER];
    for sign in SIGNS {
        for (month, (due, _)) in months.into_iter().zip(RUNS) {
            let near = |cents, month| {
                let values = [("carried", sign * (CENTS - 600)), (due, sign * cents)];
                book(month, &values)
            };
            lands(near(600, month), month_end(), "carried", sign * CENTS);
            expect_refusal(12, near(601, month), month_end());
            // In other months this run is not entered.
            lands(near(601, JANUARY), month_end(), due, sign * 601);
            for other in months.into_iter().filter(|&other| other != month) {
                lands(near(601, other), month_end(), due, sign * 601);
            }
        }
    }
}

/// A book to settle with a share of the cents, which are a multiple of 4, over annual sales.
fn with_share(cents: i64, annual: i64) -> SteamBook {
    let mut book = book(MARCH, &[("quarter 2", annual - 2), ("sales", 2)]);
    // Two mmBtu cost 601 cents, and the customers bear four fifths of what is more.
    book.period.cost = 601 + cents / 4 * 5;
    book
}

/// Cents, sales, and whether the factor of 100 × cents / sales, about 99999.5, is stored.
const FACTORS: [(i64, i64, bool); 11] = [
    (99_996, 100, true),
    (199_996, 200, true),
    (200_000, 200, false),
    (999_992, 1_000, true),
    (999_996, 1_000, false),
    (39_999_796, 40_000, true),
    (39_999_800, 40_000, false),
    (99_999_499_996, 100_000_000, true),
    (99_999_500_000, 100_000_000, false),
    // More than 32 bits, and small again once it is cut.
    (42_949_672_960, 10, false),
    (429_496_729_600, 10, false),
];

#[test]
fn filed_factors_reach_their_limit_and_no_further() {
    for (cents, sold, stores) in FACTORS {
        for sign in SIGNS {
            let near = with_share(sign * cents, sold);
            let posted = post(near, settle(0), LISTED);
            assert_eq!(posted.reply.number, if stores { 0 } else { 12 }, "{cents}");
            if stores {
                assert_eq!(posted.book.pending.due, sign * cents);
            }
        }
    }
    lands(
        with_share(3_999_960, 4_000),
        settle(0),
        "pending factor",
        99_999,
    );
    lands(
        with_share(-3_999_960, 4_000),
        settle(0),
        "pending factor",
        -99_999,
    );
}

#[test]
fn reconciliation_factors_reach_their_limit_and_no_further() {
    for (cents, sold, stores) in FACTORS {
        for sign in SIGNS {
            let mut near = book(MARCH, &[("carried", sign * cents)]);
            near.reconciliation.months = 0;
            for months in [12, 24] {
                match stores {
                    true => lands(
                        near,
                        reconcile(months, sold),
                        "reconciliation due",
                        sign * cents,
                    ),
                    false => expect_refusal(12, near, reconcile(months, sold)),
                }
            }
        }
    }
    // The whole account is never within reach of the largest sales.
    let mut most = book(MARCH, &[("carried", CENTS)]);
    most.reconciliation.months = 0;
    expect_refusal(12, most, reconcile(24, SALES));
    most.carried = -CENTS;
    expect_refusal(12, most, reconcile(12, 1));
}

#[test]
fn large_costs_and_sales_are_shared() {
    // The share is 80% of the cost less 240.4 cents for each of 10^8 mmBtu.
    let cases = [
        (500_000_000_000, 375_960_000_000, 93_990),
        (-400_000_000_000, -344_040_000_000, -86_010),
        (0, -24_040_000_000, -6_010),
    ];
    let largest = |cost| {
        let mut book = book(MARCH, &[("cost", cost), ("sales", SALES)]);
        book.quarters = [SALES; 4];
        book
    };
    for (cost, share, factor) in cases {
        lands(largest(cost), settle(SALES), "pending", share);
        lands(largest(cost), settle(-SALES), "pending factor", factor);
        lands(largest(cost), settle(0), "quarter 4", SALES);
    }
    // Over four times 10^8 mmBtu the largest costs are past the limit of factors.
    expect_refusal(12, largest(CENTS), settle(0));
    expect_refusal(12, largest(-CENTS), settle(0));
}
