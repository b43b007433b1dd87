//! The 5% test and annual billing determinants: which quarters count, and when b does.

use crate::met::seeded;
use crate::postings::settle;
use crate::sides::{expect, expect_refusal, opened, post};
use crate::stored::SALES;
use twin::calendar::{DECEMBER, JUNE, MARCH, SEPTEMBER};
use twin::steam::{Period, SteamBook};

/// A book to settle with the sales, and with cost that leaves a share of about the cents.
fn book(quarters: [i64; 4], sold: i64, cents: i64) -> SteamBook {
    let mut book = opened(quarters);
    book.month = SEPTEMBER;
    book.period = Period {
        cost: 601 * sold / 2 + cents / 4 * 5,
        sales: sold,
        remainder: 0,
    };
    book
}

/// Whether b counted in the settlement, by a b that makes D too small.
fn counts(quarters: [i64; 4], sold: i64) -> bool {
    let book = book(quarters, sold, 0);
    let annual: i64 = sold + quarters[1..].iter().sum::<i64>();
    let number = post(book, settle(-annual), "D of 0").reply.number;
    assert!(number == 0 || number == 10, "{number} for {quarters:?}");
    number == 10
}

/// The least and the most sales within 5% of the oldest quarter, by counting.
fn within_bounds(oldest: i64) -> (i64, i64) {
    let mut least = oldest;
    while 100 * (least - 1) >= 95 * oldest {
        least -= 1;
    }
    let mut most = oldest;
    while 100 * (most + 1) <= 105 * oldest {
        most += 1;
    }
    (least, most)
}

#[test]
fn both_bounds_are_exact_for_every_small_oldest_quarter() {
    for oldest in 0..=2_000 {
        let (least, most) = within_bounds(oldest);
        for (sold, outside) in [
            (least, false),
            (most, false),
            (least - 1, true),
            (most + 1, true),
        ] {
            if sold > 0 {
                let met = counts([oldest, 3, 4, 5], sold);
                assert_eq!(met, outside, "{sold} after {oldest}");
            }
        }
    }
}

#[test]
fn both_bounds_are_exact_for_large_oldest_quarters() {
    let cases = [
        (95_238_095, 90_476_191, 99_999_999),
        (95_238_096, 90_476_192, 100_000_000),
        (100_000_000, 95_000_000, 100_000_000),
        (99_999_999, 95_000_000, 100_000_000),
        (50_000_000, 47_500_000, 52_500_000),
    ];
    for (oldest, least, most) in cases {
        assert!(!counts([oldest, 0, 0, 0], least), "{least} after {oldest}");
        assert!(!counts([oldest, 0, 0, 0], most), "{most} after {oldest}");
        assert!(
            counts([oldest, 0, 0, 0], least - 1),
            "below, after {oldest}"
        );
        if most < SALES {
            assert!(counts([oldest, 0, 0, 0], most + 1), "above, after {oldest}");
        }
    }
}

#[test]
fn the_oldest_quarter_alone_is_compared_and_does_not_count() {
    // The share is 4000, and the factor tells D.
    let quarters = [1_000, 20_000, 300, 4_000];
    for month in [MARCH, JUNE, SEPTEMBER, DECEMBER] {
        for (sold, factor) in [(1_000, 16), (1_050, 16), (1_052, 11), (2, 12)] {
            let mut before = book(quarters, sold, 4_000);
            before.month = month;
            // D is 25300, 25350, 35352 or 34302.
            let settled = expect(factor, before, settle(10_000));
            assert_eq!(settled.quarters, [20_000, 300, 4_000, sold]);
        }
    }
    // Sales near any other quarter still let b count.
    for sold in [20_000, 300, 4_000] {
        assert!(counts(quarters, sold), "{sold}");
    }
}

#[test]
fn annual_sales_below_1_cannot_be_settled() {
    // Outside 5%, so that b counts; D is −1, 0, 1 and 2.
    for (quarters, sold) in [([9, 3, 4, 5], 20), ([0, 0, 0, 0], 20), ([9, 0, 0, 0], 2)] {
        let annual: i64 = sold + quarters[1..].iter().sum::<i64>();
        let before = book(quarters, sold, 400);
        for below in [-1, 0] {
            expect_refusal(10, before, settle(below - annual));
        }
        expect_refusal(10, before, settle(-SALES));
        let settled = expect(40_000, before, settle(1 - annual));
        assert_eq!(settled.pending.due, 400);
        expect(20_000, before, settle(2 - annual));
    }
}

#[test]
fn within_five_percent_no_adjustment_makes_annual_sales_too_small() {
    let before = book([20, 0, 0, 0], 20, 400);
    for adjustment in [-SALES, -21, -20, -19, 0, 1, SALES] {
        expect(2_000, before, settle(adjustment));
    }
}

#[test]
fn nothing_sold_cannot_be_settled_whatever_the_adjustment() {
    for quarters in [[0; 4], [10, 20, 30, 40], [SALES; 4]] {
        for adjustment in [0, 1, SALES, -SALES] {
            let mut before = book(quarters, 0, 0);
            before.period.cost = 5_000;
            expect_refusal(10, before, settle(adjustment));
        }
    }
    // With no oldest quarter one mmBtu is outside 5%.
    assert!(counts([0, 0, 0, 0], 1));
    assert!(counts([0; 4], SALES));
    assert!(!counts([1, 5, 6, 7], 1));
}

#[test]
fn random_settlements_near_the_bounds_agree() {
    let (mut random, origin) = seeded(1);
    let mut met = [0; 2];
    for _ in 0..200_000 {
        let mut quarters = [0; 4].map(|_: i64| random.up_to(SALES));
        let bound = random.one_of(&[95, 105]);
        let sold = (quarters[0] * bound / 100 + random.within(-2, 2)).clamp(1, SALES);
        if random.below(4) == 0 {
            quarters[1..].fill(0);
        }
        let before = book(quarters, sold, random.within(-100_000, 100_000));
        let annual: i64 = sold + quarters[1..].iter().sum::<i64>();
        let near = (random.within(-2, 20) - annual).clamp(-SALES, SALES);
        let any = random.within(-SALES, SALES);
        let adjustment = random.one_of(&[near, any]);
        let with = post(before, settle(adjustment), &origin);
        let without = post(before, settle(0), &origin);
        met[usize::from(with == without)] += 1;
    }
    assert!(met.iter().all(|&count| count > 20_000), "{met:?}");
}
