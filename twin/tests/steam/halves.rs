//! Halves of either sign at each place where the book rounds, and what is beside them.

use crate::met::seeded;
use crate::postings::{bill, reconcile, settle};
use crate::sides::{expect, opened, post};
use crate::stored::SALES;
use twin::amounts::Run;
use twin::calendar::{JANUARY, JUNE};
use twin::steam::{Period, Reconciliation, SteamBook};

/// Each with the nearest whole number, by hundredths.
const HUNDREDTHS: [(i64, i64); 12] = [
    (49, 0),
    (50, 1),
    (51, 1),
    (149, 1),
    (150, 2),
    (250, 3),
    (-49, 0),
    (-50, -1),
    (-51, -1),
    (-149, -1),
    (-150, -2),
    (-250, -3),
];

fn book(month: u8) -> SteamBook {
    let mut book = opened([0; 4]);
    book.month = month;
    book
}

/// The book with the factors of all five runs.
pub fn with_factors(factors: [i32; 5]) -> SteamBook {
    let mut book = book(JANUARY);
    let [first, second, third, fourth, reconciliation] = factors;
    book.factors = [first, second, third, fourth];
    book.reconciliation = Reconciliation {
        run: Run {
            factor: reconciliation,
            due: 0,
        },
        months: 7,
    };
    book
}

/// What the five runs fell by.
pub fn parts(before: &SteamBook, after: &SteamBook) -> [i64; 5] {
    let [first, second, third, fourth] = [0, 1, 2, 3].map(|run| before.dues[run] - after.dues[run]);
    let fifth = before.reconciliation.run.due - after.reconciliation.run.due;
    [first, second, third, fourth, fifth]
}

#[test]
fn a_line_of_any_one_run_goes_away_from_zero() {
    for run in 0..5 {
        for (hundredths, line) in HUNDREDTHS {
            let mut factors = [0; 5];
            factors[run] = hundredths as i32;
            let before = with_factors(factors);
            for sign in [1, -1] {
                let billed = expect(sign * line, before, bill(sign));
                let mut fell = [0; 5];
                fell[run] = sign * line;
                assert_eq!(parts(&before, &billed), fell, "run {run}, {hundredths}");
            }
        }
    }
}

#[test]
fn parts_are_differences_of_rounded_lines() {
    // Factors, the line of one mmBtu, and the parts.
    let cases = [
        ([50, 50, 50, 50, 50], 3, [1, 0, 1, 0, 1]),
        ([-50, -50, -50, -50, -50], -3, [-1, 0, -1, 0, -1]),
        ([30, 30, 30, 30, 30], 2, [0, 1, 0, 0, 1]),
        ([20, 20, 20, 20, 20], 1, [0, 0, 1, 0, 0]),
        ([49, 1, -1, 1, -50], 0, [0, 1, -1, 1, -1]),
        ([50, -50, 50, -50, 50], 1, [1, -1, 1, -1, 1]),
        ([-50, 50, -100, 150, 0], 1, [-1, 1, -1, 2, 0]),
        ([0, 0, 0, 0, 50], 1, [0, 0, 0, 0, 1]),
        ([0, 0, 0, 49, 1], 1, [0, 0, 0, 0, 1]),
        ([149, 2, 149, 2, -52], 3, [1, 1, 1, 0, 0]),
    ];
    for (factors, line, expected) in cases {
        let before = with_factors(factors);
        let billed = expect(line, before, bill(1));
        assert_eq!(parts(&before, &billed), expected, "{factors:?}");
        let cancelled = expect(-line, before, bill(-1));
        assert_eq!(parts(&before, &cancelled), expected.map(|part| -part));
    }
}

#[test]
fn bills_at_a_half_agree() {
    let (mut random, origin) = seeded(1);
    let mut halves = 0;
    for _ in 0..200_000 {
        // Odd multiples of 50 leave an odd number of half cents, up to any of the runs.
        let factors = [0; 5].map(|_: i32| 50 * random.within(-1_999, 1_999) as i32);
        let sold = 2 * random.within(-5_000_000, 4_999_999) + 1;
        let before = with_factors(factors);
        let posted = post(before, bill(sold), &origin);
        let fell: i64 = parts(&before, &posted.book).iter().sum();
        assert_eq!(fell, posted.reply.line, "{factors:?}, {sold}, {origin}");
        halves += usize::from(factors.iter().sum::<i32>() % 100 != 0);
    }
    assert!(halves > 50_000, "{halves} lines at a half");
}

/// A book to settle with a share of the cents, over the sales that it has in a year.
fn with_share(cents: i64, annual: i64) -> SteamBook {
    // Two mmBtu cost 601 cents, and the customers bear four fifths of what is more.
    let mut book = book(JUNE);
    book.quarters = [0, annual - 2, 0, 0];
    book.period = Period {
        cost: 601 + cents / 4 * 5,
        sales: 2,
        remainder: 0,
    };
    book
}

#[test]
fn filed_factors_go_away_from_zero() {
    for (hundredths, factor) in HUNDREDTHS {
        // 100 × 4 × hundredths over 100 × 400.
        let before = with_share(4 * hundredths, 40_000);
        let settled = expect(factor, before, settle(0));
        assert_eq!(settled.pending.due, 4 * hundredths);
        assert_eq!(settled.pending.factor, factor as i32);
    }
}

#[test]
fn reconciliation_factors_go_away_from_zero() {
    for (hundredths, factor) in HUNDREDTHS {
        let mut before = book(JANUARY);
        before.carried = hundredths;
        let running = expect(0, before, reconcile(12, 10_000));
        assert_eq!(running.reconciliation.run.factor, factor as i32);
        assert_eq!(running.reconciliation.run.due, hundredths);
    }
}

#[test]
fn shares_of_the_customers_go_away_from_zero() {
    // Cents past the base and remainder, then share and remainder; 5000 is half a cent.
    let cases = [
        (0, 5_000, 1, -5_000),
        (0, 4_999, 0, 4_999),
        (0, -5_000, -1, 5_000),
        (0, -4_999, 0, -4_999),
        (1, -3_000, 1, -5_000),
        (1, -3_001, 0, 4_999),
        (-1, 3_000, -1, 5_000),
        (-1, 3_001, 0, -4_999),
        (2, -1_000, 2, -5_000),
        (2, -1_001, 1, 4_999),
        (1, 0, 1, -2_000),
        (-1, 0, -1, 2_000),
    ];
    for (cents, remainder, share, left) in cases {
        let mut before = book(JUNE);
        before.quarters = [0, SALES, SALES, SALES];
        before.period = Period {
            cost: 601 + cents,
            sales: 2,
            remainder,
        };
        let settled = expect(0, before, settle(0));
        assert_eq!(settled.pending.due, share, "{cents}, {remainder}");
        assert_eq!(settled.period.remainder, left, "{cents}, {remainder}");
    }
}
