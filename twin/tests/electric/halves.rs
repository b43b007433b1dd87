//! Halves of either sign at each place where the book rounds, and what is beside them.

use crate::met::{seeded, LISTED};
use crate::postings::{bill, month_end, settle};
use crate::sides::{expect, open, post};
use crate::stored::KWH;
use twin::calendar::{JUNE, MAY};
use twin::electric::{ElectricBook, Period, Sales};
use twin::random::Random;
use twin::rounding::round;

/// Each with the nearest whole number, by hundredths.
const HUNDREDTHS: [(i64, i64); 10] = [
    (49, 0),
    (50, 1),
    (51, 1),
    (149, 1),
    (150, 2),
    (250, 3),
    (-49, 0),
    (-50, -1),
    (-150, -2),
    (-250, -3),
];

fn book(month: u8) -> ElectricBook {
    let mut book = open(0).book;
    book.month = month;
    book
}

#[test]
fn lines_and_parts_go_away_from_zero() {
    for (hundredths, line) in HUNDREDTHS {
        let mut one_run = book(JUNE);
        one_run.primary.second.factor = hundredths as i32;
        let billed = expect([line, 0], one_run, bill(1, 1));
        assert_eq!(billed.primary.second.due, -line);
        let cancelled = expect([-line, 0], one_run, bill(1, -1));
        assert_eq!(cancelled.primary.second.due, line);
    }
}

#[test]
fn interest_goes_away_from_zero() {
    for (hundredths, interest) in HUNDREDTHS {
        let mut carries = book(JUNE);
        carries.secondary.carried = hundredths;
        expect([interest, 0], carries, month_end(120_000));
    }
}

/// A book to settle with sales that cost the base, so that there is a share of the rest alone.
fn even_book(cents_more: i64, sales: Sales, remainder: i64) -> ElectricBook {
    let kwh = sales.secondary + sales.primary;
    assert_eq!(kwh % 1_000, 0, "{kwh} kWh cost no whole cents");
    let mut even = book(MAY);
    even.period = Period {
        cost: kwh / 1_000 * 1_799 + cents_more,
        sales,
        remainder,
    };
    even
}

const SECONDARY_ALONE: Sales = Sales {
    secondary: 1_000,
    primary: 0,
};

#[test]
fn factors_go_away_from_zero() {
    for (hundredths, factor) in HUNDREDTHS {
        let mut even = even_book(0, SECONDARY_ALONE, 0);
        even.primary.carried = hundredths;
        expect([0, factor], even, settle(1, 10_000));
    }
}

#[test]
fn shares_of_the_customers_go_away_from_zero() {
    // 95 × 10 cents are 9.5 cents, and 50000 is half a cent.
    let cases = [
        (10, 0, 10, -50_000),
        (-10, 0, -10, 50_000),
        (10, -1, 9, 49_999),
        (-10, 1, -9, -49_999),
        (0, 50_000, 1, -50_000),
        (0, 49_999, 0, 49_999),
        (0, -50_000, -1, 50_000),
        (0, -49_999, 0, -49_999),
    ];
    for (cents, remainder, share, left) in cases {
        let even = even_book(cents, SECONDARY_ALONE, remainder);
        let settled = post(even, settle(KWH, KWH), LISTED).book;
        assert_eq!(settled.secondary.pending.due, share, "{cents}, {remainder}");
        assert_eq!(settled.period.remainder, left, "{cents}, {remainder}");
    }
}

#[test]
fn the_secondary_share_goes_away_from_zero_and_the_primary_has_the_rest() {
    let sales = Sales {
        secondary: 500,
        primary: 500,
    };
    // The weight is 50515, so the parts of 10000 are 5051.5 and 4948.5.
    let cases = [
        (10_526, 30_000, 5_052, 4_948),
        (31_579, -5_000, 15_155, 14_845),
    ];
    for (cents, remainder, secondary, primary) in cases {
        for sign in [1, -1] {
            let even = even_book(sign * cents, sales, sign * remainder);
            let settled = post(even, settle(KWH, KWH), LISTED).book;
            assert_eq!(settled.secondary.pending.due, sign * secondary);
            assert_eq!(settled.primary.pending.due, sign * primary);
        }
    }
}

/// Sales whose weight is halfway between two whole ones, by division.
const HALVED: [[(i64, i64); 2]; 2] = [
    [(106_231, 91_557), (93_769, 108_443)],
    [(104_187, 92_567), (95_813, 107_433)],
];

/// Some of those sales, as a book of the division has room for.
pub fn halved_sales(random: &mut Random, division: u8) -> Sales {
    let (secondary, primary) = random.one_of(&HALVED[usize::from(division)]);
    let times = random.within(1, KWH / secondary.max(primary));
    Sales {
        secondary: secondary * times,
        primary: primary * times,
    }
}

/// Sales whose base cost ends in half a cent: an odd number of 500 kWh for L&P, of 250 for MPS.
pub fn half_cent_sales(random: &mut Random, division: u8) -> Sales {
    let unit = [500, 250][usize::from(division)];
    let most = random.one_of(&[10, 10_000, KWH / unit / 2 - 1]);
    let kwh = unit * (2 * random.within(0, most) + 1);
    let secondary = random.within(0, kwh);
    Sales {
        secondary,
        primary: kwh - secondary,
    }
}

/// A period of the division whose secondary share is an odd number of halves.
pub fn halved_period(random: &mut Random, division: u8) -> Period {
    // Equal sales weigh 50515 and 50767, so these and their odd multiples end in a half.
    let (base, unit) = [(1_799, 10_000), (2_538, 50_000)][usize::from(division)];
    let most = 900_000_000_000 / unit / 2;
    let customers = unit * (2 * random.within(-most, most - 1) + 1);
    let kwh = random.within(1, KWH);
    // The cost whose share is nearest to that of the customers.
    let exact = 100_000 * i128::from(customers) + 95 * base * 2 * i128::from(kwh);
    Period {
        cost: round(exact, 95_000) as i64,
        sales: Sales {
            secondary: kwh,
            primary: kwh,
        },
        remainder: 0,
    }
}

#[test]
fn secondary_shares_at_a_half_agree() {
    let (mut random, origin) = seeded(1);
    for case in 0..100_000 {
        let mut halved = book(MAY);
        halved.division = (case % 2) as u8;
        halved.period = halved_period(&mut random, halved.division);
        let posted = post(halved, settle(KWH, KWH), &origin);
        let weight = [50_515, 50_767][usize::from(halved.division)];
        let (secondary, primary) = (posted.book.secondary, posted.book.primary);
        let customers = secondary.pending.due + primary.pending.due;
        let past_half =
            i128::from(customers) * weight - 100_000 * i128::from(secondary.pending.due);
        assert_eq!(past_half.abs(), 50_000, "{halved:?} has no half, {origin}");
    }
}

#[test]
fn weights_at_a_half_go_up() {
    // Weights of 54221.5 and 46884.5 are 54222 and 46885, shown by a share of 100000.
    for ((secondary, primary), share) in HALVED[0].into_iter().zip([54_222, 46_885]) {
        for sign in [1, -1] {
            let sales = Sales {
                secondary: 1_000 * secondary,
                primary: 1_000 * primary,
            };
            // 95% of 105263 cents is 99999.85, and the remainder is 0.15 more.
            let even = even_book(sign * 105_263, sales, sign * 15_000);
            let settled = post(even, settle(KWH, KWH), LISTED).book;
            assert_eq!(settled.secondary.pending.due, sign * share);
            assert_eq!(settled.primary.pending.due, sign * (100_000 - share));
        }
    }
}
