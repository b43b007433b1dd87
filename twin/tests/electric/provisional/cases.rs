//! Month ends whose interest is worked out by hand.

use crate::sides::open;
use twin::amounts::Run;
use twin::calendar::{DECEMBER, JANUARY, JUNE, MAY, NOVEMBER};
use twin::electric::{ElectricBook, Level, Period, Sales};

/// A month end at a yearly rate, and the interest of both levels.
#[derive(Clone, Copy, Debug)]
pub struct Case {
    pub book: ElectricBook,
    pub rate: i64,
    pub interest: [i64; 2],
}

/// A book of the division whose open period has the cost and the sales, and which holds nothing else.
pub fn book(division: u8, month: u8, cost: i64, [secondary, primary]: [i64; 2]) -> ElectricBook {
    ElectricBook {
        month,
        period: Period {
            cost,
            sales: Sales { secondary, primary },
            remainder: 0,
        },
        ..open(division).book
    }
}

/// The book with a remainder, and with what both levels carry.
fn with(mut book: ElectricBook, remainder: i64, [secondary, primary]: [i64; 2]) -> ElectricBook {
    book.period.remainder = remainder;
    book.secondary.carried = secondary;
    book.primary.carried = primary;
    book
}

/// Cost, but nothing sold: only what is carried bears, a hundredth at 12% a year.
pub fn unsold() -> Vec<Case> {
    let mut cases = Vec::new();
    for (division, month) in [(0, JUNE), (1, JUNE), (0, JANUARY), (1, DECEMBER)] {
        for (cost, remainder) in [(2_000_000, 0), (-2_000_000, -50_000), (0, 50_000)] {
            let nothing_sold = book(division, month, cost, [0, 0]);
            cases.push(Case {
                book: with(nothing_sold, remainder, [0, 0]),
                rate: 200_000,
                interest: [0, 0],
            });
            cases.push(Case {
                book: with(nothing_sold, remainder, [1_200, -3_400]),
                rate: 120_000,
                interest: [12, -34],
            });
        }
    }
    cases
}

/// Cost and sales at both levels, by either division.
pub fn sold() -> Vec<Case> {
    let at_both = [600_000, 400_000];
    // At 6% a year interest is a 200th.
    let listed = [
        // The paper's R 190950 and shares 115513 and 75437: 577.565 and 377.185.
        (0, 2_000_000, [578, 377]),
        // V = 3000000000 − 2538000000, R = 438900, w = 60734.
        // Shares: round(438900 × 60734 / 100000) = 266562, and 172338: 1332.81 and 861.69.
        (1, 3_000_000, [1_333, 862]),
    ];
    let case = |(division, cost, interest)| Case {
        book: book(division, JUNE, cost, at_both),
        rate: 60_000,
        interest,
    };
    let mut cases: Vec<Case> = listed.into_iter().map(case).collect();
    cases.push(Case {
        // R = round(9999.7) = 10000 and w = 50515, so that the secondary share, 5051.5, is 5052 and the primary 4948.
        // At 12% a year 5052 bear 50.52, and 4948 with a cent carried 49.49.
        book: with(book(0, JUNE, 14_124, [1_000, 1_000]), 0, [0, 1]),
        rate: 120_000,
        interest: [51, 49],
    });
    cases
}

/// Shares that are credits.
pub fn credits() -> Vec<Case> {
    let mps = Case {
        // V = 2000000000 − 2538000000, R = −511100, w = 60734.
        // Shares: round(−511100 × 60734 / 100000) = −310411, and −200689: −1552.055 and −1003.445.
        book: book(1, JUNE, 2_000_000, [600_000, 400_000]),
        rate: 60_000,
        interest: [-1_552, -1_003],
    };
    let negative_cost = book(0, JANUARY, -100, [1_000, 0]);
    let costs_the_base = book(0, JANUARY, 1_799, [1_000, 0]);
    let listed = [
        // V = −100000 − 1799000, R = round(−1804.05) = −1804; at 12% a year interest is a hundredth.
        (negative_cost, 0, 0, -18),
        (negative_cost, 0, -45, -18),
        (negative_cost, 0, -46, -19),
        // V = 0, and half a cent of remainder is R = −1: −0.49 with −48 carried, −0.5 with −49.
        (costs_the_base, -50_000, -48, 0),
        (costs_the_base, -50_000, -49, -1),
        (costs_the_base, -49_999, -49, 0),
    ];
    let hundredth = |(book, remainder, carried, interest)| Case {
        book: with(book, remainder, [carried, 0]),
        rate: 120_000,
        interest: [interest, 0],
    };
    let mut cases: Vec<Case> = listed.into_iter().map(hundredth).collect();
    cases.push(mps);
    cases
}

/// Books lent with "settled" and an open period all the same; the filed share bears as Q.
pub fn settled() -> Vec<Case> {
    let mut cases = Vec::new();
    for (division, month) in [(0, MAY), (1, MAY), (0, NOVEMBER), (1, NOVEMBER)] {
        let open = book(division, month, 2_000_000, [600_000, 400_000]);
        let mut settled = with(open, 50_000, [0, 0]);
        settled.settled = true;
        cases.push(Case {
            book: settled,
            rate: 200_000,
            interest: [0, 0],
        });
        settled.secondary.pending = Run {
            factor: 9,
            due: 115_513,
        };
        settled.primary.pending = Run {
            factor: 9,
            due: 75_437,
        };
        cases.push(Case {
            book: settled,
            rate: 60_000,
            interest: [578, 377],
        });
    }
    cases
}

/// Sales at one level alone, which has all of R.
pub fn one_level() -> Vec<Case> {
    // V = 101799000 − 1799000 = 100000000, and R = 95000; at 12% a year a hundredth.
    let lp = |sold| book(0, JUNE, 101_799, sold);
    // V = −97462000 − 2538000 = −100000000, and R = −95000.
    let mps = |sold| book(1, JUNE, -97_462, sold);
    let listed = [
        (lp([1_000, 0]), [950, 0]),
        (lp([0, 1_000]), [0, 950]),
        (mps([1_000, 0]), [-950, 0]),
        (mps([0, 1_000]), [0, -950]),
    ];
    let case = |(book, interest)| Case {
        book,
        rate: 120_000,
        interest,
    };
    listed.into_iter().map(case).collect()
}

/// Remainders by which the interest is a cent more or less.
pub fn remainders() -> Vec<Case> {
    let costs_the_base = book(0, JUNE, 1_799, [1_000, 0]);
    // The paper's second period of 1080 cents for 600 kWh, whose 0.57 is R = 0 by the remainder of the first.
    let papers = book(0, DECEMBER, 1_080, [600, 0]);
    let listed = [
        // At 12% a year 49 cents bear none and 50 bear one.
        (costs_the_base, 50_000, 49, 1),
        (costs_the_base, 49_999, 49, 0),
        (costs_the_base, -50_000, 50, 0),
        (costs_the_base, -49_999, 50, 1),
        (papers, 0, 49, 1),
        (papers, -43_000, 49, 0),
        (papers, -43_000, 50, 1),
    ];
    let case = |(book, remainder, carried, interest)| Case {
        book: with(book, remainder, [carried, 0]),
        rate: 120_000,
        interest: [interest, 0],
    };
    listed.into_iter().map(case).collect()
}

/// Cents of every sort beside the share, of which the accrued interest alone bears none.
pub fn beside_cents() -> Vec<Case> {
    let run = |due| Run { factor: 0, due };
    let level = |[carried, interest, pending, first, second]: [i64; 5]| Level {
        carried,
        interest,
        pending: run(pending),
        first: run(first),
        second: run(second),
    };
    let papers = book(0, JUNE, 2_000_000, [600_000, 400_000]);
    // 115513 + 40 + 30 + 20 − 103 = 115500, a 200th of which is 577.5; 75437 − 100 + 63 − 200 + 200 = 75400: 377.
    let held = ElectricBook {
        secondary: level([40, 999_999_990_000, 30, 20, -103]),
        primary: level([-100, -999_999_990_000, 63, -200, 200]),
        ..papers
    };
    vec![Case {
        book: held,
        rate: 60_000,
        interest: [578, 377],
    }]
}

/// All of them.
pub fn all() -> Vec<Case> {
    [
        unsold(),
        sold(),
        credits(),
        settled(),
        one_level(),
        remainders(),
        beside_cents(),
    ]
    .concat()
}
