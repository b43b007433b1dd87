//! What electric month ends have to bear interest on.

use twin::electric::{provisional_shares, ElectricBook, Levels, Open, Sales};
use twin::rounding::round;

/// What a month end may have; a share is the sum of both levels' provisional ones.
const SORTS: [&str; 10] = [
    "L&P due",
    "L&P credit",
    "MPS due",
    "MPS credit",
    "sold at the secondary level alone",
    "sold at the primary level alone",
    "cost and nothing sold",
    "a share at the largest rate",
    "a share and half a cent of interest",
    "another interest without the remainder",
];

/// How often month ends had each of these.
#[derive(Clone, Debug, Default)]
pub struct MonthEnds([usize; SORTS.len()]);

impl MonthEnds {
    pub fn count(&mut self, book: &ElectricBook, rate: i64) {
        let (open, sales) = (Open::of(&book.period), book.period.sales);
        let shares = shares(book, open);
        let sum = shares.secondary + shares.primary;
        let exact = exact_interest(book, rate, shares);
        let lp = book.division == 0;
        let has = [
            lp && sum > 0,
            lp && sum < 0,
            !lp && sum > 0,
            !lp && sum < 0,
            sum != 0 && sales.primary == 0,
            sum != 0 && sales.secondary == 0,
            !book.settled && open.cost != 0 && sales == Sales::default(),
            sum != 0 && rate == 200_000,
            sum != 0
                && exact
                    .iter()
                    .any(|exact| exact.abs() % DIVISOR == DIVISOR / 2),
            rounded(exact) != rounded(without_remainder(book, rate)),
        ];
        for (count, has) in self.0.iter_mut().zip(has) {
            *count += usize::from(has);
        }
    }

    /// Prints the counts, and holds each to be large enough.
    pub fn check(&self, title: &str, least: usize) {
        println!("{title}:");
        for (sort, count) in SORTS.iter().zip(self.0) {
            println!("  {sort}: {count}");
            assert!(count >= least, "{title}, {sort}: {count}");
        }
    }
}

/// A yearly rate in millionths is over this by month.
const DIVISOR: i128 = 12_000_000;

fn shares(book: &ElectricBook, open: Open) -> Levels<i128> {
    match book.settled {
        true => Levels::default(),
        false => provisional_shares(book.division, open),
    }
}

/// Interest of both levels before it is divided and rounded.
fn exact_interest(book: &ElectricBook, rate: i64, shares: Levels<i128>) -> [i128; 2] {
    [
        (&book.secondary, shares.secondary),
        (&book.primary, shares.primary),
    ]
    .map(|(level, share)| i128::from(rate) * (level.bears_interest() + share))
}

fn rounded(exact: [i128; 2]) -> [i128; 2] {
    exact.map(|exact| round(exact, DIVISOR))
}

fn without_remainder(book: &ElectricBook, rate: i64) -> [i128; 2] {
    let open = Open {
        remainder: 0,
        ..Open::of(&book.period)
    };
    exact_interest(book, rate, shares(book, open))
}
