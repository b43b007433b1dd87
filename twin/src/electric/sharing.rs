//! The variance of a period and its customers' share, parted between the levels.

use super::book::{ElectricBook, Period};
use super::reply::Levels;
use crate::rounding::{round, WHOLE_WEIGHT};

/// What a division's opening fixes.
pub(super) struct Rates {
    /// Hundred-thousandths of a dollar per kWh.
    pub base: i128,
    /// Over 100,000.
    pub secondary_loss: i128,
    pub primary_loss: i128,
}

/// By number of the division: L&P, MPS.
const RATES: [Rates; 2] = [
    Rates {
        base: 1_799,
        secondary_loss: 108_443,
        primary_loss: 106_231,
    },
    Rates {
        base: 2_538,
        secondary_loss: 107_433,
        primary_loss: 104_187,
    },
];

/// The customers bear so many hundredths of a variance.
pub(super) const CUSTOMER_HUNDREDTHS: i128 = 95;

/// Variances are in thousandths of a cent, and shares in hundredths of them.
const SHARE_DIVISOR: i128 = 100_000;

/// What is open of a period.
#[derive(Clone, Copy, Debug, Default)]
pub struct Open {
    pub cost: i128,
    pub secondary: i128,
    pub primary: i128,
    pub remainder: i128,
}

impl Open {
    pub fn of(period: &Period) -> Self {
        Self {
            cost: period.cost.into(),
            secondary: period.sales.secondary.into(),
            primary: period.sales.primary.into(),
            remainder: period.remainder.into(),
        }
    }

    /// Whether nothing is sold yet.
    pub fn is_unsold(&self) -> bool {
        self.secondary + self.primary == 0
    }
}

/// What settling gives.
#[derive(Clone, Copy, Debug, PartialEq, Eq)]
pub struct Shared {
    /// The paper's V.
    pub variance: i128,
    /// The remainder for the next period.
    pub remainder: i128,
    /// The share of all customers, the paper's R.
    pub customers: i128,
    /// The paper's w.
    pub weight: i128,
    pub secondary: i128,
    pub primary: i128,
}

/// The rates of a division, which is 0 or 1.
pub(super) fn rates_of(division: u8) -> &'static Rates {
    &RATES[usize::from(division)]
}

/// The shares of a period of the division, which is 0 or 1.
pub fn share(division: u8, open: Open) -> Shared {
    let rates = rates_of(division);
    let variance = 1_000 * open.cost - rates.base * (open.secondary + open.primary);
    let exact = CUSTOMER_HUNDREDTHS * variance + open.remainder;
    let customers = round(exact, SHARE_DIVISOR);
    let secondary_weight = open.secondary * rates.secondary_loss;
    let primary_weight = open.primary * rates.primary_loss;
    let whole = i128::from(WHOLE_WEIGHT);
    let weight = round(whole * secondary_weight, secondary_weight + primary_weight);
    let secondary = round(customers * weight, whole);
    Shared {
        variance,
        remainder: exact - SHARE_DIVISOR * customers,
        customers,
        weight,
        secondary,
        primary: customers - secondary,
    }
}

/// The shares that settling what is open would give; none where nothing is sold.
pub fn provisional_shares(division: u8, open: Open) -> Levels<i128> {
    if open.is_unsold() {
        return Levels::default();
    }
    let shared = share(division, open);
    Levels {
        secondary: shared.secondary,
        primary: shared.primary,
    }
}

/// The provisional shares of the book, which a settled month has none of.
pub(super) fn provisional_shares_of(book: &ElectricBook) -> Levels<i128> {
    match book.settled {
        true => Levels::default(),
        false => provisional_shares(book.division, Open::of(&book.period)),
    }
}

/// Whether shares keep within a remainder of what the customers bear of the variances.
pub fn shares_fit_variances(shares: i128, variances: i128) -> bool {
    let distance = SHARE_DIVISOR * shares - CUSTOMER_HUNDREDTHS * variances;
    2 * distance.abs() <= SHARE_DIVISOR
}
