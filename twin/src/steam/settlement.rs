//! The variance of a quarter, its customers' share, and the sales that the share is filed over.

use crate::rounding::round;

/// Hundredths of a cent that an mmBtu costs before there is a variance.
const BASE: i128 = 30_050;

/// The customers bear so many hundredths of a variance.
const CUSTOMER_HUNDREDTHS: i128 = 80;

/// Variances are in hundredths of a cent, and shares in hundredths of them.
const SHARE_DIVISOR: i128 = 10_000;

/// What is open of a quarter when it is settled.
#[derive(Clone, Copy, Debug, Default)]
pub struct Open {
    pub cost: i128,
    pub sales: i128,
    pub remainder: i128,
}

/// What settling gives.
#[derive(Clone, Copy, Debug, PartialEq, Eq)]
pub struct Shared {
    /// The paper's V.
    pub variance: i128,
    /// The remainder for the next quarter.
    pub remainder: i128,
    /// The paper's R.
    pub customers: i128,
}

/// The customers' share of a quarter.
pub fn share(open: Open) -> Shared {
    let variance = 100 * open.cost - BASE * open.sales;
    let exact = CUSTOMER_HUNDREDTHS * variance + open.remainder;
    let customers = round(exact, SHARE_DIVISOR);
    Shared {
        variance,
        remainder: exact - SHARE_DIVISOR * customers,
        customers,
    }
}

/// Annual billing determinants, the paper's D; past quarters are oldest first.
pub fn annual_sales(sales: i64, quarters: [i64; 4], adjustment: i64) -> i128 {
    let [oldest, newer @ ..] = quarters.map(i128::from);
    let sales = i128::from(sales);
    let year = sales + newer.iter().sum::<i128>();
    // The adjustment counts where sales left the oldest quarter's by more than 5%.
    let varies = 100 * sales > 105 * oldest || 100 * sales < 95 * oldest;
    match varies {
        true => year + i128::from(adjustment),
        false => year,
    }
}

/// Whether shares keep within a remainder of what the customers bear of the variances.
pub fn shares_fit_variances(shares: i128, variances: i128) -> bool {
    let distance = SHARE_DIVISOR * shares - CUSTOMER_HUNDREDTHS * variances;
    2 * distance.abs() <= SHARE_DIVISOR
}
