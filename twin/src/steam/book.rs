//! What a steam book holds, and the limits of each value.
//!
//! The layouts are those of C, as the proved functions take and give them.

use crate::amounts::{cents_within_limits, factor_within_limits, Run};
use crate::calendar::{
    is_month, AUGUST, DECEMBER, FEBRUARY, JANUARY, JUNE, MARCH, MAY, NOVEMBER, SEPTEMBER,
};

/// The most mmBtu of a quarter, open or past.
pub const SALES_LIMIT: i64 = 100_000_000;

/// Half of the divisor of the share, so no rounded share leaves more.
pub const REMAINDER_LIMIT: i64 = 5_000;

/// The most months that a reconciliation has left.
pub const MONTHS_LIMIT: u8 = 24;

/// What is open of the quarter.
#[repr(C)]
#[derive(Clone, Copy, Debug, Default, PartialEq, Eq)]
pub struct Period {
    /// The paper's K.
    pub cost: i64,
    /// The paper's B.
    pub sales: i64,
    /// The paper's rem.
    pub remainder: i64,
}

/// The run that the carried account is billed by, and its months left.
#[repr(C)]
#[derive(Clone, Copy, Debug, Default, PartialEq, Eq)]
pub struct Reconciliation {
    pub run: Run,
    pub months: u8,
}

#[repr(C)]
#[derive(Clone, Copy, Debug, PartialEq, Eq)]
pub struct SteamBook {
    pub month: u8,
    /// Whether this quarter is settled.
    pub settled: bool,
    pub period: Period,
    /// Sales of the four past quarters, oldest first.
    pub quarters: [i64; 4],
    /// The paper's A.
    pub carried: i64,
    /// The paper's q and Q.
    pub pending: Run,
    /// The factors of runs 1 to 4.
    pub factors: [i32; 4],
    /// The cents still due by runs 1 to 4.
    pub dues: [i64; 4],
    pub reconciliation: Reconciliation,
}

/// Whether quarters are settled in the month.
#[inline]
pub fn is_settling(month: u8) -> bool {
    matches!(month, MARCH | JUNE | SEPTEMBER | DECEMBER)
}

/// Which of the four runs the end of the month hands over to, counted from 0.
#[inline]
pub fn entering(month: u8) -> Option<usize> {
    match month {
        FEBRUARY => Some(0),
        MAY => Some(1),
        AUGUST => Some(2),
        NOVEMBER => Some(3),
        _ => None,
    }
}

#[inline]
pub fn sales_within_limits(sales: i64) -> bool {
    (0..=SALES_LIMIT).contains(&sales)
}

impl Period {
    #[inline]
    fn within_limits(&self) -> bool {
        cents_within_limits(self.cost)
            && sales_within_limits(self.sales)
            && (-REMAINDER_LIMIT..=REMAINDER_LIMIT).contains(&self.remainder)
    }
}

impl Reconciliation {
    /// With no month left there is neither a factor nor a cent.
    #[inline]
    fn within_limits(&self) -> bool {
        match self.months {
            0 => self.run == Run::default(),
            months => months <= MONTHS_LIMIT && self.run.within_limits(),
        }
    }
}

impl SteamBook {
    /// The book that an opening with the quarters gives.
    pub fn fresh(quarters: [i64; 4]) -> Self {
        Self {
            month: JANUARY,
            settled: false,
            period: Period::default(),
            quarters,
            carried: 0,
            pending: Run::default(),
            factors: [0; 4],
            dues: [0; 4],
            reconciliation: Reconciliation::default(),
        }
    }

    /// All cents held, the paper's A + Q and all five d.
    pub fn held(&self) -> i128 {
        let others = [self.carried, self.pending.due, self.reconciliation.run.due];
        let held = self.dues.iter().chain(&others);
        held.map(|&cents| i128::from(cents)).sum()
    }

    /// Whether nothing in the book calls for refusal 6.
    #[inline]
    pub fn within_limits(&self) -> bool {
        is_month(self.month)
            && (!self.settled || is_settling(self.month))
            && self.period.within_limits()
            && self
                .quarters
                .iter()
                .all(|&sales| sales_within_limits(sales))
            && cents_within_limits(self.carried)
            && self.pending.within_limits()
            && self
                .factors
                .iter()
                .all(|&factor| factor_within_limits(factor))
            && self.dues.iter().all(|&due| cents_within_limits(due))
            && self.reconciliation.within_limits()
    }
}
