//! What an electric book holds, and the limits of each value.
//!
//! The layouts are those of C, as the proved functions take and give them.

use crate::amounts::{cents_within_limits, Run};
use crate::calendar::{is_month, JUNE, MAY, NOVEMBER};

/// The most open kWh of a level.
pub const KWH_LIMIT: i64 = 10_000_000_000;

/// Half of the divisor of the share, so no rounded share leaves more.
pub const REMAINDER_LIMIT: i64 = 50_000;

/// The two divisions.
pub const L_AND_P: u8 = 0;
pub const MPS: u8 = 1;

/// A level of customers.
#[repr(C)]
#[derive(Clone, Copy, Debug, Default, PartialEq, Eq)]
pub struct Level {
    /// The paper's C.
    pub carried: i64,
    /// The paper's I.
    pub interest: i64,
    /// The paper's q and Q.
    pub pending: Run,
    pub first: Run,
    pub second: Run,
}

/// Open kWh by level, the paper's Ss and Sp.
#[repr(C)]
#[derive(Clone, Copy, Debug, Default, PartialEq, Eq)]
pub struct Sales {
    pub secondary: i64,
    pub primary: i64,
}

/// What is open of the period.
#[repr(C)]
#[derive(Clone, Copy, Debug, Default, PartialEq, Eq)]
pub struct Period {
    /// The paper's K.
    pub cost: i64,
    pub sales: Sales,
    /// The paper's rem.
    pub remainder: i64,
}

#[repr(C)]
#[derive(Clone, Copy, Debug, PartialEq, Eq)]
pub struct ElectricBook {
    pub division: u8,
    pub month: u8,
    /// Whether this period is settled.
    pub settled: bool,
    pub period: Period,
    pub secondary: Level,
    pub primary: Level,
}

/// Whether periods are settled in the month.
#[inline]
pub fn is_settling(month: u8) -> bool {
    month == MAY || month == NOVEMBER
}

#[inline]
pub fn kwh_within_limits(kwh: i64) -> bool {
    (0..=KWH_LIMIT).contains(&kwh)
}

impl Level {
    /// All cents held, the paper's C + I + Q + d1 + d2.
    #[inline]
    pub fn held(&self) -> i128 {
        i128::from(self.interest) + self.bears_interest()
    }

    /// The cents held that bear interest, the paper's C + Q + d1 + d2; the provisional share bears it beside them.
    #[inline]
    pub fn bears_interest(&self) -> i128 {
        let runs = [self.pending, self.first, self.second];
        let due = runs.iter().map(|run| i128::from(run.due));
        i128::from(self.carried) + due.sum::<i128>()
    }

    #[inline]
    fn within_limits(&self) -> bool {
        let runs = [self.pending, self.first, self.second];
        cents_within_limits(self.carried)
            && cents_within_limits(self.interest)
            && runs.iter().all(Run::within_limits)
    }
}

impl Period {
    #[inline]
    fn within_limits(&self) -> bool {
        cents_within_limits(self.cost)
            && kwh_within_limits(self.sales.secondary)
            && kwh_within_limits(self.sales.primary)
            && (-REMAINDER_LIMIT..=REMAINDER_LIMIT).contains(&self.remainder)
    }
}

impl ElectricBook {
    /// The book that an opening of the division gives.
    pub fn fresh(division: u8) -> Self {
        Self {
            division,
            month: JUNE,
            settled: false,
            period: Period::default(),
            secondary: Level::default(),
            primary: Level::default(),
        }
    }

    /// The level of a number, 0 or 1.
    #[inline]
    pub fn level_mut(&mut self, number: i64) -> &mut Level {
        match number {
            0 => &mut self.secondary,
            _ => &mut self.primary,
        }
    }

    /// Whether nothing in the book calls for refusal 6.
    #[inline(always)]
    pub fn within_limits(&self) -> bool {
        self.division <= MPS
            && is_month(self.month)
            && (!self.settled || is_settling(self.month))
            && self.period.within_limits()
            && self.secondary.within_limits()
            && self.primary.within_limits()
    }
}
