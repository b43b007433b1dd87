//! A posting as the electric book understands it, with the ranges of its fields.

use crate::records::{is_signed, Posting, ADJUST, BILL, COST, MONTH_END, SALES, SETTLE};
use crate::refusals::{FIELD_LACKED_BY_KIND, UNKNOWN_KIND};
use crate::written::Refusal;

const CENTS_MOST: i64 = 10_000_000_000;
const KWH_MOST: i64 = 10_000_000_000;
const BILL_MOST: i64 = 1_000_000_000;
const RATE_MOST: i64 = 200_000;

/// A posting of a kind that the book has, without a number that the kind lacks.
#[derive(Clone, Copy, Debug)]
pub(super) enum Entry {
    /// The paper's F, P and E.
    Cost([i64; 3]),
    Sales {
        secondary: i64,
        primary: i64,
    },
    Bill {
        level: i64,
        kwh: i64,
    },
    /// Estimated sales, the paper's Rs and Rp.
    Settle {
        secondary: i64,
        primary: i64,
    },
    /// The yearly rate in millionths.
    MonthEnd {
        rate: i64,
    },
    Adjust {
        level: i64,
        cents: i64,
    },
}

impl Entry {
    /// The entry of a posting, or refusal 2 or 3.
    #[inline]
    pub fn of(posting: Posting) -> Result<Self, Refusal> {
        Ok(match (posting.kind, posting.numbers) {
            (COST, costs) => Entry::Cost(costs),
            (SALES, [secondary, primary, 0]) => Entry::Sales { secondary, primary },
            (BILL, [level, kwh, 0]) => Entry::Bill { level, kwh },
            (SETTLE, [secondary, primary, 0]) => Entry::Settle { secondary, primary },
            (MONTH_END, [rate, 0, 0]) => Entry::MonthEnd { rate },
            (ADJUST, [level, cents, 0]) => Entry::Adjust { level, cents },
            (COST..=ADJUST, _) => return Err(FIELD_LACKED_BY_KIND),
            _ => return Err(UNKNOWN_KIND),
        })
    }

    /// Whether every field is in its range; an absent one is 0.
    #[inline]
    pub fn in_range(&self) -> bool {
        match *self {
            Entry::Cost(costs) => costs.iter().all(|cents| is_signed(*cents, CENTS_MOST)),
            Entry::Sales { secondary, primary } => {
                let range = 0..=KWH_MOST;
                range.contains(&secondary) && range.contains(&primary)
            }
            Entry::Bill { level, kwh } => is_level(level) && is_signed(kwh, BILL_MOST),
            Entry::Settle { secondary, primary } => {
                let range = 1..=KWH_MOST;
                range.contains(&secondary) && range.contains(&primary)
            }
            Entry::MonthEnd { rate } => (0..=RATE_MOST).contains(&rate),
            Entry::Adjust { level, cents } => is_level(level) && is_signed(cents, CENTS_MOST),
        }
    }
}

#[inline]
fn is_level(number: i64) -> bool {
    number == 0 || number == 1
}
