//! A posting as the steam book understands it, with the ranges of its fields.

use crate::records::{is_signed, Posting, ADJUST, BILL, COST, MONTH_END, RECONCILE, SALES, SETTLE};
use crate::refusals::{FIELD_LACKED_BY_KIND, UNKNOWN_KIND};
use crate::written::Refusal;

const CENTS_MOST: i64 = 10_000_000_000;
const SALES_MOST: i64 = 100_000_000;
const BILL_MOST: i64 = 10_000_000;
const FUEL_COST_MOST: i64 = 100_000_000_000;

/// A posting of a kind that the book has, without a number that the kind lacks.
#[derive(Clone, Copy, Debug)]
pub(super) enum Entry {
    Cost(i64),
    Sales(i64),
    /// The mmBtu billed, the paper's u.
    Bill(i64),
    /// The adjustment of the billing determinants, the paper's b.
    Settle(i64),
    MonthEnd,
    /// The paper's n and g.
    Adjust {
        cents: i64,
        fuel_cost: i64,
    },
    /// The months and the paper's D.
    Reconcile {
        months: i64,
        sales: i64,
    },
}

impl Entry {
    /// The entry of a posting, or refusal 2 or 3.
    #[inline]
    pub fn of(posting: Posting) -> Result<Self, Refusal> {
        Ok(match (posting.kind, posting.numbers) {
            (COST, [cents, 0, 0]) => Entry::Cost(cents),
            (SALES, [sales, 0, 0]) => Entry::Sales(sales),
            (BILL, [sales, 0, 0]) => Entry::Bill(sales),
            (SETTLE, [adjustment, 0, 0]) => Entry::Settle(adjustment),
            (MONTH_END, [0, 0, 0]) => Entry::MonthEnd,
            (ADJUST, [cents, fuel_cost, 0]) => Entry::Adjust { cents, fuel_cost },
            (RECONCILE, [months, sales, 0]) => Entry::Reconcile { months, sales },
            (COST..=RECONCILE, _) => return Err(FIELD_LACKED_BY_KIND),
            _ => return Err(UNKNOWN_KIND),
        })
    }

    /// Whether every field is in its range; an absent one is 0.
    #[inline]
    pub fn in_range(&self) -> bool {
        match *self {
            Entry::Cost(cents) => is_signed(cents, CENTS_MOST),
            Entry::Sales(sales) => (0..=SALES_MOST).contains(&sales),
            Entry::Bill(sales) => is_signed(sales, BILL_MOST),
            Entry::Settle(adjustment) => is_signed(adjustment, SALES_MOST),
            Entry::MonthEnd => true,
            Entry::Adjust { cents, fuel_cost } => {
                is_signed(cents, CENTS_MOST) && (0..=FUEL_COST_MOST).contains(&fuel_cost)
            }
            Entry::Reconcile { months, sales } => {
                (months == 12 || months == 24) && (1..=SALES_MOST).contains(&sales)
            }
        }
    }
}
