//! The figures of a settlement, as the sheet's rows have them.

use crate::amounts::Run;
use crate::calendar::NOVEMBER;
use crate::electric::book::{ElectricBook, Level, Sales};
use crate::electric::post;
use crate::electric::reply::Levels;
use crate::electric::sharing::{rates_of, share, Open};
use crate::records::{Posting, SETTLE};
use crate::rounding::{round, WHOLE_WEIGHT};
use crate::written::Refusal;

/// The base is in thousandths of a cent.
const BASE_DIVISOR: i128 = 1_000;

/// Loss factors are over this.
const LOSS_DIVISOR: i128 = 100_000;

/// Money is in cents, and factors are in points.
pub(super) struct Figures {
    /// The paper's K.
    pub cost: i128,
    /// The sheet's B, to the cent.
    pub base_cost: i128,
    pub sold: Levels<i128>,
    pub loss_factors: Levels<i128>,
    /// Sales adjusted for losses, to the kWh.
    pub adjusted: Levels<i128>,
    /// The paper's w and what is left of the whole.
    pub weights: Levels<i128>,
    /// The share of all customers, the paper's R.
    pub customers: i128,
    pub shares: Levels<i128>,
    pub carried: Levels<i128>,
    pub interest: Levels<i128>,
    /// The paper's Q.
    pub clause: Levels<i128>,
    pub estimated: Levels<i128>,
    /// The paper's q.
    pub current: Levels<i128>,
    /// The factors that still run when the current ones enter.
    pub previous: Levels<i128>,
    pub annual: Levels<i128>,
}

impl Figures {
    /// The figures, or the settlement's refusal.
    pub fn of_settlement(book: ElectricBook, estimates: Sales) -> Result<Self, Refusal> {
        let settled = settled(book, estimates)?;
        let open = Open::of(&book.period);
        let rates = rates_of(book.division);
        let shared = share(book.division, open);
        let current = held(&settled, |level| level.pending.factor.into());
        let previous = held(&book, |level| staying_run(level, book.month).factor.into());
        Ok(Self {
            cost: open.cost,
            base_cost: round(rates.base * (open.secondary + open.primary), BASE_DIVISOR),
            sold: levels(open.secondary, open.primary),
            loss_factors: levels(rates.secondary_loss, rates.primary_loss),
            adjusted: levels(
                round(open.secondary * rates.secondary_loss, LOSS_DIVISOR),
                round(open.primary * rates.primary_loss, LOSS_DIVISOR),
            ),
            weights: levels(shared.weight, i128::from(WHOLE_WEIGHT) - shared.weight),
            customers: shared.customers,
            shares: levels(shared.secondary, shared.primary),
            carried: held(&book, |level| level.carried.into()),
            interest: held(&book, |level| level.interest.into()),
            clause: held(&settled, |level| level.pending.due.into()),
            estimated: levels(estimates.secondary.into(), estimates.primary.into()),
            current,
            previous,
            annual: levels(
                current.secondary + previous.secondary,
                current.primary + previous.primary,
            ),
        })
    }
}

/// The book after the settlement, or its refusal.
fn settled(book: ElectricBook, estimates: Sales) -> Result<ElectricBook, Refusal> {
    let settle = Posting {
        kind: SETTLE,
        numbers: [estimates.secondary, estimates.primary, 0],
    };
    let posted = post(book, settle);
    match posted.reply.number {
        0 => Ok(posted.book),
        number => Err(number.into()),
    }
}

/// The total of both levels.
pub(super) fn sum(levels: Levels<i128>) -> i128 {
    levels.secondary + levels.primary
}

fn levels(secondary: i128, primary: i128) -> Levels<i128> {
    Levels { secondary, primary }
}

/// A figure that the book holds at each level.
fn held(book: &ElectricBook, figure: impl Fn(&Level) -> i128) -> Levels<i128> {
    levels(figure(&book.secondary), figure(&book.primary))
}

/// What is filed in November takes the place of run 1, so that run 2 stays; in May it is the other way round.
fn staying_run(level: &Level, month: u8) -> Run {
    match month {
        NOVEMBER => level.second,
        _ => level.first,
    }
}
