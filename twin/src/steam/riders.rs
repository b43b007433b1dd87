//! What an entry in range does to a book within its limits.

use super::book::{entering, sales_within_limits, Period, Reconciliation, SteamBook};
use super::entry::Entry;
use super::reply::Reply;
use super::settlement::{annual_sales, share, Open};
use crate::amounts::{answered, stored_cents, stored_factor, Run};
use crate::calendar::month_after;
use crate::posted::{done, Outcome};
use crate::refusals::{ADJUSTMENT_TOO_SMALL, NOTHING_SOLD, OUTSIDE_LIMITS};
use crate::rounding::round;
use crate::written::Refusal;

/// Makes the book the next one, or gives refusal 10, 11 or 12 and leaves the book as it was.
///
/// It computes first and stores last, so it is the one implementation of the call by value and of the
/// call in place.
#[inline]
pub(super) fn enter(book: &mut SteamBook, entry: Entry) -> Outcome<Reply> {
    match entry {
        Entry::Cost(cents) => add_cost(book, cents),
        Entry::Sales(sales) => add_sales(book, sales),
        Entry::Bill(sales) => bill(book, sales),
        Entry::Settle(adjustment) => settle(book, adjustment),
        Entry::MonthEnd => end_month(book),
        Entry::Adjust { cents, fuel_cost } => adjust(book, cents, fuel_cost),
        Entry::Reconcile { months, sales } => reconcile(book, months, sales),
    }
}

fn add_cost(book: &mut SteamBook, cents: i64) -> Outcome<Reply> {
    book.period.cost = stored_cents(i128::from(book.period.cost) + i128::from(cents))?;
    done()
}

fn add_sales(book: &mut SteamBook, sales: i64) -> Outcome<Reply> {
    book.period.sales = stored_sales(i128::from(book.period.sales) + i128::from(sales))?;
    done()
}

fn bill(book: &mut SteamBook, sales: i64) -> Outcome<Reply> {
    let mut factors = 0;
    let mut line = 0;
    // Each part is the line up to its run less the line before it, so that the parts make the line.
    let mut part = |factor: i32| {
        factors += i128::from(factor);
        let before = line;
        line = round(i128::from(sales) * factors, 100);
        line - before
    };
    let mut dues = book.dues;
    for (due, factor) in dues.iter_mut().zip(book.factors) {
        *due = stored_cents(i128::from(*due) - part(factor))?;
    }
    let run = &mut book.reconciliation.run;
    run.due = stored_cents(i128::from(run.due) - part(run.factor))?;
    book.dues = dues;
    Ok(Reply {
        line: answered(line),
        ..Reply::default()
    })
}

fn settle(book: &mut SteamBook, adjustment: i64) -> Outcome<Reply> {
    let period = &mut book.period;
    let sold = period.sales;
    let divisor = annual_sales(sold, book.quarters, adjustment);
    if sold == 0 || divisor < 1 {
        return Err(NOTHING_SOLD);
    }
    let shared = share(Open {
        cost: period.cost.into(),
        sales: sold.into(),
        remainder: period.remainder.into(),
    });
    book.pending = Run {
        factor: stored_factor(round(100 * shared.customers, divisor))?,
        due: stored_cents(shared.customers)?,
    };
    *period = Period {
        remainder: answered(shared.remainder),
        ..Period::default()
    };
    let [_, second, third, newest] = book.quarters;
    book.quarters = [second, third, newest, sold];
    book.settled = true;
    Ok(Reply {
        filed: book.pending.factor,
        ..Reply::default()
    })
}

fn end_month(book: &mut SteamBook) -> Outcome<Reply> {
    let entered = entering(book.month);
    let run_cents = entered.map_or(0, |index| book.dues[index]);
    let reconciled_cents = match book.reconciliation.months {
        1 => book.reconciliation.run.due,
        _ => 0,
    };
    // The account has a limit once both have joined it.
    let joining = i128::from(run_cents) + i128::from(reconciled_cents);
    book.carried = stored_cents(i128::from(book.carried) + joining)?;
    if let Some(index) = entered {
        hand_over(book, index);
    }
    lose_month(&mut book.reconciliation);
    book.month = month_after(book.month);
    book.settled = false;
    done()
}

/// What is pending takes the place of the run that is entered.
fn hand_over(book: &mut SteamBook, index: usize) {
    book.factors[index] = book.pending.factor;
    book.dues[index] = book.pending.due;
    book.pending = Run::default();
}

/// A reconciliation that runs loses a month, and with the last one all that it has.
fn lose_month(reconciliation: &mut Reconciliation) {
    match reconciliation.months {
        0 => {}
        1 => *reconciliation = Reconciliation::default(),
        months => reconciliation.months = months - 1,
    }
}

fn adjust(book: &mut SteamBook, cents: i64, fuel_cost: i64) -> Outcome<Reply> {
    if 10 * i128::from(cents).abs() <= i128::from(fuel_cost) {
        return Err(ADJUSTMENT_TOO_SMALL);
    }
    book.carried = stored_cents(i128::from(book.carried) + i128::from(cents))?;
    done()
}

fn reconcile(book: &mut SteamBook, months: i64, sales: i64) -> Outcome<Reply> {
    let factor = round(100 * i128::from(book.carried), i128::from(sales));
    book.reconciliation = Reconciliation {
        run: Run {
            factor: stored_factor(factor)?,
            due: book.carried,
        },
        months: months as u8,
    };
    book.carried = 0;
    done()
}

fn stored_sales(sales: i128) -> Result<i64, Refusal> {
    let narrow = i64::try_from(sales).ok();
    let stored = narrow.filter(|&sales| sales_within_limits(sales));
    stored.ok_or(OUTSIDE_LIMITS)
}
