//! What an entry in range does to a book within its limits.

use super::book::{kwh_within_limits, ElectricBook, Level, Period, Sales};
use super::entry::Entry;
use super::reply::{Levels, Reply};
use super::sharing::{provisional_shares_of, share, Open};
use crate::amounts::{answered, stored_cents, stored_factor, Run};
use crate::calendar::{month_after, AUGUST, FEBRUARY};
use crate::posted::{done, Outcome};
use crate::refusals::{NOTHING_SOLD, OUTSIDE_LIMITS};
use crate::rounding::round;
use crate::written::Refusal;

/// A yearly rate in millionths is over this by month.
const MONTHLY_DIVISOR: i128 = 12_000_000;

/// Makes the book the next one, or gives refusal 10 or 12 and leaves the book as it was.
///
/// It computes first and stores last, so it is the one implementation of the call by value and of the
/// call in place.
#[inline(always)]
pub(super) fn enter(book: &mut ElectricBook, entry: Entry) -> Outcome<Reply> {
    match entry {
        Entry::Cost(costs) => add_cost(book, costs),
        Entry::Sales { secondary, primary } => {
            add_sales(&mut book.period.sales, secondary, primary)
        }
        Entry::Bill { level, kwh } => bill(book.level_mut(level), kwh),
        Entry::Settle { secondary, primary } => settle(book, secondary, primary),
        Entry::MonthEnd { rate } => end_month(book, rate),
        Entry::Adjust { level, cents } => adjust(book.level_mut(level), cents),
    }
}

fn add_cost(book: &mut ElectricBook, costs: [i64; 3]) -> Outcome<Reply> {
    let sum: i128 = costs.iter().map(|&cents| i128::from(cents)).sum();
    book.period.cost = stored_cents(i128::from(book.period.cost) + sum)?;
    done()
}

fn add_sales(sales: &mut Sales, secondary: i64, primary: i64) -> Outcome<Reply> {
    *sales = Sales {
        secondary: stored_kwh(i128::from(sales.secondary) + i128::from(secondary))?,
        primary: stored_kwh(i128::from(sales.primary) + i128::from(primary))?,
    };
    done()
}

#[inline(always)]
fn bill(level: &mut Level, kwh: i64) -> Outcome<Reply> {
    let line_of = |factors: i128| round(i128::from(kwh) * factors, 100);
    let first_factor = i128::from(level.first.factor);
    let line = line_of(first_factor + i128::from(level.second.factor));
    let first_part = line_of(first_factor);
    let second_part = line - first_part;
    let first_due = stored_cents(i128::from(level.first.due) - first_part)?;
    let second_due = stored_cents(i128::from(level.second.due) - second_part)?;
    level.first.due = first_due;
    level.second.due = second_due;
    Ok(Reply {
        line: answered(line),
        ..Reply::default()
    })
}

#[inline(always)]
fn settle(book: &mut ElectricBook, secondary: i64, primary: i64) -> Outcome<Reply> {
    let period = &mut book.period;
    let open = Open::of(period);
    if open.is_unsold() {
        return Err(NOTHING_SOLD);
    }
    let shared = share(book.division, open);
    let secondary = to_file(&book.secondary, shared.secondary, secondary)?;
    let primary = to_file(&book.primary, shared.primary, primary)?;
    *period = Period {
        remainder: answered(shared.remainder),
        ..Period::default()
    };
    book.settled = true;
    Ok(Reply {
        filed: Levels {
            secondary: file(&mut book.secondary, secondary),
            primary: file(&mut book.primary, primary),
        },
        ..Reply::default()
    })
}

/// The share and all that is carried, with the factor for the estimated sales.
fn to_file(level: &Level, share: i128, estimated: i64) -> Result<Run, Refusal> {
    let cents = share + i128::from(level.carried) + i128::from(level.interest);
    let factor = round(100 * cents, i128::from(estimated));
    Ok(Run {
        factor: stored_factor(factor)?,
        due: stored_cents(cents)?,
    })
}

/// Makes the run pending, and gives its factor.
fn file(level: &mut Level, run: Run) -> i32 {
    level.carried = 0;
    level.interest = 0;
    level.pending = run;
    run.factor
}

#[inline(always)]
fn end_month(book: &mut ElectricBook, rate: i64) -> Outcome<Reply> {
    let shares = provisional_shares_of(book);
    let interest = Levels {
        secondary: month_interest(&book.secondary, shares.secondary, rate),
        primary: month_interest(&book.primary, shares.primary, rate),
    };
    let secondary = at_month_end(&book.secondary, book.month, interest.secondary)?;
    let primary = at_month_end(&book.primary, book.month, interest.primary)?;
    hand_over(&mut book.secondary, book.month, secondary);
    hand_over(&mut book.primary, book.month, primary);
    book.month = month_after(book.month);
    book.settled = false;
    Ok(Reply {
        interest,
        ..Reply::default()
    })
}

/// The month's interest on the level's cents and on its provisional share.
fn month_interest(level: &Level, share: i128, rate: i64) -> i64 {
    let base = level.bears_interest() + share;
    answered(round(i128::from(rate) * base, MONTHLY_DIVISOR))
}

/// Carried cents and interest after the month's end.
#[inline(always)]
fn at_month_end(level: &Level, month: u8, interest: i64) -> Result<(i64, i64), Refusal> {
    let handed_over = match month {
        FEBRUARY => level.first.due,
        AUGUST => level.second.due,
        _ => 0,
    };
    let carried = stored_cents(i128::from(level.carried) + i128::from(handed_over))?;
    let interest = stored_cents(i128::from(level.interest) + i128::from(interest))?;
    Ok((carried, interest))
}

/// At the end of February and August what is pending takes the place of a run.
fn hand_over(level: &mut Level, month: u8, (carried, interest): (i64, i64)) {
    level.carried = carried;
    level.interest = interest;
    let run = match month {
        FEBRUARY => &mut level.first,
        AUGUST => &mut level.second,
        _ => return,
    };
    *run = level.pending;
    level.pending = Run::default();
}

fn adjust(level: &mut Level, cents: i64) -> Outcome<Reply> {
    level.carried = stored_cents(i128::from(level.carried) + i128::from(cents))?;
    done()
}

fn stored_kwh(kwh: i128) -> Result<i64, Refusal> {
    let narrow = i64::try_from(kwh).ok();
    let stored = narrow.filter(|&kwh| kwh_within_limits(kwh));
    stored.ok_or(OUTSIDE_LIMITS)
}
