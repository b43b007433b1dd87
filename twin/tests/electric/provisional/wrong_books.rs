//! Wrong books of the provisional share, each the twin's with one change, which the tally's claim must refuse or let pass.

use crate::postings::{adjust, cost, month_end, sales, settle};
use crate::wrong_books::{is_caught, passes, Change, Step};
use twin::electric::{
    provisional_shares, share, Level, Levels, Open, Period, Posted, Sales, Shared,
};
use twin::records::{Posting, MONTH_END};
use twin::rounding::round;

/// Makes the month's interest that on the book's cents and on these shares.
fn bear(step: &Step, posted: &mut Posted, shares: Levels<i128>) {
    if step.posting.kind != MONTH_END {
        return;
    }
    let rate = i128::from(step.posting.numbers[0]);
    let interest = |level: &Level, share| {
        let base = level.bears_interest() + share;
        round(rate * base, 12_000_000) as i64
    };
    let before = &step.before;
    let interest = Levels {
        secondary: interest(&before.secondary, shares.secondary),
        primary: interest(&before.primary, shares.primary),
    };
    posted.reply.interest = interest;
    posted.book.secondary.interest = before.secondary.interest + interest.secondary;
    posted.book.primary.interest = before.primary.interest + interest.primary;
}

fn levels(secondary: i128, primary: i128) -> Levels<i128> {
    Levels { secondary, primary }
}

/// What is open of the book, with its shares as if settled.
fn open_shares(step: &Step) -> (Open, Shared) {
    let open = Open::of(&step.before.period);
    (open, share(0, open))
}

/// Cost and sales of the paper at the month's beginning, and then the end of the month, so many times.
fn papers_months(count: usize) -> Vec<Posting> {
    let month = [cost(2_000_000), sales(600_000, 400_000), month_end(60_000)];
    month.repeat(count)
}

#[test]
fn open_cost_that_bears_no_interest_is_caught() {
    let change: Change = |step, posted| bear(step, posted, levels(0, 0));
    is_caught("no interest on open cost", &papers_months(1), change);
}

#[test]
fn interest_on_cost_without_sales_is_caught() {
    let change: Change = |step, posted| {
        let (open, shared) = open_shares(step);
        if open.is_unsold() {
            bear(step, posted, levels(shared.secondary, shared.primary));
        }
    };
    let unsold = [cost(2_000_000), month_end(60_000)];
    is_caught("interest on cost alone", &unsold, change);
}

#[test]
fn a_provisional_share_parted_wrongly_is_caught() {
    let other_level: Change = |step, posted| {
        let (_, shared) = open_shares(step);
        bear(step, posted, levels(shared.primary, shared.secondary));
    };
    let by_kwh: Change = |step, posted| {
        let (open, shared) = open_shares(step);
        let sold = open.secondary + open.primary;
        let secondary = round(shared.customers * open.secondary, sold);
        let parted = levels(secondary, shared.customers - secondary);
        bear(step, posted, parted);
    };
    is_caught("the other level's share", &papers_months(1), other_level);
    is_caught("shares by kWh", &papers_months(1), by_kwh);
}

#[test]
fn a_provisional_share_of_this_month_alone_is_caught() {
    let change: Change = |step, posted| {
        let (open, began) = (step.before.period, step.month_began);
        let this_month = Open::of(&Period {
            cost: open.cost - began.cost,
            sales: Sales {
                secondary: open.sales.secondary - began.sales.secondary,
                primary: open.sales.primary - began.sales.primary,
            },
            remainder: open.remainder,
        });
        let shares = provisional_shares(0, this_month);
        bear(step, posted, shares);
    };
    passes("one month alone", &papers_months(1), change);
    is_caught("each month alone", &papers_months(2), change);
}

/// The paper's 1080 cents for 600 kWh, whose second settlement has R = 0 by the remainder of the first.
fn period_with_remainder(adjusted: i64) -> Vec<Posting> {
    let mut list = vec![cost(1_080), sales(600, 0)];
    list.extend([month_end(0); 5]);
    list.extend([settle(1, 1), month_end(0)]);
    list.extend([cost(1_080), sales(600, 0), adjust(0, adjusted)]);
    list.push(month_end(120_000));
    list
}

#[test]
fn a_provisional_share_without_the_remainder_is_caught() {
    let change: Change = |step, posted| {
        let without = Open {
            remainder: 0,
            ..Open::of(&step.before.period)
        };
        let shares = provisional_shares(0, without);
        bear(step, posted, shares);
    };
    // With a cent pending, R = 0 by the remainder and 1 without it: 0.48 and 0.49, and then 0.49 and 0.5.
    passes("below half a cent", &period_with_remainder(47), change);
    is_caught("no remainder", &period_with_remainder(48), change);
}

#[test]
fn a_month_end_that_consumes_the_period_is_caught() {
    let cost_consumed: Change = |step, posted| {
        if step.posting.kind == MONTH_END {
            posted.book.period.cost = 0;
        }
    };
    let period_consumed: Change = |step, posted| {
        if step.posting.kind == MONTH_END {
            posted.book.period = Period::default();
        }
    };
    let remainder_moved_on: Change = |step, posted| {
        let (open, shared) = open_shares(step);
        if step.posting.kind == MONTH_END && !open.is_unsold() {
            posted.book.period.remainder = shared.remainder as i64;
        }
    };
    for (name, change) in [
        ("cost consumed", cost_consumed),
        ("period consumed", period_consumed),
    ] {
        passes(name, &papers_months(1), change);
        is_caught(name, &papers_months(2), change);
    }
    // The first month's R is 1 and would leave −43000, by which that of the second is 0.
    let mut list = vec![cost(1_080), sales(600, 0), adjust(0, 49)];
    list.push(month_end(120_000));
    passes("a remainder moved on", &list, remainder_moved_on);
    list.push(month_end(120_000));
    is_caught("a remainder moved on", &list, remainder_moved_on);
}

#[test]
fn a_settled_share_borne_once_more_is_caught() {
    // What was settled bears as Q; here it bears as open as well until the month ends.
    let change: Change = |step, posted| {
        if step.before.settled {
            let shares = provisional_shares(0, Open::of(&step.settled));
            bear(step, posted, shares);
        }
    };
    let mut list = papers_months(5);
    list.extend([settle(1_250_000, 800_000), month_end(60_000)]);
    is_caught("a settled share borne once more", &list, change);
}
