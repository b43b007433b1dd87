//! Wrong books, each the twin's with one change, which the tally's claim must refuse or let pass.

use crate::postings::{adjust, bill, cost, month_end, sales, settle};
use twin::amounts::Run;
use twin::calendar::{AUGUST, DECEMBER, FEBRUARY, JANUARY, JUNE};
use twin::electric::{
    is_settling, post, provisional_shares, share, ElectricBook, Open, Period, Posted, Reply,
};
use twin::records::{Posting, BILL, COST, MONTH_END, SETTLE};
use twin::rounding::{round, weight};
use twin::tally::electric::Tally;

/// What a wrong book knows of a posting that the right one would accept.
pub struct Step {
    pub before: ElectricBook,
    pub posting: Posting,
    /// The settlements accepted so far.
    settlements: usize,
    /// What was open when the month began.
    pub month_began: Period,
    /// What the last settlement settled.
    pub settled: Period,
}

/// A change of the right answer and the right next book.
pub type Change = fn(&Step, &mut Posted);

/// The first failure of the claim on the list, if there is one, and how many were accepted.
fn claim_on(list: &[Posting], change: Change) -> (Result<(), String>, usize) {
    let mut book = ElectricBook::fresh(0);
    let mut tally = Tally::new(0);
    let (mut settlements, mut accepted) = (0, 0);
    let (mut month_began, mut settled) = (book.period, book.period);
    for &posting in list {
        let mut posted = post(book, posting);
        if posted.reply.number == 0 {
            let step = Step {
                before: book,
                posting,
                settlements,
                month_began,
                settled,
            };
            change(&step, &mut posted);
        }
        tally.feed(posting, &posted);
        if let Err(failure) = tally.check(&posted.book) {
            return (Err(failure), accepted);
        }
        let taken = posted.reply.number == 0;
        accepted += usize::from(taken);
        match posting.kind {
            SETTLE if taken => (settlements, settled) = (settlements + 1, book.period),
            MONTH_END if taken => month_began = posted.book.period,
            _ => {}
        }
        book = posted.book;
    }
    (Ok(()), accepted)
}

/// Holds the claim to fail for the wrong book, where it stands for the right one.
pub fn is_caught(name: &str, list: &[Posting], change: Change) {
    let right = claim_on(list, |_, _| {});
    assert_eq!(right, (Ok(()), list.len()), "the right book beside {name}");
    let (wrong, _) = claim_on(list, change);
    assert!(wrong.is_err(), "the claim lets {name} pass");
}

pub fn passes(name: &str, list: &[Posting], change: Change) {
    let (claim, _) = claim_on(list, change);
    assert_eq!(claim, Ok(()), "{name}");
}

/// So many months from June on, with something of every kind.
fn months(count: usize) -> Vec<Posting> {
    let mut list = Vec::new();
    let mut month = JUNE;
    for _ in 0..count {
        // The paper's 1080 cents for 600 kWh, in six months.
        list.extend([cost(180), sales(100, 0)]);
        list.extend([bill(0, 37), bill(1, -11), bill(0, 13)]);
        list.extend([adjust(0, 300_000), adjust(1, -70_001)]);
        if is_settling(month) {
            list.push(settle(15_000_000, 9_000));
        }
        list.push(month_end(120_000));
        month = if month == DECEMBER {
            JANUARY
        } else {
            month + 1
        };
    }
    list
}

#[test]
fn the_unmoving_book_is_caught() {
    // It moves months and kWh, so that it accepts the settlement, but never a cent.
    let change: Change = |step, posted| {
        posted.book = ElectricBook {
            month: posted.book.month,
            settled: posted.book.settled,
            period: Period {
                sales: posted.book.period.sales,
                ..step.before.period
            },
            ..step.before
        };
    };
    let mut list = vec![cost(2_000_000), sales(600_000, 400_000)];
    list.extend([month_end(0); 5]);
    list.push(settle(1_250_000, 800_000));
    is_caught("the unmoving book", &list, change);
}

#[test]
fn the_one_period_book_is_caught() {
    // It takes what is carried along, so that it is but the share that is missed.
    let change: Change = |step, posted| {
        if step.posting.kind == SETTLE && step.settlements > 0 {
            let pending = |carried, interest| Run {
                factor: 0,
                due: carried + interest,
            };
            let (secondary, primary) = (step.before.secondary, step.before.primary);
            posted.book.secondary.pending = pending(secondary.carried, secondary.interest);
            posted.book.primary.pending = pending(primary.carried, primary.interest);
            posted.reply = Reply::default();
        }
    };
    let mut period = vec![cost(2_000_000), sales(600_000, 400_000)];
    period.extend([month_end(0); 5]);
    period.push(settle(1_250_000, 800_000));
    passes("one period of the one-period book", &period, change);
    let mut list = period;
    list.extend([month_end(0); 6]);
    list.extend([cost(3_000_000), sales(600_000, 400_000)]);
    list.push(settle(1_250_000, 800_000));
    is_caught("the one-period book", &list, change);
}

#[test]
fn a_dropped_remainder_is_caught() {
    let change: Change = |step, posted| {
        if step.posting.kind == SETTLE {
            posted.book.period.remainder = 0;
        }
    };
    passes("one period without remainder", &months(11), change);
    is_caught("a dropped remainder", &months(12), change);
}

#[test]
fn interest_on_accrued_interest_is_caught() {
    let change: Change = |step, posted| {
        if step.posting.kind == MONTH_END {
            let rate = i128::from(step.posting.numbers[0]);
            let shares = provisional_shares(0, Open::of(&step.before.period));
            let base = step.before.secondary.held() + shares.secondary;
            let interest = round(rate * base, 12_000_000) as i64;
            posted.book.secondary.interest = step.before.secondary.interest + interest;
        }
    };
    passes("a month of interest on interest", &months(1), change);
    is_caught("interest on interest", &months(2), change);
}

#[test]
fn a_handover_that_forgets_what_was_due_is_caught() {
    for month in [FEBRUARY, AUGUST] {
        let change: Change = match month {
            FEBRUARY => |step, posted| {
                if step.posting.kind == MONTH_END && step.before.month == FEBRUARY {
                    posted.book.primary.carried -= step.before.primary.first.due;
                }
            },
            _ => |step, posted| {
                if step.posting.kind == MONTH_END && step.before.month == AUGUST {
                    posted.book.secondary.carried -= step.before.secondary.second.due;
                }
            },
        };
        // No run has cents due before the second handover of its month.
        passes("the first handover", &months(15), change);
        is_caught("a forgetful handover", &months(30), change);
    }
}

#[test]
fn the_claim_lets_an_early_handover_pass() {
    // What is pending keeps its cents wherever it stands, so conservation has nothing to say.
    let change: Change = |step, posted| {
        if step.posting.kind == MONTH_END && step.before.month == JANUARY {
            let level = &mut posted.book.secondary;
            level.carried += level.first.due;
            level.first = level.pending;
            level.pending = Run::default();
        }
    };
    passes("an early handover", &months(36), change);
}

#[test]
fn shares_rounded_apart_are_caught() {
    let change: Change = |step, posted| {
        if step.posting.kind == SETTLE {
            let sold = step.before.period.sales;
            let shared = share(0, Open::of(&step.before.period));
            let weight = weight(sold.primary * 106_231, sold.secondary * 108_443);
            let apart = round(shared.customers * i128::from(weight), 100_000);
            posted.book.primary.pending.due += (apart - shared.primary) as i64;
        }
    };
    // The customers' share is 10000, and its parts are 5051.5 and 4948.5.
    let mut list = vec![cost(14_124), sales(1_000, 1_000)];
    list.extend([month_end(0); 5]);
    list.push(settle(10_000, 10_000));
    is_caught("shares rounded apart", &list, change);
}

#[test]
fn parts_rounded_apart_are_caught() {
    let change: Change = |step, posted| {
        let [level, kwh, _] = step.posting.numbers;
        if step.posting.kind == BILL && level == 0 {
            let run = step.before.secondary.second;
            let part = round(i128::from(kwh) * i128::from(run.factor), 100) as i64;
            posted.book.secondary.second.due = run.due - part;
        }
    };
    is_caught("parts rounded apart", &months(30), change);
}

/// The wrong book hands back the book as it was with the refusal.
fn refuse(step: &Step, posted: &mut Posted, number: u8) {
    posted.book = step.before;
    posted.reply = Reply {
        number,
        ..Reply::default()
    };
}

#[test]
fn the_claim_lets_refusers_pass() {
    passes("one that refuses all", &months(12), |step, posted| {
        refuse(step, posted, 12);
    });
    passes(
        "a forbidden month on arrival",
        &months(12),
        |step, posted| {
            if step.posting.kind == COST {
                refuse(step, posted, 8);
            }
        },
    );
}

#[test]
fn a_constant_bill_is_caught_if_its_runs_fall() {
    let still: Change = |step, posted| {
        if step.posting.kind == BILL {
            posted.book = step.before;
            posted.reply.line = 0;
        }
    };
    passes("a constant bill with still runs", &months(12), still);
    let falling: Change = |step, posted| {
        if step.posting.kind == BILL {
            posted.reply.line = 0;
        }
    };
    is_caught("a constant bill with runs that fall", &months(12), falling);
}
