//! Postings for long histories: most are accepted, and some drive a value to a limit.

use super::postings::{
    adjust, bill, cost, month_end, posting_of, ranges, reconcile, sales, settle, spoiled, KINDS,
};
use crate::amounts::CENTS_LIMIT as CENTS;
use crate::generate::fields::{field, Size};
use crate::random::Random;
use crate::records::{Posting, ADJUST, BILL, COST, RECONCILE, SALES, SETTLE};
use crate::steam::{
    annual_sales, entering, is_settling, share, Open, SteamBook, SALES_LIMIT as SALES_MOST,
};

/// The value that postings of a month drive to its limit.
#[derive(Clone, Copy, Debug, PartialEq, Eq)]
enum Goal {
    Cost,
    Sales,
    Carried,
    /// The due cents of a run, counted from 0, the reconciliation last.
    Due(usize),
    /// The account after the month's end.
    Joined,
}

/// How the postings of a month are chosen.
#[derive(Clone, Copy, Debug, PartialEq, Eq)]
enum Mood {
    Plain(Size),
    /// The limit is the value's, with its sign.
    Driven(Goal, i64),
}

pub struct Driver {
    random: Random,
    mood: Mood,
    /// The month that the mood is for.
    month: u8,
    /// The postings before the month is to be closed.
    left: usize,
    /// Whether the last posting was to close the month or the quarter.
    closing: bool,
    /// The postings that are still to bring a book back from its limits.
    relief: usize,
    /// Whether no value is driven to a limit.
    calm: bool,
    /// Whether the quarter's sales are still to be taken to a bound of the 5% test.
    bounded: bool,
}

impl Driver {
    pub fn new(random: Random, calm: bool) -> Self {
        Self {
            random,
            mood: Mood::Plain(Size::Usual),
            month: 0,
            left: 0,
            closing: false,
            relief: 0,
            calm,
            bounded: false,
        }
    }

    /// The next posting for the book, whose last one got the number.
    pub fn next(&mut self, book: &SteamBook, number: u8) -> Posting {
        if book.month != self.month {
            self.start_month(book);
        }
        if self.closing && number == 12 {
            self.relief = 60;
        }
        self.closing = false;
        match self.random.below(24) {
            0 => self.spoiled(),
            1 => self.untimely(),
            2 if book.reconciliation.months == 0 => self.reconciling(book),
            _ if self.relief > 0 => {
                self.relief -= 1;
                relieving(book)
            }
            _ if self.left > 0 => {
                self.left -= 1;
                self.within_month(book)
            }
            _ => {
                self.closing = true;
                self.closing(book)
            }
        }
    }

    fn start_month(&mut self, book: &SteamBook) {
        self.month = book.month;
        self.relief = 0;
        self.bounded = self.random.below(4) == 0;
        let mood = self.random.below(if self.calm { 10 } else { 20 });
        self.mood = match mood {
            0..=4 => Mood::Plain(Size::Tiny),
            5..=11 => Mood::Plain(Size::Usual),
            12..=14 => Mood::Plain(Size::Any),
            15..=16 => Mood::Plain(Size::End),
            _ => Mood::Driven(self.goal(book), self.random.one_of(&[-CENTS, CENTS])),
        };
        self.left = match self.mood {
            Mood::Driven(Goal::Sales, _) => 8,
            Mood::Driven(..) => 130,
            Mood::Plain(_) => self.random.below(24),
        };
    }

    fn goal(&mut self, book: &SteamBook) -> Goal {
        let steepest = self.steep_run(book);
        match self.random.below(6) {
            0 => Goal::Cost,
            1 => Goal::Sales,
            2 => Goal::Carried,
            3 => Goal::Joined,
            _ => steepest.map_or(Goal::Joined, Goal::Due),
        }
    }

    /// A run whose bills can take its cents to a limit within a month, if there is one.
    fn steep_run(&mut self, book: &SteamBook) -> Option<usize> {
        let start = self.random.below(5);
        let runs = (0..5).map(|offset| (start + offset) % 5);
        runs.into_iter()
            .find(|&index| run(book, index).0.abs() > 80_000)
    }

    fn spoiled(&mut self) -> Posting {
        let posting = self.untimely();
        spoiled(&mut self.random, posting)
    }

    /// A posting with fields in range, whatever the month.
    fn untimely(&mut self) -> Posting {
        let kind = self.random.one_of(&KINDS);
        // A large field would undo what the month's postings drive at.
        let size = self.random.one_of(&[Size::Tiny, Size::Usual]);
        posting_of(&mut self.random, kind, size)
    }

    fn within_month(&mut self, book: &SteamBook) -> Posting {
        match self.mood {
            Mood::Driven(goal, limit) => self.driven(book, goal, limit),
            Mood::Plain(size) => {
                let open = [COST, SALES, BILL, BILL, BILL, ADJUST];
                let settled = [BILL, BILL, ADJUST];
                let kinds: &[u8] = if book.settled { &settled } else { &open };
                let kind = self.random.one_of(kinds);
                posting_of(&mut self.random, kind, size)
            }
        }
    }

    /// A posting that takes the value towards the limit, and then to both sides of it.
    fn driven(&mut self, book: &SteamBook, goal: Goal, limit: i64) -> Posting {
        let beside = self.random.within(-1, 1);
        let target = i128::from(limit) + i128::from(beside);
        match goal {
            Goal::Cost => cost_by(target - i128::from(book.period.cost)),
            Goal::Sales => sales((SALES_MOST - book.period.sales + beside).clamp(0, SALES_MOST)),
            Goal::Carried => adjust_by(target - i128::from(book.carried)),
            Goal::Due(index) => {
                let (factor, due) = run(book, index);
                bill_by(factor, i128::from(due) - target)
            }
            Goal::Joined => adjust_by(target - joined(book)),
        }
    }

    /// The month's end, or before it the quarter's settlement.
    fn closing(&mut self, book: &SteamBook) -> Posting {
        if !is_settling(book.month) || book.settled {
            return month_end();
        }
        if self.bounded {
            self.bounded = false;
            return self.sales_to_bound(book);
        }
        if book.period.sales == 0 && self.random.coin() {
            return posting_of(&mut self.random, SALES, Size::Usual);
        }
        settle(self.adjustment(book))
    }

    /// Sales to a bound of the 5% test or beside it, or none where more are there already.
    fn sales_to_bound(&mut self, book: &SteamBook) -> Posting {
        let bound = self.random.one_of(&[95, 105]) * book.quarters[0] / 100;
        let target = bound + self.random.within(-1, 1);
        sales((target - book.period.sales).clamp(0, SALES_MOST))
    }

    /// An adjustment that gives a divisor of the kind below, or none, or any.
    fn adjustment(&mut self, book: &SteamBook) -> i64 {
        let cents = customers(book).abs();
        let annual = annual_sales(book.period.sales, book.quarters, 0);
        let any = field(&mut self.random, ranges(SETTLE)[0], Size::Any);
        match self.random.below(8) {
            0 => any,
            1..=3 => 0,
            4 => {
                let least = i128::from(self.random.within(-1, 2));
                clamped(least - annual, SETTLE, 0)
            }
            _ => clamped(self.divisor(cents) - annual, SETTLE, 0),
        }
    }

    /// A divisor with a factor about its limit, at a half, or smaller.
    fn divisor(&mut self, cents: i128) -> i128 {
        let beside = i128::from(self.random.within(-3, 3));
        let at_limit = 200 * cents / 199_999 + beside;
        let halves = i128::from(2 * self.random.within(0, 200) + 1);
        match self.random.below(4) {
            0..=1 => at_limit,
            2 => 200 * cents / halves,
            _ => at_limit * i128::from(self.random.within(2, 1_000)),
        }
    }

    fn reconciling(&mut self, book: &SteamBook) -> Posting {
        let divisor = self.divisor(i128::from(book.carried).abs());
        let months = self.random.one_of(&[12, 24]);
        reconcile(months, clamped(divisor, RECONCILE, 1))
    }
}

/// A posting that takes open cost or the account to where the month can be closed.
fn relieving(book: &SteamBook) -> Posting {
    if is_settling(book.month) && !book.settled {
        // At the base there is no variance.
        let base = 30_050 * i128::from(book.period.sales) / 100;
        return cost_by(base - i128::from(book.period.cost));
    }
    adjust_by(-joined(book))
}

/// The factor and the due cents of a run, counted from 0, the reconciliation last.
pub fn run(book: &SteamBook, index: usize) -> (i32, i64) {
    match index {
        4 => (book.reconciliation.run.factor, book.reconciliation.run.due),
        index => (book.factors[index], book.dues[index]),
    }
}

/// The share that the next settlement would make pending.
fn customers(book: &SteamBook) -> i128 {
    let open = Open {
        cost: book.period.cost.into(),
        sales: book.period.sales.into(),
        remainder: book.period.remainder.into(),
    };
    share(open).customers
}

/// The account as the end of the month would leave it.
fn joined(book: &SteamBook) -> i128 {
    let entered = entering(book.month).map_or(0, |index| book.dues[index]);
    let reconciled = match book.reconciliation.months {
        1 => book.reconciliation.run.due,
        _ => 0,
    };
    i128::from(book.carried) + i128::from(entered) + i128::from(reconciled)
}

/// The number cut to the range of the field of the kind.
fn clamped(number: i128, kind: u8, index: usize) -> i64 {
    let (low, high) = ranges(kind)[index];
    number.clamp(low.into(), high.into()) as i64
}

fn adjust_by(cents: i128) -> Posting {
    adjust(clamped(cents, ADJUST, 0))
}

fn cost_by(cents: i128) -> Posting {
    cost(clamped(cents, COST, 0))
}

/// A bill of about the cents at the factor; without one no bill moves a cent.
fn bill_by(factor: i32, cents: i128) -> Posting {
    match factor {
        0 => bill(0),
        factor => bill(clamped(100 * cents / i128::from(factor), BILL, 0)),
    }
}
