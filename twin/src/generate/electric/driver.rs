//! Postings for long histories: most are accepted, and some drive a value to a limit.

use super::postings::{
    adjust, bill, costs, month_end, posting_of, ranges, sales, settle, spoiled, KINDS,
};
use crate::amounts::CENTS_LIMIT as CENTS;
use crate::calendar::{AUGUST, DECEMBER, FEBRUARY, JUNE};
use crate::electric::{is_settling, share, ElectricBook, Level, Open, KWH_LIMIT as KWH};
use crate::generate::fields::{field, Size};
use crate::random::Random;
use crate::records::{Posting, ADJUST, BILL, COST, MONTH_END, SALES, SETTLE};

/// The value that postings of a month drive to its limit; a number is a level's.
#[derive(Clone, Copy, Debug, PartialEq, Eq)]
enum Goal {
    Cost,
    Sales,
    Carried(i64),
    /// The due cents of a run: its level, and whether it is the first.
    Due(i64, bool),
    /// What a settlement makes pending.
    Pending(i64),
    /// What is carried after the handover.
    HandedOver(i64),
}

/// How the postings of a month are chosen.
#[derive(Clone, Copy, Debug, PartialEq, Eq)]
enum Mood {
    Plain(Size),
    /// The limit is the value's, with its sign.
    Driven(Goal, i64),
}

pub struct Driver {
    random: Random,
    mood: Mood,
    /// The month that the mood is for.
    month: u8,
    /// The postings before the month is to be closed.
    left: usize,
    /// Whether the last posting was to close the month or the period.
    closing: bool,
    /// The postings that are still to bring a book back from its limits.
    relief: usize,
    /// Whether no value is driven to a limit.
    calm: bool,
    /// Whether nothing is to be sold in this period.
    barren: bool,
}

impl Driver {
    pub fn new(random: Random, calm: bool) -> Self {
        Self {
            random,
            mood: Mood::Plain(Size::Usual),
            month: 0,
            left: 0,
            closing: false,
            relief: 0,
            calm,
            barren: false,
        }
    }

    /// The next posting for the book, whose last one got the number.
    pub fn next(&mut self, book: &ElectricBook, number: u8) -> Posting {
        if book.month != self.month {
            self.start_month(book);
        }
        if self.closing && number == 12 {
            self.relief = 60;
        }
        self.closing = false;
        match self.random.below(24) {
            0 => self.spoiled(),
            1 => self.untimely(),
            _ if self.relief > 0 => {
                self.relief -= 1;
                self.relieving(book)
            }
            _ if self.left > 0 => {
                self.left -= 1;
                self.within_month(book)
            }
            _ => {
                self.closing = true;
                self.closing(book)
            }
        }
    }

    fn start_month(&mut self, book: &ElectricBook) {
        self.month = book.month;
        self.relief = 0;
        if book.month == JUNE || book.month == DECEMBER {
            self.barren = self.random.below(8) == 0;
        }
        let mood = self.random.below(if self.calm { 10 } else { 20 });
        self.mood = match mood {
            0..=4 => Mood::Plain(Size::Tiny),
            5..=11 => Mood::Plain(Size::Usual),
            12..=14 => Mood::Plain(Size::Any),
            15..=16 => Mood::Plain(Size::End),
            _ => Mood::Driven(self.goal(book.month), self.random.one_of(&[-CENTS, CENTS])),
        };
        self.left = match self.mood {
            Mood::Driven(..) => 130,
            Mood::Plain(_) => self.random.below(24),
        };
    }

    fn goal(&mut self, month: u8) -> Goal {
        let level = self.random.within(0, 1);
        let first = self.random.coin();
        let seasonal = match month {
            FEBRUARY | AUGUST => Goal::HandedOver(level),
            month if is_settling(month) => Goal::Pending(level),
            _ => Goal::Carried(level),
        };
        match self.random.below(5) {
            0 => Goal::Cost,
            1 => Goal::Due(level, first),
            2 if !self.barren => Goal::Sales,
            _ => seasonal,
        }
    }

    fn spoiled(&mut self) -> Posting {
        let posting = self.untimely();
        spoiled(&mut self.random, posting)
    }

    /// A posting with fields in range, whatever the month.
    fn untimely(&mut self) -> Posting {
        let kind = self.random.one_of(&KINDS);
        // A large field would undo what the month's postings drive at.
        let size = self.random.one_of(&[Size::Tiny, Size::Usual]);
        posting_of(&mut self.random, kind, size)
    }

    fn within_month(&mut self, book: &ElectricBook) -> Posting {
        match self.mood {
            Mood::Driven(goal, limit) => self.driven(book, goal, limit),
            Mood::Plain(size) => {
                let open = [COST, SALES, BILL, BILL, BILL, ADJUST];
                let settled = [BILL, BILL, ADJUST];
                let kinds: &[u8] = if book.settled { &settled } else { &open };
                let kind = match self.random.one_of(kinds) {
                    SALES if self.barren => COST,
                    kind => kind,
                };
                posting_of(&mut self.random, kind, size)
            }
        }
    }

    /// A posting that takes the value towards the limit, and then to both sides of it.
    fn driven(&mut self, book: &ElectricBook, goal: Goal, limit: i64) -> Posting {
        let target = i128::from(limit) + i128::from(self.random.within(-1, 1));
        match goal {
            Goal::Cost => cost_by(target - i128::from(book.period.cost)),
            Goal::Sales => self.sales_to_limit(book),
            Goal::Carried(number) => {
                adjust_by(number, target - i128::from(level(book, number).carried))
            }
            Goal::Due(number, first) => {
                let level = level(book, number);
                let run = if first { level.first } else { level.second };
                bill_by(number, run.factor, i128::from(run.due) - target)
            }
            Goal::Pending(number) => adjust_by(number, target - to_pend(book, number)),
            Goal::HandedOver(number) => {
                let level = level(book, number);
                let due = handed_over(book.month, level);
                adjust_by(number, target - i128::from(level.carried) - due)
            }
        }
    }

    fn sales_to_limit(&mut self, book: &ElectricBook) -> Posting {
        let open = book.period.sales;
        let mut gap = |kwh: i64| (KWH - kwh + self.random.within(-1, 1)).clamp(0, KWH);
        let (secondary, primary) = (gap(open.secondary), gap(open.primary));
        // Apart, so that one past the limit is not always met by both.
        match self.random.coin() {
            true => sales(secondary, 0),
            false => sales(0, primary),
        }
    }

    /// The month's end, or before it the period's settlement.
    fn closing(&mut self, book: &ElectricBook) -> Posting {
        let size = match self.mood {
            Mood::Plain(size) => size,
            Mood::Driven(..) => Size::End,
        };
        if !is_settling(book.month) || book.settled {
            let range = ranges(MONTH_END)[0];
            let usual = self.random.within(0, 120_000);
            // By these a month bears a whole part of the cents, so that it is often at a half.
            let round = self.random.one_of(&[100_000, 120_000, 150_000, 200_000]);
            let any = field(&mut self.random, range, size);
            return month_end(self.random.one_of(&[usual, round, any]));
        }
        let sold = book.period.sales;
        if sold.secondary == 0 && sold.primary == 0 && self.random.coin() {
            return posting_of(&mut self.random, SALES, Size::Usual);
        }
        settle(self.estimate(book, 0), self.estimate(book, 1))
    }

    /// Estimated sales: with a factor about its limit, at a half or small, or any.
    fn estimate(&mut self, book: &ElectricBook, number: i64) -> i64 {
        let pending = to_pend(book, number).abs();
        let at_limit = 200 * pending / 199_999;
        let beside = self.random.within(-3, 3);
        let near = (at_limit as i64).saturating_add(beside);
        let larger = near.saturating_mul(self.random.within(2, 1_000));
        let any = field(&mut self.random, ranges(SETTLE)[0], Size::Any);
        let chosen = match self.random.below(12) {
            0..=1 => near,
            2 => any,
            3..=4 => self.halving(pending),
            5..=9 => larger,
            _ => KWH,
        };
        chosen.clamp(1, KWH)
    }

    /// Sales at which the factor is an odd number of halves, or if there are none, the most.
    fn halving(&mut self, pending: i128) -> i64 {
        let halves = i128::from(2 * self.random.within(0, 200) + 1);
        let sold = 200 * pending / halves;
        match 200 * pending % halves == 0 && sold <= i128::from(KWH) {
            true => sold as i64,
            false => KWH,
        }
    }

    /// A posting that takes open cost and carried cents to where the month can be closed.
    fn relieving(&mut self, book: &ElectricBook) -> Posting {
        let number = self.random.within(0, 1);
        if !book.settled && self.random.below(3) == 0 {
            return cost_by(-i128::from(book.period.cost));
        }
        let level = level(book, number);
        let due = handed_over(book.month, level);
        adjust_by(number, -due - i128::from(level.carried))
    }
}

fn level(book: &ElectricBook, number: i64) -> &Level {
    match number {
        0 => &book.secondary,
        _ => &book.primary,
    }
}

/// What the level's next settlement would make pending.
fn to_pend(book: &ElectricBook, number: i64) -> i128 {
    let shared = share(book.division, Open::of(&book.period));
    let share = [shared.secondary, shared.primary][number as usize];
    let level = level(book, number);
    share + i128::from(level.carried) + i128::from(level.interest)
}

/// The cents that the end of the month would add to what is carried.
fn handed_over(month: u8, level: &Level) -> i128 {
    match month {
        FEBRUARY => level.first.due.into(),
        AUGUST => level.second.due.into(),
        _ => 0,
    }
}

/// The number cut to the range of the second field of the kind.
fn clamped(number: i128, kind: u8) -> i64 {
    let (low, high) = ranges(kind)[1];
    number.clamp(low.into(), high.into()) as i64
}

fn adjust_by(level: i64, cents: i128) -> Posting {
    adjust(level, clamped(cents, ADJUST))
}

/// A bill of about the cents at the factor; without one no bill moves a cent.
fn bill_by(level: i64, factor: i32, cents: i128) -> Posting {
    match factor {
        0 => bill(level, 0),
        factor => bill(level, clamped(100 * cents / i128::from(factor), BILL)),
    }
}

/// As much of the cents as three fields take.
fn cost_by(cents: i128) -> Posting {
    let mut left = cents;
    costs([0; 3].map(|_: i64| {
        let part = clamped(left, COST);
        left -= i128::from(part);
        part
    }))
}
