//! The tally of an electric book.

use crate::electric::{
    provisional_shares, share, shares_fit_variances, ElectricBook, Level, Open, Posted,
};
use crate::records::{Posting, ADJUST, BILL, COST, MONTH_END, SALES, SETTLE};
use crate::rounding::round;

/// The sums of a level since opening, and its interest since the settlement before.
#[derive(Clone, Copy, Debug, Default)]
pub struct LevelTally {
    pub billed: i128,
    pub shares: i128,
    pub interest: i128,
    pub adjustments: i128,
    pub new_interest: i128,
}

#[derive(Clone, Copy, Debug)]
pub struct Tally {
    division: u8,
    open: Open,
    /// The sum of settled variances.
    pub variances: i128,
    pub secondary: LevelTally,
    pub primary: LevelTally,
}

impl Tally {
    /// The tally of an accepted opening.
    pub fn new(division: u8) -> Self {
        Self {
            division,
            open: Open::default(),
            variances: 0,
            secondary: LevelTally::default(),
            primary: LevelTally::default(),
        }
    }

    /// Takes the next posting; of its answer only the acceptance counts, and a bill's line.
    pub fn feed(&mut self, posting: Posting, posted: &Posted) {
        if posted.reply.number != 0 {
            return;
        }
        let numbers = posting.numbers.map(i128::from);
        match posting.kind {
            COST => self.open.cost += numbers.iter().sum::<i128>(),
            SALES => {
                self.open.secondary += numbers[0];
                self.open.primary += numbers[1];
            }
            BILL => self.level(numbers[0]).billed += i128::from(posted.reply.line),
            SETTLE => self.settle(),
            MONTH_END => self.end_month(numbers[0]),
            ADJUST => self.level(numbers[0]).adjustments += numbers[1],
            kind => panic!("kind {kind} was accepted"),
        }
    }

    fn level(&mut self, number: i128) -> &mut LevelTally {
        match number {
            0 => &mut self.secondary,
            1 => &mut self.primary,
            _ => panic!("level {number} was accepted"),
        }
    }

    fn settle(&mut self) {
        let shared = share(self.division, self.open);
        self.variances += shared.variance;
        self.open = Open {
            remainder: shared.remainder,
            ..Open::default()
        };
        self.secondary.settle(shared.secondary);
        self.primary.settle(shared.primary);
    }

    /// After a settlement nothing is sold, so that a settled month has no provisional share here either.
    fn end_month(&mut self, rate: i128) {
        let provisional = provisional_shares(self.division, self.open);
        self.secondary.end_month(rate, provisional.secondary);
        self.primary.end_month(rate, provisional.primary);
    }

    /// Holds the book after the postings fed to the conservation claim, or says where it fails.
    pub fn check(&self, book: &ElectricBook) -> Result<(), String> {
        self.secondary.check("secondary", &book.secondary)?;
        self.primary.check("primary", &book.primary)?;
        let shares = self.secondary.shares + self.primary.shares;
        if shares_fit_variances(shares, self.variances) {
            return Ok(());
        }
        let variances = self.variances;
        Err(format!("shares of {shares} for variances of {variances}"))
    }
}

impl LevelTally {
    fn settle(&mut self, share: i128) {
        self.shares += share;
        self.new_interest = 0;
    }

    fn end_month(&mut self, rate: i128, provisional_share: i128) {
        let settled_interest = self.interest - self.new_interest;
        let held = self.shares + self.adjustments + settled_interest - self.billed;
        let base = held + provisional_share;
        let interest = round(rate * base, 12_000_000);
        self.interest += interest;
        self.new_interest += interest;
    }

    /// Billed and held are what came in: shares, interest and adjustments.
    fn check(&self, name: &str, level: &Level) -> Result<(), String> {
        let out = self.billed + level.held();
        let came_in = self.shares + self.interest + self.adjustments;
        if out == came_in {
            return Ok(());
        }
        Err(format!(
            "{name}: billed and held {out}, but {came_in} came in, by {self:?}"
        ))
    }
}
