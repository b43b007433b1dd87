//! The tally of a steam book.

use crate::records::{Posting, ADJUST, BILL, COST, MONTH_END, RECONCILE, SALES, SETTLE};
use crate::steam::{share, shares_fit_variances, Open, Posted, SteamBook};

/// What is open, and the sums since opening.
#[derive(Clone, Copy, Debug, Default)]
pub struct Tally {
    open: Open,
    /// The sum of settled variances.
    pub variances: i128,
    pub billed: i128,
    pub shares: i128,
    pub adjustments: i128,
}

impl Tally {
    /// Takes the next posting; of its answer only the acceptance counts, and a bill's line.
    pub fn feed(&mut self, posting: Posting, posted: &Posted) {
        if posted.reply.number != 0 {
            return;
        }
        let first = i128::from(posting.numbers[0]);
        match posting.kind {
            COST => self.open.cost += first,
            SALES => self.open.sales += first,
            BILL => self.billed += i128::from(posted.reply.line),
            SETTLE => self.settle(),
            ADJUST => self.adjustments += first,
            MONTH_END | RECONCILE => {}
            kind => panic!("kind {kind} was accepted"),
        }
    }

    fn settle(&mut self) {
        let shared = share(self.open);
        self.variances += shared.variance;
        self.shares += shared.customers;
        self.open = Open {
            remainder: shared.remainder,
            ..Open::default()
        };
    }

    /// Holds the book after the postings fed to the conservation claim, or says where it fails.
    pub fn check(&self, book: &SteamBook) -> Result<(), String> {
        // Billed and held are what came in: shares and adjustments.
        let out = self.billed + book.held();
        let came_in = self.shares + self.adjustments;
        if out != came_in {
            return Err(format!(
                "billed and held {out}, but {came_in} came in, by {self:?}"
            ));
        }
        if shares_fit_variances(self.shares, self.variances) {
            return Ok(());
        }
        let (shares, variances) = (self.shares, self.variances);
        Err(format!("shares of {shares} for variances of {variances}"))
    }
}
