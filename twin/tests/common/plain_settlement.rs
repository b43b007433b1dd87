//! Document 01's settlement of the electric book, written plainly and slowly.

use twin::electric::ElectricBook;

/// A figure of each level, secondary first.
pub type Levels = [i128; 2];

/// The base, and the loss factors of both levels, of L&P and of MPS.
pub const RATES: [(i128, Levels); 2] = [(1_799, [108_443, 106_231]), (2_538, [107_433, 104_187])];

/// The nearest whole number, a half going away from zero.
pub fn round(a: i128, b: i128) -> i128 {
    a.signum() * ((2 * a.abs() + b) / (2 * b))
}

/// What a settlement is worked out from; a flaw may change any of it.
pub struct Settlement {
    pub cost: i128,
    pub sold: Levels,
    pub remainder: i128,
    pub base: i128,
    pub losses: Levels,
    /// Customers bear so many hundredths of the variance.
    pub borne: i128,
}

impl Settlement {
    pub fn of(book: &ElectricBook) -> Self {
        let (base, losses) = RATES[usize::from(book.division)];
        let period = book.period;
        Self {
            cost: period.cost.into(),
            sold: [period.sales.secondary, period.sales.primary].map(i128::from),
            remainder: period.remainder.into(),
            base,
            losses,
            borne: 95,
        }
    }

    /// The base cost in thousandths of a cent.
    pub fn base_cost(&self) -> i128 {
        self.base * (self.sold[0] + self.sold[1])
    }

    /// The paper's 95V + rem.
    pub fn exact(&self) -> i128 {
        self.borne * (1_000 * self.cost - self.base_cost()) + self.remainder
    }

    /// The weight of a level's sales in hundred-thousandths, 0 for secondary; none where nothing is sold.
    pub fn weight(&self, level: usize) -> i128 {
        let weighed = [0, 1].map(|each: usize| self.sold[each] * self.losses[each]);
        match weighed[0] + weighed[1] {
            0 => 0,
            both => round(100_000 * weighed[level], both),
        }
    }
}
