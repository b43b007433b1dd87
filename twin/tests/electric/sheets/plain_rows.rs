//! The rows of the plain sheet, by document 01's formulas and document 002's words, with one flaw if wanted.

use super::flaws::Flaw;
use super::plain_text::{cents, percent, points};
use crate::plain_settlement::{round, Levels, Settlement, RATES};
use twin::electric::{ElectricBook, Level, Sales};

/// A row's number, its label, and the cells of total, secondary and primary.
pub type Row = [String; 5];

/// The rows' numbers and labels, as document 002 has them.
pub const HEADS: [(&str, &str); 16] = [
    ("1", "Total energy cost (F, P, and E)"),
    ("2", "Base energy cost (B)"),
    ("3", "First Interim Total"),
    ("4", "Base energy (S_A) by voltage level"),
    ("4.1", "Loss factors (L)"),
    ("4.2", "S_A adjusted for losses"),
    ("4.3", "Loss factor weights"),
    ("5", "Customer Responsibility"),
    ("6", "Second Interim Total by voltage level"),
    (
        "7",
        "Adjustment for Under / Over recovery for prior periods (C)",
    ),
    ("8", "Interest (I)"),
    ("9", "Fuel Adjustment Clause"),
    ("10", "Estimated recovery period sales kWh (S_R)"),
    ("11", "Current period cost adjustment factor"),
    ("12", "Previous period cost adjustment factor"),
    ("13", "Current annual cost adjustment factor"),
];

/// What the rows are made of: the book before and after a settlement, and its estimates.
pub struct Given {
    pub before: ElectricBook,
    pub after: ElectricBook,
    pub estimates: Sales,
    pub flaw: Flaw,
}

pub fn rows(given: &Given) -> Vec<Row> {
    let cells = [
        given.cost_cells(),
        given.sales_cells(),
        given.share_cells(),
        given.factor_cells(),
    ]
    .concat();
    assert_eq!(cells.len(), HEADS.len(), "cells and heads");
    let rows = HEADS.iter().zip(cells);
    rows.map(|((number, label), [total, secondary, primary])| {
        let (number, label) = (number.to_string(), label.to_string());
        [number, label, total, secondary, primary]
    })
    .collect()
}

fn total(text: String) -> [String; 3] {
    [text, String::new(), String::new()]
}

fn of_levels([secondary, primary]: [String; 2]) -> [String; 3] {
    [String::new(), secondary, primary]
}

fn with_total(total: String, [secondary, primary]: [String; 2]) -> [String; 3] {
    [total, secondary, primary]
}

impl Given {
    fn is(&self, flaw: Flaw) -> bool {
        self.flaw == flaw
    }

    fn levels(&self, book: &ElectricBook, figure: impl Fn(&Level) -> i128) -> Levels {
        [figure(&book.secondary), figure(&book.primary)]
    }

    fn cents(&self, amounts: Levels) -> [String; 2] {
        amounts.map(|amount| cents(amount, self.flaw))
    }

    fn settlement(&self) -> Settlement {
        let mut settlement = Settlement::of(&self.before);
        let (other_base, _) = RATES[usize::from(1 - self.before.division)];
        match self.flaw {
            Flaw::BaseOfOtherDivision => settlement.base = other_base,
            Flaw::WeightWithoutLosses => settlement.losses = [1, 1],
            Flaw::RemainderLeftOut => settlement.remainder = 0,
            _ => {}
        }
        settlement
    }

    fn sold(&self) -> Levels {
        self.settlement().sold
    }

    fn loss_factors(&self) -> Levels {
        RATES[usize::from(self.before.division)].1
    }

    fn cost_cells(&self) -> Vec<[String; 3]> {
        let cost = i128::from(self.before.period.cost);
        let exact = self.settlement().base_cost();
        let base = match self.flaw {
            Flaw::BaseTowardsZero => exact / 1_000,
            _ => round(exact, 1_000),
        };
        let third = match self.flaw {
            Flaw::ThirdFromUnroundedBase => round(1_000 * cost - exact, 1_000),
            _ => cost - base,
        };
        let first = match self.flaw {
            Flaw::CostLessBase => third,
            _ => cost,
        };
        let sign = if self.is(Flaw::DollarSign) { "$" } else { "" };
        [first, base, third]
            .map(|amount| total(format!("{sign}{}", cents(amount, self.flaw))))
            .to_vec()
    }

    fn sales_cells(&self) -> Vec<[String; 3]> {
        vec![
            self.sales_row(),
            self.losses_row(),
            self.adjusted_row(),
            self.weights_row(),
        ]
    }

    fn sales_row(&self) -> [String; 3] {
        let sold = self.sold();
        let levels = sold.map(|kwh| kwh.to_string());
        match self.flaw {
            Flaw::SalesHaveTotal => with_total((sold[0] + sold[1]).to_string(), levels),
            _ => of_levels(levels),
        }
    }

    fn losses_row(&self) -> [String; 3] {
        let losses = match self.flaw {
            Flaw::LossFactorsOfOtherDivision => RATES[usize::from(1 - self.before.division)].1,
            _ => self.loss_factors(),
        };
        match self.flaw {
            Flaw::LossFactorsOverThousand => of_levels(losses.map(|parts| parts.to_string())),
            _ => of_levels(losses.map(|parts| percent(parts, self.flaw))),
        }
    }

    fn adjusted_row(&self) -> [String; 3] {
        let (sold, losses) = (self.sold(), self.loss_factors());
        let exact = [sold[0] * losses[0], sold[1] * losses[1]];
        let levels = exact.map(|kwh| match self.flaw {
            Flaw::AdjustedTowardsZero => kwh / 100_000,
            _ => round(kwh, 100_000),
        });
        let sum = match self.flaw {
            Flaw::AdjustedTotalRoundedOnce => round(exact[0] + exact[1], 100_000),
            _ => levels[0] + levels[1],
        };
        let levels = levels.map(|kwh| kwh.to_string());
        match self.flaw {
            Flaw::AdjustedWithoutTotal => of_levels(levels),
            _ => with_total(sum.to_string(), levels),
        }
    }

    fn weights_row(&self) -> [String; 3] {
        let settlement = self.settlement();
        let weight = settlement.weight(0);
        let weights = match self.flaw {
            Flaw::WeightOfOtherLevel => [100_000 - weight, weight],
            Flaw::WeightsRoundedApart => [weight, settlement.weight(1)],
            _ => [weight, 100_000 - weight],
        };
        of_levels(weights.map(|parts| percent(parts, self.flaw)))
    }

    /// The share of all customers and those of both levels.
    fn shares(&self) -> (i128, Levels) {
        let settlement = self.settlement();
        let all = round(settlement.exact(), 100_000);
        let weight = settlement.weight(0);
        let secondary = round(all * weight, 100_000);
        let primary = match self.flaw {
            Flaw::SharesRoundedApart => round(all * (100_000 - weight), 100_000),
            _ => all - secondary,
        };
        match self.flaw {
            Flaw::SharesOfOtherLevel => (all, [primary, secondary]),
            _ => (all, [secondary, primary]),
        }
    }

    fn share_cells(&self) -> Vec<[String; 3]> {
        let (all, shares) = self.shares();
        let carried = match self.flaw {
            Flaw::CarriedAfterSettling => &self.after,
            _ => &self.before,
        };
        let carried = self.levels(carried, |level| level.carried.into());
        let interest = self.levels(&self.before, |level| level.interest.into());
        let clause = match self.flaw {
            Flaw::ClauseIsShare => shares,
            Flaw::InterestLeftOutOfClause => [shares[0] + carried[0], shares[1] + carried[1]],
            _ => self.levels(&self.after, |level| level.pending.due.into()),
        };
        let levels = self.cents(shares);
        vec![
            self.responsibility_row(),
            match self.flaw {
                Flaw::SharesWithoutTotal => of_levels(levels),
                _ => with_total(cents(all, self.flaw), levels),
            },
            of_levels(self.cents(carried)),
            of_levels(self.cents(interest)),
            of_levels(self.cents(clause)),
        ]
    }

    fn responsibility_row(&self) -> [String; 3] {
        let text = "95%".to_string();
        match self.flaw {
            Flaw::ResponsibilityWithDecimals => total("95.000%".to_string()),
            Flaw::ResponsibilityOfLevels => of_levels([text.clone(), text]),
            _ => total(text),
        }
    }

    fn factor_cells(&self) -> Vec<[String; 3]> {
        let estimated = match self.flaw {
            Flaw::SalesForEstimates => self.sold(),
            _ => [self.estimates.secondary, self.estimates.primary].map(i128::from),
        };
        let current = self.levels(&self.after, |level| level.pending.factor.into());
        let previous = self.levels(&self.before, |level| self.previous(level));
        let annual = match self.flaw {
            Flaw::AnnualIsCurrent => current,
            Flaw::AnnualOfBothRuns => self.levels(&self.after, |level| {
                let runs = [level.pending, level.first, level.second];
                runs.iter().map(|run| i128::from(run.factor)).sum()
            }),
            _ => [current[0] + previous[0], current[1] + previous[1]],
        };
        let factors = [current, previous, annual];
        let factors =
            factors.map(|levels| of_levels(levels.map(|factor| points(factor, self.flaw))));
        let estimated = of_levels(estimated.map(|kwh| kwh.to_string()));
        [vec![estimated], factors.to_vec()].concat()
    }

    /// The factor of the run that stays: of run 2 in November, of run 1 in May.
    fn previous(&self, level: &Level) -> i128 {
        let november = self.before.month == 11;
        let run = match self.flaw {
            Flaw::PreviousIsPending => level.pending,
            Flaw::PreviousOfFirstRun => level.first,
            Flaw::PreviousOfEnteringRun if november => level.first,
            Flaw::PreviousOfEnteringRun => level.second,
            _ if november => level.second,
            _ => level.first,
        };
        run.factor.into()
    }
}
