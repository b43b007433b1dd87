//! What each kind does, by listed cases with every field of the next book.

use crate::postings::{adjust, bill, cost, month_end, prudence, reconcile, sales, settle};
use crate::sides::expect;
use twin::amounts::Run;
use twin::calendar::{DECEMBER, JANUARY, JUNE, MARCH, SEPTEMBER};
use twin::steam::{Period, Reconciliation, SteamBook};

/// A book whose values all differ.
fn book(month: u8, settled: bool) -> SteamBook {
    SteamBook {
        month,
        settled,
        period: Period {
            cost: 5_000_000,
            sales: 12_000,
            remainder: -321,
        },
        quarters: [11_000, 13_000, 14_000, 15_000],
        carried: 70_007,
        pending: Run {
            factor: 88,
            due: 8_008,
        },
        factors: [101, -202, 303, 404],
        dues: [1_001, 2_002, -3_003, 4_004],
        reconciliation: Reconciliation {
            run: Run {
                factor: -55,
                due: 50_005,
            },
            months: 9,
        },
    }
}

#[test]
fn costs_join_the_open_cost_alone() {
    for cents in [1, -20, 10_000_000_000] {
        let before = book(JANUARY, false);
        let mut after = before;
        after.period.cost += cents;
        assert_eq!(expect(0, before, cost(cents)), after);
    }
}

#[test]
fn sales_join_the_open_sales_alone() {
    let before = book(JANUARY, false);
    let mut after = before;
    after.period.sales += 45;
    assert_eq!(expect(0, before, sales(45)), after);
}

#[test]
fn postings_without_fields_move_nothing() {
    let before = book(JANUARY, false);
    for posting in [cost(0), sales(0), bill(0)] {
        assert_eq!(expect(0, before, posting), before, "{posting:?}");
    }
}

#[test]
fn adjustments_join_the_account_alone() {
    for settled in [false, true] {
        let before = book(MARCH, settled);
        for cents in [-77, 88] {
            let mut after = before;
            after.carried += cents;
            assert_eq!(expect(0, before, adjust(cents)), after);
            assert_eq!(expect(0, before, prudence(cents, 700)), after);
        }
    }
}

#[test]
fn a_bill_lets_all_five_runs_fall_by_their_parts() {
    // Lines of 7 mmBtu up to each run: 7.07, −7.07, 14.14, 42.42, 38.57 cents.
    let before = book(JANUARY, false);
    let mut after = before;
    after.dues = [1_001 - 7, 2_002 + 14, -3_003 - 21, 4_004 - 28];
    after.reconciliation.run.due = 50_005 + 3;
    assert_eq!(expect(39, before, bill(7)), after);
    // A cancelled bill puts back what the bill took.
    assert_eq!(expect(-39, after, bill(-7)), before);
}

#[test]
fn a_bill_without_a_reconciliation_leaves_it_empty() {
    let mut before = book(JANUARY, false);
    before.reconciliation = Reconciliation::default();
    let mut after = before;
    after.dues = [1_001 - 7, 2_002 + 14, -3_003 - 21, 4_004 - 28];
    assert_eq!(expect(42, before, bill(7)), after);
}

#[test]
fn a_settlement_files_the_share_of_the_quarter_alone() {
    for month in [MARCH, JUNE, SEPTEMBER, DECEMBER] {
        let before = book(month, false);
        // V = 500000000 − 30050 × 12000 = 139400000; 80V + rem = 11151999679.
        // R = 1115200, rem = −321. 12000 is above 105% of 11000, so b counts.
        // D = 12000 + 42000 + 700 = 54700, and 111520000 / 54700 = 2038.76.
        let mut after = before;
        after.settled = true;
        after.period = Period {
            cost: 0,
            sales: 0,
            remainder: -321,
        };
        after.quarters = [13_000, 14_000, 15_000, 12_000];
        after.pending = Run {
            factor: 2_039,
            due: 1_115_200,
        };
        assert_eq!(expect(2_039, before, settle(700)), after);
    }
}

/// The run that the end of the month enters, written out month by month.
const ENTERED: [Option<usize>; 12] = [
    None,
    Some(0),
    None,
    None,
    Some(1),
    None,
    None,
    Some(2),
    None,
    None,
    Some(3),
    None,
];

#[test]
fn a_month_end_enters_its_run_and_moves_on() {
    for month in 1..=12 {
        let before = book(month, month % 3 == 0);
        let mut after = before;
        if let Some(run) = ENTERED[usize::from(month) - 1] {
            after.carried += before.dues[run];
            after.factors[run] = 88;
            after.dues[run] = 8_008;
            after.pending = Run { factor: 0, due: 0 };
        }
        after.reconciliation.months = 8;
        after.month = if month == DECEMBER { 1 } else { month + 1 };
        after.settled = false;
        assert_eq!(expect(0, before, month_end()), after);
    }
}

#[test]
fn a_reconciliation_takes_the_account() {
    for (month, settled) in [(JANUARY, false), (MARCH, false), (MARCH, true)] {
        for months in [12, 24] {
            let mut before = book(month, settled);
            before.reconciliation = Reconciliation::default();
            let mut after = before;
            after.carried = 0;
            after.reconciliation = Reconciliation {
                // 7000700 / 3000 = 2333.57.
                run: Run {
                    factor: 2_334,
                    due: 70_007,
                },
                months: months as u8,
            };
            assert_eq!(expect(0, before, reconcile(months, 3_000)), after);
        }
    }
}
