//! Reconciliations over their months, to the last one.

use crate::postings::{adjust, bill, cost, month_end, reconcile, sales, settle};
use crate::sides::{expect, expect_all, expect_refusal, opened};
use crate::stored::CENTS;
use twin::amounts::Run;
use twin::calendar::{AUGUST, FEBRUARY, JANUARY, MAY, NOVEMBER};
use twin::steam::{Reconciliation, SteamBook};

/// Ends the month, settling before it where the month wants it, at the base.
fn end_month(book: SteamBook) -> SteamBook {
    match book.month % 3 == 0 {
        true => expect_all(book, &[cost(601), sales(2), settle(0), month_end()]),
        false => expect(0, book, month_end()),
    }
}

#[test]
fn an_account_of_nothing_is_reconciled_all_the_same() {
    for months in [12, 24] {
        let mut book = expect(0, opened([5; 4]), reconcile(months, 1));
        for left in (1..=months).rev() {
            let expected = Reconciliation {
                run: Run::default(),
                months: left as u8,
            };
            assert_eq!(book.reconciliation, expected);
            expect_refusal(9, book, reconcile(12, 1));
            book = end_month(book);
        }
        assert_eq!(book.reconciliation, Reconciliation::default());
        assert_eq!(book.carried, 0);
        expect(0, book, reconcile(24, 1));
    }
}

#[test]
fn what_is_left_after_the_last_month_joins_the_account() {
    for months in [12, 24] {
        for sign in [1, -1] {
            let fresh = opened([5; 4]);
            let mut book = expect(0, fresh, adjust(sign * 100_000));
            // 100 × 100000 / 4000 points, so 25 cents for an mmBtu.
            book = expect(0, book, reconcile(months, 4_000));
            assert_eq!(book.carried, 0);
            let mut due = sign * 100_000;
            for left in (1..=months).rev() {
                assert_eq!(book.reconciliation.months, left as u8);
                book = expect(sign * 2_500, book, bill(100));
                book = expect(sign * -250, book, bill(-10));
                due -= sign * 2_250;
                assert_eq!(book.reconciliation.run.due, due);
                // What joins the account meanwhile is for the next one.
                book = expect(0, book, adjust(3));
                book = end_month(book);
            }
            assert_eq!(book.reconciliation, Reconciliation::default());
            assert_eq!(book.carried, due + 3 * months);
            expect(0, book, bill(100));
            expect(0, book, reconcile(12, 4_000));
        }
    }
}

/// A book in the month with the account, the run to be entered, and a reconciliation's last month.
fn joining(month: u8, carried: i64, run_due: i64, reconciled: i64, months: u8) -> SteamBook {
    let mut book = opened([5; 4]);
    book.month = month;
    book.carried = carried;
    // February, May, August and November, in the order of the runs.
    let run = usize::from(month / 3);
    book.dues[run] = run_due;
    book.reconciliation = Reconciliation {
        run: Run {
            factor: 9,
            due: reconciled,
        },
        months,
    };
    book
}

const ENTERING: [u8; 4] = [FEBRUARY, MAY, AUGUST, NOVEMBER];

#[test]
fn a_run_and_a_reconciliation_join_the_account_together() {
    for month in ENTERING {
        let book = joining(month, 1_000, 200, -30, 1);
        let after = expect(0, book, month_end());
        assert_eq!(after.carried, 1_170);
        assert_eq!(after.reconciliation, Reconciliation::default());
        let running = expect(0, joining(month, 1_000, 200, -30, 2), month_end());
        assert_eq!(running.carried, 1_200);
        assert_eq!(running.reconciliation.run.due, -30);
        assert_eq!(running.reconciliation.months, 1);
    }
}

#[test]
fn the_account_may_pass_its_limit_on_the_way() {
    for month in ENTERING {
        for sign in [1, -1] {
            let ends = |run_due: i64, reconciled: i64| {
                joining(month, sign * CENTS, sign * run_due, sign * reconciled, 1)
            };
            // Past it by the run's cents, and back by the reconciliation's, or the other way.
            for (run_due, reconciled) in [(500, -500), (-500, 500), (CENTS, -CENTS)] {
                let after = expect(0, ends(run_due, reconciled), month_end());
                assert_eq!(after.carried, sign * CENTS);
            }
            expect_refusal(12, ends(500, -499), month_end());
            expect_refusal(12, ends(-499, 500), month_end());
            expect_refusal(12, ends(CENTS, CENTS), month_end());
            // With months left the reconciliation's cents do not come back yet.
            let mut running = ends(500, -500);
            running.reconciliation.months = 2;
            expect_refusal(12, running, month_end());
        }
    }
}

#[test]
fn the_last_month_alone_takes_the_account_to_its_limit() {
    for month in [JANUARY, 4, 7, 10] {
        for sign in [1, -1] {
            let mut book = opened([5; 4]);
            book.month = month;
            book.carried = sign * (CENTS - 7);
            book.reconciliation.months = 1;
            book.reconciliation.run.due = sign * 7;
            let after = expect(0, book, month_end());
            assert_eq!(after.carried, sign * CENTS);
            book.reconciliation.run.due = sign * 8;
            expect_refusal(12, book, month_end());
            book.reconciliation.months = 2;
            expect(0, book, month_end());
        }
    }
}
