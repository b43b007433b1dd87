//! Wrong books, each the twin's with one change, which the tally's claim must refuse or let pass.

use crate::postings::{adjust, bill, cost, month_end, reconcile, sales, settle};
use twin::amounts::Run;
use twin::calendar::{month_after, APRIL, JANUARY};
use twin::records::{Posting, BILL, COST, MONTH_END, RECONCILE, SETTLE};
use twin::rounding::round;
use twin::steam::{
    annual_sales, entering, is_settling, post, Period, Posted, Reconciliation, Reply, SteamBook,
};
use twin::tally::steam::Tally;

/// What a wrong book knows of a posting.
struct Step {
    before: SteamBook,
    posting: Posting,
    /// The settlements accepted so far.
    settlements: usize,
}

impl Step {
    /// Whether the right book accepted a posting of the kind.
    fn took(&self, posted: &Posted, kind: u8) -> bool {
        posted.reply.number == 0 && self.posting.kind == kind
    }
}

/// A change of the right answer and the right next book.
type Change = fn(&Step, &mut Posted);

const OPENING: [i64; 4] = [300; 4];

/// The first failure of the claim on the list, if there is one, and how many were accepted.
fn claim_on(list: &[Posting], change: Change) -> (Result<(), String>, usize) {
    let mut book = SteamBook::fresh(OPENING);
    let mut tally = Tally::default();
    let (mut settlements, mut accepted) = (0, 0);
    for &posting in list {
        let mut posted = post(book, posting);
        let step = Step {
            before: book,
            posting,
            settlements,
        };
        change(&step, &mut posted);
        tally.feed(posting, &posted);
        if let Err(failure) = tally.check(&posted.book) {
            return (Err(failure), accepted);
        }
        let taken = posted.reply.number == 0;
        accepted += usize::from(taken);
        settlements += usize::from(taken && posting.kind == SETTLE);
        book = posted.book;
    }
    (Ok(()), accepted)
}

/// Holds the claim to fail for the wrong book, where it stands for the right one.
fn is_caught(name: &str, list: &[Posting], change: Change) {
    let right = claim_on(list, |_, _| {});
    assert_eq!(right, (Ok(()), list.len()), "the right book beside {name}");
    let (wrong, _) = claim_on(list, change);
    assert!(wrong.is_err(), "the claim lets {name} pass");
}

fn passes(name: &str, list: &[Posting], change: Change) {
    let (claim, _) = claim_on(list, change);
    assert_eq!(claim, Ok(()), "{name}");
}

/// The postings of so many months from January on, with something of every kind.
fn months(count: usize) -> Vec<Posting> {
    let mut list = Vec::new();
    let mut month = JANUARY;
    for _ in 0..count {
        // In a quarter 80V is 22824000, so that a remainder of 4000 is left.
        list.extend([cost(31_001), sales(100)]);
        list.extend([bill(37), bill(-11), bill(13)]);
        list.extend([adjust(30_001), adjust(-7_000)]);
        // One that runs for a year is over by April.
        if month == APRIL {
            list.push(reconcile(12, 12_000));
        }
        if is_settling(month) {
            list.push(settle(77));
        }
        list.push(month_end());
        month = month_after(month);
    }
    list
}

/// The first quarter of a book, at once, with the paper's figures.
fn first_quarter() -> Vec<Posting> {
    vec![
        cost(3_700_000),
        sales(10_000),
        month_end(),
        month_end(),
        settle(0),
    ]
}

#[test]
fn the_unmoving_book_is_caught() {
    // It moves months and sales, so that it accepts the settlement, but never a cent.
    let change: Change = |step, posted| {
        posted.book = SteamBook {
            month: posted.book.month,
            settled: posted.book.settled,
            quarters: posted.book.quarters,
            period: Period {
                sales: posted.book.period.sales,
                ..step.before.period
            },
            ..step.before
        };
    };
    is_caught("the unmoving book", &first_quarter(), change);
}

#[test]
fn the_one_period_book_is_caught() {
    let change: Change = |step, posted| {
        if step.took(posted, SETTLE) && step.settlements > 0 {
            posted.book.pending = Run::default();
            posted.reply = Reply::default();
        }
    };
    passes(
        "one quarter of the one-period book",
        &first_quarter(),
        change,
    );
    let mut list = first_quarter();
    list.extend([month_end(); 3]);
    list.extend([cost(4_000_000), sales(10_000), settle(0)]);
    is_caught("the one-period book", &list, change);
}

#[test]
fn a_dropped_remainder_is_caught() {
    let change: Change = |step, posted| {
        if step.took(posted, SETTLE) {
            posted.book.period.remainder = 0;
        }
    };
    passes("one quarter without remainder", &months(5), change);
    is_caught("a dropped remainder", &months(6), change);
}

#[test]
fn a_forgotten_rest_of_a_reconciliation_is_caught() {
    let change: Change = |step, posted| {
        let reconciliation = step.before.reconciliation;
        if step.took(posted, MONTH_END) && reconciliation.months == 1 {
            posted.book.carried -= reconciliation.run.due;
        }
    };
    // From April on the twelfth month to end is March.
    passes("a reconciliation that still runs", &months(14), change);
    is_caught("a forgotten rest", &months(15), change);
}

#[test]
fn a_handover_that_forgets_what_was_due_is_caught() {
    let changes: [Change; 4] = [
        |step, posted| forget_due(step, posted, 0),
        |step, posted| forget_due(step, posted, 1),
        |step, posted| forget_due(step, posted, 2),
        |step, posted| forget_due(step, posted, 3),
    ];
    for (run, change) in changes.into_iter().enumerate() {
        // Run 1 is entered in February with nothing pending, and has cents from the next one on.
        let before_second = [25, 16, 19, 22][run];
        let second = [26, 17, 20, 23][run];
        passes("the first handover", &months(before_second), change);
        is_caught("a forgetful handover", &months(second), change);
    }
}

/// At the month end that enters the run, its due cents do not join the account.
fn forget_due(step: &Step, posted: &mut Posted, run: usize) {
    if step.took(posted, MONTH_END) && entering(step.before.month) == Some(run) {
        posted.book.carried -= step.before.dues[run];
    }
}

#[test]
fn a_reconciliation_that_leaves_the_account_is_caught() {
    let change: Change = |step, posted| {
        if step.took(posted, RECONCILE) {
            posted.book.carried = step.before.carried;
        }
    };
    is_caught("an account that stays", &months(4), change);
    let empty = [reconcile(12, 1)];
    passes("an account of nothing that stays", &empty, change);
}

#[test]
fn parts_rounded_apart_are_caught() {
    let change: Change = |step, posted| {
        if step.took(posted, BILL) {
            let sold = i128::from(step.posting.numbers[0]);
            let part = |factor: i32| round(sold * i128::from(factor), 100) as i64;
            let before = &step.before;
            for run in 0..4 {
                posted.book.dues[run] = before.dues[run] - part(before.factors[run]);
            }
            let run = before.reconciliation.run;
            posted.book.reconciliation.run.due = run.due - part(run.factor);
        }
    };
    is_caught("parts rounded apart", &months(24), change);
}

/// Two reconciliations, of which the second comes while the first runs.
fn two_reconciliations() -> Vec<Posting> {
    let mut list = vec![adjust(5_000), reconcile(12, 1_000), bill(3), adjust(700)];
    list.extend([reconcile(24, 1_000), bill(3), month_end()]);
    list
}

#[test]
fn a_second_reconciliation_that_takes_the_place_of_the_first_is_caught() {
    let change: Change = |step, posted| {
        if posted.reply.number == 9 {
            let mut free = step.before;
            free.reconciliation = Reconciliation::default();
            *posted = post(free, step.posting);
        }
    };
    let list = two_reconciliations();
    let right = claim_on(&list, |_, _| {});
    assert_eq!(right, (Ok(()), list.len() - 1), "the right book");
    let (wrong, accepted) = claim_on(&list, change);
    assert!(wrong.is_err(), "the claim lets a second one pass");
    // It is the second one that it fails at.
    assert_eq!(accepted, 4);
}

#[test]
fn the_claim_lets_a_second_reconciliation_pass_that_keeps_the_cents() {
    // The cents of the first join the second, so conservation has nothing to say.
    let change: Change = |step, posted| {
        if posted.reply.number == 9 {
            let run = &mut posted.book.reconciliation.run;
            run.due += step.before.carried;
            posted.book.carried = 0;
            posted.reply.number = 0;
        }
    };
    let list = two_reconciliations();
    assert_eq!(claim_on(&list, change), (Ok(()), list.len()));
}

#[test]
fn the_claim_lets_wrong_factors_pass() {
    // A factor decides what is billed, and what is billed is in the answers.
    let with_adjustment: Change = |step, posted| {
        if step.took(posted, SETTLE) {
            let adjustment = step.posting.numbers[0];
            let annual = annual_sales(step.before.period.sales, step.before.quarters, 0);
            let divisor = annual + i128::from(adjustment);
            let factor = round(100 * i128::from(posted.book.pending.due), divisor);
            posted.book.pending.factor = factor as i32;
            posted.reply.filed = factor as i32;
        }
    };
    passes("b within 5%", &months(30), with_adjustment);
    let wrong_quarter: Change = |step, posted| {
        if step.took(posted, SETTLE) {
            posted.book.quarters.reverse();
        }
    };
    passes("quarters the wrong way round", &months(30), wrong_quarter);
}

#[test]
fn the_claim_lets_an_early_handover_pass() {
    // What is pending keeps its cents wherever it stands.
    let change: Change = |step, posted| {
        if step.took(posted, MONTH_END) && step.before.month == APRIL {
            let book = &mut posted.book;
            book.carried += book.dues[1];
            book.dues[1] = book.pending.due;
            book.factors[1] = book.pending.factor;
            book.pending = Run::default();
        }
    };
    passes("an early handover", &months(36), change);
}

#[test]
fn the_claim_lets_a_settlement_pass_that_takes_the_account_along() {
    let change: Change = |step, posted| {
        if step.took(posted, SETTLE) {
            posted.book.pending.due += step.before.carried;
            posted.book.carried = 0;
        }
    };
    passes("Q with the account", &months(36), change);
}

/// The wrong book hands back the book as it was with the refusal.
fn refuse(step: &Step, posted: &mut Posted, number: u8) {
    posted.book = step.before;
    posted.reply = Reply {
        number,
        ..Reply::default()
    };
}

#[test]
fn the_claim_lets_refusers_pass() {
    passes("one that refuses all", &months(12), |step, posted| {
        refuse(step, posted, 12);
    });
    let on_arrival: Change = |step, posted| {
        if step.took(posted, COST) {
            refuse(step, posted, 8);
        }
    };
    passes("a forbidden month on arrival", &months(12), on_arrival);
}

#[test]
fn a_constant_bill_is_caught_if_its_runs_fall() {
    let still: Change = |step, posted| {
        if step.took(posted, BILL) {
            posted.book = step.before;
            posted.reply.line = 0;
        }
    };
    passes("a constant bill with still runs", &months(12), still);
    let falling: Change = |step, posted| {
        if step.took(posted, BILL) {
            posted.reply.line = 0;
        }
    };
    is_caught("a constant bill with runs that fall", &months(12), falling);
}
