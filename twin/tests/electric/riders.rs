//! What each kind does, by listed cases with every field of the next book.

use crate::postings::{adjust, bill, costs, month_end, sales, settle};
use crate::sides::expect;
use twin::amounts::Run;
use twin::calendar::{AUGUST, DECEMBER, FEBRUARY, JANUARY, MAY, NOVEMBER};
use twin::electric::{ElectricBook, Level, Period, Sales};

/// A level whose values all differ, each below 100 × the seed.
fn level(seed: i64) -> Level {
    let run = |offset: i64| Run {
        factor: (seed + offset) as i32,
        due: 10 * seed + offset,
    };
    Level {
        carried: 20 * seed,
        interest: 30 * seed,
        pending: run(1),
        first: run(2),
        second: run(3),
    }
}

fn book(month: u8, settled: bool) -> ElectricBook {
    ElectricBook {
        division: 1,
        month,
        settled,
        period: Period {
            cost: 5_000_000,
            sales: Sales {
                secondary: 700_000,
                primary: 900_000,
            },
            remainder: -321,
        },
        secondary: level(1_000),
        primary: level(-2_000),
    }
}

#[test]
fn costs_join_the_open_cost_alone() {
    let before = book(JANUARY, false);
    let mut after = before;
    after.period.cost += 1 + 20 - 300;
    assert_eq!(expect([0, 0], before, costs([1, 20, -300])), after);
}

#[test]
fn sales_join_their_level() {
    let before = book(JANUARY, false);
    let mut after = before;
    after.period.sales.secondary += 4;
    after.period.sales.primary += 50;
    assert_eq!(expect([0, 0], before, sales(4, 50)), after);
}

#[test]
fn postings_without_fields_move_nothing() {
    let before = book(JANUARY, false);
    for posting in [costs([0; 3]), sales(0, 0), bill(0, 0), adjust(0, 0)] {
        assert_eq!(expect([0, 0], before, posting), before, "{posting:?}");
    }
}

#[test]
fn adjustments_join_what_their_level_carries() {
    let before = book(NOVEMBER, true);
    let mut after = before;
    after.secondary.carried -= 77;
    assert_eq!(expect([0, 0], before, adjust(0, -77)), after);
    let mut after = before;
    after.primary.carried += 88;
    assert_eq!(expect([0, 0], before, adjust(1, 88)), after);
}

#[test]
fn a_bill_lets_both_runs_of_its_level_fall_by_their_parts() {
    // Factors, kWh, line and parts; the second part is what the first leaves of the line.
    let cases = [
        (50, 50, 1, 1, 1, 0),
        (50, 50, -1, -1, -1, 0),
        (-50, -50, 1, -1, -1, 0),
        (30, 30, 1, 1, 0, 1),
        (49, 49, 1, 1, 0, 1),
        (149, 2, 1, 2, 1, 1),
        (50, -50, 1, 0, 1, -1),
        (-50, 50, 1, 0, -1, 1),
        (9, 0, 1_000, 90, 90, 0),
        (0, 9, -1_000, -90, 0, -90),
        (99_999, 99_999, 3, 6_000, 3_000, 3_000),
    ];
    for (first, second, kwh, line, first_part, second_part) in cases {
        for number in [0, 1] {
            let mut before = book(JANUARY, false);
            before.level_mut(number).first.factor = first;
            before.level_mut(number).second.factor = second;
            let mut after = before;
            after.level_mut(number).first.due -= first_part;
            after.level_mut(number).second.due -= second_part;
            assert_eq!(expect([line, 0], before, bill(number, kwh)), after);
        }
    }
}

#[test]
fn a_settlement_files_share_and_carried_and_interest() {
    for month in [MAY, NOVEMBER] {
        let before = book(month, false);
        // V = 1000 × 5000000 − 2538 × 1600000 = 939200000; 95V + rem = 89223999679.
        // R = 892240, rem = −321. w = round(100000 × 75203100000 / 168971400000) = 44506.
        // Shares: round(892240 × 44506 / 100000) = 397100, and 495140.
        let mut after = before;
        after.settled = true;
        after.period = Period {
            remainder: -321,
            ..Period::default()
        };
        for (level, share, factor) in [
            (&mut after.secondary, 397_100, 22_355),
            (&mut after.primary, 495_140, 7_903),
        ] {
            level.pending.due = share + level.carried + level.interest;
            level.pending.factor = factor;
            level.carried = 0;
            level.interest = 0;
        }
        let met = expect([22_355, 7_903], before, settle(2_000, 5_000));
        assert_eq!(met, after);
    }
}

#[test]
fn a_month_end_bears_interest_and_moves_on() {
    for month in 1..=12 {
        let settled = month == MAY || month == NOVEMBER;
        let before = book(month, settled);
        // C + Q + d1 + d2: 20000 + 3 × 10000 + 6, and −40000 − 3 × 20000 + 6.
        assert_eq!(before.secondary.bears_interest(), 50_006);
        assert_eq!(before.primary.bears_interest(), -99_994);
        // A twelfth of 12% of that in a settled month: 500.06, and −999.94.
        // In others the settlement above would give 397100 more, and 495140: 4471.06, and 3951.46.
        let interest = if settled {
            [500, -1_000]
        } else {
            [4_471, 3_951]
        };
        let mut after = before;
        after.secondary.interest += interest[0];
        after.primary.interest += interest[1];
        for level in [&mut after.secondary, &mut after.primary] {
            hand_over(level, month);
        }
        after.month = if month == DECEMBER { 1 } else { month + 1 };
        after.settled = false;
        assert_eq!(expect(interest, before, month_end(120_000)), after);
    }
}

/// The handover written out, run by run.
fn hand_over(level: &mut Level, month: u8) {
    if month == FEBRUARY {
        level.carried += level.first.due;
        level.first = level.pending;
        level.pending = Run { factor: 0, due: 0 };
    }
    if month == AUGUST {
        level.carried += level.second.due;
        level.second = level.pending;
        level.pending = Run { factor: 0, due: 0 };
    }
}

#[test]
fn what_is_handed_over_bears_interest_once() {
    for (month, run) in [(FEBRUARY, 0), (AUGUST, 1)] {
        // Nothing is sold, so that there is no provisional share.
        let mut before = book(month, false);
        before.period.sales = Sales::default();
        before.secondary = Level {
            pending: Run {
                factor: 7,
                due: 600,
            },
            ..Level::default()
        };
        let due = Run {
            factor: 3,
            due: 600,
        };
        match run {
            0 => before.secondary.first = due,
            _ => before.secondary.second = due,
        }
        before.primary = Level::default();
        // round(100000 × 1200 / 12000000).
        let after = expect([10, 0], before, month_end(100_000));
        assert_eq!(after.secondary.interest, 10);
        assert_eq!(after.secondary.carried, 600);
    }
}

#[test]
fn accrued_interest_bears_no_interest() {
    let mut before = book(JANUARY, false);
    before.period.sales = Sales::default();
    before.secondary = Level {
        interest: 1_000_000_000,
        ..Level::default()
    };
    before.primary = before.secondary;
    expect([0, 0], before, month_end(200_000));
}
