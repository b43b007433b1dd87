//! Sheets of listed settlements, written out by hand.

use super::plain_rows::HEADS;
use super::sides::{listed, SHEET};
use crate::filed_sheets::{document_01, sheet};
use twin::amounts::{Run, CENTS_LIMIT};
use twin::calendar::{MAY, NOVEMBER};
use twin::electric::{ElectricBook, Level, Period, Sales, L_AND_P, MPS};

/// Estimated sales of document 01's settlement.
pub const ESTIMATES: [i64; 2] = [1_250_000, 800_000];

/// A fresh book, moved to the month, with the cost and the sales of a period.
fn book(division: u8, month: u8, cost: i64, [secondary, primary]: [i64; 2]) -> ElectricBook {
    let period = Period {
        cost,
        sales: Sales { secondary, primary },
        remainder: 0,
    };
    ElectricBook {
        month,
        period,
        ..ElectricBook::fresh(division)
    }
}

/// A level with carried cents, interest, and the factors of both runs.
fn level([carried, interest]: [i64; 2], [first, second]: [i32; 2]) -> Level {
    let run = |factor| Run { factor, due: 0 };
    Level {
        carried,
        interest,
        first: run(first),
        second: run(second),
        ..Level::default()
    }
}

/// The book of document 01's settlement.
pub fn document_01_book() -> ElectricBook {
    book(L_AND_P, NOVEMBER, 2_000_000, [600_000, 400_000])
}

/// Holds both sides to the sheet.
fn expect(lines: [&str; 16], book: ElectricBook, estimates: [i64; 2]) {
    assert_eq!(listed(book, estimates, SHEET), Ok(sheet(lines)), "{book:?}");
}

#[test]
fn document_01s_settlement_is_printed() {
    let printed = listed(document_01_book(), ESTIMATES, SHEET);
    assert_eq!(printed, Ok(document_01()));
}

#[test]
fn credits_have_a_minus_below_a_dollar_too() {
    let mut credit = book(L_AND_P, NOVEMBER, 800_000, [300_000, 200_000]);
    credit.secondary = level([-90, -7], [0, -12]);
    credit.primary = level([5, 12], [0, 0]);
    let lines = [
        "1   Total energy cost (F, P, and E)        8000.00",
        "2   Base energy cost (B)                   8995.00",
        "3   First Interim Total                    -995.00",
        "4   Base energy (S_A) by voltage le                        300000         200000",
        "4.1 Loss factors (L)                                     108.443%       106.231%",
        "4.2 S_A adjusted for losses                 537791         325329         212462",
        "4.3 Loss factor weights                                   60.494%        39.506%",
        "5   Customer Responsibility                    95%",
        "6   Second Interim Total by voltage        -945.25        -571.82        -373.43",
        "7   Adjustment for Under / Over rec                         -0.90           0.05",
        "8   Interest (I)                                            -0.07           0.12",
        "9   Fuel Adjustment Clause                                -572.79        -373.26",
        "10  Estimated recovery period sales                        700000         450000",
        "11  Current period cost adjustment                        -0.0008        -0.0008",
        "12  Previous period cost adjustment                       -0.0012         0.0000",
        "13  Current annual cost adjustment                        -0.0020        -0.0008",
    ];
    expect(lines, credit, [700_000, 450_000]);
}

#[test]
fn in_may_run_1_stays_and_in_november_run_2() {
    let mut running = book(MPS, MAY, 5_123_457, [1_200_000, 700_123]);
    running.period.remainder = -12_345;
    running.secondary = level([12_345, 678], [34, -250]);
    running.primary = level([-9_999, -5], [7, 81]);
    let lines = [
        "1   Total energy cost (F, P, and E)       51234.57",
        "2   Base energy cost (B)                  48225.12",
        "3   First Interim Total                    3009.45",
        "4   Base energy (S_A) by voltage le                       1200000         700123",
        "4.1 Loss factors (L)                                     107.433%       104.187%",
        "4.2 S_A adjusted for losses                2018633        1289196         729437",
        "4.3 Loss factor weights                                   63.865%        36.135%",
        "5   Customer Responsibility                    95%",
        "6   Second Interim Total by voltage        2858.97        1825.88        1033.09",
        "7   Adjustment for Under / Over rec                        123.45         -99.99",
        "8   Interest (I)                                             6.78          -0.05",
        "9   Fuel Adjustment Clause                                1956.11         933.05",
        "10  Estimated recovery period sales                       2500000        1400000",
        "11  Current period cost adjustment                         0.0008         0.0007",
        "12  Previous period cost adjustment                        0.0034         0.0007",
        "13  Current annual cost adjustment                         0.0042         0.0014",
    ];
    expect(lines, running, [2_500_000, 1_400_000]);
    running.month = NOVEMBER;
    let mut lines_of_november = lines;
    lines_of_november[14..].copy_from_slice(&[
        "12  Previous period cost adjustment                       -0.0250         0.0081",
        "13  Current annual cost adjustment                        -0.0242         0.0088",
    ]);
    expect(lines_of_november, running, [2_500_000, 1_400_000]);
}

#[test]
fn sales_of_the_primary_level_alone_have_all_the_weight() {
    let primary_alone = book(L_AND_P, NOVEMBER, 2_000, [0, 1_000]);
    let lines = [
        "1   Total energy cost (F, P, and E)          20.00",
        "2   Base energy cost (B)                     17.99",
        "3   First Interim Total                       2.01",
        "4   Base energy (S_A) by voltage le                             0           1000",
        "4.1 Loss factors (L)                                     108.443%       106.231%",
        "4.2 S_A adjusted for losses                   1062              0           1062",
        "4.3 Loss factor weights                                    0.000%       100.000%",
        "5   Customer Responsibility                    95%",
        "6   Second Interim Total by voltage           1.91           0.00           1.91",
        "7   Adjustment for Under / Over rec                          0.00           0.00",
        "8   Interest (I)                                             0.00           0.00",
        "9   Fuel Adjustment Clause                                   0.00           1.91",
        "10  Estimated recovery period sales                          5000           2000",
        "11  Current period cost adjustment                         0.0000         0.0010",
        "12  Previous period cost adjustment                        0.0000         0.0000",
        "13  Current annual cost adjustment                         0.0000         0.0010",
    ];
    expect(lines, primary_alone, [5_000, 2_000]);
}

#[test]
fn sales_of_the_secondary_level_alone_have_all_the_weight() {
    let secondary_alone = book(L_AND_P, MAY, 2_000, [1_000, 0]);
    let lines = [
        "1   Total energy cost (F, P, and E)          20.00",
        "2   Base energy cost (B)                     17.99",
        "3   First Interim Total                       2.01",
        "4   Base energy (S_A) by voltage le                          1000              0",
        "4.1 Loss factors (L)                                     108.443%       106.231%",
        "4.2 S_A adjusted for losses                   1084           1084              0",
        "4.3 Loss factor weights                                  100.000%         0.000%",
        "5   Customer Responsibility                    95%",
        "6   Second Interim Total by voltage           1.91           1.91           0.00",
        "7   Adjustment for Under / Over rec                          0.00           0.00",
        "8   Interest (I)                                             0.00           0.00",
        "9   Fuel Adjustment Clause                                   1.91           0.00",
        "10  Estimated recovery period sales                          2000           5000",
        "11  Current period cost adjustment                         0.0010         0.0000",
        "12  Previous period cost adjustment                        0.0000         0.0000",
        "13  Current annual cost adjustment                         0.0010         0.0000",
    ];
    expect(lines, secondary_alone, [2_000, 5_000]);
}

#[test]
fn the_base_cost_is_rounded_before_it_is_taken_off() {
    // 899.5 cents are 9.00, and 10.00 less that is 1.00, where 100.5 cents would be 1.01.
    let half_cent = book(L_AND_P, NOVEMBER, 1_000, [6, 494]);
    let lines = [
        "1   Total energy cost (F, P, and E)          10.00",
        "2   Base energy cost (B)                      9.00",
        "3   First Interim Total                       1.00",
        "4   Base energy (S_A) by voltage le                             6            494",
        "4.1 Loss factors (L)                                     108.443%       106.231%",
        "4.2 S_A adjusted for losses                    532              7            525",
        "4.3 Loss factor weights                                    1.225%        98.775%",
        "5   Customer Responsibility                    95%",
        "6   Second Interim Total by voltage           0.95           0.01           0.94",
        "7   Adjustment for Under / Over rec                          0.00           0.00",
        "8   Interest (I)                                             0.00           0.00",
        "9   Fuel Adjustment Clause                                   0.01           0.94",
        "10  Estimated recovery period sales                         10000          10000",
        "11  Current period cost adjustment                         0.0000         0.0001",
        "12  Previous period cost adjustment                        0.0000         0.0000",
        "13  Current annual cost adjustment                         0.0000         0.0001",
    ];
    expect(lines, half_cent, [10_000, 10_000]);
}

#[test]
fn sales_adjusted_for_losses_are_summed_as_they_are_rounded() {
    // 6.50658 and 9.56079 kWh are 7 and 10, and so 17, where 16.06737 would be 16.
    let few = book(L_AND_P, NOVEMBER, 1_000, [6, 9]);
    let lines = [
        "1   Total energy cost (F, P, and E)          10.00",
        "2   Base energy cost (B)                      0.27",
        "3   First Interim Total                       9.73",
        "4   Base energy (S_A) by voltage le                             6              9",
        "4.1 Loss factors (L)                                     108.443%       106.231%",
        "4.2 S_A adjusted for losses                     17              7             10",
        "4.3 Loss factor weights                                   40.496%        59.504%",
        "5   Customer Responsibility                    95%",
        "6   Second Interim Total by voltage           9.24           3.74           5.50",
        "7   Adjustment for Under / Over rec                          0.00           0.00",
        "8   Interest (I)                                             0.00           0.00",
        "9   Fuel Adjustment Clause                                   3.74           5.50",
        "10  Estimated recovery period sales                        100000         100000",
        "11  Current period cost adjustment                         0.0000         0.0001",
        "12  Previous period cost adjustment                        0.0000         0.0000",
        "13  Current annual cost adjustment                         0.0000         0.0001",
    ];
    expect(lines, few, [100_000, 100_000]);
}

/// The row of the number, without the blanks and the line feed that end it.
fn row(printed: &str, number: &str) -> String {
    let start = format!("{number:<4}");
    let row = printed.lines().find(|line| line.starts_with(&start));
    row.expect("a row of the number").trim_end().to_string()
}

#[test]
fn the_customers_share_has_the_remainder_in_it() {
    // Document 01's 1,080 cents for 600 kWh, twice over: 0.57 cents, and then 0.57 less 0.43.
    let mut period = book(L_AND_P, NOVEMBER, 1_080, [600, 0]);
    for (remainder, share) in [
        (
            0,
            "6   Second Interim Total by voltage           0.01           0.01           0.00",
        ),
        (
            -43_000,
            "6   Second Interim Total by voltage           0.00           0.00           0.00",
        ),
    ] {
        period.period.remainder = remainder;
        let printed = listed(period, [1, 1], SHEET).expect("a sheet");
        assert_eq!(row(&printed, "6"), share);
        let third = "3   First Interim Total                       0.01";
        assert_eq!(row(&printed, "3"), third);
    }
}

#[test]
fn the_widest_cells_stand_side_by_side() {
    let sold = [10_000_000_000; 2];
    let mut widest = book(MPS, NOVEMBER, -CENTS_LIMIT, sold);
    // The shares are taken back as interest, so that what is filed is what is carried.
    widest.secondary = level([-CENTS_LIMIT, 506_767_362_740], [0, -99_999]);
    widest.primary = level([-CENTS_LIMIT, 491_454_637_260], [0, -99_999]);
    let lines = [
        "1   Total energy cost (F, P, and E)-10000000000.00",
        "2   Base energy cost (B)              507600000.00",
        "3   First Interim Total            -10507600000.00",
        "4   Base energy (S_A) by voltage le                   10000000000    10000000000",
        "4.1 Loss factors (L)                                     107.433%       104.187%",
        "4.2 S_A adjusted for losses            21162000000    10743300000    10418700000",
        "4.3 Loss factor weights                                   50.767%        49.233%",
        "5   Customer Responsibility                    95%",
        "6   Second Interim Total by voltage -9982220000.00 -5067673627.40 -4914546372.60",
        "7   Adjustment for Under / Over rec               -10000000000.00-10000000000.00",
        "8   Interest (I)                                    5067673627.40  4914546372.60",
        "9   Fuel Adjustment Clause                        -10000000000.00-10000000000.00",
        "10  Estimated recovery period sales                    1000010000    10000000000",
        "11  Current period cost adjustment                        -9.9999        -1.0000",
        "12  Previous period cost adjustment                       -9.9999        -9.9999",
        "13  Current annual cost adjustment                       -19.9998       -10.9999",
    ];
    expect(lines, widest, [1_000_010_000, 10_000_000_000]);
}

#[test]
fn labels_are_the_sheets_cut_at_31() {
    let printed = listed(document_01_book(), ESTIMATES, SHEET).expect("a sheet");
    let mut cut = 0;
    for (line, (number, label)) in printed.lines().zip(HEADS) {
        let (met_number, rest) = line.split_at(4);
        let (met_label, _) = rest.split_at(31);
        assert_eq!(met_number.trim_end(), number);
        match label.len() > 31 {
            true => assert_eq!(met_label, &label[..31]),
            false => assert_eq!(met_label.trim_end(), label),
        }
        cut += usize::from(label.len() > 31);
    }
    assert_eq!(cut, 7, "labels that are cut");
}
