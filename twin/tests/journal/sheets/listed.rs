//! Journals with settlements, each of which has its sheet.

use super::expect;
use crate::filed_sheets::{document_01, sheet};
use crate::written::journal;

/// A posting: its kind, and its numbers.
pub type Listed = (u8, &'static [i64]);

/// Document 01's settlement in the first period of L&P.
pub const FIRST_PERIOD: [Listed; 8] = [
    (1, &[2_000_000]),
    (2, &[600_000, 400_000]),
    (5, &[]),
    (5, &[]),
    (5, &[]),
    (5, &[]),
    (5, &[]),
    (4, &[1_250_000, 800_000]),
];

/// A period of the half year after it, which costs less than the base, with its settlement in May.
const SECOND_PERIOD: [Listed; 9] = [
    (5, &[]),
    (1, &[800_000]),
    (2, &[300_000, 200_000]),
    (5, &[]),
    (5, &[]),
    (5, &[]),
    (5, &[]),
    (5, &[]),
    (4, &[700_000, 450_000]),
];

fn second_sheet() -> String {
    sheet([
        "1   Total energy cost (F, P, and E)        8000.00",
        "2   Base energy cost (B)                   8995.00",
        "3   First Interim Total                    -995.00",
        "4   Base energy (S_A) by voltage le                        300000         200000",
        "4.1 Loss factors (L)                                     108.443%       106.231%",
        "4.2 S_A adjusted for losses                 537791         325329         212462",
        "4.3 Loss factor weights                                   60.494%        39.506%",
        "5   Customer Responsibility                    95%",
        "6   Second Interim Total by voltage        -945.25        -571.82        -373.43",
        "7   Adjustment for Under / Over rec                          0.00           0.00",
        "8   Interest (I)                                             0.00           0.00",
        "9   Fuel Adjustment Clause                                -571.82        -373.43",
        "10  Estimated recovery period sales                        700000         450000",
        "11  Current period cost adjustment                        -0.0008        -0.0008",
        "12  Previous period cost adjustment                        0.0009         0.0009",
        "13  Current annual cost adjustment                         0.0001         0.0001",
    ])
}

#[test]
fn a_journal_without_settlement_prints_nothing() {
    let [postings @ .., _] = FIRST_PERIOD;
    expect("", &journal(&[0], &postings));
    let others: [Listed; 4] = [(3, &[0, 37]), (6, &[1, -90]), (5, &[60_000]), (3, &[])];
    expect("", &journal(&[1], &others));
}

#[test]
fn a_settlement_has_its_sheet_and_no_blank_line() {
    expect(&document_01(), &journal(&[0], &FIRST_PERIOD));
    // What comes after it prints nothing.
    let billed: [Listed; 3] = [(3, &[0, 1_000]), (5, &[60_000]), (6, &[0, 5])];
    let postings = [&FIRST_PERIOD[..], &billed].concat();
    expect(&document_01(), &journal(&[0], &postings));
}

#[test]
fn two_settlements_have_a_blank_line_between_their_sheets() {
    let postings = [&FIRST_PERIOD[..], &SECOND_PERIOD].concat();
    let text = format!("{}\n{}", document_01(), second_sheet());
    expect(&text, &journal(&[0], &postings));
}

#[test]
fn refused_settlements_print_nothing() {
    // Before the month, with estimates out of range, on the same month again, and with nothing sold.
    let refused: [Listed; 1] = [(4, &[1_250_000, 800_000])];
    let out_of_range: [Listed; 2] = [(4, &[]), (4, &[1, 10_000_000_001])];
    let past_limits: [Listed; 1] = [(4, &[1, 1])];
    let [open @ .., settlement] = FIRST_PERIOD;
    let [next @ .., last] = SECOND_PERIOD;
    let postings = [
        &refused[..],
        &open,
        &out_of_range,
        &past_limits,
        &[settlement],
        &refused,
        &next,
        &out_of_range,
        &past_limits,
        &[last],
        &refused,
    ]
    .concat();
    let text = format!("{}\n{}", document_01(), second_sheet());
    expect(&text, &journal(&[0], &postings));
    let unsold = FIRST_PERIOD.map(|(kind, numbers)| match kind {
        2 => (kind, &[][..]),
        _ => (kind, numbers),
    });
    expect("", &journal(&[0], &unsold));
}

#[test]
fn a_journal_has_as_many_sheets_as_there_is_room_for() {
    // The least record of sales has 10 bytes, a settlement 18, and six months' ends 12.
    let mut postings: Vec<Listed> = vec![(5, &[]); 5];
    let mut bytes = 1 + 10;
    let mut sheets = 0;
    while bytes + 40 <= 65_536 {
        postings.extend([(2, &[1][..]), (4, &[1_000, 1_000])]);
        postings.extend([(5, &[][..]); 6]);
        bytes += 40;
        sheets += 1;
    }
    let input = journal(&[1], &postings);
    assert_eq!((input.len(), sheets), (bytes, 1_638));
    let text = super::printed(&input, "as many sheets as there is room for");
    assert_eq!(text.len(), 1_297 * sheets - 1);
    let rows = text.split_inclusive('\n');
    let blank = rows.clone().filter(|&row| row == "\n").count();
    assert_eq!(blank, sheets - 1);
    assert!(rows.clone().all(|row| row == "\n" || row.len() == 81));
}
