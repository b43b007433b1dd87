//! Journals of the paper's example and figures, with all that they print.

use crate::sides::expect;
use crate::written::{journal, steam};

#[test]
fn the_example_is_printed() {
    let example = [
        0x00, 0x01, 0x01, 0, 0, 0, 0, 0, 0x1e, 0x84, 0x80, 0x03, 0x02, 0, 0, 0, 0, 0, 0, 0x03,
        0xe8, 0x04, 0x03, 0, 0, 0, 0, 0, 0, 0, 0x01, 0, 0, 0, 0, 0, 0, 0, 0x01,
    ];
    expect("1 1 done\n2 3 line 0.00\n3 4 refused 8\n", &example);
}

#[test]
fn a_settlement_is_filed_and_then_billed() {
    let settled: [(u8, &[i64]); 8] = [
        (1, &[2_000_000]),
        (2, &[600_000, 400_000]),
        (5, &[]),
        (5, &[]),
        (5, &[]),
        (5, &[]),
        (5, &[]),
        (4, &[1_250_000, 800_000]),
    ];
    // November to February; then run 1 has both factors 9.
    let billed: [(u8, &[i64]); 8] = [
        (5, &[]),
        (5, &[]),
        (5, &[]),
        (5, &[]),
        (3, &[0, -1_000]),
        (3, &[1, 1_000]),
        (3, &[0, -5]),
        (3, &[1, 6]),
    ];
    let text = "1 1 done\n2 2 done\n3 5 interest 0.00 0.00\n4 5 interest 0.00 0.00\n\
        5 5 interest 0.00 0.00\n6 5 interest 0.00 0.00\n7 5 interest 0.00 0.00\n\
        8 4 filed 0.0009 0.0009\n9 5 interest 0.00 0.00\n10 5 interest 0.00 0.00\n\
        11 5 interest 0.00 0.00\n12 5 interest 0.00 0.00\n13 3 line -0.90\n14 3 line 0.90\n\
        15 3 line 0.00\n16 3 line 0.01\n";
    expect(text, &journal(&[0], &[settled, billed].concat()));
}

#[test]
fn interest_is_that_of_the_month() {
    // Adjusted to what bore interest in June; the interest itself bears none in July.
    let postings: [(u8, &[i64]); 5] = [
        (6, &[0, 1_200_000]),
        (6, &[1, -100]),
        (5, &[60_000]),
        (5, &[60_000]),
        (5, &[]),
    ];
    let text = "1 6 done\n2 6 done\n3 5 interest 60.00 -0.01\n4 5 interest 60.00 -0.01\n\
        5 5 interest 0.00 0.00\n";
    for division in [0, 1] {
        expect(text, &journal(&[division], &postings));
    }
}

#[test]
fn a_steam_quarter_is_filed_and_adjustments_are_held_to_fuel_cost() {
    let postings: [(u8, &[i64]); 10] = [
        (1, &[3_700_000]),
        (2, &[10_000]),
        (5, &[]),
        (5, &[]),
        (4, &[]),
        (2, &[1]),
        (5, &[]),
        (6, &[100_000, 1_000_000]),
        (6, &[100_001, 1_000_000]),
        (7, &[12, 100_000]),
    ];
    let text = "1 1 done\n2 2 done\n3 5 done\n4 5 done\n5 4 filed 0.1390\n6 2 refused 8\n\
        7 5 done\n8 6 refused 11\n9 6 done\n10 7 done\n";
    expect(text, &journal(&steam([10_000; 4]), &postings));
}
