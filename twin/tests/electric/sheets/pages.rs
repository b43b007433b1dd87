//! Pages of every length, and refusals, with which a page keeps its bytes.

use super::listed::{document_01_book, ESTIMATES};
use super::sides::{listed, SHEET};
use twin::amounts::CENTS_LIMIT;
use twin::calendar::{JUNE, MAY};
use twin::electric::{ElectricBook, Sales};

/// Lengths with no room for a sheet, with room for no more, and with room for more.
const LENGTHS: [usize; 8] = [0, 1, 81, SHEET - 1, SHEET, SHEET + 1, 2 * SHEET, 10_000];

#[test]
fn a_page_of_every_length_is_refused_or_has_the_sheet() {
    let sheet = listed(document_01_book(), ESTIMATES, SHEET);
    for length in 0..=SHEET + 200 {
        let met = listed(document_01_book(), ESTIMATES, length);
        match length < SHEET {
            true => assert_eq!(met, Err(13), "a page of {length}"),
            false => assert_eq!(met, sheet, "a page of {length}"),
        }
    }
}

/// A settlement that is refused with the number, on pages of any length.
fn expect_refusal(number: usize, book: ElectricBook, estimates: [i64; 2]) {
    for length in LENGTHS {
        let met = listed(book, estimates, length);
        assert_eq!(met, Err(number), "{book:?} on a page of {length}");
    }
}

#[test]
fn the_settlement_is_refused_before_the_page() {
    let book = document_01_book();
    let mut past_limits = book;
    past_limits.period.cost = CENTS_LIMIT + 1;
    expect_refusal(6, past_limits, ESTIMATES);
    for estimates in [
        [0, 1],
        [1, 0],
        [-1, 1],
        [10_000_000_001, 1],
        [1, 10_000_000_001],
    ] {
        expect_refusal(7, book, estimates);
    }
    let mut untimely = book;
    untimely.month = JUNE;
    expect_refusal(8, untimely, ESTIMATES);
    let mut settled = book;
    settled.settled = true;
    expect_refusal(8, settled, ESTIMATES);
    let mut unsold = book;
    unsold.period.sales = Sales::default();
    expect_refusal(10, unsold, ESTIMATES);
    // No factor of 115,513 or of 75,437 cents for one kWh is stored.
    expect_refusal(12, book, [1, 800_000]);
    expect_refusal(12, book, [1_250_000, 1]);
}

#[test]
fn refusals_come_in_the_order_of_a_posting() {
    let mut book = document_01_book();
    book.month = JUNE;
    book.period.sales = Sales::default();
    book.secondary.carried = CENTS_LIMIT;
    book.secondary.interest = CENTS_LIMIT + 1;
    expect_refusal(6, book, [0, 1]);
    book.secondary.interest = CENTS_LIMIT;
    expect_refusal(7, book, [0, 1]);
    expect_refusal(8, book, ESTIMATES);
    book.month = MAY;
    expect_refusal(10, book, ESTIMATES);
    book.period.sales.primary = 1;
    expect_refusal(12, book, ESTIMATES);
}
