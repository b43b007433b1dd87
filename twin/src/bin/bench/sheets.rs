//! The row of a settlement's sheet.

use crate::cases::of_kind;
use crate::measure::{add, without_book, Measurement, SEED};
use crate::rows::Row;
use std::hint::black_box;
use twin::electric::sheet::{self, SHEET_LENGTH};
use twin::electric::{ElectricBook, Sales};
use twin::proved;
use twin::random::Random;
use twin::records::SETTLE;
use twin::written::Written;

/// So many in a pass take as long as the thousands of calls of other rows.
const SETTLEMENTS: usize = 256;

/// A book, and what its settlement estimates.
type Settlement = (ElectricBook, Sales);

type Page = [u8; SHEET_LENGTH];

pub fn rows() -> Vec<Row> {
    vec![Row::new("sheet", sheet)]
}

/// Measures whole sheets of settlements as a utility has them, none of which is refused.
fn sheet() -> Measurement {
    let cases = of_kind(SETTLE, &mut Random::new(SEED));
    let settlements: Vec<Settlement> = cases
        .into_iter()
        .take(SETTLEMENTS)
        .map(|(book, posting)| {
            let [secondary, primary, _] = posting.numbers;
            (book, Sales { secondary, primary })
        })
        .collect();
    check(&settlements)?;
    without_book(
        settlements.len(),
        || write_each(&settlements, proved::electric_sheet),
        || write_each(&settlements, sheet::write),
    )
}

/// Holds both sides to the same page, and to a sheet for each settlement.
fn check(settlements: &[Settlement]) -> Result<(), String> {
    if settlements.len() != SETTLEMENTS {
        let count = settlements.len();
        return Err(format!("{count} cases where {SETTLEMENTS} are meant"));
    }
    for &(book, estimates) in settlements {
        let (mut proved_page, mut twin_page): (Page, Page) = ([0; SHEET_LENGTH], [0; SHEET_LENGTH]);
        let proved = proved::electric_sheet(book, estimates, &mut proved_page);
        let twin = sheet::write(book, estimates, &mut twin_page);
        if (proved, proved_page) != (twin, twin_page) {
            return Err(format!("the sides differ in {estimates:?} on {book:?}"));
        }
        if twin != Written::Length(SHEET_LENGTH) {
            return Err(format!("{twin:?} where a sheet is meant, on {book:?}"));
        }
    }
    Ok(())
}

/// Writes every sheet to the same page, and gives a checksum of the lengths and of the last factors.
fn write_each(
    settlements: &[Settlement],
    write: impl Fn(ElectricBook, Sales, &mut [u8]) -> Written,
) -> u64 {
    let mut page: Page = [0; SHEET_LENGTH];
    let mut sum = 0;
    for &(book, estimates) in black_box(settlements) {
        match write(book, estimates, black_box(&mut page)) {
            Written::Length(length) => sum = add(add(sum, length as u64), last_word(&page)),
            Written::Refused(number) => panic!("refusal {number} of a page for a sheet"),
        }
    }
    sum
}

fn last_word(page: &Page) -> u64 {
    let word = page.last_chunk().expect("a page is longer than a word");
    u64::from_le_bytes(*word)
}
