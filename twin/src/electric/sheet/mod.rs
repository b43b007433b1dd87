//! Sheet 127 of a settlement, as rate staff file it: sixteen rows of eighty characters.

mod cells;
mod figures;
mod rows;

use super::book::{ElectricBook, Sales};
use crate::written::{write_to_front, Refusal, Written};
use figures::Figures;
use rows::{rows, ROWS, ROW_LENGTH};

/// A row and its line feed.
const LINE_LENGTH: usize = ROW_LENGTH + 1;

pub const SHEET_LENGTH: usize = ROWS * LINE_LENGTH;

// The proved function is behind a C call, so for a fair benchmark this one is never inlined.

/// Writes the sheet of the settlement with those estimates to the front of the page.
///
/// The settlement's own refusal comes before that of a page too short; either leaves the page as it was.
#[inline(never)]
pub fn write(book: ElectricBook, estimates: Sales, page: &mut [u8]) -> Written {
    match printed(book, estimates) {
        Ok(sheet) => write_to_front(&sheet, page),
        Err(number) => Written::Refused(number),
    }
}

/// The sheet of the settlement with those estimates, or the settlement's refusal.
pub fn printed(book: ElectricBook, estimates: Sales) -> Result<[u8; SHEET_LENGTH], Refusal> {
    let figures = Figures::of_settlement(book, estimates)?;
    let mut sheet = [b' '; SHEET_LENGTH];
    let lines = sheet.chunks_exact_mut(LINE_LENGTH);
    for (row, line) in rows(&figures).iter().zip(lines) {
        let (characters, line_feed) = line.split_at_mut(ROW_LENGTH);
        row.set(characters);
        line_feed.fill(b'\n');
    }
    Ok(sheet)
}
