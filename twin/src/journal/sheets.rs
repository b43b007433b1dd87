//! The program `sheets`: the factor sheet of each settlement that a journal's electric book takes.

use super::lines::Lines;
use super::{open, Opened, KIND_OF_UNREAD};
use crate::electric::{post, sheet, ElectricBook, Sales};
use crate::records::{read_record, Book, Posting, Read, SETTLE};
use crate::refusals::FIELD_OUT_OF_RANGE;

/// All that the program prints.
pub fn printed(input: &[u8]) -> Vec<u8> {
    match open(input) {
        Ok((Opened::Electric(book), records)) => run(book, records),
        Ok((Opened::Steam(_), _)) => Lines::of_refused_opening(FIELD_OUT_OF_RANGE),
        Err(number) => Lines::of_refused_opening(number),
    }
}

/// The sheets, and the line of a record that cannot be read; a blank line stands between two of them.
fn run(mut book: ElectricBook, records: &[u8]) -> Vec<u8> {
    let mut parts: Vec<Vec<u8>> = Vec::new();
    let (mut place, mut record) = (0, 0);
    while place < records.len() {
        record += 1;
        match read_record(Book::Electric, records, place) {
            Read::Found { posting, next } => {
                parts.extend(sheet_of(book, posting));
                book = post(book, posting).book;
                place = next;
            }
            Read::Refused { number, .. } => {
                parts.push(Lines::of_refused(record, KIND_OF_UNREAD, number));
                break;
            }
        }
    }
    parts.join(&b'\n')
}

/// The sheet of a settlement that the book takes.
fn sheet_of(book: ElectricBook, posting: Posting) -> Option<Vec<u8>> {
    let Posting {
        kind: SETTLE,
        numbers: [secondary, primary, _],
    } = posting
    else {
        return None;
    };
    let sheet = sheet::printed(book, Sales { secondary, primary }).ok()?;
    Some(sheet.to_vec())
}
