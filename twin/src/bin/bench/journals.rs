//! Rows of whole journals, in nanoseconds a record.

use crate::books::Measured;
use crate::cases::history;
use crate::measure::{add, timed, with_book, Measurement, SEED};
use crate::rows::Row;
use std::cell::RefCell;
use std::hint::black_box;
use twin::comparison::{compare, room, PROVED};
use twin::generate::journals::record_of;
use twin::journal::{self, LONGEST_INPUT};
use twin::proved;
use twin::random::Random;
use twin::written::Written;

/// More postings than the longest journal has records.
const POSTINGS: usize = 8_192;

pub fn rows<Book: Measured>() -> Vec<Row> {
    let journals = Book::NAMES.journals.iter();
    let row = |&(size, name)| Row::new(name, move || of_size::<Book>(size));
    journals.map(row).collect()
}

/// Measures journals as long as the size allows, every record of which is accepted.
///
/// They are so many that every row reads as many bytes in a pass, and no two are the same: what the
/// processor has learned of its input differs no more between rows than it must.
fn of_size<Book: Measured>(size: usize) -> Measurement {
    let mut random = Random::new(SEED);
    let journals: Vec<Vec<u8>> = (0..LONGEST_INPUT / size)
        .map(|_| journal_of::<Book>(&mut random, size))
        .collect();
    let mut records = 0;
    for input in &journals {
        records += records_of(input)?;
    }
    // With less room than any text may need, the proved side goes through a journal twice.
    let most_room = journals.iter().map(|input| room(input)).max();
    let buffer = RefCell::new(vec![0; most_room.unwrap_or_default()]);
    with_book(
        records,
        || write_each(&journals, &mut buffer.borrow_mut(), proved::journal),
        || write_each(&journals, &mut buffer.borrow_mut(), journal::write),
        || timed(|| write_each(&journals, &mut buffer.borrow_mut(), journal::write_in_place)),
    )
}

/// Writes the text of every journal, and gives a checksum of the lengths.
fn write_each(
    journals: &[Vec<u8>],
    buffer: &mut [u8],
    write: impl Fn(&[u8], &mut [u8]) -> Written,
) -> u64 {
    let mut sum = 0;
    for input in black_box(journals) {
        match write(input, black_box(buffer)) {
            Written::Length(length) => sum = add(sum, length as u64),
            Written::Refused(number) => panic!("refusal {number} of room enough"),
        }
    }
    sum
}

/// The journal of some years, up to the last record that the size has room for.
fn journal_of<Book: Measured>(random: &mut Random, size: usize) -> Vec<u8> {
    let history = history::<Book>(random, POSTINGS);
    let mut input = history[0].0.opening_bytes();
    for &(_, posting) in &history {
        let record = record_of(posting);
        if input.len() + record.len() > size {
            return input;
        }
        input.extend(record);
    }
    panic!("{POSTINGS} postings are too few for a journal of {size} bytes");
}

/// The number of records, if all sides print the same for them and refuse none.
fn records_of(input: &[u8]) -> Result<usize, String> {
    let text = compare(PROVED, input)?;
    let mut buffer = vec![0; text.len()];
    journal::write_in_place(input, &mut buffer);
    if buffer != text {
        return Err("a journal in place has another text".to_string());
    }
    match String::from_utf8_lossy(&text).contains("refused") {
        true => Err("a record is refused where all are meant to be accepted".to_string()),
        false => Ok(text.iter().filter(|&&byte| byte == b'\n').count()),
    }
}
