//! Rows of reading and writing records.

use crate::measure::{add, prepare, without_book, Measurement, CASES};
use crate::rows::Row;
use crate::writers::{writer, BUFFER};
use std::hint::black_box;
use twin::random::Random;
use twin::records::{Book, Posting, Read};
use twin::written::Written;
use twin::{proved, records};

/// The book whose records are read and written.
const BOOK: Book = Book::Electric;

pub fn rows() -> Vec<Row> {
    vec![
        Row::new("record_read", read),
        Row::new("record_write", write),
    ]
}

fn read() -> Measurement {
    let journal = journal_of(&prepare(ledger_posting));
    let proved = |bytes: &[u8], place| proved::read_record(BOOK, bytes, place);
    let twin = |bytes: &[u8], place| records::read_record(BOOK, bytes, place);
    without_book(CASES, || walk(&journal, proved), || walk(&journal, twin))
}

fn write() -> Measurement {
    writer(
        &prepare(ledger_posting),
        |posting, buffer| proved::write_record(BOOK, posting, buffer),
        |posting, buffer| records::write_record(BOOK, posting, buffer),
    )
}

/// Reads record after record, and gives a checksum of the postings.
fn walk(journal: &[u8], read: impl Fn(&[u8], usize) -> Read) -> u64 {
    let journal = black_box(journal);
    let (mut place, mut sum) = (0, 0);
    for _ in 0..CASES {
        let Read::Found { posting, next } = read(journal, place) else {
            panic!("no record at {place}");
        };
        sum = add(sum, posting.kind.into());
        for number in posting.numbers {
            sum = add(sum, number as u64);
        }
        place = next;
    }
    sum
}

fn journal_of(postings: &[Posting]) -> Vec<u8> {
    let mut journal = Vec::new();
    for &posting in postings {
        let mut buffer = [0; BUFFER];
        match records::write_record(BOOK, posting, &mut buffer) {
            Written::Length(length) => journal.extend(&buffer[..length]),
            Written::Refused(number) => panic!("refusal {number} of {posting:?}"),
        }
    }
    journal
}

/// A posting as months have them: most are bills, of which most are secondary and have no level.
fn ledger_posting(random: &mut Random) -> Posting {
    let kind = random.one_of(&[1, 1, 2, 2, 3, 3, 3, 3, 3, 3, 3, 3, 3, 3, 4, 5, 6]);
    let mut number = |tenths, low, high| match random.within(1, 10) <= tenths {
        true => random.within(low, high),
        false => 0,
    };
    let numbers = match kind {
        1 => [
            number(10, 1, 1_000_000_000),
            number(7, 1, 500_000_000),
            number(3, -1_000_000, 1_000_000),
        ],
        2 | 4 => [number(10, 1, 1_000_000_000), number(9, 1, 500_000_000), 0],
        3 => [number(2, 1, 1), number(10, -2_000, 50_000), 0],
        5 => [number(9, 1, 200_000), 0, 0],
        _ => [number(4, 1, 1), number(10, -10_000_000, 10_000_000), 0],
    };
    Posting { kind, numbers }
}
