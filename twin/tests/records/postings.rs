//! Postings and their records by the paper's table, apart from both sides.

use crate::common::ToWrite;
use twin::random::Random;
use twin::records::{Book, Posting};
use twin::written::{Refusal, Written};
use twin::{proved, records};

pub const BOOKS: [Book; 2] = [Book::Electric, Book::Steam];

/// The fields of a kind by the paper's table, bit 0 first.
pub fn fields(book: Book, kind: u8) -> Option<&'static [&'static str]> {
    Some(match (book, kind) {
        (Book::Electric, 1) => &["F", "P", "E"],
        (Book::Electric, 2) => &["secondary", "primary"],
        (Book::Electric, 3) => &["level", "u"],
        (Book::Electric, 4) => &["Rs", "Rp"],
        (Book::Electric, 5) => &["r"],
        (Book::Electric, 6) => &["level", "amount"],
        (Book::Steam, 1) => &["cost"],
        (Book::Steam, 2) => &["sales"],
        (Book::Steam, 3) => &["u"],
        (Book::Steam, 4) => &["b"],
        (Book::Steam, 5) => &[],
        (Book::Steam, 6) => &["n", "g"],
        (Book::Steam, 7) => &["months", "D"],
        _ => return None,
    })
}

/// The kinds that the book has.
pub fn kinds(book: Book) -> &'static [u8] {
    match book {
        Book::Electric => &[1, 2, 3, 4, 5, 6],
        Book::Steam => &[1, 2, 3, 4, 5, 6, 7],
    }
}

/// The record of a posting, byte by byte.
pub fn record_of(posting: &Posting) -> Vec<u8> {
    let mut record = vec![posting.kind, 0];
    for (bit, &number) in posting.numbers.iter().enumerate() {
        if number != 0 {
            record[1] += [1, 2, 4][bit];
            record.extend((0..8).map(|byte| (number >> (56 - 8 * byte)) as u8));
        }
    }
    record
}

/// A field's number: its bytes as digits, the highest first, less 2^64 from 2^63 on.
pub fn number_of(field: &[u8]) -> i64 {
    let digits = field.iter().map(|&byte| i128::from(byte));
    let magnitude = digits.fold(0, |number, byte| 256 * number + byte);
    let sign_limit = 1_i128 << 63;
    let number = if magnitude < sign_limit {
        magnitude
    } else {
        magnitude - 2 * sign_limit
    };
    i64::try_from(number).expect("a field has 64 bits")
}

/// A posting to be written for a book.
#[derive(Clone, Copy, Debug)]
pub struct Entry {
    pub book: Book,
    pub posting: Posting,
}

impl ToWrite for Entry {
    fn write_proved(&self, buffer: &mut [u8]) -> Written {
        proved::write_record(self.book, self.posting, buffer)
    }

    fn write_twin(&self, buffer: &mut [u8]) -> Written {
        records::write_record(self.book, self.posting, buffer)
    }

    fn expected(&self) -> Result<Vec<u8>, Refusal> {
        let Some(fields) = fields(self.book, self.posting.kind) else {
            return Err(2);
        };
        let lacked = &self.posting.numbers[fields.len()..];
        if lacked.iter().any(|&number| number != 0) {
            return Err(3);
        }
        Ok(record_of(&self.posting))
    }
}

/// A number that is not 0: small or large, of either sign, at an end, or with one byte alone.
pub fn nonzero(random: &mut Random) -> i64 {
    match random.below(8) {
        0 => random.one_of(&[1, -1, i64::MIN, i64::MAX]),
        1 => random.within(1, 255) << (8 * random.below(8)),
        _ => match random.signed_of_any_length() {
            0 => -256,
            number => number,
        },
    }
}

/// A posting that has a record, each of its fields 0 or not.
pub fn posting_of(book: Book, random: &mut Random) -> Posting {
    let kind = random.one_of(kinds(book));
    let count = fields(book, kind).map_or(0, <[_]>::len);
    let mut numbers = [0; 3];
    for number in &mut numbers[..count] {
        if random.coin() {
            *number = nonzero(random);
        }
    }
    Posting { kind, numbers }
}
