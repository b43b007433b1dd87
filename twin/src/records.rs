//! The paper's posting records: a kind, a bit map, and the fields that are not 0.

use crate::refusals::{FIELD_LACKED_BY_KIND, FIELD_OF_ZERO, INPUT_ENDS, RECORD_CUT, UNKNOWN_KIND};
use crate::written::{Refusal, Written, BUFFER_TOO_SHORT};

pub const COST: u8 = 1;
pub const SALES: u8 = 2;
pub const BILL: u8 = 3;
pub const SETTLE: u8 = 4;
pub const MONTH_END: u8 = 5;
pub const ADJUST: u8 = 6;
/// Of the steam book alone.
pub const RECONCILE: u8 = 7;

#[derive(Clone, Copy, Debug, PartialEq, Eq)]
pub enum Book {
    Electric,
    Steam,
}

/// A posting in memory; a number that its kind lacks is 0.
///
/// Its layout is that of C for a byte and three numbers, as the proved functions take and give it.
#[repr(C)]
#[derive(Clone, Copy, Debug, PartialEq, Eq)]
pub struct Posting {
    pub kind: u8,
    pub numbers: [i64; 3],
}

/// What a reader answers.
#[derive(Clone, Copy, Debug, PartialEq, Eq)]
pub enum Read {
    /// The posting, and the place past its record.
    Found { posting: Posting, next: usize },
    /// The refusal, and the place of reading as it was.
    Refused { number: Refusal, place: usize },
}

/// The bits that the fields of a kind have, kind 1 first.
const ELECTRIC_FIELDS: [u8; 6] = [0b111, 0b11, 0b11, 0b11, 0b1, 0b11];
const STEAM_FIELDS: [u8; 7] = [0b1, 0b1, 0b1, 0b1, 0, 0b11, 0b11];

/// The kind and the bit map.
const HEAD_LENGTH: usize = 2;
const FIELD_LENGTH: usize = 8;

/// Whether a field is within so much of 0.
#[inline]
pub(crate) fn is_signed(number: i64, most: i64) -> bool {
    (-most..=most).contains(&number)
}

impl Book {
    /// The bits that the fields of the kind have, if the book has the kind.
    #[inline]
    fn fields(self, kind: u8) -> Option<u8> {
        let table: &[u8] = match self {
            Book::Electric => &ELECTRIC_FIELDS,
            Book::Steam => &STEAM_FIELDS,
        };
        table.get(usize::from(kind).wrapping_sub(1)).copied()
    }
}

// The proved functions are behind a C call, so for a fair benchmark these two are never inlined.

/// The posting whose record is at the place, which may be any number.
#[inline(never)]
pub fn read_record(book: Book, bytes: &[u8], place: usize) -> Read {
    // Past the end there is nothing to read, as at the end.
    let rest = bytes.get(place..).unwrap_or_default();
    match read_front(book, rest) {
        Ok((posting, length)) => Read::Found {
            posting,
            next: place + length,
        },
        Err(number) => Read::Refused { number, place },
    }
}

/// The posting whose record is at the front and the record's length, or the refusal.
#[inline]
fn read_front(book: Book, bytes: &[u8]) -> Result<(Posting, usize), Refusal> {
    let &[kind, bit_map, ..] = bytes else {
        return Err(INPUT_ENDS);
    };
    let kind_fields = book.fields(kind).ok_or(UNKNOWN_KIND)?;
    if bit_map & !kind_fields != 0 {
        return Err(FIELD_LACKED_BY_KIND);
    }
    let length = record_length(bit_map);
    let mut fields = bytes.get(HEAD_LENGTH..length).ok_or(RECORD_CUT)?;
    let mut numbers = [0; 3];
    for (bit, number) in numbers.iter_mut().enumerate() {
        if bit_map >> bit & 1 == 1 {
            let (field, after) = fields.split_first_chunk().expect("the record is whole");
            *number = i64::from_be_bytes(*field);
            if *number == 0 {
                return Err(FIELD_OF_ZERO);
            }
            fields = after;
        }
    }
    Ok((Posting { kind, numbers }, length))
}

/// Writes the record of the posting, whatever the ranges of its numbers.
#[inline(never)]
pub fn write_record(book: Book, posting: Posting, buffer: &mut [u8]) -> Written {
    let Posting { kind, numbers } = posting;
    let Some(kind_fields) = book.fields(kind) else {
        return Written::Refused(UNKNOWN_KIND);
    };
    let bit_map = standing_bits(&numbers);
    if bit_map & !kind_fields != 0 {
        return Written::Refused(FIELD_LACKED_BY_KIND);
    }
    let length = record_length(bit_map);
    let Some(record) = buffer.get_mut(..length) else {
        return Written::Refused(BUFFER_TOO_SHORT);
    };
    record[0] = kind;
    record[1] = bit_map;
    let mut end = HEAD_LENGTH;
    for number in numbers {
        if number != 0 {
            record[end..end + FIELD_LENGTH].copy_from_slice(&number.to_be_bytes());
            end += FIELD_LENGTH;
        }
    }
    Written::Length(length)
}

/// The bit map of the numbers that are not 0, the first one's bit lowest.
#[inline]
fn standing_bits(numbers: &[i64; 3]) -> u8 {
    let bits = numbers.iter().enumerate();
    bits.fold(0, |map, (bit, &number)| map | u8::from(number != 0) << bit)
}

#[inline]
fn record_length(bit_map: u8) -> usize {
    // No kind has a fourth field, and a count of three bits is quicker than one of eight.
    HEAD_LENGTH + FIELD_LENGTH * (bit_map & 0b111).count_ones() as usize
}
