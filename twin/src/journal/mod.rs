//! The paper's journal program: all that it prints for the bytes of a journal.

mod kept;
mod lines;
pub mod sheets;

use crate::electric::{self, ElectricBook};
use crate::posted::Replied;
use crate::records::{read_record, Posting, Read};
use crate::refusals::{FIELD_OUT_OF_RANGE, INPUT_ENDS};
use crate::steam::{self, SteamBook};
use crate::written::{write_to_front, Refusal, Written};
use kept::Kept;
use lines::Lines;

/// The most bytes of a journal.
pub const LONGEST_INPUT: usize = 65_536;

/// The first byte of a steam journal; that of an electric one is its division.
pub const STEAM: u8 = 2;

/// The kind that the line of a record that cannot be read has.
const KIND_OF_UNREAD: u8 = 0;

/// The fresh book of an accepted opening.
enum Opened {
    Electric(ElectricBook),
    Steam(SteamBook),
}

/// All that the program prints.
pub fn printed(input: &[u8]) -> Vec<u8> {
    printed_by::<false>(input)
}

/// As above, where postings change the book in place, or else take and give it by value.
fn printed_by<const IN_PLACE: bool>(input: &[u8]) -> Vec<u8> {
    match open(input) {
        Err(number) => Lines::of_refused_opening(number),
        Ok((Opened::Electric(book), records)) => run::<_, IN_PLACE>(book, records),
        Ok((Opened::Steam(book), records)) => run::<_, IN_PLACE>(book, records),
    }
}

// The proved functions are behind a C call, so for a fair benchmark these three are never inlined.

/// Writes all that the program prints, or refuses and leaves every byte of the buffer as it was.
#[inline(never)]
pub fn write(input: &[u8], buffer: &mut [u8]) -> Written {
    write_to_front(&printed(input), buffer)
}

/// As above, with a book that is changed in place.
#[inline(never)]
pub fn write_in_place(input: &[u8], buffer: &mut [u8]) -> Written {
    write_to_front(&printed_by::<true>(input), buffer)
}

/// How many bytes the program prints.
#[inline(never)]
pub fn length(input: &[u8]) -> usize {
    printed(input).len()
}

/// The fresh book and the bytes of the records, or the refusal of the opening.
fn open(input: &[u8]) -> Result<(Opened, &[u8]), Refusal> {
    if input.len() > LONGEST_INPUT {
        return Err(FIELD_OUT_OF_RANGE);
    }
    let (&first, rest) = input.split_first().ok_or(INPUT_ENDS)?;
    let (number, opened, records) = if first == STEAM {
        let (quarters, records) = split_quarters(rest).ok_or(FIELD_OUT_OF_RANGE)?;
        let [first, second, third, fourth] = quarters;
        let posted = steam::open(first, second, third, fourth);
        (posted.reply.number, Opened::Steam(posted.book), records)
    } else {
        let posted = electric::open(first);
        (posted.reply.number, Opened::Electric(posted.book), rest)
    };
    match number {
        0 => Ok((opened, records)),
        number => Err(number.into()),
    }
}

/// Four quarters, oldest first, and the bytes after them.
fn split_quarters(bytes: &[u8]) -> Option<([i64; 4], &[u8])> {
    let (quarters, rest) = bytes.split_first_chunk::<32>()?;
    let (fields, _) = quarters.as_chunks::<8>();
    Some((
        [0, 1, 2, 3].map(|index| i64::from_be_bytes(fields[index])),
        rest,
    ))
}

/// Posts record after record until one cannot be read or none is left.
fn run<Book: Kept, const IN_PLACE: bool>(fresh: Book, records: &[u8]) -> Vec<u8> {
    let mut lines = Lines::for_records(records.len());
    let (mut book, mut place) = (fresh, 0);
    while place < records.len() {
        match read_record(Book::BOOK, records, place) {
            Read::Found { posting, next } => {
                match IN_PLACE {
                    true => enter_in_place(&mut book, posting, &mut lines),
                    false => book = enter(book, posting, &mut lines),
                }
                place = next;
            }
            Read::Refused { number, .. } => {
                lines.refused(KIND_OF_UNREAD, number);
                break;
            }
        }
    }
    lines.text
}

/// Posts to the book and prints the line; gives the book afterwards.
fn enter<Book: Kept>(book: Book, posting: Posting, lines: &mut Lines) -> Book {
    let posted = book.post(posting);
    print::<Book>(posting.kind, posted.reply, lines);
    posted.book
}

/// As above, where the book becomes the next one.
fn enter_in_place<Book: Kept>(book: &mut Book, posting: Posting, lines: &mut Lines) {
    let reply = book.post_in_place(posting);
    print::<Book>(posting.kind, reply, lines);
}

#[inline]
fn print<Book: Kept>(kind: u8, reply: Book::Reply, lines: &mut Lines) {
    match reply.number() {
        0 => lines.accepted(kind, Book::answer(kind, reply)),
        number => lines.refused(kind, number.into()),
    }
}

#[cfg(test)]
mod tests {
    use super::{printed, printed_by};
    use crate::generate::journals::Journal;

    #[test]
    fn a_book_in_place_prints_the_same() {
        for seed in 1..=200 {
            let input = Journal::of_seed(seed).bytes;
            assert_eq!(printed_by::<true>(&input), printed(&input), "seed {seed}");
        }
    }
}
