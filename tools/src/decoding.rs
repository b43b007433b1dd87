//! Bytes to lines.

use crate::damage::Damage;
use crate::fields::Field;
use crate::vocabulary::{
    Book, Kind, BYTES, DIVISIONS, FIELD_LENGTH, HEAD_LENGTH, LONGEST_JOURNAL, QUARTERS,
    STEAM_OPENING, STEAM_OPENING_LENGTH,
};

/// Bytes on one line of raw ones.
const BYTES_A_LINE: usize = 16;

/// Lines that [`to_bytes`](crate::to_bytes) turns into the same bytes.
///
/// From the first byte on that starts no opening or record, all bytes stand in `bytes` lines.
pub fn to_lines(journal: &[u8]) -> String {
    let mut lines = Vec::from_iter(length_comment(journal.len()));
    let mut place = 0;
    while place < journal.len() {
        match line_at(journal, place) {
            Ok((line, length)) => {
                lines.push(line);
                place += length;
            }
            Err(damage) => {
                lines.push(format!("# byte {place} (the first is 0): {damage}"));
                lines.extend(journal[place..].chunks(BYTES_A_LINE).map(raw_line));
                break;
            }
        }
    }
    lines.into_iter().map(|line| line + "\n").collect()
}

/// How far the bytes are an opening and whole records, from a place on up to which they are.
pub fn whole_until(journal: &[u8], mut place: usize) -> usize {
    while place < journal.len() {
        match line_at(journal, place) {
            Ok((_, length)) => place += length,
            Err(_) => break,
        }
    }
    place
}

/// A comment where no opening is read, whatever the bytes are.
fn length_comment(length: usize) -> Option<String> {
    match length {
        0 => Some("# no bytes (refused 1)".to_string()),
        1..=LONGEST_JOURNAL => None,
        _ => Some(format!(
            "# {length} bytes, more than {LONGEST_JOURNAL} (refused 7)"
        )),
    }
}

fn raw_line(bytes: &[u8]) -> String {
    let pairs = bytes.iter().map(|byte| format!(" {byte:02X}"));
    [BYTES.to_string()].into_iter().chain(pairs).collect()
}

/// The line of the opening or record at the place, and how many bytes it stands for.
fn line_at(journal: &[u8], place: usize) -> Result<(String, usize), Damage> {
    match Book::opened_by(journal) {
        Some(book) if place > 0 => record(book, &journal[place..]),
        _ => opening(journal),
    }
}

fn opening(journal: &[u8]) -> Result<(String, usize), Damage> {
    let byte = journal[0];
    match Book::opened_by(journal) {
        Some(Book::Electric) => Ok((format!("electric {}", DIVISIONS[usize::from(byte)]), 1)),
        Some(Book::Steam) => {
            let quarters = numbers(&journal[1..STEAM_OPENING_LENGTH]);
            Ok((line("steam", &QUARTERS, quarters), STEAM_OPENING_LENGTH))
        }
        None if byte == STEAM_OPENING => Err(Damage::OpeningCut {
            remain: journal.len(),
        }),
        None => Err(Damage::UnknownOpening(byte)),
    }
}

/// The first damage in the paper's order of checking, or the record's line.
fn record(book: Book, bytes: &[u8]) -> Result<(String, usize), Damage> {
    let &[number, bit_map, ..] = bytes else {
        return Err(Damage::HeadCut);
    };
    let unknown = Damage::UnknownKind { book, kind: number };
    let kind = book.kind_of_number(number).ok_or(unknown)?;
    if bit_map >> kind.fields.len() != 0 {
        let word = kind.word;
        return Err(Damage::StrayBit { word, bit_map });
    }
    let length = HEAD_LENGTH + FIELD_LENGTH * bit_map.count_ones() as usize;
    let cut = Damage::RecordCut {
        length,
        remain: bytes.len(),
    };
    let fields = bytes.get(HEAD_LENGTH..length).ok_or(cut)?;
    let numbers = spread(kind, bit_map, numbers(fields))?;
    Ok((line(kind.word, kind.fields, numbers), length))
}

fn numbers(fields: &[u8]) -> impl Iterator<Item = i64> + '_ {
    let fields = fields.chunks_exact(FIELD_LENGTH);
    fields.map(|field| {
        field
            .iter()
            .fold(0, |number, &byte| number << 8 | i64::from(byte))
    })
}

/// A number for each field of the kind, an absent one being 0.
fn spread(
    kind: &Kind,
    bit_map: u8,
    mut written: impl Iterator<Item = i64>,
) -> Result<Vec<i64>, Damage> {
    let mut numbers = Vec::new();
    for (bit, &field) in kind.fields.iter().enumerate() {
        let number = match bit_map >> bit & 1 {
            0 => None,
            _ => written.next(),
        };
        if number == Some(0) {
            return Err(Damage::FieldOfZero { field });
        }
        numbers.push(number.unwrap_or(0));
    }
    Ok(numbers)
}

fn line(word: &str, fields: &[Field], numbers: impl IntoIterator<Item = i64>) -> String {
    let words = fields.iter().zip(numbers);
    let words = words.map(|(field, number)| format!(" {}", field.word_of(number)));
    [word.to_string()].into_iter().chain(words).collect()
}
