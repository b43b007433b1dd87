//! Lines to bytes.

use crate::decoding::whole_until;
use crate::fields::Field;
use crate::messages::{shown, Fault, LineError, Message};
use crate::vocabulary::{pattern, Book, Kind, BYTES, DIVISIONS, QUARTERS, STEAM_OPENING};

const EITHER_BOOK: &[Book] = &[Book::Electric, Book::Steam];

/// Some editors write it in front of a text in UTF-8.
const BYTE_ORDER_MARK: char = '\u{feff}';

const REFUSED: &str = "the ledger refuses it (7)";
const REFUSED_WITH_ALL: &str = "the ledger refuses it (7), and with it the whole journal";

/// What lines give.
#[derive(Clone, Debug, PartialEq, Eq)]
pub struct Reading {
    /// The bytes of the journal, unless a line is wrong.
    pub journal: Option<Vec<u8>>,
    /// What is told of the lines, in their order.
    pub messages: Vec<Message>,
}

/// The bytes of the journal that the lines describe, or an error for each wrong line.
pub fn to_bytes(text: &str) -> Result<Vec<u8>, Vec<LineError>> {
    let Reading { journal, messages } = read_lines(text);
    let errors = messages.into_iter().filter_map(|message| match message {
        Message::Error(error) => Some(error),
        Message::Warning(_) => None,
    });
    journal.ok_or_else(|| errors.collect())
}

/// The same bytes, with the warnings too: of each number that the ledger refuses.
pub fn read_lines(text: &str) -> Reading {
    let mut draft = Draft::default();
    let mut messages = Vec::new();
    let text = text.strip_prefix(BYTE_ORDER_MARK).unwrap_or(text);
    for (number, line) in (1..).zip(text.lines()) {
        let line = line.split('#').next().unwrap_or_default();
        let words: Vec<&str> = line.split_whitespace().collect();
        match draft.add(&words) {
            Ok(faults) => {
                let warning = |fault| Message::warning(number, line, fault);
                messages.extend(faults.into_iter().map(warning));
            }
            Err(fault) => messages.push(Message::Error(fault.at(number, line))),
        }
    }
    let is_error = |message: &Message| matches!(message, Message::Error(_));
    let journal = (!messages.iter().any(is_error)).then_some(draft.bytes);
    Reading { journal, messages }
}

/// A right line: its bytes, and a warning of each number that the ledger refuses.
struct Taken {
    bytes: Vec<u8>,
    warnings: Vec<String>,
}

impl Taken {
    fn raw(bytes: Vec<u8>) -> Self {
        let warnings = Vec::new();
        Self { bytes, warnings }
    }

    fn judged(bytes: Vec<u8>, fields: &[Field], numbers: &[i64], refused: &str) -> Self {
        let numbers = fields.iter().zip(numbers);
        let faults = numbers.filter_map(|(field, &number)| field.range_fault(number));
        let warnings = faults.map(|fault| format!("{fault}; {refused}")).collect();
        Self { bytes, warnings }
    }
}

/// The journal up to a line.
#[derive(Default)]
struct Draft {
    bytes: Vec<u8>,
    has_first_line: bool,
    /// Where the opening is wrong, the books that the lines after it may still be of.
    supposed: Option<&'static [Book]>,
    /// How far the bytes were whole records at the last raw ones.
    whole: usize,
    /// Whether raw bytes above are no whole records, so that the run ends there or reads other records than the lines say.
    is_broken: bool,
}

impl Draft {
    /// Takes a line, and gives the warnings of it.
    fn add(&mut self, words: &[&str]) -> Result<Vec<String>, Fault> {
        let Some((&word, rest)) = words.split_first() else {
            return Ok(Vec::new());
        };
        let is_first = !self.has_first_line;
        self.has_first_line = true;
        let taken = self.taken(word, rest, is_first)?;
        self.bytes.extend(taken.bytes);
        if word == BYTES {
            self.whole = whole_until(&self.bytes, self.whole);
            self.is_broken = self.whole < self.bytes.len();
        }
        let warnings = if self.is_broken {
            Vec::new()
        } else {
            taken.warnings
        };
        Ok(warnings)
    }

    fn taken(&mut self, word: &str, rest: &[&str], is_first: bool) -> Result<Taken, Fault> {
        match (word, is_first) {
            (BYTES, _) => self.raw(rest),
            ("electric", true) => self.opened(&[Book::Electric], electric_opening(rest)),
            ("steam", true) => self.opened(&[Book::Steam], steam_opening(rest)),
            (_, true) => self.opened(EITHER_BOOK, Err(no_opening(word))),
            ("electric" | "steam", false) => Err(second_opening(word)),
            (_, false) => record_of_any(self.books(), word, rest),
        }
    }

    fn opened(
        &mut self,
        supposed: &'static [Book],
        opening: Result<Taken, Fault>,
    ) -> Result<Taken, Fault> {
        if opening.is_err() {
            self.supposed = Some(supposed);
        }
        opening
    }

    fn raw(&mut self, words: &[&str]) -> Result<Taken, Fault> {
        let bytes = raw_bytes(words);
        // Right bytes might have made the opening, so the lines after these are not blamed for it.
        if bytes.is_err() && self.books().is_empty() {
            self.supposed = Some(EITHER_BOOK);
        }
        bytes.map(Taken::raw)
    }

    /// The books that a record here may be of.
    fn books(&self) -> &'static [Book] {
        match (self.supposed, Book::opened_by(&self.bytes)) {
            (Some(books), _) => books,
            (None, Some(Book::Electric)) => &[Book::Electric],
            (None, Some(Book::Steam)) => &[Book::Steam],
            (None, None) => &[],
        }
    }
}

fn no_opening(word: &str) -> Fault {
    let fault = format!("{} opens no book", shown(word));
    let electric = electric_patterns(", ");
    let steam = pattern("steam", &QUARTERS);
    Fault::new(fault, format!("{electric}, {steam} or {BYTES}"))
}

fn second_opening(word: &str) -> Fault {
    let fault = format!("{word} may stand in the first line alone");
    Fault::new(fault, format!("a record or {BYTES}"))
}

fn electric_patterns(parting: &str) -> String {
    DIVISIONS
        .map(|division| format!("electric {division}"))
        .join(parting)
}

fn electric_opening(words: &[&str]) -> Result<Taken, Fault> {
    let division = match words {
        [word] => DIVISIONS.iter().position(|division| division == word),
        _ => None,
    };
    match (division, words) {
        (Some(opening), _) => Ok(Taken::raw(vec![opening as u8])),
        (None, [word]) => {
            let fault = format!("{} is no division", shown(word));
            Err(Fault::new(fault, electric_patterns(" or ")))
        }
        (None, _) => Err(Fault::new(
            word_count("electric", words.len()),
            electric_patterns(" or "),
        )),
    }
}

fn steam_opening(words: &[&str]) -> Result<Taken, Fault> {
    let quarters = numbers("steam", &QUARTERS, words)?;
    let fields = quarters.iter().flat_map(|quarter| quarter.to_be_bytes());
    let bytes = [STEAM_OPENING].into_iter().chain(fields).collect();
    Ok(Taken::judged(bytes, &QUARTERS, &quarters, REFUSED_WITH_ALL))
}

/// The bytes of words that are each one or more pairs of hexadecimal digits.
fn raw_bytes(words: &[&str]) -> Result<Vec<u8>, Fault> {
    let expected = format!("pairs of hexadecimal digits, as in {BYTES} 04 03");
    if words.is_empty() {
        return Err(Fault::new(word_count(BYTES, 0), expected));
    }
    let mut bytes = Vec::new();
    for word in words {
        let fault = || Fault::new(format!("{} is no byte", shown(word)), expected.clone());
        bytes.extend(word_bytes(word).ok_or_else(fault)?);
    }
    Ok(bytes)
}

fn word_bytes(word: &str) -> Option<Vec<u8>> {
    let digits = word.chars().map(|digit| digit.to_digit(16));
    let digits = digits.collect::<Option<Vec<u32>>>()?;
    let pairs = digits.chunks_exact(2);
    let is_even = pairs.remainder().is_empty();
    is_even.then(|| pairs.map(|pair| (pair[0] << 4 | pair[1]) as u8).collect())
}

/// The record of the book in which the line is one; of two such books, that which refuses the fewest of its numbers.
fn record_of_any(books: &[Book], word: &str, words: &[&str]) -> Result<Taken, Fault> {
    let mut records = Vec::new();
    let mut faults = Vec::new();
    for kind in books.iter().filter_map(|book| book.kind_of_word(word)) {
        match numbers(kind.word, kind.fields, words) {
            Ok(numbers) => {
                let bytes = record(kind, &numbers);
                records.push(Taken::judged(bytes, kind.fields, &numbers, REFUSED));
            }
            Err(fault) => faults.push(fault),
        }
    }
    let least_refused = records
        .into_iter()
        .min_by_key(|record| record.warnings.len());
    if let Some(record) = least_refused {
        return Ok(record);
    }
    let expectations = faults.iter().map(|fault| fault.expected.as_str());
    let expected = expectations.collect::<Vec<_>>().join(", or ");
    match faults.first() {
        Some(first) => Err(Fault::new(&*first.fault, expected)),
        None => Err(unknown_word(books, word)),
    }
}

fn unknown_word(books: &[Book], word: &str) -> Fault {
    let word = shown(word);
    let names: Vec<&str> = books.iter().map(|book| book.name()).collect();
    let fault = match names.is_empty() {
        true => format!("{word}, but the bytes above open no book"),
        false => format!("{word} starts no record of the {} book", names.join(" or ")),
    };
    // The last book has every kind of the one before it.
    let kinds = books.last().map_or(&[][..], |book| book.kinds());
    let words: Vec<&str> = kinds.iter().map(|kind| kind.word).chain([BYTES]).collect();
    Fault::new(fault, words.join(", "))
}

/// A number for each of the fields.
fn numbers(first_word: &str, fields: &[Field], words: &[&str]) -> Result<Vec<i64>, Fault> {
    let pattern = pattern(first_word, fields);
    if words.len() != fields.len() {
        return Err(Fault::new(word_count(first_word, words.len()), pattern));
    }
    let mut numbers = Vec::new();
    for (field, word) in fields.iter().zip(words) {
        let (word_shown, name) = (shown(word), field.name);
        let fault = || format!("{word_shown} for {name} is no {}", field.expectation());
        let number = field.number_of(word);
        numbers.push(number.ok_or_else(|| Fault::new(fault(), pattern.clone()))?);
    }
    Ok(numbers)
}

fn word_count(first_word: &str, count: usize) -> String {
    match count {
        0 => format!("nothing after {first_word}"),
        1 => format!("1 word after {first_word}"),
        _ => format!("{count} words after {first_word}"),
    }
}

/// The kind, the bit map, and the fields that are not 0.
fn record(kind: &Kind, numbers: &[i64]) -> Vec<u8> {
    let written = numbers
        .iter()
        .enumerate()
        .filter(|(_, &number)| number != 0);
    let bit_map = written.clone().fold(0, |map, (bit, _)| map | 1 << bit);
    let fields = written.flat_map(|(_, number)| number.to_be_bytes());
    [kind.number, bit_map].into_iter().chain(fields).collect()
}
