//! The table of the language of lines: openings, kinds and fields, with their words, meanings and ranges.
//!
//! Words, numbers and ranges are document 01's; the help is written and each line is judged from this table.

use crate::fields::Range::{Between, Either};
use crate::fields::Unit::{Cents, Kwh, Level, MillionthsAYear, Mmbtu, Months};
use crate::fields::{Field, Range, Unit};

/// The most bytes that the journal program reads.
pub const LONGEST_JOURNAL: usize = 65_536;

/// The word that raw bytes stand behind.
pub const BYTES: &str = "bytes";

/// Each division's opening byte is its place here.
pub const DIVISIONS: [&str; 2] = ["L&P", "MPS"];

pub const STEAM_OPENING: u8 = 2;

pub const FIELD_LENGTH: usize = 8;

pub const STEAM_OPENING_LENGTH: usize = 1 + FIELD_LENGTH * QUARTERS.len();

/// The kind and the bit map.
pub const HEAD_LENGTH: usize = 2;

#[derive(Clone, Copy, Debug, PartialEq, Eq)]
pub enum Book {
    Electric,
    Steam,
}

/// A kind of posting in one book.
#[derive(Debug, PartialEq, Eq)]
pub struct Kind {
    pub number: u8,
    pub word: &'static str,
    pub meaning: &'static str,
    /// The field of bit 0 first.
    pub fields: &'static [Field],
}

const fn field(name: &'static str, meaning: &'static str, unit: Unit, range: Range) -> Field {
    Field {
        name,
        meaning,
        unit,
        range,
    }
}

const fn kind(
    number: u8,
    word: &'static str,
    meaning: &'static str,
    fields: &'static [Field],
) -> Kind {
    Kind {
        number,
        word,
        meaning,
        fields,
    }
}

const fn up_to(most: i64) -> Range {
    Between(0, most)
}

const fn plus_minus(most: i64) -> Range {
    Between(-most, most)
}

const fn quarter(name: &'static str, meaning: &'static str) -> Field {
    field(name, meaning, Mmbtu, up_to(100_000_000))
}

/// The quarters of a steam opening, oldest first.
pub const QUARTERS: [Field; 4] = [
    quarter("Q1", "sales, four quarters ago"),
    quarter("Q2", "sales, three quarters ago"),
    quarter("Q3", "sales, two quarters ago"),
    quarter("Q4", "sales, the last quarter"),
];

const fn level(meaning: &'static str) -> Field {
    field("LEVEL", meaning, Level, Between(0, 1))
}

const fn cost(name: &'static str, meaning: &'static str) -> Field {
    field(name, meaning, Cents, plus_minus(10_000_000_000))
}

const fn sold(name: &'static str, meaning: &'static str) -> Field {
    field(name, meaning, Kwh, up_to(10_000_000_000))
}

const fn estimate(name: &'static str, meaning: &'static str) -> Field {
    field(name, meaning, Kwh, Between(1, 10_000_000_000))
}

const USAGE: &str = "usage; below 0 cancels a bill";

const ELECTRIC_KINDS: [Kind; 6] = [
    kind(
        1,
        "cost",
        "adds to the open period's cost",
        &[
            cost("F", "fuel"),
            cost("P", "purchased energy"),
            cost("E", "emission allowances"),
        ],
    ),
    kind(
        2,
        "sales",
        "adds to the open period's sales",
        &[
            sold("SECONDARY", "sold at secondary level"),
            sold("PRIMARY", "sold at primary level"),
        ],
    ),
    kind(
        3,
        "bill",
        "a bill; the answer is its line",
        &[
            level("the customer's level"),
            field("KWH", USAGE, Kwh, plus_minus(1_000_000_000)),
        ],
    ),
    kind(
        4,
        "settle",
        "only in November and May: files a factor a level",
        &[
            estimate("RS", "estimated secondary sales"),
            estimate("RP", "estimated primary sales"),
        ],
    ),
    kind(
        5,
        "month-end",
        "adds interest and ends the month",
        &[field(
            "RATE",
            "yearly rate; 60000 is 6%",
            MillionthsAYear,
            up_to(200_000),
        )],
    ),
    kind(
        6,
        "adjust",
        "changes the carried cents of a level",
        &[
            level("the level that it changes"),
            field(
                "CENTS",
                "what the cents grow by",
                Cents,
                plus_minus(10_000_000_000),
            ),
        ],
    ),
];

const STEAM_KINDS: [Kind; 7] = [
    kind(
        1,
        "cost",
        "adds to the open period's cost",
        &[cost("CENTS", "cost")],
    ),
    kind(
        2,
        "sales",
        "adds to the open period's sales",
        &[field("MMBTU", "sold", Mmbtu, up_to(100_000_000))],
    ),
    kind(
        3,
        "bill",
        "a bill; the answer is its line",
        &[field("MMBTU", USAGE, Mmbtu, plus_minus(10_000_000))],
    ),
    kind(
        4,
        "settle",
        "only in March, June, September and December: files a factor",
        &[field(
            "ADJUSTMENT",
            "adjustment of a year's sales",
            Mmbtu,
            plus_minus(100_000_000),
        )],
    ),
    kind(5, "month-end", "ends the month, without interest", &[]),
    kind(
        6,
        "adjust",
        "changes the carried account; 10 times N's size must be above G",
        &[
            field(
                "N",
                "what the account grows by",
                Cents,
                plus_minus(10_000_000_000),
            ),
            field("G", "annual fuel cost, or 0", Cents, up_to(100_000_000_000)),
        ],
    ),
    kind(
        7,
        "reconcile",
        "spreads the carried account over months",
        &[
            field("MONTHS", "how many months", Months, Either(12, 24)),
            field(
                "D",
                "sales over those months",
                Mmbtu,
                Between(1, 100_000_000),
            ),
        ],
    ),
];

/// A line's word with the names of its fields.
pub fn pattern(word: &str, fields: &[Field]) -> String {
    let names = fields.iter().map(|field| field.name);
    [word]
        .into_iter()
        .chain(names)
        .collect::<Vec<_>>()
        .join(" ")
}

impl Book {
    /// The book that the bytes at the front of a journal open, if they open one.
    pub fn opened_by(journal: &[u8]) -> Option<Self> {
        match *journal.first()? {
            STEAM_OPENING => (journal.len() >= STEAM_OPENING_LENGTH).then_some(Book::Steam),
            division => (usize::from(division) < DIVISIONS.len()).then_some(Book::Electric),
        }
    }

    pub fn name(self) -> &'static str {
        match self {
            Book::Electric => "electric",
            Book::Steam => "steam",
        }
    }

    /// The month of a book that was just opened.
    pub fn first_month(self) -> &'static str {
        match self {
            Book::Electric => "June",
            Book::Steam => "January",
        }
    }

    pub fn kinds(self) -> &'static [Kind] {
        match self {
            Book::Electric => &ELECTRIC_KINDS,
            Book::Steam => &STEAM_KINDS,
        }
    }

    pub fn kind_of_word(self, word: &str) -> Option<&'static Kind> {
        self.kinds().iter().find(|kind| kind.word == word)
    }

    pub fn kind_of_number(self, number: u8) -> Option<&'static Kind> {
        self.kinds().iter().find(|kind| kind.number == number)
    }
}

#[cfg(test)]
mod tests {
    use super::*;

    #[test]
    fn a_kind_has_one_word_and_one_number_in_a_book() {
        for book in [Book::Electric, Book::Steam] {
            for (index, kind) in book.kinds().iter().enumerate() {
                assert_eq!(usize::from(kind.number), index + 1);
                assert_eq!(book.kind_of_number(kind.number), Some(kind));
                assert_eq!(book.kind_of_word(kind.word), Some(kind));
            }
            assert_eq!(book.kind_of_number(0), None);
            assert_eq!(book.kind_of_word(BYTES), None);
        }
        assert_eq!(Book::Electric.kind_of_number(7), None);
        assert_eq!(Book::Steam.kind_of_number(8), None);
    }

    #[test]
    fn both_books_have_the_same_words_for_the_kinds_they_share() {
        for kind in Book::Electric.kinds() {
            let steam_kind = Book::Steam.kind_of_word(kind.word).unwrap();
            assert_eq!(steam_kind.number, kind.number);
        }
    }

    #[test]
    fn a_book_is_opened_by_its_whole_opening() {
        assert_eq!(Book::opened_by(&[]), None);
        assert_eq!(Book::opened_by(&[0]), Some(Book::Electric));
        assert_eq!(Book::opened_by(&[1, 9, 9]), Some(Book::Electric));
        assert_eq!(Book::opened_by(&[2; 32]), None);
        assert_eq!(Book::opened_by(&[2; 33]), Some(Book::Steam));
        assert_eq!(Book::opened_by(&[3; 33]), None);
        assert_eq!(Book::opened_by(&[255]), None);
    }
}
