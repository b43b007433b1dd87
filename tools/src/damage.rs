//! Why bytes are no opening or record.

use std::fmt;

use crate::fields::Field;
use crate::vocabulary::{Book, HEAD_LENGTH, STEAM_OPENING_LENGTH};

#[derive(Clone, Copy, Debug, PartialEq, Eq)]
pub enum Damage {
    UnknownOpening(u8),
    OpeningCut { remain: usize },
    HeadCut,
    UnknownKind { book: Book, kind: u8 },
    StrayBit { word: &'static str, bit_map: u8 },
    RecordCut { length: usize, remain: usize },
    FieldOfZero { field: Field },
}

use Damage::*;

impl Damage {
    /// The number with which the journal program refuses the bytes.
    fn refusal(self) -> u8 {
        match self {
            HeadCut => 1,
            UnknownKind { .. } => 2,
            StrayBit { .. } => 3,
            RecordCut { .. } => 4,
            FieldOfZero { .. } => 5,
            UnknownOpening(_) | OpeningCut { .. } => 7,
        }
    }

    fn reason(self) -> String {
        match self {
            HeadCut => format!("a record has {HEAD_LENGTH} bytes at least, 1 is here"),
            UnknownKind { book, kind } => format!("the {} book has no kind {kind}", book.name()),
            StrayBit { word, bit_map } => {
                format!("bit map {bit_map:02X} has a bit that {word} lacks")
            }
            RecordCut { length, remain } => {
                format!("the record has {length} bytes, {remain} are here")
            }
            FieldOfZero { field } => format!("{} is written though it is 0", field.name),
            UnknownOpening(byte) => format!("{byte:02X} opens no book"),
            OpeningCut { remain } => {
                format!("a steam opening has {STEAM_OPENING_LENGTH} bytes, {remain} are here")
            }
        }
    }
}

impl fmt::Display for Damage {
    fn fmt(&self, formatter: &mut fmt::Formatter<'_>) -> fmt::Result {
        write!(formatter, "{} (refused {})", self.reason(), self.refusal())
    }
}
