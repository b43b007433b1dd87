//! The lines that the journal program prints.

use crate::text::{write_cents, write_points};
use crate::written::{Refusal, Written};

/// What an accepted posting is answered with; amounts of both levels are secondary first.
pub(super) enum Answer {
    /// Cents.
    Line(i64),
    /// Points.
    Filed(i32),
    FiledByLevel(i32, i32),
    /// Cents.
    Interest(i64, i64),
    Done,
}

/// All lines printed so far.
pub(super) struct Lines {
    pub text: Vec<u8>,
    /// The number of the last record printed.
    record: usize,
}

impl Lines {
    /// The one line of an opening that is refused.
    pub fn of_refused_opening(number: Refusal) -> Vec<u8> {
        let mut line = Line::new();
        line.word(b"refused");
        line.field(number);
        line.ended().to_vec()
    }

    /// The one line of a refused record.
    pub fn of_refused(record: usize, kind: u8, number: Refusal) -> Vec<u8> {
        let mut lines = Self {
            text: Vec::new(),
            record: record - 1,
        };
        lines.refused(kind, number);
        lines.text
    }

    /// No line yet, with room for what so many bytes of records are likely to print.
    pub fn for_records(bytes: usize) -> Self {
        Self {
            text: Vec::with_capacity(2 * bytes),
            record: 0,
        }
    }

    #[inline]
    pub fn refused(&mut self, kind: u8, number: Refusal) {
        let mut line = self.start(kind);
        line.word(b" refused");
        line.field(number);
        self.text.extend_from_slice(line.ended());
    }

    #[inline]
    pub fn accepted(&mut self, kind: u8, answer: Answer) {
        let mut line = self.start(kind);
        match answer {
            Answer::Done => line.word(b" done"),
            Answer::Line(cents) => {
                line.word(b" line");
                line.cents(cents);
            }
            Answer::Filed(factor) => {
                line.word(b" filed");
                line.points(factor);
            }
            Answer::FiledByLevel(secondary, primary) => {
                line.word(b" filed");
                line.points(secondary);
                line.points(primary);
            }
            Answer::Interest(secondary, primary) => {
                line.word(b" interest");
                line.cents(secondary);
                line.cents(primary);
            }
        }
        self.text.extend_from_slice(line.ended());
    }

    /// The line of the next record, up to its kind.
    #[inline]
    fn start(&mut self, kind: u8) -> Line {
        self.record += 1;
        let mut line = Line::new();
        line.number(self.record);
        line.field(kind.into());
        line
    }
}

/// More than any line has: three numbers, the longest word, and two amounts.
const LONGEST_LINE: usize = 128;

/// A line under way.
struct Line {
    bytes: [u8; LONGEST_LINE],
    length: usize,
}

impl Line {
    #[inline]
    fn new() -> Self {
        Self {
            bytes: [0; LONGEST_LINE],
            length: 0,
        }
    }

    #[inline]
    fn word(&mut self, word: &[u8]) {
        self.bytes[self.length..self.length + word.len()].copy_from_slice(word);
        self.length += word.len();
    }

    /// A whole number in decimal.
    #[inline]
    fn number(&mut self, number: usize) {
        let mut digits = [0; 20];
        let mut start = digits.len();
        let mut rest = number;
        loop {
            start -= 1;
            digits[start] = b'0' + (rest % 10) as u8;
            rest /= 10;
            if rest == 0 {
                break;
            }
        }
        self.word(&digits[start..]);
    }

    /// A blank and a whole number.
    #[inline]
    fn field(&mut self, number: usize) {
        self.word(b" ");
        self.number(number);
    }

    /// A blank and cents.
    #[inline]
    fn cents(&mut self, cents: i64) {
        self.word(b" ");
        let written = write_cents(cents, &mut self.bytes[self.length..]);
        self.grow(written);
    }

    /// A blank and points.
    #[inline]
    fn points(&mut self, points: i32) {
        self.word(b" ");
        let written = write_points(points, &mut self.bytes[self.length..]);
        self.grow(written);
    }

    #[inline]
    fn grow(&mut self, written: Written) {
        match written {
            Written::Length(length) => self.length += length,
            Written::Refused(number) => panic!("refusal {number} of an amount in a line"),
        }
    }

    /// The line with its line feed.
    #[inline]
    fn ended(&mut self) -> &[u8] {
        self.word(b"\n");
        &self.bytes[..self.length]
    }
}
