//! Fields of lines: what a number means, in which unit, and which numbers the ledger takes for it.

use std::fmt;

use Range::{Between, Either};

/// Each level's number is its place here.
pub const LEVELS: [&str; 2] = ["secondary", "primary"];

/// A field of a record or of an opening.
#[derive(Clone, Copy, Debug, PartialEq, Eq)]
pub struct Field {
    /// Its name where it is shown to a person.
    pub name: &'static str,
    pub meaning: &'static str,
    pub unit: Unit,
    /// What the ledger takes, where a line may have any 64-bit number.
    pub range: Range,
}

#[derive(Clone, Copy, Debug, PartialEq, Eq)]
pub enum Unit {
    Cents,
    Kwh,
    Mmbtu,
    Months,
    MillionthsAYear,
    /// A number as any other, but 0 and 1 have words.
    Level,
}

#[derive(Clone, Copy, Debug, PartialEq, Eq)]
pub enum Range {
    Between(i64, i64),
    Either(i64, i64),
}

impl Unit {
    pub fn name(self) -> &'static str {
        match self {
            Unit::Cents => "cents",
            Unit::Kwh => "kWh",
            Unit::Mmbtu => "mmBtu",
            Unit::Months => "months",
            Unit::MillionthsAYear => "millionths a year",
            Unit::Level => "level",
        }
    }
}

impl Range {
    fn holds(self, number: i64) -> bool {
        match self {
            Between(least, most) => (least..=most).contains(&number),
            Either(one, other) => number == one || number == other,
        }
    }
}

impl fmt::Display for Range {
    fn fmt(&self, formatter: &mut fmt::Formatter<'_>) -> fmt::Result {
        let (one, parting, other) = match *self {
            Between(least, most) => (least, "to", most),
            Either(one, other) => (one, "or", other),
        };
        write!(formatter, "{} {parting} {}", grouped(one), grouped(other))
    }
}

/// A number as it is shown and not written in a line: with a comma before each three digits.
fn grouped(number: i64) -> String {
    let digits = number.unsigned_abs().to_string();
    let mut text = String::from(if number < 0 { "-" } else { "" });
    for (place, digit) in digits.chars().enumerate() {
        if place > 0 && (digits.len() - place).is_multiple_of(3) {
            text.push(',');
        }
        text.push(digit);
    }
    text
}

impl Field {
    /// The range as a person is told it.
    pub fn told_range(self) -> String {
        match self.unit {
            Unit::Level => format!("{} ({})", self.range, LEVELS.join(" or ")),
            _ => self.range.to_string(),
        }
    }

    /// What is said of a number that the ledger refuses here.
    pub fn range_fault(self, number: i64) -> Option<String> {
        let name = self.name;
        let range = self.told_range();
        let fault = || format!("{number} for {name} is out of its range, {range}");
        (!self.range.holds(number)).then(fault)
    }

    /// The word of a number in this field.
    pub fn word_of(self, number: i64) -> String {
        let level = match self.unit {
            Unit::Level => usize::try_from(number).ok(),
            _ => None,
        };
        match level.and_then(|level| LEVELS.get(level)) {
            Some(word) => word.to_string(),
            None => number.to_string(),
        }
    }

    /// The number of a word in this field.
    pub fn number_of(self, word: &str) -> Option<i64> {
        let level = match self.unit {
            Unit::Level => LEVELS.iter().position(|&level| level == word),
            _ => None,
        };
        match level {
            Some(level) => Some(level as i64),
            // A plus is no part of a whole number here.
            None if word.starts_with('+') => None,
            None => word.parse().ok(),
        }
    }

    /// What a word in this field has to be.
    pub fn expectation(self) -> String {
        match self.unit {
            Unit::Level => format!("level ({} or a 64-bit whole number)", LEVELS.join(", ")),
            _ => "64-bit whole number".to_string(),
        }
    }
}

#[cfg(test)]
mod tests {
    use super::*;

    const fn of_unit(unit: Unit) -> Field {
        Field {
            name: "U",
            meaning: "",
            unit,
            range: Between(0, 1),
        }
    }

    const LEVEL: Field = of_unit(Unit::Level);
    const NUMBER: Field = of_unit(Unit::Kwh);

    #[test]
    fn levels_have_words_and_any_other_number_is_itself() {
        for (number, word) in [(0, "secondary"), (1, "primary"), (2, "2"), (-1, "-1")] {
            assert_eq!(LEVEL.word_of(number), word);
            assert_eq!(LEVEL.number_of(word), Some(number));
        }
        assert_eq!(LEVEL.number_of("0"), Some(0));
        assert_eq!(NUMBER.number_of("secondary"), None);
        assert_eq!(NUMBER.word_of(1), "1");
    }

    #[test]
    fn a_number_is_all_64_bits_and_no_more() {
        for number in [i64::MIN, -1, 0, i64::MAX] {
            let word = NUMBER.word_of(number);
            assert_eq!(NUMBER.number_of(&word), Some(number));
        }
        for word in [
            "9223372036854775808",
            "-9223372036854775809",
            "+1",
            "-",
            "1,000",
            "1.5",
        ] {
            assert_eq!(NUMBER.number_of(word), None, "{word}");
        }
    }

    #[test]
    fn a_range_is_shown_with_commas() {
        let cases = [
            (Between(-1_234, 0), "-1,234 to 0"),
            (Between(-999, 100_000), "-999 to 100,000"),
            (Either(12, 24), "12 or 24"),
            (
                Between(i64::MIN, i64::MAX),
                "-9,223,372,036,854,775,808 to 9,223,372,036,854,775,807",
            ),
        ];
        for (range, text) in cases {
            assert_eq!(range.to_string(), text);
        }
        assert_eq!(LEVEL.told_range(), "0 to 1 (secondary or primary)");
    }

    #[test]
    fn two_numbers_hold_nothing_between_them() {
        let held: Vec<i64> = (0..40).filter(|&n| Either(12, 24).holds(n)).collect();
        assert_eq!(held, [12, 24]);
        let held: Vec<i64> = (-9..9).filter(|&n| Between(-2, 3).holds(n)).collect();
        assert_eq!(held, [-2, -1, 0, 1, 2, 3]);
    }
}
