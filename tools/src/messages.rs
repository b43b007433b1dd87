//! What is told of a line: an error or a warning.

use std::error::Error;
use std::fmt;

/// More of a line than this is not shown.
const SHOWN_CHARACTERS: usize = 80;

/// A line that is no opening, no record of the book and no bytes.
#[derive(Clone, Debug, PartialEq, Eq)]
pub struct LineError {
    /// The line's number, the first being 1.
    pub number: usize,
    /// The line up to its comment, without the blanks around it.
    pub line: String,
    /// What is wrong with it.
    pub fault: String,
    /// What could stand there.
    pub expected: String,
}

/// A line that has its bytes, but that the ledger refuses.
#[derive(Clone, Debug, PartialEq, Eq)]
pub struct LineWarning {
    /// The line's number, the first being 1.
    pub number: usize,
    /// The line up to its comment, without the blanks around it.
    pub line: String,
    /// What the ledger refuses in it.
    pub fault: String,
}

#[derive(Clone, Debug, PartialEq, Eq)]
pub enum Message {
    Error(LineError),
    Warning(LineWarning),
}

impl Message {
    pub(crate) fn warning(number: usize, line: &str, fault: String) -> Self {
        let line = line.trim().to_string();
        Self::Warning(LineWarning {
            number,
            line,
            fault,
        })
    }

    /// The message with its place in front, as compilers write it: `FILE:LINE: `.
    pub fn in_file(&self, file: &str) -> String {
        match self {
            Message::Error(error) => format!("{file}:{}: {}", error.number, error.text()),
            Message::Warning(LineWarning {
                number,
                line,
                fault,
            }) => format!("{file}:{number}: warning: {}: {fault}", shown(line)),
        }
    }
}

/// A fault whose line is not known yet.
#[derive(Clone, Debug, PartialEq, Eq)]
pub(crate) struct Fault {
    pub fault: String,
    pub expected: String,
}

impl Fault {
    pub fn new(fault: impl Into<String>, expected: impl Into<String>) -> Self {
        Self {
            fault: fault.into(),
            expected: expected.into(),
        }
    }

    pub fn at(self, number: usize, line: &str) -> LineError {
        LineError {
            number,
            line: line.trim().to_string(),
            fault: self.fault,
            expected: self.expected,
        }
    }
}

impl LineError {
    fn text(&self) -> String {
        let line = shown(&self.line);
        format!("{line}: {}; expected {}", self.fault, self.expected)
    }
}

impl fmt::Display for LineError {
    fn fmt(&self, formatter: &mut fmt::Formatter<'_>) -> fmt::Result {
        write!(formatter, "line {}: {}", self.number, self.text())
    }
}

impl Error for LineError {}

/// Text in quotes, without control characters, and cut where it is long.
pub(crate) fn shown(text: &str) -> String {
    match text.char_indices().nth(SHOWN_CHARACTERS) {
        Some((end, _)) => format!("{:?}..", &text[..end]),
        None => format!("{text:?}"),
    }
}

#[cfg(test)]
mod tests {
    use super::*;

    #[test]
    fn an_error_has_number_line_fault_and_expectation() {
        let error = Fault::new("2 words after cost", "cost F P E").at(7, "  cost 1 2\r");
        let text = r#"line 7: "cost 1 2": 2 words after cost; expected cost F P E"#;
        assert_eq!(error.to_string(), text);
        let text = r#"a.lines:7: "cost 1 2": 2 words after cost; expected cost F P E"#;
        assert_eq!(Message::Error(error).in_file("a.lines"), text);
    }

    #[test]
    fn a_warning_says_that_it_is_one() {
        let warning = Message::warning(9, " bill 2 10", "no level".to_string());
        let text = r#"a.lines:9: warning: "bill 2 10": no level"#;
        assert_eq!(warning.in_file("a.lines"), text);
    }

    #[test]
    fn a_long_line_is_cut_and_a_control_character_is_spelt() {
        assert_eq!(shown(&"é".repeat(80)), format!("\"{}\"", "é".repeat(80)));
        assert_eq!(shown(&"é".repeat(81)), format!("\"{}\"..", "é".repeat(80)));
        assert_eq!(shown("a\u{1b}b"), r#""a\u{1b}b""#);
    }
}
