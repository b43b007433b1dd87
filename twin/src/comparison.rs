//! A journal on both sides, and where they part.

use crate::journal;
use crate::proved;
use crate::written::Written;
use std::fmt::{self, Display, Formatter};

/// What stands in for the journal program: a writer into a lent buffer, and the length it writes.
#[derive(Clone, Copy)]
pub struct Side<'a> {
    pub write: &'a dyn Fn(&[u8], &mut [u8]) -> Written,
    pub length: &'a dyn Fn(&[u8]) -> usize,
}

pub const PROVED: Side = Side {
    write: &proved::journal,
    length: &proved::journal_length,
};

/// Bytes past the text, which no writer may touch.
const PAST: usize = 16;
const UNTOUCHED: u8 = 0xa5;

/// The first line in which two texts differ, counted from 1; an absent one is empty.
#[derive(Clone, Debug, PartialEq, Eq)]
pub struct Difference {
    pub line: usize,
    pub proved: String,
    pub twin: String,
}

impl Display for Difference {
    fn fmt(&self, formatter: &mut Formatter) -> fmt::Result {
        // Quoted, so that a line feed that is missing shows.
        let Self { line, proved, twin } = self;
        write!(
            formatter,
            "line {line}\nproved: {proved:?}\ntwin:   {twin:?}"
        )
    }
}

pub fn first_difference(proved: &[u8], twin: &[u8]) -> Option<Difference> {
    if proved == twin {
        return None;
    }
    let mut proved_lines = proved.split_inclusive(|&byte| byte == b'\n');
    let mut twin_lines = twin.split_inclusive(|&byte| byte == b'\n');
    let text = |line: Option<&[u8]>| String::from_utf8_lossy(line.unwrap_or_default()).into_owned();
    let mut line = 1;
    loop {
        let (proved, twin) = (proved_lines.next(), twin_lines.next());
        if proved != twin {
            let (proved, twin) = (text(proved), text(twin));
            return Some(Difference { line, proved, twin });
        }
        line += 1;
    }
}

/// So many bytes are room enough for all that is printed for the input.
pub fn room(input: &[u8]) -> usize {
    41 * input.len() + 82
}

/// What the twin prints for the input, if the side writes just that; else what is wrong.
pub fn compare(side: Side, input: &[u8]) -> Result<Vec<u8>, String> {
    let twin = journal::printed(input);
    let length = (side.length)(input);
    if length != twin.len() {
        let text = written_by(side, input);
        let part = first_difference(&text, &twin).map_or(String::new(), |part| part.to_string());
        return Err(format!("length {length}, twin {}\n{part}", twin.len()));
    }
    let mut buffer = vec![UNTOUCHED; length + PAST];
    let written = (side.write)(input, &mut buffer);
    if let Some(difference) = first_difference(&buffer[..length], &twin) {
        return Err(difference.to_string());
    }
    if written != Written::Length(length) {
        return Err(format!("answer {written:?}, length {length}"));
    }
    match buffer[length..].iter().all(|&byte| byte == UNTOUCHED) {
        true => Ok(twin),
        false => Err("bytes past the text are changed".to_string()),
    }
}

/// All that the side writes, or nothing where it refuses.
fn written_by(side: Side, input: &[u8]) -> Vec<u8> {
    let mut buffer = vec![UNTOUCHED; room(input)];
    match (side.write)(input, &mut buffer) {
        Written::Length(length) => buffer[..length.min(room(input))].to_vec(),
        Written::Refused(_) => Vec::new(),
    }
}

#[cfg(test)]
mod tests {
    use super::{first_difference, Difference};

    fn difference(line: usize, proved: &str, twin: &str) -> Option<Difference> {
        let (proved, twin) = (proved.to_string(), twin.to_string());
        Some(Difference { line, proved, twin })
    }

    #[test]
    fn the_first_line_that_differs_is_found() {
        assert_eq!(first_difference(b"a\nb\n", b"a\nb\n"), None);
        assert_eq!(first_difference(b"", b""), None);
        let changed = first_difference(b"a\nb\nc\n", b"a\nx\ny\n");
        assert_eq!(changed, difference(2, "b\n", "x\n"));
    }

    #[test]
    fn a_line_too_many_and_a_missing_line_feed_are_found() {
        let longer = first_difference(b"a\nb\n", b"a\n");
        assert_eq!(longer, difference(2, "b\n", ""));
        let unended = first_difference(b"a\nb", b"a\nb\n");
        assert_eq!(unended, difference(2, "b", "b\n"));
    }
}
