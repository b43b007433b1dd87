//! The language of lines, written out of the table for a person.

use crate::fields::{Field, LEVELS};
use crate::vocabulary::{pattern, Book, BYTES, DIVISIONS, QUARTERS};

/// How far the longest line's word with its fields reaches, and the longest name, meaning and unit of a field.
const PATTERN: usize = 23;
const NAME: usize = 10;
const MEANING: usize = 29;
const UNIT: usize = 17;

/// A journal with what the journal program prints for it: the first month of examples/electric-year.
const EXAMPLE: &str = "  # June of an L&P book
  electric L&P
  cost 300000 25000 1000
  sales 98000 65000
  bill secondary 1000
  month-end 60000             # at a yearly rate of 6%
";
const PRINTED: &str = "  1 1 done
  2 2 done
  3 3 line 0.00
  4 5 interest 0.94 0.61
";

/// The whole language of lines, as `lines --help` prints it.
pub fn language() -> String {
    [
        rules(),
        book(Book::Electric),
        book(Book::Steam),
        raw_bytes(),
        example(),
    ]
    .join("\n")
}

fn rules() -> String {
    let [secondary, primary] = LEVELS;
    format!(
        "The language of lines

The first line opens a book. Each line after it is a record of that book: its word, and then a
number for each of its fields, which are in capitals here, in this order and with blanks between.
None may be left out: a field of nothing is 0. What stands behind a # is a comment, and blank lines
are skipped.

Any 64-bit whole number is taken, in digits alone, with a minus in front where it is below zero. One
out of its range gets a warning, since the ledger refuses it (7). The commas in the ranges are not
to be written. A level is {secondary}, {primary} or a number: {secondary} is 0, {primary} is 1.
"
    )
}

fn book(book: Book) -> String {
    let mut lines = vec![
        format!("The {} book", book.name()),
        String::new(),
        line("LINE", "WHAT IT IS"),
        row("FIELD", "MEANING", "UNIT", "RANGE"),
        String::new(),
    ];
    lines.extend(openings(book));
    for kind in book.kinds() {
        let meaning = format!("kind {}: {}", kind.number, kind.meaning);
        lines.push(line(&pattern(kind.word, kind.fields), &meaning));
        lines.extend(kind.fields.iter().map(field));
    }
    lines.into_iter().map(|line| line + "\n").collect()
}

fn openings(book: Book) -> Vec<String> {
    let (name, month) = (book.name(), book.first_month());
    match book {
        Book::Electric => {
            let divisions = DIVISIONS.iter().enumerate();
            let opening = |(number, division)| {
                let meaning = format!("opening: division {number}, in {month}");
                line(&format!("{name} {division}"), &meaning)
            };
            divisions.map(opening).collect()
        }
        Book::Steam => {
            let opening = line(&pattern(name, &QUARTERS), &format!("opening: in {month}"));
            let fields = QUARTERS.iter().map(field);
            [opening].into_iter().chain(fields).collect()
        }
    }
}

fn field(field: &Field) -> String {
    let range = field.told_range();
    row(field.name, field.meaning, field.unit.name(), &range)
}

fn line(pattern: &str, meaning: &str) -> String {
    format!("  {pattern:PATTERN$}  {meaning}")
}

fn row(name: &str, meaning: &str, unit: &str, range: &str) -> String {
    format!("    {name:NAME$}  {meaning:MEANING$}  {unit:UNIT$}  {range}")
}

fn raw_bytes() -> String {
    let line = line(&format!("{BYTES} 04 03 000A0b"), "any bytes");
    format!(
        "Bytes

{line}

A byte is two hexadecimal digits, and blanks may stand between bytes. Such a line may stand
anywhere, as the opening too, and is held to no range.
"
    )
}

fn example() -> String {
    format!(
        "A whole journal

{EXAMPLE}
With these lines in FILE, make the bytes of the journal and run the journal program on them, which
in the repository is crates/neapscroll/out/neapscroll, once built. Where a line is wrong no bytes
are made, and JOURNAL is left empty:

  lines to-bytes FILE > JOURNAL
  neapscroll < JOURNAL

It prints the number, the kind and the answer of each record:

{PRINTED}"
    )
}

#[cfg(test)]
mod tests {
    use super::*;

    #[test]
    fn a_column_is_as_wide_as_what_stands_in_it() {
        let books = [Book::Electric, Book::Steam];
        let kinds = || books.iter().flat_map(|book| book.kinds());
        let fields = || kinds().flat_map(|kind| kind.fields).chain(&QUARTERS);
        let widest = |texts: Vec<usize>| texts.into_iter().max();
        let patterns = kinds().map(|kind| pattern(kind.word, kind.fields).len());
        assert_eq!(widest(patterns.collect()), Some(PATTERN));
        assert_eq!(
            widest(fields().map(|field| field.name.len()).collect()),
            Some(NAME)
        );
        let meanings = fields().map(|field| field.meaning.len());
        assert_eq!(widest(meanings.collect()), Some(MEANING));
        let units = fields().map(|field| field.unit.name().len());
        assert_eq!(widest(units.collect()), Some(UNIT));
    }

    #[test]
    fn no_line_is_wider_than_a_terminal() {
        for line in language().lines() {
            assert!(line.len() <= 100, "{line}");
            assert_eq!(line, line.trim_end());
        }
    }
}
