//! What the command line asks for.

use crate::report::Form;
use crate::rows::Row;

pub const HELP: &str = "\
bench [--csv] [PART]...

Measures the proved functions beside the twin's, a row a call. With PARTs only the rows are measured
whose name has one of them in it: `bench electric_cost journal` measures electric_cost and journals.

  --csv     rows with commas between, after a line of headings
  --help    this text

Columns: name; nanoseconds of the proved call, of the twin's, and twin / proved; nanoseconds of plain
Rust that changes its book in place. A row of a journal is in nanoseconds a record.
";

pub enum Wanted {
    Help,
    /// The rows to be measured, and how they are printed.
    Rows(Vec<Row>, Form),
}

/// What the words ask for of all rows, or what is wrong with them.
pub fn wanted(words: &[String], rows: Vec<Row>) -> Result<Wanted, String> {
    let (options, parts): (Vec<&String>, Vec<&String>) =
        words.iter().partition(|word| word.starts_with('-'));
    let mut form = Form::Columns;
    for option in options {
        match option.as_str() {
            "--help" => return Ok(Wanted::Help),
            "--csv" => form = Form::Commas,
            _ => return Err(format!("no option {option}; bench --help tells them")),
        }
    }
    let is_in = |row: &Row, part: &str| row.name.contains(part);
    if let Some(part) = parts
        .iter()
        .find(|part| !rows.iter().any(|row| is_in(row, part)))
    {
        return Err(format!("no row has {part:?} in its name"));
    }
    let is_wanted =
        |row: &Row| parts.is_empty() || parts.iter().any(|part| is_in(row, part.as_str()));
    Ok(Wanted::Rows(
        rows.into_iter().filter(is_wanted).collect(),
        form,
    ))
}
