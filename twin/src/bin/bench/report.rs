//! How rows are printed.

use crate::measure::Nanoseconds;
use std::io::{self, Write};

#[derive(Clone, Copy)]
pub enum Form {
    /// Aligned, with blanks where a row has no such side.
    Columns,
    /// Comma-separated values, empty where a row has no such side.
    Commas,
}

impl Form {
    /// The heading goes to the error stream in columns, so that the output has rows alone.
    pub fn print_heading(self) -> io::Result<()> {
        let heading = ["name", "proved ns", "twin ns", "ratio", "in place ns"];
        match self {
            Form::Columns => writeln!(io::stderr(), "{}", columns(heading)),
            Form::Commas => writeln!(io::stdout(), "{}", heading.join(",")),
        }
    }

    pub fn print_row(self, name: &str, row: &Nanoseconds) -> io::Result<()> {
        let ratio = row.proved.map(|proved| row.twin / proved);
        let numbers = [row.proved, Some(row.twin), ratio, row.in_place];
        let [proved, twin, ratio, in_place] = numbers.map(shown);
        let cells = [name, &proved, &twin, &ratio, &in_place];
        match self {
            Form::Columns => writeln!(io::stdout(), "{}", columns(cells).trim_end()),
            Form::Commas => writeln!(io::stdout(), "{}", cells.join(",")),
        }
    }
}

fn columns([name, proved, twin, ratio, in_place]: [&str; 5]) -> String {
    format!("{name:<22}{proved:>10}{twin:>10}{ratio:>8}{in_place:>13}")
}

fn shown(number: Option<f64>) -> String {
    number.map_or(String::new(), |number| format!("{number:.2}"))
}
