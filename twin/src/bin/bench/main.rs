//! Measures the proved functions beside the twin's, and beside plain Rust that changes its book in
//! place: `bench --help`.

#![forbid(unsafe_code)]

mod arithmetic;
mod books;
mod cases;
mod electric;
mod journals;
mod measure;
mod options;
mod records;
mod report;
mod rows;
mod sheets;
mod steam;
mod text;
mod writers;

use options::{wanted, Wanted, HELP};
use report::Form;
use rows::Row;
use std::env;
use std::io::{self, Write};
use std::process::ExitCode;

// A proved function is behind a C call, so the twin's function is kept `#[inline(never)]`.
fn main() -> ExitCode {
    let words: Vec<String> = env::args_os()
        .skip(1)
        .map(|word| word.to_string_lossy().into_owned())
        .collect();
    let done = match wanted(&words, rows::all()) {
        Ok(Wanted::Help) => write!(io::stdout(), "{HELP}").map_err(unwritten),
        Ok(Wanted::Rows(rows, form)) => measure_all(&rows, form),
        Err(message) => {
            eprintln!("bench: {message}");
            return ExitCode::from(2);
        }
    };
    match done {
        Ok(()) => ExitCode::SUCCESS,
        Err(message) => {
            eprintln!("bench: {message}");
            ExitCode::FAILURE
        }
    }
}

/// Measures and prints row after row, up to the first that fails.
fn measure_all(rows: &[Row], form: Form) -> Result<(), String> {
    form.print_heading().map_err(unwritten)?;
    for row in rows {
        let name = row.name;
        let measured = (row.measure)().map_err(|failure| format!("{name}: {failure}"))?;
        form.print_row(name, &measured).map_err(unwritten)?;
    }
    Ok(())
}

fn unwritten(error: io::Error) -> String {
    format!("a line could not be written: {error}")
}
