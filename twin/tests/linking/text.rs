//! The twin's text of amounts, as strings.

use twin::amounts::Run;
use twin::text::{write_cents, write_points};
use twin::written::Written;

fn written(write: impl Fn(&mut [u8]) -> Written) -> String {
    let mut buffer = [0; 21];
    match write(&mut buffer) {
        Written::Length(length) => String::from_utf8_lossy(&buffer[..length]).into_owned(),
        Written::Refused(number) => panic!("refused {number}"),
    }
}

pub fn cents(amount: i64) -> String {
    written(|buffer| write_cents(amount, buffer))
}

pub fn points(factor: i32) -> String {
    written(|buffer| write_points(factor, buffer))
}

pub fn run(run: Run) -> String {
    format!("{} {}", points(run.factor), cents(run.due))
}
