//! Compares the proved journal program with the twin's: `journals SEED [COUNT]`.
//!
//! The first journal is that of the seed, and each further one that of the next seed; so where the two
//! part, the seed that is printed makes the same journal again.

#![forbid(unsafe_code)]

use journal_lines::to_lines;
use std::env;
use std::process::ExitCode;
use twin::comparison::{compare, PROVED};
use twin::generate::journals::Journal;

const USUAL_COUNT: u64 = 1_000;

fn main() -> ExitCode {
    let numbers: Result<Vec<u64>, _> = env::args().skip(1).map(|word| word.parse()).collect();
    match numbers.as_deref() {
        Ok(&[seed]) => compare_from(seed, USUAL_COUNT),
        Ok(&[seed, count]) => compare_from(seed, count),
        _ => {
            eprintln!("journals SEED [COUNT]: whole numbers from 0");
            ExitCode::from(2)
        }
    }
}

/// Compares so many journals from the seed on, up to the first difference.
fn compare_from(first: u64, count: u64) -> ExitCode {
    let mut lines = 0;
    for seed in (0..count).map(|offset| first.wrapping_add(offset)) {
        let journal = Journal::of_seed(seed).bytes;
        match compare(PROVED, &journal) {
            Ok(text) => lines += text.iter().filter(|&&byte| byte == b'\n').count(),
            Err(difference) => {
                println!(
                    "seed {seed}\n{difference}\njournal:\n{}",
                    to_lines(&journal)
                );
                return ExitCode::FAILURE;
            }
        }
    }
    println!("{count} journals from seed {first} on: all {lines} lines agree");
    ExitCode::SUCCESS
}
