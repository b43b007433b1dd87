//! A second, independent ledger: arithmetic, text, records, both books, the factor sheet, the programs
//! of journals and of sheets, and the proved ones beside.

#![deny(unsafe_code)]

pub mod amounts;
pub mod calendar;
pub mod comparison;
pub mod electric;
pub mod floor;
pub mod generate;
pub mod journal;
pub mod posted;
#[allow(unsafe_code)]
pub mod proved;
pub mod random;
pub mod records;
pub mod refusals;
pub mod rounding;
pub mod steam;
pub mod tally;
pub mod text;
pub mod written;
