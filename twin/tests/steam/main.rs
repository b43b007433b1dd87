//! Compares the proved steam book with the twin's, and holds the twin's to the tally.

#![forbid(unsafe_code)]

mod books;
mod figures;
mod five_percent;
mod halves;
mod histories;
mod in_place;
mod limits;
#[path = "../common/met.rs"]
mod met;
mod next_limits;
mod openings;
mod reconciliations;
mod refusals;
mod riders;
mod sides;
mod stored;
mod wrong_books;

use twin::generate::fields;
use twin::generate::steam::{driver, postings};
