//! Compares the proved electric book with the twin's, and holds the twin's to the tally.

#![forbid(unsafe_code)]

#[macro_use]
#[path = "../common/flaw_list.rs"]
mod flaw_list;

mod books;
mod figures;
#[path = "../common/filed_sheets.rs"]
mod filed_sheets;
mod halves;
mod histories;
mod in_place;
mod limits;
#[path = "../common/met.rs"]
mod met;
#[path = "../common/month_ends.rs"]
mod month_ends;
mod openings;
#[path = "../common/plain_settlement.rs"]
mod plain_settlement;
mod provisional;
mod refusals;
mod riders;
mod sheets;
mod sides;
mod stored;
mod wrong_books;

use twin::generate::electric::{driver, postings};
use twin::generate::fields;
