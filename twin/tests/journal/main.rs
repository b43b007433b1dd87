//! Compares whole journals and their sheets, as proved and as the twin prints them.

#![forbid(unsafe_code)]

#[macro_use]
#[path = "../common/flaw_list.rs"]
mod flaw_list;

mod answers;
mod buffers;
mod endings;
mod examples;
#[path = "../common/filed_sheets.rs"]
mod filed_sheets;
mod flaws;
mod form;
mod listed;
mod losses;
mod made;
mod met;
#[path = "../common/month_ends.rs"]
mod month_ends;
mod openings;
mod plain;
mod program;
mod random_journals;
mod sheets;
mod sides;
mod warned;
mod written;
mod wrong_journals;
