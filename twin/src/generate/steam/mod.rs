//! Random postings for the steam book.

pub mod driver;
pub mod postings;
