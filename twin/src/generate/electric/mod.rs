//! Random postings for the electric book.

pub mod driver;
pub mod postings;
