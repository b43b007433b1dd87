//! The paper's tally of either book, which sees postings and answers but never the book.

pub mod electric;
pub mod steam;
