//! Compares the proved reader and writer of posting records with the twin's.

#![forbid(unsafe_code)]

#[path = "../common/mod.rs"]
mod common;
mod postings;
mod reader;
mod writer;
