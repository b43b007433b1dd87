//! Random postings and journals from a seed.

pub mod damage;
pub mod electric;
pub mod fields;
pub mod journals;
pub mod plan;
pub mod steam;
