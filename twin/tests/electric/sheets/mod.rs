//! The sheet of a settlement: listed, on pages of every length, at random, and by wrong writers that the random cases must tell.

mod cases;
mod counts;
mod flaws;
mod listed;
mod pages;
mod plain;
mod plain_rows;
mod plain_text;
mod random;
mod sides;
mod wrong;
