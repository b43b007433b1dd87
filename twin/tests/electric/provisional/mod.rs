//! The provisional share at a month's end: listed, at random, by wrong rules that the listed cases must tell, and by wrong books that the tally's
//! claim must.

mod cases;
mod flaws;
mod listed;
mod plain;
mod random;
mod wrong_books;
mod wrong_rules;
