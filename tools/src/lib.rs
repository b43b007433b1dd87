//! Readable lines to the bytes of a journal, and back.
//!
//! The language is one table, in `vocabulary.rs`; [`language`] writes it out for a person, and that is
//! what `lines --help` prints.
//!
//! Any 64-bit number may stand for a field, a level included, since ranges are the ledger's business:
//! [`read_lines`] only warns of one that the ledger refuses.
//!
//! [`to_lines`] takes any bytes: those that are no record become `bytes` lines, with a comment that
//! says why. Whatever it gives, [`to_bytes`] turns into the same bytes again:
//!
//! ```
//! let journal = [0x00, 0x03, 0x02, 0, 0, 0, 0, 0, 0, 0x03, 0xE8, 0x05];
//! let lines = journal_lines::to_lines(&journal);
//! assert!(lines.starts_with("electric L&P\nbill secondary 1000\n# "));
//! assert!(lines.ends_with("\nbytes 05\n"));
//! assert_eq!(journal_lines::to_bytes(&lines).unwrap(), journal);
//! ```

#![forbid(unsafe_code)]

mod damage;
mod decoding;
mod encoding;
mod fields;
mod help;
mod messages;
mod vocabulary;

pub use decoding::to_lines;
pub use encoding::{read_lines, to_bytes, Reading};
pub use help::language;
pub use messages::{LineError, LineWarning, Message};
pub use vocabulary::LONGEST_JOURNAL;
