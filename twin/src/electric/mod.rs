//! The paper's electric book: what an opening and each posting give.

mod book;
mod entry;
mod reply;
mod riders;
mod sharing;
pub mod sheet;

pub use book::*;
pub use reply::{Levels, Reply};
pub use sharing::{provisional_shares, share, shares_fit_variances, Open, Shared};

use crate::posted::{self, accepted, refused, Replied};
use crate::records::Posting;
use crate::refusals::{BOOK_OUTSIDE_LIMITS, FIELD_OUT_OF_RANGE, FORBIDDEN_NOW};
use crate::written::Refusal;
use entry::Entry;

/// The answer and the electric book afterwards.
pub type Posted = posted::Posted<Reply, ElectricBook>;

// The proved functions are behind a C call with books by value, so for a fair benchmark these two
// are as well, and they are never inlined.

/// The fresh book of the division; refusal 7 hands back that of L&P.
#[inline(never)]
pub extern "C" fn open(division: u8) -> Posted {
    match division {
        L_AND_P | MPS => accepted(Reply::default(), ElectricBook::fresh(division)),
        _ => refused(FIELD_OUT_OF_RANGE, ElectricBook::fresh(L_AND_P)),
    }
}

/// What the posting gives; a refusal hands the book back as it was.
#[inline(never)]
pub extern "C" fn post(mut book: ElectricBook, posting: Posting) -> Posted {
    let reply = change(&mut book, posting);
    Posted { reply, book }
}

/// What the posting gives; the lent book becomes the next one, and a refusal leaves every field as it was.
///
/// It is as a library of plain Rust has it: a reference by Rust's own convention, and a call.
#[inline(never)]
pub fn post_in_place(book: &mut ElectricBook, posting: Posting) -> Reply {
    change(book, posting)
}

// Always inlined, and so are its larger parts: as a call of its own it costs the call by value 4 ns.
#[inline(always)]
fn change(book: &mut ElectricBook, posting: Posting) -> Reply {
    match admit(book, posting).and_then(|entry| riders::enter(book, entry)) {
        Ok(reply) => reply,
        Err(number) => Reply::refused(number as u8),
    }
}

/// The entry of a posting, or the first refusal of the table up to 8.
#[inline(always)]
fn admit(book: &ElectricBook, posting: Posting) -> Result<Entry, Refusal> {
    let entry = Entry::of(posting)?;
    if !book.within_limits() {
        return Err(BOOK_OUTSIDE_LIMITS);
    }
    if !entry.in_range() {
        return Err(FIELD_OUT_OF_RANGE);
    }
    if is_forbidden(book, entry) {
        return Err(FORBIDDEN_NOW);
    }
    Ok(entry)
}

/// Whether the month or the settled state forbids the entry.
#[inline]
fn is_forbidden(book: &ElectricBook, entry: Entry) -> bool {
    match entry {
        Entry::Cost(_) | Entry::Sales { .. } => book.settled,
        Entry::Settle { .. } => book.settled || !is_settling(book.month),
        Entry::MonthEnd { .. } => is_settling(book.month) && !book.settled,
        Entry::Bill { .. } | Entry::Adjust { .. } => false,
    }
}
