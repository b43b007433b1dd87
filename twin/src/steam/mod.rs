//! The paper's steam book: what an opening and each posting give.

mod book;
mod entry;
mod reply;
mod riders;
mod settlement;

pub use book::*;
pub use reply::Reply;
pub use settlement::{annual_sales, share, shares_fit_variances, Open, Shared};

use crate::posted::{self, accepted, refused, Replied};
use crate::records::Posting;
use crate::refusals::{
    BOOK_OUTSIDE_LIMITS, FIELD_OUT_OF_RANGE, FORBIDDEN_NOW, RECONCILIATION_RUNS,
};
use crate::written::Refusal;
use entry::Entry;

/// The answer and the steam book afterwards.
pub type Posted = posted::Posted<Reply, SteamBook>;

// The proved functions are behind a C call with books by value, so for a fair benchmark these two
// are as well, and they are never inlined.

/// The fresh book of the quarters, oldest first; refusal 7 hands back that of four zeros.
#[inline(never)]
pub extern "C" fn open(first: i64, second: i64, third: i64, fourth: i64) -> Posted {
    let quarters = [first, second, third, fourth];
    match quarters.iter().all(|&sales| sales_within_limits(sales)) {
        true => accepted(Reply::default(), SteamBook::fresh(quarters)),
        false => refused(FIELD_OUT_OF_RANGE, SteamBook::fresh([0; 4])),
    }
}

/// What the posting gives; a refusal hands the book back as it was.
#[inline(never)]
pub extern "C" fn post(mut book: SteamBook, posting: Posting) -> Posted {
    let reply = post_in_place(&mut book, posting);
    Posted { reply, book }
}

/// What the posting gives; the lent book becomes the next one, and a refusal leaves every field as it was.
///
/// It is as a library of plain Rust has it: a reference by Rust's own convention, and a call.
// The call by value calls it: with the code inlined into both, a bill in place takes 50 ns instead of 30.
#[inline(never)]
pub fn post_in_place(book: &mut SteamBook, posting: Posting) -> Reply {
    match admit(book, posting).and_then(|entry| riders::enter(book, entry)) {
        Ok(reply) => reply,
        Err(number) => Reply::refused(number as u8),
    }
}

/// The entry of a posting, or the first refusal of the table up to 9.
#[inline]
fn admit(book: &SteamBook, posting: Posting) -> Result<Entry, Refusal> {
    let entry = Entry::of(posting)?;
    if !book.within_limits() {
        return Err(BOOK_OUTSIDE_LIMITS);
    }
    if !entry.in_range() {
        return Err(FIELD_OUT_OF_RANGE);
    }
    if is_forbidden(book, entry) {
        return Err(FORBIDDEN_NOW);
    }
    if matches!(entry, Entry::Reconcile { .. }) && book.reconciliation.months > 0 {
        return Err(RECONCILIATION_RUNS);
    }
    Ok(entry)
}

/// Whether the month or the settled state forbids the entry.
#[inline]
fn is_forbidden(book: &SteamBook, entry: Entry) -> bool {
    match entry {
        Entry::Cost(_) | Entry::Sales(_) => book.settled,
        Entry::Settle(_) => book.settled || !is_settling(book.month),
        Entry::MonthEnd => is_settling(book.month) && !book.settled,
        Entry::Bill(_) | Entry::Adjust { .. } | Entry::Reconcile { .. } => false,
    }
}
