//! Calls that add one number to a book and do nothing else: what no posting can cost less than.
//!
//! They are linked as the postings are, by value and in place.

use crate::electric::{self, ElectricBook};
use crate::records::Posting;
use crate::steam::{self, SteamBook};

#[inline(never)]
pub extern "C" fn electric(mut book: ElectricBook, posting: Posting) -> electric::Posted {
    book.period.cost = book.period.cost.wrapping_add(posting.numbers[0]);
    let reply = electric::Reply::default();
    electric::Posted { reply, book }
}

#[inline(never)]
pub fn electric_in_place(book: &mut ElectricBook, posting: Posting) -> electric::Reply {
    book.period.cost = book.period.cost.wrapping_add(posting.numbers[0]);
    electric::Reply::default()
}

#[inline(never)]
pub extern "C" fn steam(mut book: SteamBook, posting: Posting) -> steam::Posted {
    book.period.cost = book.period.cost.wrapping_add(posting.numbers[0]);
    let reply = steam::Reply::default();
    steam::Posted { reply, book }
}

#[inline(never)]
pub fn steam_in_place(book: &mut SteamBook, posting: Posting) -> steam::Reply {
    book.period.cost = book.period.cost.wrapping_add(posting.numbers[0]);
    steam::Reply::default()
}
