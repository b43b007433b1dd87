//! What the journal program asks of a book.

use super::lines::Answer;
use crate::electric::{self, ElectricBook};
use crate::posted::{Posted, Replied};
use crate::records::{Book, Posting, BILL, MONTH_END, SETTLE};
use crate::steam::{self, SteamBook};

/// A book that a journal is kept of.
pub(super) trait Kept: Sized {
    const BOOK: Book;

    type Reply: Replied;

    fn post(self, posting: Posting) -> Posted<Self::Reply, Self>;
    fn post_in_place(&mut self, posting: Posting) -> Self::Reply;

    /// What is printed for an accepted posting of the kind.
    fn answer(kind: u8, reply: Self::Reply) -> Answer;
}

impl Kept for ElectricBook {
    const BOOK: Book = Book::Electric;

    type Reply = electric::Reply;

    #[inline]
    fn post(self, posting: Posting) -> electric::Posted {
        electric::post(self, posting)
    }

    #[inline]
    fn post_in_place(&mut self, posting: Posting) -> electric::Reply {
        electric::post_in_place(self, posting)
    }

    #[inline]
    fn answer(kind: u8, reply: electric::Reply) -> Answer {
        let electric::Reply {
            filed,
            line,
            interest,
            ..
        } = reply;
        match kind {
            BILL => Answer::Line(line),
            SETTLE => Answer::FiledByLevel(filed.secondary, filed.primary),
            MONTH_END => Answer::Interest(interest.secondary, interest.primary),
            _ => Answer::Done,
        }
    }
}

impl Kept for SteamBook {
    const BOOK: Book = Book::Steam;

    type Reply = steam::Reply;

    #[inline]
    fn post(self, posting: Posting) -> steam::Posted {
        steam::post(self, posting)
    }

    #[inline]
    fn post_in_place(&mut self, posting: Posting) -> steam::Reply {
        steam::post_in_place(self, posting)
    }

    #[inline]
    fn answer(kind: u8, reply: steam::Reply) -> Answer {
        match kind {
            BILL => Answer::Line(reply.line),
            SETTLE => Answer::Filed(reply.filed),
            _ => Answer::Done,
        }
    }
}
