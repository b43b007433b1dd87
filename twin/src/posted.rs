//! What a posting to either book gives.

use crate::written::Refusal;

/// What a book answers with: the refusal's number, 0 for none, and amounts, 0 where none applies.
pub trait Replied: Default {
    fn refused(number: u8) -> Self;
    fn number(&self) -> u8;
}

/// The reply and the book afterwards.
///
/// Its layout is that of C, as the proved functions give it. C has the reply's fields beside the
/// book, at the same places.
#[repr(C)]
#[derive(Clone, Copy, Debug, PartialEq, Eq)]
pub struct Posted<Reply, Book> {
    pub reply: Reply,
    pub book: Book,
}

/// The reply, or a refusal.
pub(crate) type Outcome<Reply> = Result<Reply, Refusal>;

#[inline]
pub(crate) fn done<Reply: Default>() -> Outcome<Reply> {
    Ok(Reply::default())
}

#[inline]
pub(crate) fn accepted<Reply, Book>(reply: Reply, book: Book) -> Posted<Reply, Book> {
    Posted { reply, book }
}

#[inline]
pub(crate) fn refused<Reply: Replied, Book>(number: Refusal, book: Book) -> Posted<Reply, Book> {
    let reply = Reply::refused(number as u8);
    Posted { reply, book }
}
