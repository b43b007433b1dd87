//! Both sides of the steam book.

use crate::met::LISTED;
use twin::records::{Posting, BILL, SETTLE};
use twin::steam::{Posted, Reply, SteamBook};
use twin::{proved, steam};

/// The numbers that a posting can get on a steam book, 0 for none.
pub const NUMBERS: [u8; 10] = [0, 2, 3, 6, 7, 8, 9, 10, 11, 12];

/// The numbers that a posting can get from fresh, where no book is ever out of its limits.
pub const NUMBERS_FROM_FRESH: [u8; 9] = [0, 2, 3, 7, 8, 9, 10, 11, 12];

/// Both sides of an opening, which must agree.
pub fn open(quarters: [i64; 4]) -> Posted {
    let proved = proved::steam_open(quarters);
    let [first, second, third, fourth] = quarters;
    let twin = steam::open(first, second, third, fourth);
    assert_eq!(proved, twin, "proved and twin opening {quarters:?}");
    twin
}

/// The fresh book of an opening that must be accepted.
pub fn opened(quarters: [i64; 4]) -> SteamBook {
    let posted = open(quarters);
    assert_eq!(posted.reply.number, 0, "opening {quarters:?}");
    posted.book
}

/// What the twin's call in place gives, and what it makes of the book.
fn in_place(mut book: SteamBook, posting: Posting) -> Posted {
    let reply = steam::post_in_place(&mut book, posting);
    Posted { reply, book }
}

/// Both sides of a posting, and the twin's in place: all agree in the answer and in every field of the book.
pub fn post(book: SteamBook, posting: Posting, origin: &str) -> Posted {
    let proved = proved::steam_post(book, posting);
    let twin = steam::post(book, posting);
    assert_eq!(
        proved, twin,
        "proved and twin {posting:?} on {book:?}, {origin}"
    );
    assert_eq!(
        in_place(book, posting),
        twin,
        "in place and by value {posting:?} on {book:?}, {origin}"
    );
    if twin.reply.number != 0 {
        assert_eq!(twin.book, book, "refused {posting:?}, {origin}");
    }
    twin
}

pub fn number_of(book: SteamBook, posting: Posting) -> u8 {
    post(book, posting, LISTED).reply.number
}

/// A listed posting that must be refused with the number.
pub fn expect_refusal(number: u8, book: SteamBook, posting: Posting) {
    let met = number_of(book, posting);
    assert_eq!(met, number, "{posting:?} on {book:?} and expected");
}

/// The amount that a posting of the kind is answered with, and nothing else.
fn answered(kind: u8, amount: i64) -> Reply {
    let mut reply = Reply::default();
    match (kind, amount) {
        (BILL, line) => reply.line = line,
        (SETTLE, factor) => reply.filed = factor as i32,
        (_, 0) => {}
        _ => panic!("kind {kind} is not answered with {amount}"),
    }
    reply
}

/// A listed posting that must be accepted with the amount; gives the next book.
pub fn expect(amount: i64, book: SteamBook, posting: Posting) -> SteamBook {
    let posted = post(book, posting, LISTED);
    let expected = answered(posting.kind, amount);
    assert_eq!(
        posted.reply, expected,
        "{posting:?} on {book:?} and expected"
    );
    posted.book
}

/// Listed postings in turn, each of which must be accepted; gives the book after them.
pub fn expect_all(book: SteamBook, postings: &[Posting]) -> SteamBook {
    postings.iter().fold(book, |book, &posting| {
        let posted = post(book, posting, LISTED);
        assert_eq!(posted.reply.number, 0, "{posting:?} on {book:?}");
        posted.book
    })
}
