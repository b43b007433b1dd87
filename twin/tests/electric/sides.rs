//! Both sides of the electric book.

use crate::met::LISTED;
use twin::electric::{ElectricBook, Levels, Posted, Reply};
use twin::records::{Posting, BILL, MONTH_END, SETTLE};
use twin::{electric, proved};

/// The numbers that a posting can get on an electric book, 0 for none.
pub const NUMBERS: [u8; 8] = [0, 2, 3, 6, 7, 8, 10, 12];

/// Both sides of an opening, which must agree.
pub fn open(division: u8) -> Posted {
    let proved = proved::electric_open(division);
    let twin = electric::open(division);
    assert_eq!(proved, twin, "proved and twin opening {division}");
    twin
}

/// What the twin's call in place gives, and what it makes of the book.
fn in_place(mut book: ElectricBook, posting: Posting) -> Posted {
    let reply = electric::post_in_place(&mut book, posting);
    Posted { reply, book }
}

/// Both sides of a posting, and the twin's in place: all agree in the answer and in every field of the book.
pub fn post(book: ElectricBook, posting: Posting, origin: &str) -> Posted {
    let proved = proved::electric_post(book, posting);
    let twin = electric::post(book, posting);
    assert_eq!(
        proved, twin,
        "proved and twin {posting:?} on {book:?}, {origin}"
    );
    assert_eq!(
        in_place(book, posting),
        twin,
        "in place and by value {posting:?} on {book:?}, {origin}"
    );
    if twin.reply.number != 0 {
        assert_eq!(twin.book, book, "refused {posting:?}, {origin}");
    }
    twin
}

/// A listed posting that must be refused with the number.
pub fn expect_refusal(number: u8, book: ElectricBook, posting: Posting) {
    let met = post(book, posting, LISTED).reply.number;
    assert_eq!(met, number, "{posting:?} on {book:?} and expected");
}

/// The amounts that a posting of the kind is answered with, and nothing else.
fn answered(kind: u8, amounts: [i64; 2]) -> Reply {
    let mut reply = Reply::default();
    match (kind, amounts) {
        (BILL, [line, 0]) => reply.line = line,
        (SETTLE, factors) => {
            let [secondary, primary] = factors.map(|factor| factor as i32);
            reply.filed = Levels { secondary, primary };
        }
        (MONTH_END, [secondary, primary]) => reply.interest = Levels { secondary, primary },
        (_, [0, 0]) => {}
        _ => panic!("kind {kind} is not answered with {amounts:?}"),
    }
    reply
}

/// A listed posting that must be accepted with the amounts; gives the next book.
pub fn expect(amounts: [i64; 2], book: ElectricBook, posting: Posting) -> ElectricBook {
    let posted = post(book, posting, LISTED);
    let expected = answered(posting.kind, amounts);
    assert_eq!(
        posted.reply, expected,
        "{posting:?} on {book:?} and expected"
    );
    posted.book
}
