//! Postings on random books: within their limits, at them, past them, and of any bits.

use crate::fields::Size;
use crate::halves::halved_sales;
use crate::met::{seeded, Met};
use crate::postings::{posting_of, spoiled, KINDS};
use crate::sides::{post, NUMBERS};
use crate::stored::{Stored, STORED};
use twin::electric::{ElectricBook, Sales};
use twin::random::Random;
use twin::records::Posting;

const RANDOM_CASES: usize = 1_000_000;

/// A number within the limits: small, none, any, or at an end.
fn inside(random: &mut Random, value: &Stored, gentle: bool) -> i64 {
    let (low, high) = (value.low, value.high);
    match random.below(8) {
        choice if gentle || choice < 2 => {
            let most = random.one_of(&[100, 10_000, 10_000_000]);
            random.within(-most, most).clamp(low, high)
        }
        2..=3 => 0,
        4..=5 => random.within(low, high),
        6 => random.within(high - 100, high),
        _ => random.within(low, low + 100),
    }
}

/// A book within its limits, in any month.
pub fn sound_book(random: &mut Random) -> ElectricBook {
    let mut book = ElectricBook::fresh(random.within(0, 1) as u8);
    // Half of the books are in a month with settling, since it has the more cases.
    book.month = match random.coin() {
        true => random.one_of(&[5, 11]),
        false => random.within(1, 12) as u8,
    };
    book.settled = [5, 11].contains(&book.month) && random.below(3) == 0;
    // Of large values most sums are past a limit.
    let gentle = random.coin();
    for value in &STORED {
        let number = inside(random, value, gentle);
        value.set(&mut book, number);
    }
    match random.below(8) {
        0 => book.period.sales = Sales::default(),
        1 => book.period.sales = halved_sales(random, book.division),
        _ => {}
    }
    book
}

/// Puts one thing past its limit, most often by one.
pub fn spoil(random: &mut Random, book: &mut ElectricBook) {
    match random.below(STORED.len() + 3) {
        0 => book.division = random.within(2, 255) as u8,
        1 => book.month = random.one_of(&[0, 13, 14, 128, 255]),
        2 => {
            book.settled = true;
            book.month = random.one_of(&[1, 2, 3, 4, 6, 7, 8, 9, 10, 12]);
        }
        index => {
            let value = &STORED[index - 3];
            let number = random.one_of(&[value.low - 1, value.high + 1]);
            value.set(book, number);
        }
    }
}

/// A book of any bits, but for `settled`, which is a bool.
pub fn wild_book(random: &mut Random) -> ElectricBook {
    let mut book = ElectricBook::fresh(random.bits() as u8);
    book.month = random.bits() as u8;
    book.settled = random.coin();
    for value in &STORED {
        let any = random.bits() as i64;
        let number = random.one_of(&[any, i64::MIN, i64::MAX, i64::from(i32::MIN)]);
        value.set(&mut book, number);
    }
    book
}

/// A posting of any size, some of them spoiled and some of any bits.
fn posting(random: &mut Random) -> Posting {
    let kind = random.one_of(&KINDS);
    let size = random.one_of(&[Size::Tiny, Size::Usual, Size::Any, Size::End]);
    let posting = posting_of(random, kind, size);
    match random.below(12) {
        0 => spoiled(random, posting),
        1 => Posting {
            kind: random.bits() as u8,
            numbers: [0; 3].map(|_: i64| random.signed_of_any_length()),
        },
        _ => posting,
    }
}

#[test]
fn postings_on_sound_books_agree() {
    let (mut random, origin) = seeded(1);
    let mut met = Met::default();
    for _ in 0..RANDOM_CASES {
        let book = sound_book(&mut random);
        let posting = posting(&mut random);
        met.count(posting, post(book, posting, &origin).reply.number);
    }
    met.print("sound books");
    let without_six: Vec<u8> = NUMBERS.into_iter().filter(|&number| number != 6).collect();
    met.has_numbers(1_000, &without_six);
    met.has_kinds(1_000, &KINDS);
}

#[test]
fn postings_on_books_with_one_flaw_agree() {
    let (mut random, origin) = seeded(2);
    let mut met = Met::default();
    for _ in 0..RANDOM_CASES {
        let mut book = sound_book(&mut random);
        spoil(&mut random, &mut book);
        let posting = posting(&mut random);
        met.count(posting, post(book, posting, &origin).reply.number);
    }
    met.print("books with one flaw");
    met.has_numbers(1_000, &[2, 3, 6]);
}

#[test]
fn postings_on_wild_books_agree() {
    let (mut random, origin) = seeded(3);
    let mut met = Met::default();
    for _ in 0..RANDOM_CASES {
        let book = wild_book(&mut random);
        let posting = posting(&mut random);
        met.count(posting, post(book, posting, &origin).reply.number);
    }
    met.print("wild books");
    met.has_numbers(1_000, &[2, 3, 6]);
}
