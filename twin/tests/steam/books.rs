//! Postings on random books: within their limits, at them, past them, and of any bits.

use crate::fields::Size;
use crate::met::{seeded, Met};
use crate::postings::{posting_of, spoiled, KINDS};
use crate::sides::{post, NUMBERS};
use crate::stored::{Stored, SALES, STORED};
use twin::amounts::Run;
use twin::random::Random;
use twin::records::{Posting, RECONCILE, SETTLE};
use twin::steam::{Reconciliation, SteamBook};

const RANDOM_CASES: usize = 1_000_000;

const SETTLING: [u8; 4] = [3, 6, 9, 12];

/// A number within the limits: small, none, any, or at an end.
fn inside(random: &mut Random, value: &Stored, gentle: bool) -> i64 {
    let (low, high) = (value.low, value.high);
    match random.below(8) {
        choice if gentle || choice < 2 => {
            let most = random.one_of(&[100, 10_000, 10_000_000]);
            random.within(-most, most).clamp(low, high)
        }
        2..=3 => 0,
        4..=5 => random.within(low, high),
        6 => random.within(high - 100, high),
        _ => random.within(low, low + 100),
    }
}

/// A book within its limits, in any month.
fn sound_book(random: &mut Random) -> SteamBook {
    let mut book = SteamBook::fresh([0; 4]);
    // Half of the books are in a month with settling, since it has the more cases.
    book.month = match random.coin() {
        true => random.one_of(&SETTLING),
        false => random.within(1, 12) as u8,
    };
    book.settled = SETTLING.contains(&book.month) && random.below(3) == 0;
    // Of large values most sums are past a limit.
    let gentle = random.coin();
    for value in &STORED {
        let number = inside(random, value, gentle);
        value.set(&mut book, number);
    }
    match random.below(8) {
        0 => book.period.sales = 0,
        1 => book.period.sales = near_five_percent(random, book.quarters[0]),
        2 => book.quarters[1..].fill(0),
        _ => {}
    }
    book.reconciliation.months = months_left(random);
    if book.reconciliation.months == 0 {
        book.reconciliation.run = Run::default();
    }
    book
}

/// Sales at a bound of the 5% test, or beside it.
fn near_five_percent(random: &mut Random, oldest: i64) -> i64 {
    let bound = random.one_of(&[95, 105]) * oldest / 100;
    (bound + random.within(-1, 1)).clamp(0, SALES)
}

/// None in half of the books, and often the last one.
fn months_left(random: &mut Random) -> u8 {
    match random.below(8) {
        0..=3 => 0,
        4..=5 => 1,
        _ => random.within(1, 24) as u8,
    }
}

/// Puts one thing past its limit, most often by one.
pub fn spoil(random: &mut Random, book: &mut SteamBook) {
    match random.below(STORED.len() + 4) {
        0 => book.month = random.one_of(&[0, 13, 14, 128, 255]),
        1 => {
            book.settled = true;
            book.month = random.one_of(&[1, 2, 4, 5, 7, 8, 10, 11]);
        }
        2 => book.reconciliation.months = random.one_of(&[25, 26, 36, 128, 255]),
        3 => {
            let run = random.one_of(&[
                Run { factor: 1, due: 0 },
                Run { factor: 0, due: 1 },
                Run {
                    factor: -1,
                    due: -1,
                },
            ]);
            book.reconciliation = Reconciliation { run, months: 0 };
        }
        index => {
            let value = &STORED[index - 4];
            let number = random.one_of(&[value.low - 1, value.high + 1]);
            value.set(book, number);
        }
    }
}

/// A book of any bits, but for `settled`, which is a bool.
fn wild_book(random: &mut Random) -> SteamBook {
    let mut book = SteamBook::fresh([0; 4]);
    book.month = random.bits() as u8;
    book.settled = random.coin();
    for value in &STORED {
        let any = random.bits() as i64;
        let number = random.one_of(&[any, i64::MIN, i64::MAX, i64::from(i32::MIN)]);
        value.set(&mut book, number);
    }
    book.reconciliation.months = random.bits() as u8;
    book
}

/// A posting of any size, some of them spoiled and some of any bits.
fn posting(random: &mut Random, book: &SteamBook) -> Posting {
    let kind = random.one_of(&KINDS);
    let size = random.one_of(&[Size::Tiny, Size::Usual, Size::Any, Size::End]);
    let mut posting = posting_of(random, kind, size);
    if random.coin() {
        aim(random, book, &mut posting);
    }
    match random.below(12) {
        0 => spoiled(random, posting),
        1 => Posting {
            kind: random.bits() as u8,
            numbers: [0; 3].map(|_: i64| random.signed_of_any_length()),
        },
        _ => posting,
    }
}

/// Makes the divisor of a factor small, or such that the factor is near its limit.
fn aim(random: &mut Random, book: &SteamBook, posting: &mut Posting) {
    let beside = random.within(-2, 2);
    match posting.kind {
        SETTLE => {
            let newer: i128 = book.quarters[1..]
                .iter()
                .map(|&sold| i128::from(sold))
                .sum();
            let annual = i128::from(book.period.sales) + newer;
            let about = random.one_of(&[0, 200 * i128::from(book.period.cost).abs() / 249_999]);
            let adjustment = about - annual + i128::from(beside);
            let most = i128::from(SALES);
            posting.numbers[0] = adjustment.clamp(-most, most) as i64;
        }
        RECONCILE => {
            let at_limit = 200 * i128::from(book.carried).abs() / 199_999 + i128::from(beside);
            posting.numbers[1] = at_limit.clamp(1, i128::from(SALES)) as i64;
        }
        _ => {}
    }
}

#[test]
fn postings_on_sound_books_agree() {
    let (mut random, origin) = seeded(1);
    let mut met = Met::default();
    for _ in 0..RANDOM_CASES {
        let book = sound_book(&mut random);
        let posting = posting(&mut random, &book);
        met.count(posting, post(book, posting, &origin).reply.number);
    }
    met.print("sound books");
    let without_six: Vec<u8> = NUMBERS.into_iter().filter(|&number| number != 6).collect();
    met.has_numbers(1_000, &without_six);
    met.has_kinds(1_000, &KINDS);
}

#[test]
fn postings_on_books_with_one_flaw_agree() {
    let (mut random, origin) = seeded(2);
    let mut met = Met::default();
    for _ in 0..RANDOM_CASES {
        let mut book = sound_book(&mut random);
        spoil(&mut random, &mut book);
        let posting = posting(&mut random, &book);
        met.count(posting, post(book, posting, &origin).reply.number);
    }
    met.print("books with one flaw");
    met.has_numbers(1_000, &[2, 3, 6]);
}

#[test]
fn postings_on_wild_books_agree() {
    let (mut random, origin) = seeded(3);
    let mut met = Met::default();
    for _ in 0..RANDOM_CASES {
        let book = wild_book(&mut random);
        let posting = posting(&mut random, &book);
        met.count(posting, post(book, posting, &origin).reply.number);
    }
    met.print("wild books");
    met.has_numbers(1_000, &[2, 3, 6]);
}
