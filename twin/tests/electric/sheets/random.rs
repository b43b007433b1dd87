//! Random settlements on books within their limits, past them and of any bits, and those of long histories.

use super::cases::{case, page_length, sound};
use super::counts::Counts;
use super::flaws::Flaw;
use super::plain;
use super::sides::{compare, write, Case};
use crate::books::{spoil, wild_book};
use crate::driver::Driver;
use crate::met::seeded;
use twin::electric::{open, post, ElectricBook, Sales};
use twin::random::Random;
use twin::records::SETTLE;

const CASES: usize = 1_000_000;

/// Books past their limits get one refusal, so that fewer do.
const FLAWED_CASES: usize = 200_000;

/// Of so many cases one is written by the plain writer too, which is slow.
const PLAIN: usize = 11;

const HISTORIES: u64 = 60;
const POSTINGS: usize = 20_000;

/// Settlements of as many books, each on both sides.
fn run(seed: u64, cases: usize, next: impl Fn(&mut Random) -> ElectricBook) -> Counts {
    let (mut random, origin) = seeded(seed);
    let mut counts = Counts::default();
    for index in 0..cases {
        let book = next(&mut random);
        let case = case(&mut random, book);
        counts.count(&case, &write(&case, &mut random, &origin));
        if index % PLAIN == 0 {
            plain_agrees(&case, &mut random, &origin);
        }
    }
    counts
}

fn plain_agrees(case: &Case, random: &mut Random, origin: &str) {
    let met = compare(
        &|case, memory| plain::write(case, memory, Flaw::Nothing),
        case,
        random,
    );
    if let Err(difference) = met {
        panic!("plain: {difference}\n{case:?}, {origin}");
    }
}

#[test]
fn sheets_of_sound_books_agree() {
    let counts = run(11, CASES, sound);
    counts.check("sheets of sound books", 1_000, &[0, 7, 8, 10, 12, 13]);
    counts.check_sheets(30);
}

#[test]
fn sheets_of_books_with_one_flaw_agree() {
    let counts = run(12, FLAWED_CASES, |random| {
        let mut book = sound(random);
        spoil(random, &mut book);
        book
    });
    counts.check("sheets of books with one flaw", 1_000, &[6]);
}

#[test]
fn sheets_of_wild_books_agree() {
    run(13, FLAWED_CASES, wild_book).check("sheets of wild books", 1_000, &[6]);
}

/// The settlements of one history, timely, untimely and with a field out of range.
fn history(seed: u64, counts: &mut Counts) {
    let (mut random, origin) = seeded(seed);
    let mut driver = Driver::new(Random::new(random.bits()), seed % 3 == 1);
    let mut last = open((seed % 2) as u8);
    for index in 0..POSTINGS {
        let posting = driver.next(&last.book, last.reply.number);
        if posting.kind == SETTLE {
            let [secondary, primary, _] = posting.numbers;
            let case = Case {
                book: last.book,
                estimates: Sales { secondary, primary },
                page_length: page_length(&mut random),
            };
            let origin = format!("posting {index}, {origin}");
            counts.count(&case, &write(&case, &mut random, &origin));
            plain_agrees(&case, &mut random, &origin);
        }
        last = post(last.book, posting);
    }
}

#[test]
fn sheets_of_histories_agree() {
    let mut counts = Counts::default();
    for seed in 1..=HISTORIES {
        history(seed, &mut counts);
    }
    counts.check("sheets of histories", 100, &[0, 7, 8, 10, 12, 13]);
    counts.check_sheets(10);
}
