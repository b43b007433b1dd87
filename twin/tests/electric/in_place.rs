//! Histories on one book that is changed in place, beside the call by value.

use crate::books::spoil;
use crate::driver::Driver;
use crate::met::{seeded, Met};
use crate::postings::KINDS;
use crate::sides::NUMBERS;
use twin::electric::{open, post, post_in_place, ElectricBook, Posted};
use twin::random::Random;
use twin::records::Posting;

const HISTORIES: u64 = 60;
const POSTINGS: usize = 10_000;

/// Of so many postings one goes to a damaged copy of the book as well.
const DAMAGED: usize = 20;

/// Posts in place, which must give the reply and the book of the call by value; gives the number.
fn post_to(book: &mut ElectricBook, posting: Posting, origin: &str) -> u8 {
    let before = *book;
    let reply = post_in_place(book, posting);
    let in_place = Posted { reply, book: *book };
    let by_value = post(before, posting);
    assert_eq!(
        in_place, by_value,
        "in place and by value {posting:?} on {before:?}, {origin}"
    );
    if reply.number != 0 {
        assert_eq!(*book, before, "refused {posting:?}, {origin}");
    }
    reply.number
}

/// One history; gives what was met in it.
fn run(seed: u64) -> Met {
    let (mut random, origin) = seeded(seed);
    let mut driver = Driver::new(Random::new(random.bits()), seed % 3 == 1);
    let mut book = open((seed % 2) as u8).book;
    let (mut number, mut met) = (0, Met::default());
    for index in 0..POSTINGS {
        let origin = format!("posting {index}, {origin}");
        let posting = driver.next(&book, number);
        if random.below(DAMAGED) == 0 {
            let mut damaged = book;
            spoil(&mut random, &mut damaged);
            met.count(posting, post_to(&mut damaged, posting, &origin));
        }
        number = post_to(&mut book, posting, &origin);
        met.count(posting, number);
    }
    met
}

#[test]
fn in_place_is_as_by_value_and_a_refusal_leaves_the_book() {
    let mut met = Met::default();
    for seed in 1..=HISTORIES {
        met.add(&run(seed));
    }
    met.print("in place");
    met.has_numbers(100, &NUMBERS);
    met.has_kinds(100, &KINDS);
}
