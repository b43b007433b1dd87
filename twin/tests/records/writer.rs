//! Writings: every kind and pattern of numbers, random postings, buffers of every length around.

use crate::common::{seeded, write_around, Answers};
use crate::postings::{nonzero, posting_of, Entry, BOOKS};
use twin::records::Posting;
use twin::written::BUFFER_TOO_SHORT;

const RANDOM_CASES: usize = 1_000_000;

/// Holds a writer to its four answers, each met at least so often for either book.
fn writer_met(met: &[Answers; 2], least: usize) {
    for (book, answers) in BOOKS.iter().zip(met) {
        for (answer, &count) in answers.iter().enumerate() {
            let enough = match [0, 2, 3, BUFFER_TOO_SHORT].contains(&answer) {
                true => count >= least,
                false => count == 0,
            };
            assert!(enough, "answer {answer} of {book:?} met {count} times");
        }
    }
}

#[test]
fn writings_of_every_kind_and_pattern_agree() {
    let (mut random, origin) = seeded(9);
    let mut met = [Answers::default(); 2];
    for _ in 0..20 {
        for (kind, pattern) in (0..=255).flat_map(|kind| (0..8).map(move |bits| (kind, bits))) {
            let present = [0, 1, 2].map(|bit| pattern >> bit & 1);
            let numbers = present.map(|bit| bit * nonzero(&mut random));
            let posting = Posting { kind, numbers };
            for book in BOOKS {
                let entry = Entry { book, posting };
                write_around(&entry, &mut random, &mut met[book as usize], &origin);
            }
        }
    }
    writer_met(&met, 1_000);
}

#[test]
fn writings_of_random_postings_agree() {
    let (mut random, origin) = seeded(10);
    let mut met = [Answers::default(); 2];
    for case in 0..RANDOM_CASES {
        let book = BOOKS[case % 2];
        let mut posting = posting_of(book, &mut random);
        match random.below(8) {
            0 => posting.kind = random.bits() as u8,
            1 => posting.numbers[random.below(3)] = nonzero(&mut random),
            _ => {}
        }
        let entry = Entry { book, posting };
        write_around(&entry, &mut random, &mut met[book as usize], &origin);
    }
    writer_met(&met, 10_000);
}
