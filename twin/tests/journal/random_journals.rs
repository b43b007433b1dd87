//! Random journals, short and long, whole and damaged.

use crate::flaws::Flaw;
use crate::met::{Met, BOOKS};
use crate::plain;
use crate::sides::printed_of_seed;
use std::thread;

const JOURNALS: u64 = 24_000;
const THREADS: u64 = 2;

/// Of so many journals one is printed by the plain program too, which is slow.
const PLAIN: u64 = 11;

/// What every so-manieth journal from the first on has.
fn run(first: u64) -> Met {
    let mut met = Met::default();
    for seed in (first..=JOURNALS).step_by(THREADS as usize) {
        let (input, text) = printed_of_seed(seed);
        if seed % PLAIN == 0 {
            let plain = plain::printed(&input, Flaw::Nothing);
            assert!(
                plain.as_bytes() == text,
                "plain program and both sides, seed {seed}"
            );
        }
        met.count(&input, &text, &format!("seed {seed}"));
    }
    met
}

/// Holds each of the numbers to have been met at least so often, and no other at all.
fn has_numbers(name: &str, counts: &[usize], least: usize, numbers: &[usize]) {
    for (number, &count) in counts.iter().enumerate() {
        let enough = match numbers.contains(&number) {
            true => count >= least,
            false => count == 0,
        };
        assert!(enough, "{name}: number {number} met {count} times");
    }
}

#[test]
fn random_journals_agree() {
    let mut met = Met::default();
    thread::scope(|scope| {
        let parts: Vec<_> = (1..=THREADS)
            .map(|first| scope.spawn(move || run(first)))
            .collect();
        for part in parts {
            met.add(&part.join().expect("the sides agree"));
        }
    });
    met.print();
    has_numbers("openings", &met.openings, 100, &[1, 7]);
    for (name, book) in BOOKS.iter().zip(&met.books) {
        let steam = *name == "steam";
        // A posting is never refused by 2, 3 or 6: reading comes first, and no book leaves its limits.
        let refused: &[usize] = match steam {
            true => &[7, 8, 9, 10, 11, 12],
            false => &[7, 8, 10, 12],
        };
        let kinds: &[usize] = match steam {
            true => &[1, 2, 3, 4, 5, 6, 7],
            false => &[1, 2, 3, 4, 5, 6],
        };
        has_numbers(name, &book.unread, 20, &[1, 2, 3, 4, 5]);
        has_numbers(name, &book.refused, 500, refused);
        has_numbers(name, &book.answered, 1_000, kinds);
        has_numbers(name, &book.amounts, 100, &[0, 1, 2, 3]);
        assert!(book.journals > 4_000, "{name}: {}", book.journals);
        // Numbers of five digits, and decades of months.
        assert!(book.most_records > 10_000, "{name}: {book:?}");
        assert!(book.most_months > 240, "{name}: {book:?}");
    }
}
