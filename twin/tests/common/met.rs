//! What a test of a book met: answers by number, and accepted postings by kind.

use twin::random::Random;
use twin::records::Posting;

/// What a case without a seed is named by.
pub const LISTED: &str = "a listed case";

pub fn seeded(seed: u64) -> (Random, String) {
    (Random::new(seed), format!("seed {seed}"))
}

/// How often each number was met, and how often each kind was accepted.
#[derive(Clone, Debug, Default)]
pub struct Met {
    pub numbers: [usize; 14],
    pub accepted: [usize; 8],
}

impl Met {
    pub fn count(&mut self, posting: Posting, number: u8) {
        self.numbers[usize::from(number)] += 1;
        if number == 0 {
            self.accepted[usize::from(posting.kind)] += 1;
        }
    }

    pub fn add(&mut self, other: &Met) {
        for (sum, count) in self.numbers.iter_mut().zip(other.numbers) {
            *sum += count;
        }
        for (sum, count) in self.accepted.iter_mut().zip(other.accepted) {
            *sum += count;
        }
    }

    /// Holds each of the numbers to have been met at least so often, and no other at all.
    pub fn has_numbers(&self, least: usize, numbers: &[u8]) {
        for (number, &count) in self.numbers.iter().enumerate() {
            let enough = match numbers.contains(&(number as u8)) {
                true => count >= least,
                false => count == 0,
            };
            assert!(enough, "number {number} met {count} times");
        }
    }

    /// Holds each of the kinds to have been accepted at least so often.
    pub fn has_kinds(&self, least: usize, kinds: &[u8]) {
        for &kind in kinds {
            let count = self.accepted[usize::from(kind)];
            assert!(count >= least, "kind {kind} accepted {count} times");
        }
    }

    pub fn print(&self, title: &str) {
        let total: usize = self.numbers.iter().sum();
        println!("{title}: {total} postings");
        for (number, count) in self.numbers.iter().enumerate() {
            if *count > 0 {
                println!("  number {number}: {count}");
            }
        }
        for (kind, count) in self.accepted.iter().enumerate() {
            if *count > 0 {
                println!("  kind {kind} accepted: {count}");
            }
        }
    }
}
