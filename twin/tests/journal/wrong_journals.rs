//! Wrong journal programs, each of which the random journals must tell from the twin.

use crate::buffers::in_buffers;
use crate::flaws::{Flaw, FLAWS};
use crate::plain;
use twin::comparison::{compare, Side};
use twin::generate::journals::Journal;

const JOURNALS: u64 = 2_000;

/// Whether the journal tells the flaw, by its text or by what is left in buffers.
fn tells(journal: &[u8], flaw: Flaw) -> bool {
    let side = Side {
        write: &|input, buffer| plain::write(input, buffer, flaw),
        length: &|input| plain::length(input, flaw),
    };
    match compare(side, journal) {
        Err(_) => true,
        Ok(text) => in_buffers(side, journal, &text, 1).is_err(),
    }
}

#[test]
fn every_flaw_is_told() {
    let mut left: Vec<Flaw> = FLAWS.to_vec();
    for seed in 1..=JOURNALS {
        let journal = Journal::of_seed(seed).bytes;
        left.retain(|&flaw| {
            let told = tells(&journal, flaw);
            if told {
                println!("{flaw:?} told by seed {seed}");
            }
            !told
        });
    }
    assert_eq!(left, [], "not told");
}

#[test]
fn no_flaw_is_told_where_there_is_none() {
    for seed in 1..=JOURNALS / 10 {
        let journal = Journal::of_seed(seed).bytes;
        assert!(!tells(&journal, Flaw::Nothing), "seed {seed}");
    }
}
