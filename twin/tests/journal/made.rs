//! What the random journals are made to be: years of accepted postings, and inputs of every length.

use crate::met::Met;
use crate::month_ends::MonthEnds;
use crate::sides::printed;
use twin::electric::{post, ElectricBook};
use twin::generate::journals::Journal;
use twin::generate::plan::{End, Opening, Plan};
use twin::random::Random;
use twin::records::{read_record, Book, Read, MONTH_END};

const OPENINGS: [Opening; 3] = [
    Opening::Division(0),
    Opening::Division(1),
    Opening::Steam([600_000, 580_000, 610_000, 590_000]),
];

/// A journal of accepted postings alone, about as long as can be.
fn valid_journal(opening: Opening, seed: u64) -> Vec<u8> {
    let plan = Plan {
        opening,
        end: End::AfterRecord(65_500),
        calm: true,
        valid: true,
        bare: 0,
        damages: 0,
    };
    Journal::by_plan(&plan, &mut Random::new(seed)).bytes
}

#[test]
fn valid_journals_are_years_of_accepted_postings() {
    for (index, opening) in OPENINGS.into_iter().enumerate() {
        for seed in 1..=20 {
            let origin = format!("valid journal of {opening:?}, seed {seed}");
            let input = valid_journal(opening, seed);
            let mut met = Met::default();
            met.count(&input, &printed(&input, &origin), &origin);
            let book = &met.books[index];
            assert_eq!(met.whole, 1, "{origin}");
            assert_eq!(book.refused, [0; 14], "{origin}");
            let (settled, months) = (book.answered[4], book.answered[5]);
            assert!(months > 120, "{months} months, {origin}");
            // The first quarter or half year, and none left out.
            let periods = if index == 2 { months / 3 } else { months / 6 };
            assert!(
                settled.abs_diff(periods) <= 1,
                "{settled} settled, {origin}"
            );
            assert!(index < 2 || book.answered[7] > 2, "{book:?}, {origin}");
        }
    }
}

/// Counts the accepted month ends of an electric journal.
fn count_month_ends(input: &[u8], month_ends: &mut MonthEnds) {
    let Some(&division @ 0..=1) = input.first() else {
        return;
    };
    let (mut book, mut place) = (ElectricBook::fresh(division), 1);
    while let Read::Found { posting, next } = read_record(Book::Electric, input, place) {
        let posted = post(book, posting);
        if posting.kind == MONTH_END && posted.reply.number == 0 {
            month_ends.count(&book, posting.numbers[0]);
        }
        (book, place) = (posted.book, next);
    }
}

#[test]
fn month_ends_of_every_sort_are_made() {
    let mut month_ends = MonthEnds::default();
    for seed in 1..=2_000 {
        count_month_ends(&Journal::of_seed(seed).bytes, &mut month_ends);
    }
    month_ends.check("accepted month ends of journals", 10);
}

#[test]
fn inputs_of_every_length_are_made() {
    let mut met = [0; 7];
    for seed in 1..=2_000 {
        let length = Journal::of_seed(seed).bytes.len();
        let index = match length {
            0 => 0,
            1 => 1,
            65_535 => 2,
            65_536 => 3,
            65_537 => 4,
            65_538.. => 5,
            _ => 6,
        };
        met[index] += 1;
    }
    println!("0, 1, 65,535, 65,536, 65,537, more, other: {met:?}");
    assert!(met.iter().all(|&count| count >= 5), "{met:?}");
}

#[test]
fn a_seed_makes_the_same_journal_again() {
    for seed in 1..=100 {
        let again = Journal::of_seed(seed).bytes;
        assert_eq!(Journal::of_seed(seed).bytes, again, "seed {seed}");
        assert_ne!(Journal::of_seed(seed + 100).bytes, again, "seed {seed}");
    }
}
