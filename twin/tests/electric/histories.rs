//! Long histories from fresh books, with the tally's claim after every posting.

use crate::driver::Driver;
use crate::met::{seeded, Met};
use crate::month_ends::MonthEnds;
use crate::postings::KINDS;
use crate::sides::{open, post, NUMBERS};
use crate::stored::{CENTS, STORED};
use twin::electric::Posted;
use twin::records::{Posting, ADJUST, COST, MONTH_END, SETTLE};
use twin::tally::electric::Tally;

const HISTORIES: u64 = 100;
const POSTINGS: usize = 30_000;

/// How often values were at their limit after a posting, low and high, and one past it before.
#[derive(Default)]
struct AtLimits {
    at: [[usize; 2]; STORED.len()],
    cost_past: [usize; 2],
    carried_past: [usize; 2],
}

impl AtLimits {
    fn count(&mut self, before: &Posted, posting: Posting, after: &Posted) {
        if after.reply.number == 0 {
            for (counts, value) in self.at.iter_mut().zip(&STORED) {
                let number = value.get(after.book);
                counts[0] += usize::from(number == value.low);
                counts[1] += usize::from(number == value.high);
            }
        } else if after.reply.number == 12 {
            self.count_past(before, posting);
        }
    }

    /// Counts a refusal of exactly one cent too much.
    fn count_past(&mut self, before: &Posted, posting: Posting) {
        let [first, second, third] = posting.numbers;
        let mut book = before.book;
        let (refused, counts) = match posting.kind {
            COST => {
                let sum = book.period.cost + first + second + third;
                (sum, &mut self.cost_past)
            }
            ADJUST => {
                let sum = book.level_mut(first).carried + second;
                (sum, &mut self.carried_past)
            }
            _ => return,
        };
        counts[0] += usize::from(refused == -CENTS - 1);
        counts[1] += usize::from(refused == CENTS + 1);
    }

    /// Prints the counts, and holds each limit that histories reach to have been met.
    fn check(&self) {
        for (value, [low, high]) in STORED.iter().zip(self.at) {
            println!("  {} at its limits: {low}, {high}", value.name);
            // Half a year of interest stays below the limit, and no posting drives a remainder.
            let reached = !value.name.ends_with("interest") && value.name != "remainder";
            let met = low > 0 && high > 0;
            assert!(met || !reached, "{} was not at a limit", value.name);
        }
        for (name, past) in [("cost", self.cost_past), ("carried", self.carried_past)] {
            println!("  {name} refused at one cent past: {past:?}");
            assert!(past.iter().all(|&count| count > 0), "{name}: {past:?}");
        }
    }
}

/// One history, which must keep the claim; gives what was met in it.
fn run(seed: u64, limits: &mut AtLimits, month_ends: &mut MonthEnds) -> Met {
    let (random, origin) = seeded(seed);
    let mut driver = Driver::new(random, seed % 3 == 1);
    let mut met = Met::default();
    let division = (seed % 2) as u8;
    let mut last = open(division);
    let mut tally = Tally::new(division);
    for index in 0..POSTINGS {
        let posting = driver.next(&last.book, last.reply.number);
        let next = post(last.book, posting, &format!("posting {index}, {origin}"));
        tally.feed(posting, &next);
        if let Err(failure) = tally.check(&next.book) {
            panic!("{failure}\nafter {posting:?} on {last:?}, posting {index}, {origin}");
        }
        limits.count(&last, posting, &next);
        if posting.kind == MONTH_END && next.reply.number == 0 {
            month_ends.count(&last.book, posting.numbers[0]);
        }
        met.count(posting, next.reply.number);
        last = next;
    }
    for (kind, least) in [(MONTH_END, 500), (SETTLE, 80)] {
        let count = met.accepted[usize::from(kind)];
        assert!(
            count >= least,
            "kind {kind} accepted {count} times, {origin}"
        );
    }
    met
}

#[test]
fn histories_agree_and_keep_the_claim() {
    let mut limits = AtLimits::default();
    let mut month_ends = MonthEnds::default();
    let mut met = Met::default();
    for seed in 1..=HISTORIES {
        met.add(&run(seed, &mut limits, &mut month_ends));
    }
    met.print("histories");
    limits.check();
    month_ends.check("accepted month ends of histories", 100);
    // From fresh no book is ever out of its limits.
    let reached: Vec<u8> = NUMBERS.into_iter().filter(|&number| number != 6).collect();
    met.has_numbers(1_000, &reached);
    met.has_kinds(10_000, &KINDS);
    let accepted = met.numbers[0];
    let total: usize = met.numbers.iter().sum();
    assert!(accepted > total / 2, "{accepted} of {total} accepted");
}
