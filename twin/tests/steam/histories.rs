//! Long and short histories from fresh books, with the tally's claim after every posting.

use crate::driver::Driver;
use crate::met::{seeded, Met};
use crate::postings::KINDS;
use crate::sides::{open, opened, post, NUMBERS_FROM_FRESH};
use crate::stored::{CENTS, STORED};
use twin::random::Random;
use twin::records::{Posting, ADJUST, COST, MONTH_END, RECONCILE, SALES, SETTLE};
use twin::steam::{is_settling, Posted};
use twin::tally::steam::Tally;

const LONG_HISTORIES: u64 = 80;
const LONG: usize = 30_000;
const SHORT_HISTORIES: u64 = 4_000;

/// An mmBtu at the largest factor is so many cents, so bills take due cents no nearer to a limit.
const BILLED: i64 = 1_000;

/// How often values were at their limit after a posting, low and high, and one past it before.
#[derive(Default)]
struct AtLimits {
    at: [[usize; 2]; STORED.len()],
    cost_past: [usize; 2],
    sales_past: usize,
    carried_past: [usize; 2],
    /// How often a settlement was at a bound of the 5% test or one mmBtu past it.
    five_percent: [usize; 4],
    /// How often a run and a reconciliation joined the account in one month, each with cents.
    joined_together: usize,
}

impl AtLimits {
    fn count(&mut self, before: &Posted, posting: Posting, after: &Posted) {
        match after.reply.number {
            0 => self.count_accepted(before, posting, after),
            12 => self.count_past(before, posting),
            _ => {}
        }
    }

    fn count_accepted(&mut self, before: &Posted, posting: Posting, after: &Posted) {
        for (counts, value) in self.at.iter_mut().zip(&STORED) {
            let number = value.get(after.book);
            let near = if value.name.contains("due") {
                BILLED
            } else {
                0
            };
            counts[0] += usize::from(number <= value.low + near);
            counts[1] += usize::from(number >= value.high - near);
        }
        let book = &before.book;
        if posting.kind == SETTLE {
            let (sold, oldest) = (100 * book.period.sales, book.quarters[0]);
            let distances = [95 * oldest - sold, sold - 105 * oldest];
            for (counts, distance) in self.five_percent.chunks_mut(2).zip(distances) {
                counts[0] += usize::from((-100..=0).contains(&distance));
                counts[1] += usize::from((1..=100).contains(&distance));
            }
        }
        if posting.kind == MONTH_END && book.reconciliation.months == 1 {
            let entered = [2, 5, 8, 11].iter().position(|&month| month == book.month);
            let due = entered.map_or(0, |run| book.dues[run]);
            let both = due != 0 && book.reconciliation.run.due != 0;
            self.joined_together += usize::from(both);
        }
    }

    /// Counts a refusal of exactly one cent or mmBtu too much.
    fn count_past(&mut self, before: &Posted, posting: Posting) {
        let number = posting.numbers[0];
        let book = &before.book;
        let (refused, counts) = match posting.kind {
            COST => (book.period.cost + number, &mut self.cost_past),
            ADJUST => (book.carried + number, &mut self.carried_past),
            SALES => {
                let past = book.period.sales + number == 100_000_001;
                self.sales_past += usize::from(past);
                return;
            }
            _ => return,
        };
        counts[0] += usize::from(refused == -CENTS - 1);
        counts[1] += usize::from(refused == CENTS + 1);
    }

    /// Prints the counts, and holds each limit that histories reach to have been met.
    fn check(&self) {
        for (value, [low, high]) in STORED.iter().zip(self.at) {
            println!("  {} at its limits: {low}, {high}", value.name);
            // From fresh a remainder is a multiple of 2000, and a share is below 10^12.
            let reached = value.name != "remainder" && value.name != "pending";
            let met = low > 0 && high > 0;
            assert!(met || !reached, "{} was not at a limit", value.name);
        }
        let past = [self.cost_past, self.carried_past, [self.sales_past; 2]];
        println!("  cost, account and sales refused at one past: {past:?}");
        assert!(past.as_flattened().iter().all(|&count| count > 0));
        println!("  at the bounds of the 5% test: {:?}", self.five_percent);
        assert!(self.five_percent.iter().all(|&count| count > 0));
        println!(
            "  run and reconciliation together: {}",
            self.joined_together
        );
        assert!(self.joined_together > 0);
    }
}

/// Quarters of an opening: some none, some alike, some at the most.
fn quarters(random: &mut Random) -> [i64; 4] {
    let most = random.one_of(&[0, 100, 1_000_000, 100_000_000]);
    [0; 4].map(|_: i64| random.within(0, most))
}

/// One history, which must keep the claim; gives what was met in it.
fn run(seed: u64, postings: usize, limits: &mut AtLimits) -> Met {
    let (mut random, origin) = seeded(seed);
    let mut last = open(quarters(&mut random));
    assert_eq!(last.reply.number, 0, "opening, {origin}");
    let mut driver = Driver::new(random, seed % 3 == 1);
    let mut met = Met::default();
    let mut tally = Tally::default();
    for index in 0..postings {
        let posting = driver.next(&last.book, last.reply.number);
        let next = post(last.book, posting, &format!("posting {index}, {origin}"));
        tally.feed(posting, &next);
        if let Err(failure) = tally.check(&next.book) {
            panic!("{failure}\nafter {posting:?} on {last:?}, posting {index}, {origin}");
        }
        limits.count(&last, posting, &next);
        met.count(posting, next.reply.number);
        last = next;
    }
    met
}

#[test]
fn long_histories_agree_and_keep_the_claim() {
    let mut limits = AtLimits::default();
    let mut met = Met::default();
    for seed in 1..=LONG_HISTORIES {
        let history = run(seed, LONG, &mut limits);
        for (kind, least) in [(MONTH_END, 300), (SETTLE, 100), (RECONCILE, 10)] {
            let count = history.accepted[usize::from(kind)];
            assert!(count >= least, "kind {kind}: {count} times, seed {seed}");
        }
        met.add(&history);
    }
    met.print("long histories");
    limits.check();
    met.has_numbers(1_000, &NUMBERS_FROM_FRESH);
    met.has_kinds(1_000, &KINDS);
    let accepted = met.numbers[0];
    let total: usize = met.numbers.iter().sum();
    assert!(accepted > total / 2, "{accepted} of {total} accepted");
}

#[test]
fn short_histories_agree_and_keep_the_claim() {
    let mut limits = AtLimits::default();
    let mut met = Met::default();
    for seed in 1..=SHORT_HISTORIES {
        let postings = (seed % 300) as usize;
        met.add(&run(1_000_000 + seed, postings, &mut limits));
    }
    met.print("short histories");
    met.has_numbers(100, &NUMBERS_FROM_FRESH);
    met.has_kinds(100, &KINDS);
}

#[test]
fn every_quarter_of_a_long_history_is_settled_once() {
    let (random, origin) = seeded(7);
    let mut driver = Driver::new(random, true);
    let mut last = (opened([10; 4]), 0);
    let mut settled_since = 0;
    for index in 0..LONG {
        let posting = driver.next(&last.0, last.1);
        let posted = post(last.0, posting, &format!("posting {index}, {origin}"));
        if posted.reply.number == 0 {
            match posting.kind {
                SETTLE => settled_since += 1,
                MONTH_END if is_settling(last.0.month) => {
                    assert_eq!(settled_since, 1, "posting {index}, {origin}");
                    settled_since = 0;
                }
                _ => {}
            }
        }
        last = (posted.book, posted.reply.number);
    }
}
