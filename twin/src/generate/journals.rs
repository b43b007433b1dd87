//! Random journals: years of postings to a book as records, whole or damaged.

use super::damage::damage;
use super::plan::{End, Opening, Plan};
use super::{electric, steam};
use crate::electric::{post as post_electric, ElectricBook};
use crate::journal::STEAM;
use crate::posted::{Posted, Replied};
use crate::random::Random;
use crate::records::{Posting, ADJUST, BILL, COST, MONTH_END, SALES};
use crate::refusals::{FIELD_LACKED_BY_KIND, UNKNOWN_KIND};
use crate::steam::{post as post_steam, SteamBook};
use crate::written::Refusal;

/// So many records are between two seasons, on average.
const SEASON: usize = 300;

/// Of so many postings that no record can hold one is written all the same.
const UNREADABLE: usize = 400;

/// The bytes of a journal, and where its records were written.
#[derive(Clone, Debug, Default)]
pub struct Journal {
    pub bytes: Vec<u8>,
    pub places: Vec<usize>,
}

impl Journal {
    /// The journal of the seed.
    pub fn of_seed(seed: u64) -> Self {
        let mut random = Random::new(seed);
        let plan = Plan::new(&mut random);
        let mut journal = Self::by_plan(&plan, &mut random);
        for _ in 0..plan.damages {
            damage(&mut journal, &mut random);
        }
        journal
    }

    /// An undamaged journal.
    pub fn by_plan(plan: &Plan, random: &mut Random) -> Self {
        let seed = Random::new(random.bits());
        match plan.opening {
            Opening::Division(division) => {
                let mut driver = electric::driver::Driver::new(seed, plan.calm);
                let next = |book: &ElectricBook, number| driver.next(book, number);
                let mut writer = Writer::new(plan, random, &[division]);
                writer.fill(ElectricBook::fresh(division), next, post_electric);
                writer.ended()
            }
            Opening::Steam(quarters) => {
                let mut driver = steam::driver::Driver::new(seed, plan.calm);
                let next = |book: &SteamBook, number| driver.next(book, number);
                let mut writer = Writer::new(plan, random, &steam_opening(quarters));
                writer.fill(SteamBook::fresh(quarters), next, post_steam);
                writer.ended()
            }
        }
    }

    fn push(&mut self, posting: Posting) {
        self.places.push(self.bytes.len());
        self.bytes.extend(record_of(posting));
    }

    /// Leaves the first bytes alone.
    pub fn cut(&mut self, length: usize) {
        self.bytes.truncate(length);
        self.places.retain(|&place| place < length);
    }
}

fn steam_opening(quarters: [i64; 4]) -> Vec<u8> {
    let mut opening = vec![STEAM];
    opening.extend(quarters.iter().flat_map(|sales| sales.to_be_bytes()));
    opening
}

/// The bytes that a record of the posting would have, by the paper, whether or not one is read so.
pub fn record_of(posting: Posting) -> Vec<u8> {
    let fields = posting.numbers.into_iter().filter(|&number| number != 0);
    let present = posting.numbers.map(|number| u8::from(number != 0));
    let bit_map = present[0] + 2 * present[1] + 4 * present[2];
    let mut record = vec![posting.kind, bit_map];
    record.extend(fields.flat_map(|number| number.to_be_bytes()));
    record
}

/// A journal that grows by a plan.
struct Writer<'a> {
    plan: &'a Plan,
    random: &'a mut Random,
    journal: Journal,
    /// Whether costs and adjustments are credits for the time being.
    credits: bool,
}

impl<'a> Writer<'a> {
    fn new(plan: &'a Plan, random: &'a mut Random, opening: &[u8]) -> Self {
        let journal = Journal {
            bytes: opening.to_vec(),
            places: Vec::new(),
        };
        Self {
            plan,
            random,
            journal,
            credits: false,
        }
    }

    /// Writes records until the end that is planned.
    fn fill<Reply: Replied, Book: Copy>(
        &mut self,
        fresh: Book,
        mut next: impl FnMut(&Book, u8) -> Posting,
        post: extern "C" fn(Book, Posting) -> Posted<Reply, Book>,
    ) {
        let (mut book, mut number) = (fresh, 0);
        while self.journal.bytes.len() < self.plan.length() {
            let chosen = next(&book, number);
            let posting = self.seasonal(chosen);
            let posted = post(book, posting);
            number = posted.reply.number();
            if self.keeps(number.into()) {
                self.journal.push(posting);
                book = posted.book;
            }
        }
    }

    /// The posting as a credit or without fields, if it is to be.
    fn seasonal(&mut self, mut posting: Posting) -> Posting {
        if self.random.below(SEASON) == 0 {
            self.credits = !self.credits;
        }
        if self.credits && posting.kind == COST {
            posting.numbers = posting.numbers.map(|cents| -cents.saturating_abs());
        }
        if self.credits && posting.kind == ADJUST {
            // The electric book's second number is its cents, the steam book's its fuel cost.
            let cents = match self.plan.opening {
                Opening::Division(_) => &mut posting.numbers[1],
                Opening::Steam(_) => &mut posting.numbers[0],
            };
            *cents = -cents.saturating_abs();
        }
        // A period in which nothing is sold cannot be settled.
        let may_be_bare = match posting.kind {
            COST | BILL | MONTH_END => true,
            SALES => self.random.coin(),
            _ => false,
        };
        if may_be_bare && self.random.below(8) < self.plan.bare {
            posting.numbers = [0; 3];
        }
        posting
    }

    /// Whether a posting that got the number is written.
    fn keeps(&mut self, number: Refusal) -> bool {
        match number {
            0 => true,
            _ if self.plan.valid => false,
            UNKNOWN_KIND | FIELD_LACKED_BY_KIND => self.random.below(UNREADABLE) == 0,
            _ => true,
        }
    }

    fn ended(mut self) -> Journal {
        match self.plan.end {
            End::AfterRecord(_) => {}
            End::Cut(length) => self.journal.cut(length),
            End::Padded(length) => {
                while self.journal.bytes.len() > length {
                    let last = self.journal.places.pop().expect("an opening is shorter");
                    self.journal.bytes.truncate(last);
                }
                while self.journal.bytes.len() < length {
                    let kind = self.random.one_of(&[COST, SALES, BILL, MONTH_END]);
                    let numbers = [0; 3];
                    self.journal.push(Posting { kind, numbers });
                }
            }
        }
        self.journal
    }
}
