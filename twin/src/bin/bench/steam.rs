//! Rows of the steam book.

use crate::books::{Measured, Names};
use crate::measure::add;
use twin::floor;
use twin::journal::STEAM;
use twin::proved;
use twin::random::Random;
use twin::records::{Posting, ADJUST, BILL, COST, MONTH_END, RECONCILE, SALES, SETTLE};
use twin::refusals::{FIELD_OUT_OF_RANGE, FORBIDDEN_NOW};
use twin::steam::{is_settling, open, post, post_in_place, Posted, Reply, SteamBook, SALES_LIMIT};

impl Measured for SteamBook {
    const NAMES: Names = Names {
        open: "steam_open",
        kinds: &[
            (COST, "steam_cost"),
            (SALES, "steam_sales"),
            (BILL, "steam_bill"),
            (SETTLE, "steam_settle"),
            (MONTH_END, "steam_month_end"),
            (ADJUST, "steam_adjust"),
            (RECONCILE, "steam_reconcile"),
        ],
        history: "steam_history",
        refused: "steam_refused",
        floor: "steam_floor",
        journals: &[
            (1 << 10, "steam_journal_1k"),
            (4 << 10, "steam_journal_4k"),
            (16 << 10, "steam_journal_16k"),
            (64 << 10, "steam_journal_64k"),
        ],
    };

    /// Sales of the past quarters, oldest first.
    type Opening = [i64; 4];
    type Reply = Reply;

    fn opening(random: &mut Random) -> [i64; 4] {
        [0; 4].map(|_: i64| quarter(random))
    }

    #[inline]
    fn open_proved(quarters: [i64; 4]) -> Posted {
        proved::steam_open(quarters)
    }

    #[inline]
    fn open_twin([first, second, third, fourth]: [i64; 4]) -> Posted {
        open(first, second, third, fourth)
    }

    fn opening_bytes(&self) -> Vec<u8> {
        let mut opening = vec![STEAM];
        opening.extend(self.quarters.map(i64::to_be_bytes).as_flattened());
        opening
    }

    #[inline]
    fn post_proved(self, posting: Posting) -> Posted {
        proved::steam_post_bare(self, posting)
    }

    #[inline]
    fn post_twin(self, posting: Posting) -> Posted {
        post(self, posting)
    }

    #[inline]
    fn post_in_place(&mut self, posting: Posting) -> Reply {
        post_in_place(self, posting)
    }

    #[inline]
    fn floor(self, posting: Posting) -> Posted {
        floor::steam(self, posting)
    }

    #[inline]
    fn floor_in_place(&mut self, posting: Posting) -> Reply {
        floor::steam_in_place(self, posting)
    }

    fn month(&self, random: &mut Random) -> Vec<Posting> {
        month(self, random)
    }

    fn mistake(&self, number: u8, random: &mut Random) -> Posting {
        match number.into() {
            FIELD_OUT_OF_RANGE => out_of_range(random),
            FORBIDDEN_NOW => untimely(self, random),
            _ => outside_limits(self),
        }
    }

    #[inline]
    fn add_reply(sum: u64, reply: &Reply) -> u64 {
        let sum = add(sum, reply.number.into());
        add(add(sum, reply.filed as u64), reply.line as u64)
    }

    #[inline]
    fn add_values(&self, sum: u64) -> u64 {
        let values = [
            self.period.cost,
            self.period.sales,
            self.quarters[0],
            self.carried,
            self.pending.due,
            self.dues[0],
            self.reconciliation.run.due,
        ];
        let sum = add(sum, self.month.into());
        values
            .iter()
            .fold(sum, |sum, &value| add(sum, value as u64))
    }

    #[inline]
    fn add_opened(&self, sum: u64) -> u64 {
        let quarters = self.quarters.iter();
        let sum = quarters.fold(sum, |sum, &sold| add(sum, sold as u64));
        self.add_values(sum)
    }
}

/// The mmBtu of a quarter as a steam utility sells them.
fn quarter(random: &mut Random) -> i64 {
    random.within(540_000, 660_000)
}

/// Most postings of a month are bills; a reconciliation starts when the last one has ended.
fn month(book: &SteamBook, random: &mut Random) -> Vec<Posting> {
    let mut postings = Vec::new();
    for _ in 0..2 {
        let sold = quarter(random) / 6;
        // About 300 cents for an mmBtu.
        postings.push(posting(SALES, [sold, 0, 0]));
        postings.push(posting(COST, [sold * random.within(280, 380), 0, 0]));
    }
    for _ in 0..20 {
        postings.push(posting(BILL, [random.within(-20, 20_000), 0, 0]));
    }
    if random.below(4) == 0 {
        let cents = random.within(1_000_000, 10_000_000) * random.one_of(&[1, -1]);
        // Some are for prudence, a little above a tenth of the fuel cost.
        let fuel_cost = random.one_of(&[0, 9 * cents.abs()]);
        postings.push(posting(ADJUST, [cents, fuel_cost, 0]));
    }
    if book.reconciliation.months == 0 {
        let yearly = 4 * quarter(random);
        postings.push(posting(RECONCILE, [12, yearly, 0]));
    }
    if is_settling(book.month) {
        postings.push(settlement(random));
    }
    postings.push(posting(MONTH_END, [0, 0, 0]));
    postings
}

/// A settlement with an adjustment of the billing determinants.
fn settlement(random: &mut Random) -> Posting {
    posting(SETTLE, [random.within(-50_000, 50_000), 0, 0])
}

/// A bill in thousandths of an mmBtu, sales taken back, or a reconciliation over a year and a half.
fn out_of_range(random: &mut Random) -> Posting {
    let sold = random.within(11_000, 20_000);
    let yearly = 4 * quarter(random);
    random.one_of(&[
        posting(BILL, [1_000 * sold, 0, 0]),
        posting(SALES, [-sold, 0, 0]),
        posting(RECONCILE, [18, yearly, 0]),
    ])
}

/// A settlement before its month, the end of a month that is not settled, or a late invoice.
fn untimely(book: &SteamBook, random: &mut Random) -> Posting {
    match (is_settling(book.month), book.settled) {
        (false, _) => settlement(random),
        (true, false) => posting(MONTH_END, [0, 0, 0]),
        (true, true) => posting(COST, [random.within(1, 1_000_000), 0, 0]),
    }
}

/// A reconciliation over a placeholder of 1 mmBtu, or sales of all that a book may have on top of some.
fn outside_limits(book: &SteamBook) -> Posting {
    match book.reconciliation.months {
        0 => posting(RECONCILE, [12, 1, 0]),
        _ => posting(SALES, [SALES_LIMIT, 0, 0]),
    }
}

fn posting(kind: u8, numbers: [i64; 3]) -> Posting {
    Posting { kind, numbers }
}
