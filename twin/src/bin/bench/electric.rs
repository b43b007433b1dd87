//! Rows of the electric book.

use crate::books::{Measured, Names};
use crate::measure::add;
use twin::electric::{
    is_settling, open, post, post_in_place, ElectricBook, Posted, Reply, KWH_LIMIT, L_AND_P, MPS,
};
use twin::floor;
use twin::proved;
use twin::random::Random;
use twin::records::{Posting, ADJUST, BILL, COST, MONTH_END, SALES, SETTLE};
use twin::refusals::{FIELD_OUT_OF_RANGE, FORBIDDEN_NOW};

impl Measured for ElectricBook {
    const NAMES: Names = Names {
        open: "electric_open",
        kinds: &[
            (COST, "electric_cost"),
            (SALES, "electric_sales"),
            (BILL, "electric_bill"),
            (SETTLE, "electric_settle"),
            (MONTH_END, "electric_month_end"),
            (ADJUST, "electric_adjust"),
        ],
        history: "electric_history",
        refused: "electric_refused",
        floor: "electric_floor",
        journals: &[
            (1 << 10, "electric_journal_1k"),
            (4 << 10, "electric_journal_4k"),
            (16 << 10, "electric_journal_16k"),
            (64 << 10, "electric_journal_64k"),
        ],
    };

    /// The division.
    type Opening = u8;
    type Reply = Reply;

    fn opening(random: &mut Random) -> u8 {
        random.one_of(&[L_AND_P, MPS])
    }

    #[inline]
    fn open_proved(division: u8) -> Posted {
        proved::electric_open(division)
    }

    #[inline]
    fn open_twin(division: u8) -> Posted {
        open(division)
    }

    fn opening_bytes(&self) -> Vec<u8> {
        vec![self.division]
    }

    #[inline]
    fn post_proved(self, posting: Posting) -> Posted {
        proved::electric_post_bare(self, posting)
    }

    #[inline]
    fn post_twin(self, posting: Posting) -> Posted {
        post(self, posting)
    }

    #[inline]
    fn post_in_place(&mut self, posting: Posting) -> Reply {
        post_in_place(self, posting)
    }

    #[inline]
    fn floor(self, posting: Posting) -> Posted {
        floor::electric(self, posting)
    }

    #[inline]
    fn floor_in_place(&mut self, posting: Posting) -> Reply {
        floor::electric_in_place(self, posting)
    }

    fn month(&self, random: &mut Random) -> Vec<Posting> {
        month(self, random)
    }

    fn mistake(&self, number: u8, random: &mut Random) -> Posting {
        match number.into() {
            FIELD_OUT_OF_RANGE => out_of_range(random),
            FORBIDDEN_NOW => untimely(self, random),
            _ => outside_limits(self),
        }
    }

    #[inline]
    fn add_reply(sum: u64, reply: &Reply) -> u64 {
        let amounts = [
            reply.filed.secondary.into(),
            reply.filed.primary.into(),
            reply.line,
            reply.interest.secondary,
            reply.interest.primary,
        ];
        let sum = add(sum, reply.number.into());
        amounts
            .iter()
            .fold(sum, |sum, &amount| add(sum, amount as u64))
    }

    #[inline]
    fn add_values(&self, sum: u64) -> u64 {
        let level = &self.secondary;
        let values = [
            self.period.cost,
            self.period.sales.primary,
            level.carried,
            level.first.due,
            level.pending.due,
            self.primary.interest,
        ];
        let sum = add(sum, self.month.into());
        values
            .iter()
            .fold(sum, |sum, &value| add(sum, value as u64))
    }

    #[inline]
    fn add_opened(&self, sum: u64) -> u64 {
        self.add_values(add(sum, self.division.into()))
    }
}

/// Most postings of a month are bills.
fn month(book: &ElectricBook, random: &mut Random) -> Vec<Posting> {
    let mut postings = Vec::new();
    for _ in 0..2 {
        let secondary = random.within(100_000_000, 200_000_000);
        let primary = random.within(50_000_000, 150_000_000);
        // About 1.8 cents for a kWh, of which a third is purchased.
        let third = (secondary + primary) * random.within(45, 75) / 100;
        postings.push(posting(SALES, [secondary, primary, 0]));
        postings.push(posting(
            COST,
            [2 * third, third, random.within(-9_999, 9_999)],
        ));
    }
    for _ in 0..20 {
        let level = random.one_of(&[0, 0, 0, 1]);
        postings.push(posting(
            BILL,
            [level, random.within(-20_000, 20_000_000), 0],
        ));
    }
    if random.below(4) == 0 {
        let cents = random.within(-10_000_000, 10_000_000);
        postings.push(posting(ADJUST, [random.within(0, 1), cents, 0]));
    }
    if is_settling(book.month) {
        postings.push(settlement(random));
    }
    postings.push(posting(MONTH_END, [random.within(1, 80_000), 0, 0]));
    postings
}

/// A settlement with the estimated sales of a year.
fn settlement(random: &mut Random) -> Posting {
    let yearly = [3_600_000_000, 2_400_000_000];
    let [secondary, primary] = yearly.map(|kwh| kwh * random.within(90, 110) / 100);
    posting(SETTLE, [secondary, primary, 0])
}

/// A bill in watt-hours or at a level that is none, or a rate in billionths.
fn out_of_range(random: &mut Random) -> Posting {
    let kwh = random.within(2_000_000, 20_000_000);
    let rate = random.within(40_000, 80_000);
    random.one_of(&[
        posting(BILL, [0, 1_000 * kwh, 0]),
        posting(BILL, [2, kwh, 0]),
        posting(MONTH_END, [1_000 * rate, 0, 0]),
    ])
}

/// A settlement before its month, the end of a month that is not settled, or a late invoice.
fn untimely(book: &ElectricBook, random: &mut Random) -> Posting {
    match (is_settling(book.month), book.settled) {
        (false, _) => settlement(random),
        (true, false) => posting(MONTH_END, [60_000, 0, 0]),
        (true, true) => posting(COST, [0, random.within(1, 1_000_000), 0]),
    }
}

/// A settlement over a placeholder of 1 kWh, or sales of all that a book may have on top of some.
fn outside_limits(book: &ElectricBook) -> Posting {
    match is_settling(book.month) && !book.settled {
        true => posting(SETTLE, [1, 1, 0]),
        false => posting(SALES, [KWH_LIMIT, KWH_LIMIT, 0]),
    }
}

fn posting(kind: u8, numbers: [i64; 3]) -> Posting {
    Posting { kind, numbers }
}
