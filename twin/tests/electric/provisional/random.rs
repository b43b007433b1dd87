//! Random month ends on books lent in any state within their limits, by both sides and by the plain writing.

use super::flaws::Flaw;
use super::plain;
use crate::books::sound_book;
use crate::fields::{field, Size};
use crate::met::seeded;
use crate::month_ends::MonthEnds;
use crate::postings::{month_end, ranges};
use crate::sides::post;
use crate::stored::{CENTS, REMAINDER};
use twin::electric::{is_settling, ElectricBook, Level, Sales};
use twin::random::Random;
use twin::records::MONTH_END;

const CASES: usize = 1_000_000;

/// A book within its limits whose month may end; of some the share is a few cents.
fn book(random: &mut Random) -> ElectricBook {
    let mut book = sound_book(random);
    if random.below(3) == 0 {
        few_cents(random, &mut book);
    }
    // Half of the sound books are in May or November, which end where they are settled.
    if random.coin() {
        book.month = random.one_of(&[12, 1, 2, 3, 4, 6, 7, 8, 9, 10]);
    }
    book.settled = is_settling(book.month);
    book
}

/// Makes cost about the base of the sales, so that a cent of it, of the remainder or of what is carried matters.
fn few_cents(random: &mut Random, book: &mut ElectricBook) {
    let kwh = 2_000 * random.within(1, 1_000_000);
    let secondary = random.one_of(&[0, kwh / 2, kwh]);
    let base = [1_799, 2_538][usize::from(book.division)];
    book.period.cost = base * kwh / 1_000 + random.within(-300, 300);
    book.period.sales = Sales {
        secondary,
        primary: kwh - secondary,
    };
    // Many of these make the share an odd number of halves, or are beside such a one.
    book.period.remainder =
        (5_000 * random.within(-10, 10) + random.within(-1, 1)).clamp(-REMAINDER, REMAINDER);
    for level in [&mut book.secondary, &mut book.primary] {
        *level = Level {
            carried: random.within(-300, 300),
            ..Level::default()
        };
    }
}

/// A rate whose month is a whole part of the cents, or any.
fn rate(random: &mut Random) -> i64 {
    let any = field(random, ranges(MONTH_END)[0], Size::Any);
    random.one_of(&[60_000, 120_000, 200_000, any])
}

/// What random month ends met.
#[derive(Default)]
struct Counts {
    month_ends: MonthEnds,
    settled_with_cost_and_sales: usize,
    refused_with_a_share: usize,
}

impl Counts {
    fn count(&mut self, book: &ElectricBook, rate: i64, refused: bool) {
        self.month_ends.count(book, rate);
        let open = book.period.cost != 0 && book.period.sales != Sales::default();
        self.settled_with_cost_and_sales += usize::from(book.settled && open);
        let hands_over = [2, 8].contains(&book.month);
        let bears = plain::shares(book, Flaw::Nothing) != [0, 0];
        self.refused_with_a_share += usize::from(refused && bears && !hands_over);
    }

    /// Prints the counts, and holds each to be large enough.
    fn check(&self) {
        self.month_ends.check("month ends of sound books", 1_000);
        let others = [self.settled_with_cost_and_sales, self.refused_with_a_share];
        println!("  settled with cost and sales, refused with a share: {others:?}");
        assert!(others.iter().all(|&count| count >= 1_000), "{others:?}");
    }
}

/// Whether carried cents and interest may be stored.
fn is_within_limits(book: &ElectricBook) -> bool {
    [&book.secondary, &book.primary].iter().all(|level| {
        let within = |cents| (-CENTS..=CENTS).contains(&cents);
        within(level.carried) && within(level.interest)
    })
}

#[test]
fn month_ends_of_sound_books_are_the_plain_ones() {
    let (mut random, origin) = seeded(21);
    let mut counts = Counts::default();
    for _ in 0..CASES {
        let (book, rate) = (book(&mut random), rate(&mut random));
        let posted = post(book, month_end(rate), &origin);
        let (interest, next) = plain::month_end(&book, rate, Flaw::Nothing);
        let refused = !is_within_limits(&next);
        if refused {
            assert_eq!(posted.reply.number, 12, "{book:?} at {rate}, {origin}");
        } else {
            let levels = posted.reply.interest;
            let met = [levels.secondary, levels.primary].map(i128::from);
            assert_eq!((met, posted.book), (interest, next), "{rate}, {origin}");
        }
        counts.count(&book, rate, refused);
    }
    counts.check();
}
