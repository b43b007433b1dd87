//! Random settlements: estimates and pages, within their limits, at them and past them.

use super::sides::{Case, SHEET};
use crate::books::sound_book;
use crate::fields::{beyond, Size};
use crate::halves::{half_cent_sales, halved_period};
use crate::postings::{posting_of, ranges};
use twin::calendar::{MAY, NOVEMBER};
use twin::electric::{ElectricBook, Sales};
use twin::random::Random;
use twin::records::SETTLE;

/// A settlement of the book, with a page of any length.
pub fn case(random: &mut Random, book: ElectricBook) -> Case {
    Case {
        book,
        estimates: estimates(random),
        page_length: page_length(random),
    }
}

/// A book within its limits, most often in a month in which it can be settled; of some the base cost or a share is at a half.
pub fn sound(random: &mut Random) -> ElectricBook {
    let mut book = sound_book(random);
    if random.below(4) > 0 {
        book.month = random.one_of(&[MAY, NOVEMBER]);
        book.settled = false;
    }
    match random.below(8) {
        0 => book.period.sales = half_cent_sales(random, book.division),
        1 => book.period = halved_period(random, book.division),
        _ => {}
    }
    book
}

fn estimates(random: &mut Random) -> Sales {
    let size = random.one_of(&[Size::Tiny, Size::Usual, Size::Any, Size::End]);
    let [mut secondary, mut primary, _] = posting_of(random, SETTLE, size).numbers;
    match random.below(24) {
        0 => secondary = beyond(random, ranges(SETTLE)[0]),
        1 => primary = beyond(random, ranges(SETTLE)[1]),
        _ => {}
    }
    Sales { secondary, primary }
}

/// Half of the pages have room, and some of these no more than that.
pub fn page_length(random: &mut Random) -> usize {
    let (below, past) = (random.below(SHEET), random.below(300));
    let beside = SHEET - 2 + random.below(5);
    match random.below(8) {
        0..=1 => below,
        2 => random.one_of(&[0, 1, 81, 1_024, 1_280]),
        3..=4 => beside,
        5 => SHEET,
        _ => SHEET + past,
    }
}
