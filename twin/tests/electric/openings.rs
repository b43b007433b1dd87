//! Openings: both divisions, and every byte that is none.

use crate::sides::open;
use twin::calendar::JUNE;
use twin::electric::{ElectricBook, Level, Period, Reply};

fn fresh(division: u8) -> ElectricBook {
    ElectricBook {
        division,
        month: JUNE,
        settled: false,
        period: Period::default(),
        secondary: Level::default(),
        primary: Level::default(),
    }
}

#[test]
fn both_divisions_open_in_june_with_nothing() {
    for division in [0, 1] {
        let opened = open(division);
        assert_eq!(opened.reply, Reply::default());
        assert_eq!(opened.book, fresh(division));
    }
}

#[test]
fn every_other_opening_is_refused_and_hands_back_the_first_division() {
    for division in 2..=255 {
        let opened = open(division);
        assert_eq!(opened.reply.number, 7, "opening {division}");
        assert_eq!(opened.book, fresh(0), "opening {division}");
    }
}
