//! Rows of the text of amounts.

use crate::measure::{prepare, Measurement};
use crate::rows::Row;
use crate::writers::writer;
use twin::random::Random;
use twin::{proved, text};

pub fn rows() -> Vec<Row> {
    vec![
        Row::new("cents_text", cents),
        Row::new("points_text", points),
    ]
}

fn cents() -> Measurement {
    let inputs = prepare(ledger_cents);
    writer(&inputs, proved::write_cents, text::write_cents)
}

fn points() -> Measurement {
    let inputs = prepare(ledger_points);
    writer(&inputs, proved::write_points, text::write_points)
}

/// Cents of either sign, with one to eight digits before the point.
fn ledger_cents(random: &mut Random) -> i64 {
    let limit = 100 * 10_i64.pow(random.within(1, 8) as u32);
    random.within(1 - limit, limit - 1)
}

/// Any factor that a book can hold.
fn ledger_points(random: &mut Random) -> i32 {
    random.within(-99_999, 99_999) as i32
}
