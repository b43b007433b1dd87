//! Every number that an electric book stores, by name, with the paper's limits.

use twin::electric::ElectricBook;

pub const CENTS: i64 = 1_000_000_000_000;
pub const FACTOR: i64 = 99_999;
pub const KWH: i64 = 10_000_000_000;
pub const REMAINDER: i64 = 50_000;

/// Where a number is stored.
pub enum Place<'a> {
    Long(&'a mut i64),
    Short(&'a mut i32),
}

use Place::{Long, Short};

pub struct Stored {
    pub name: &'static str,
    place: fn(&mut ElectricBook) -> Place<'_>,
    pub low: i64,
    pub high: i64,
}

/// A number of either sign.
const fn signed(name: &'static str, limit: i64, place: fn(&mut ElectricBook) -> Place) -> Stored {
    Stored {
        name,
        place,
        low: -limit,
        high: limit,
    }
}

/// A number that is never below 0.
const fn kwh(name: &'static str, place: fn(&mut ElectricBook) -> Place) -> Stored {
    Stored {
        name,
        place,
        low: 0,
        high: KWH,
    }
}

impl Stored {
    /// Of a factor only the 32 lowest bits are stored.
    pub fn set(&self, book: &mut ElectricBook, number: i64) {
        match (self.place)(book) {
            Long(place) => *place = number,
            Short(place) => *place = number as i32,
        }
    }

    pub fn get(&self, mut book: ElectricBook) -> i64 {
        match (self.place)(&mut book) {
            Long(place) => *place,
            Short(place) => i64::from(*place),
        }
    }

    /// The book with the number here.
    pub fn with(&self, mut book: ElectricBook, number: i64) -> ElectricBook {
        self.set(&mut book, number);
        book
    }
}

/// The stored number of the name.
pub fn stored(name: &str) -> &'static Stored {
    let found = STORED.iter().find(|stored| stored.name == name);
    found.unwrap_or_else(|| panic!("nothing is stored as {name}"))
}

/// All but division, month and "settled".
#[rustfmt::skip]
pub static STORED: [Stored; 20] = [
    signed("cost", CENTS, |book| Long(&mut book.period.cost)),
    kwh("secondary sales", |book| Long(&mut book.period.sales.secondary)),
    kwh("primary sales", |book| Long(&mut book.period.sales.primary)),
    signed("remainder", REMAINDER, |book| Long(&mut book.period.remainder)),
    signed("secondary carried", CENTS, |book| Long(&mut book.secondary.carried)),
    signed("secondary interest", CENTS, |book| Long(&mut book.secondary.interest)),
    signed("secondary pending", CENTS, |book| Long(&mut book.secondary.pending.due)),
    signed("secondary first due", CENTS, |book| Long(&mut book.secondary.first.due)),
    signed("secondary second due", CENTS, |book| Long(&mut book.secondary.second.due)),
    signed("primary carried", CENTS, |book| Long(&mut book.primary.carried)),
    signed("primary interest", CENTS, |book| Long(&mut book.primary.interest)),
    signed("primary pending", CENTS, |book| Long(&mut book.primary.pending.due)),
    signed("primary first due", CENTS, |book| Long(&mut book.primary.first.due)),
    signed("primary second due", CENTS, |book| Long(&mut book.primary.second.due)),
    signed("secondary pending factor", FACTOR, |book| Short(&mut book.secondary.pending.factor)),
    signed("secondary first factor", FACTOR, |book| Short(&mut book.secondary.first.factor)),
    signed("secondary second factor", FACTOR, |book| Short(&mut book.secondary.second.factor)),
    signed("primary pending factor", FACTOR, |book| Short(&mut book.primary.pending.factor)),
    signed("primary first factor", FACTOR, |book| Short(&mut book.primary.first.factor)),
    signed("primary second factor", FACTOR, |book| Short(&mut book.primary.second.factor)),
];
