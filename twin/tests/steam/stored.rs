//! Every number that a steam book stores, by name, with the paper's limits.

use twin::steam::SteamBook;

pub const CENTS: i64 = 1_000_000_000_000;
pub const FACTOR: i64 = 99_999;
pub const SALES: i64 = 100_000_000;
pub const REMAINDER: i64 = 5_000;

/// Where a number is stored.
pub enum Place<'a> {
    Long(&'a mut i64),
    Short(&'a mut i32),
}

use Place::{Long, Short};

pub struct Stored {
    pub name: &'static str,
    place: fn(&mut SteamBook) -> Place<'_>,
    pub low: i64,
    pub high: i64,
}

/// A number of either sign.
const fn signed(name: &'static str, limit: i64, place: fn(&mut SteamBook) -> Place) -> Stored {
    Stored {
        name,
        place,
        low: -limit,
        high: limit,
    }
}

/// A number that is never below 0.
const fn sold(name: &'static str, place: fn(&mut SteamBook) -> Place) -> Stored {
    Stored {
        name,
        place,
        low: 0,
        high: SALES,
    }
}

impl Stored {
    /// Of a factor only the 32 lowest bits are stored.
    pub fn set(&self, book: &mut SteamBook, number: i64) {
        match (self.place)(book) {
            Long(place) => *place = number,
            Short(place) => *place = number as i32,
        }
    }

    pub fn get(&self, mut book: SteamBook) -> i64 {
        match (self.place)(&mut book) {
            Long(place) => *place,
            Short(place) => i64::from(*place),
        }
    }

    /// The book with the number here.
    pub fn with(&self, mut book: SteamBook, number: i64) -> SteamBook {
        self.set(&mut book, number);
        book
    }
}

/// The stored number of the name.
pub fn stored(name: &str) -> &'static Stored {
    let found = STORED.iter().find(|stored| stored.name == name);
    found.unwrap_or_else(|| panic!("nothing is stored as {name}"))
}

/// All but month, "settled" and months left.
#[rustfmt::skip]
pub static STORED: [Stored; 20] = [
    signed("cost", CENTS, |book| Long(&mut book.period.cost)),
    sold("sales", |book| Long(&mut book.period.sales)),
    signed("remainder", REMAINDER, |book| Long(&mut book.period.remainder)),
    sold("quarter 1", |book| Long(&mut book.quarters[0])),
    sold("quarter 2", |book| Long(&mut book.quarters[1])),
    sold("quarter 3", |book| Long(&mut book.quarters[2])),
    sold("quarter 4", |book| Long(&mut book.quarters[3])),
    signed("carried", CENTS, |book| Long(&mut book.carried)),
    signed("pending", CENTS, |book| Long(&mut book.pending.due)),
    signed("due 1", CENTS, |book| Long(&mut book.dues[0])),
    signed("due 2", CENTS, |book| Long(&mut book.dues[1])),
    signed("due 3", CENTS, |book| Long(&mut book.dues[2])),
    signed("due 4", CENTS, |book| Long(&mut book.dues[3])),
    signed("reconciliation due", CENTS, |book| Long(&mut book.reconciliation.run.due)),
    signed("pending factor", FACTOR, |book| Short(&mut book.pending.factor)),
    signed("factor 1", FACTOR, |book| Short(&mut book.factors[0])),
    signed("factor 2", FACTOR, |book| Short(&mut book.factors[1])),
    signed("factor 3", FACTOR, |book| Short(&mut book.factors[2])),
    signed("factor 4", FACTOR, |book| Short(&mut book.factors[3])),
    signed("reconciliation factor", FACTOR, |book| Short(&mut book.reconciliation.run.factor)),
];
