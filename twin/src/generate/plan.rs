//! How a random journal is to be made.

use crate::electric::{L_AND_P, MPS};
use crate::journal::LONGEST_INPUT;
use crate::random::Random;

#[derive(Clone, Copy, Debug)]
pub enum Opening {
    Division(u8),
    /// Four quarters, oldest first.
    Steam([i64; 4]),
}

/// Where the bytes end.
#[derive(Clone, Copy, Debug)]
pub enum End {
    /// With a record, at the length or less than a record past it.
    AfterRecord(usize),
    /// With a record, at exactly the length, which is odd as an opening's is.
    Padded(usize),
    /// At exactly the length, wherever that is.
    Cut(usize),
}

#[derive(Clone, Copy, Debug)]
pub struct Plan {
    pub opening: Opening,
    pub end: End,
    /// Whether no value is driven to a limit.
    pub calm: bool,
    /// Whether every posting is accepted.
    pub valid: bool,
    /// So many of eight postings have no field, where their kind may be without.
    pub bare: usize,
    /// How often something is damaged.
    pub damages: usize,
}

impl Plan {
    pub fn new(random: &mut Random) -> Self {
        Self {
            opening: opening(random),
            end: end(random),
            calm: random.coin(),
            valid: random.below(3) == 0,
            bare: random.one_of(&[0, 0, 0, 0, 0, 0, 4, 7, 8]),
            damages: random.one_of(&[0, 0, 0, 1, 1, 2]),
        }
    }

    /// The bytes to be filled with records.
    pub fn length(&self) -> usize {
        match self.end {
            End::AfterRecord(length) | End::Padded(length) | End::Cut(length) => length,
        }
    }
}

fn opening(random: &mut Random) -> Opening {
    match random.below(4) {
        0 => Opening::Division(L_AND_P),
        1 => Opening::Division(MPS),
        _ => Opening::Steam(quarters(random)),
    }
}

/// Some are none, some alike, some at the most.
fn quarters(random: &mut Random) -> [i64; 4] {
    let most = random.one_of(&[0, 100, 1_000_000, 100_000_000]);
    let least = random.one_of(&[0, most / 2, most]);
    [0; 4].map(|_: i64| random.within(least, most))
}

/// Most journals are short, so that many can be compared; one in eight is about as long as can be.
fn end(random: &mut Random) -> End {
    let below = random.below(27);
    match random.below(32) {
        0..=11 => End::AfterRecord(random.below(400)),
        12..=23 => End::AfterRecord(random.below(6_000)),
        24..=25 => End::Cut(random.below(4_000)),
        26 => End::AfterRecord(random.below(LONGEST_INPUT - 26)),
        27..=28 => End::Padded(LONGEST_INPUT - 1),
        29 => End::Cut(LONGEST_INPUT),
        30 => End::Cut(LONGEST_INPUT - below),
        // One byte too long as often as more.
        _ => match random.coin() {
            true => End::Padded(LONGEST_INPUT + 1),
            false => End::Cut(LONGEST_INPUT + 1 + below),
        },
    }
}
