//! Seeded random numbers and lines (splitmix64), so that a failing case can be made again.

// Each test program uses some of these.
#![allow(dead_code)]

pub struct Random {
    state: u64,
}

impl Random {
    pub fn new(seed: u64) -> Self {
        Self { state: seed }
    }

    pub fn bits(&mut self) -> u64 {
        self.state = self.state.wrapping_add(0x9e37_79b9_7f4a_7c15);
        let mut mixed = self.state;
        mixed = (mixed ^ (mixed >> 30)).wrapping_mul(0xbf58_476d_1ce4_e5b9);
        mixed = (mixed ^ (mixed >> 27)).wrapping_mul(0x94d0_49bb_1331_11eb);
        mixed ^ (mixed >> 31)
    }

    /// A number from 0, below the count.
    pub fn below(&mut self, count: usize) -> usize {
        (self.bits() % count as u64) as usize
    }

    pub fn byte(&mut self) -> u8 {
        self.bits() as u8
    }

    /// A number of any length and sign, often 0 or 1.
    pub fn number(&mut self) -> i64 {
        let number = (self.bits() >> self.below(64)) as i64;
        match self.below(8) {
            0 => 0,
            1 => 1,
            2 => i64::MIN,
            3 | 4 => number.wrapping_neg(),
            _ => number,
        }
    }
}

/// Every line's first word and how many numbers it has; a level is the first number where it has one.
pub const ELECTRIC: [(&str, usize, bool); 6] = [
    ("cost", 3, false),
    ("sales", 2, false),
    ("bill", 2, true),
    ("settle", 2, false),
    ("month-end", 1, false),
    ("adjust", 2, true),
];
pub const STEAM: [(&str, usize, bool); 7] = [
    ("cost", 1, false),
    ("sales", 1, false),
    ("bill", 1, false),
    ("settle", 1, false),
    ("month-end", 0, false),
    ("adjust", 2, false),
    ("reconcile", 2, false),
];

/// A journal's lines as they are written back, with fields of any 64-bit number.
pub fn random_lines(random: &mut Random, records: usize) -> String {
    let (mut text, kinds) = match random.below(3) {
        0 => ("electric L&P\n".to_string(), &ELECTRIC[..]),
        1 => ("electric MPS\n".to_string(), &ELECTRIC[..]),
        _ => (line(random, ("steam", 4, false)), &STEAM[..]),
    };
    for _ in 0..records {
        let kind = kinds[random.below(kinds.len())];
        text += &line(random, kind);
    }
    text
}

fn line(random: &mut Random, (word, count, has_level): (&str, usize, bool)) -> String {
    let mut line = word.to_string();
    for place in 0..count {
        let number = random.number();
        line += " ";
        line += &match number {
            0 if has_level && place == 0 => "secondary".to_string(),
            1 if has_level && place == 0 => "primary".to_string(),
            _ => number.to_string(),
        };
    }
    line + "\n"
}
