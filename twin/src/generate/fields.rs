//! Random fields of postings, within their ranges and outside.

use crate::random::Random;

/// The lowest and the highest value of a field.
pub type Range = (i64, i64);

/// How large the fields of random postings are.
#[derive(Clone, Copy, Debug, PartialEq, Eq)]
pub enum Size {
    /// A few cents or units sold, so that most quotients are near a half.
    Tiny,
    /// As a utility has them.
    Usual,
    /// Any number of the range, small ones as well as large ones.
    Any,
    /// At an end of the range or beside it.
    End,
}

/// A field of the range, of about the size.
pub fn field(random: &mut Random, (low, high): Range, size: Size) -> i64 {
    let number = match size {
        Size::Tiny => random.within(-60, 120),
        Size::Usual => random.within(-(high / 1_000), high / 10),
        Size::Any if random.coin() => random.up_to(high),
        Size::Any => -random.up_to(-low.min(0)),
        Size::End => {
            let inside = random.within(0, 2);
            random.one_of(&[low + inside, high - inside, high, low, 0])
        }
    };
    number.clamp(low, high)
}

/// A number outside the range, most often the next one.
pub fn beyond(random: &mut Random, (low, high): Range) -> i64 {
    let far = random.up_to(i64::MAX - high - 1);
    match random.below(8) {
        0..=2 => low - 1,
        3..=5 => high + 1,
        6 => random.one_of(&[high + 1 + far, low - 1 - far, i64::MIN, i64::MAX]),
        // In the range again once it is cut to 32 bits.
        _ => 1_i64 << random.within(35, 62),
    }
}
