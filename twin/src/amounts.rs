//! Stored cents and factors of either book, with their limits.

use crate::refusals::OUTSIDE_LIMITS;
use crate::written::Refusal;

/// The most cents stored, of either sign.
pub const CENTS_LIMIT: i64 = 1_000_000_000_000;

/// The largest factor stored, of either sign.
pub const FACTOR_LIMIT: i32 = 99_999;

/// A factor in points, and the cents still due by it.
///
/// Its layout is that of C, as the proved functions take and give it.
#[repr(C)]
#[derive(Clone, Copy, Debug, Default, PartialEq, Eq)]
pub struct Run {
    pub factor: i32,
    pub due: i64,
}

impl Run {
    #[inline]
    pub fn within_limits(&self) -> bool {
        factor_within_limits(self.factor) && cents_within_limits(self.due)
    }
}

#[inline]
pub fn cents_within_limits(cents: i64) -> bool {
    (-CENTS_LIMIT..=CENTS_LIMIT).contains(&cents)
}

#[inline]
pub fn factor_within_limits(factor: i32) -> bool {
    (-FACTOR_LIMIT..=FACTOR_LIMIT).contains(&factor)
}

/// The cents as the next book stores them, or refusal 12.
pub fn stored_cents(cents: i128) -> Result<i64, Refusal> {
    let narrow = i64::try_from(cents).ok();
    let stored = narrow.filter(|&cents| cents_within_limits(cents));
    stored.ok_or(OUTSIDE_LIMITS)
}

/// The factor as the next book stores it, or refusal 12.
pub fn stored_factor(factor: i128) -> Result<i32, Refusal> {
    let narrow = i32::try_from(factor).ok();
    let stored = narrow.filter(|&factor| factor_within_limits(factor));
    stored.ok_or(OUTSIDE_LIMITS)
}

/// A value that has no limits of its own, but that those of the others keep small.
pub fn answered(value: i128) -> i64 {
    i64::try_from(value).expect("the limits keep it within 64 bits")
}
