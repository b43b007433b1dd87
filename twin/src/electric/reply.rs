//! What a posting to the electric book is answered with.

use crate::posted::Replied;

/// An amount of each level.
#[repr(C)]
#[derive(Clone, Copy, Debug, Default, PartialEq, Eq)]
pub struct Levels<Amount> {
    pub secondary: Amount,
    pub primary: Amount,
}

/// Each amount is 0 where it does not apply, and with a refusal.
#[repr(C)]
#[derive(Clone, Copy, Debug, Default, PartialEq, Eq)]
pub struct Reply {
    /// The refusal's number, 0 for none.
    pub number: u8,
    /// Points of a settlement.
    pub filed: Levels<i32>,
    /// Cents of a bill.
    pub line: i64,
    /// Cents of a month's end.
    pub interest: Levels<i64>,
}

impl Replied for Reply {
    #[inline]
    fn refused(number: u8) -> Self {
        Self {
            number,
            ..Self::default()
        }
    }

    #[inline]
    fn number(&self) -> u8 {
        self.number
    }
}
