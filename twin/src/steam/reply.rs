//! What a posting to the steam book is answered with.

use crate::posted::Replied;

/// Each amount is 0 where it does not apply, and with a refusal.
#[repr(C)]
#[derive(Clone, Copy, Debug, Default, PartialEq, Eq)]
pub struct Reply {
    /// The refusal's number, 0 for none.
    pub number: u8,
    /// Points of a settlement.
    pub filed: i32,
    /// Cents of a bill.
    pub line: i64,
}

impl Replied for Reply {
    #[inline]
    fn refused(number: u8) -> Self {
        Self {
            number,
            ..Self::default()
        }
    }

    #[inline]
    fn number(&self) -> u8 {
        self.number
    }
}
