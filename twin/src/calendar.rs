//! The months of either book.

pub const JANUARY: u8 = 1;
pub const FEBRUARY: u8 = 2;
pub const MARCH: u8 = 3;
pub const APRIL: u8 = 4;
pub const MAY: u8 = 5;
pub const JUNE: u8 = 6;
pub const JULY: u8 = 7;
pub const AUGUST: u8 = 8;
pub const SEPTEMBER: u8 = 9;
pub const OCTOBER: u8 = 10;
pub const NOVEMBER: u8 = 11;
pub const DECEMBER: u8 = 12;

#[inline]
pub fn is_month(number: u8) -> bool {
    (JANUARY..=DECEMBER).contains(&number)
}

/// The month that follows.
#[inline]
pub fn month_after(month: u8) -> u8 {
    match month {
        DECEMBER => JANUARY,
        month => month + 1,
    }
}
