//! The numbers of the paper's refusal table that a reading or a posting can get.

use crate::written::Refusal;

/// Fewer than 2 bytes remain.
pub const INPUT_ENDS: Refusal = 1;
pub const UNKNOWN_KIND: Refusal = 2;
pub const FIELD_LACKED_BY_KIND: Refusal = 3;
/// Fewer bytes remain than the record's length.
pub const RECORD_CUT: Refusal = 4;
pub const FIELD_OF_ZERO: Refusal = 5;
pub const BOOK_OUTSIDE_LIMITS: Refusal = 6;
pub const FIELD_OUT_OF_RANGE: Refusal = 7;
pub const FORBIDDEN_NOW: Refusal = 8;
pub const RECONCILIATION_RUNS: Refusal = 9;
pub const NOTHING_SOLD: Refusal = 10;
pub const ADJUSTMENT_TOO_SMALL: Refusal = 11;
pub const OUTSIDE_LIMITS: Refusal = 12;
