//! The layouts of the twin's structs and the paper's numbers, under the header's names.

use std::mem::offset_of;
use twin::amounts::Run;
use twin::electric::sheet::SHEET_LENGTH;
use twin::electric::{self, ElectricBook, Level, Levels, Sales, L_AND_P, MPS};
use twin::proved::{Cents, Points, Reading, Writing};
use twin::records::{Posting, ADJUST, BILL, COST, MONTH_END, RECONCILE, SALES, SETTLE};
use twin::steam::{self, Reconciliation, SteamBook};

/// The size of the field that a function gives.
fn size_of_field<Struct, Field>(_: fn(&Struct) -> &Field) -> usize {
    size_of::<Field>()
}

/// The lines of a struct: its size, and each field's place and size. A field that C calls otherwise is `name = field`.
macro_rules! layout {
    ($lines:ident, $name:literal, $type:ty, [$($called:ident = $($field:tt).+),*]) => {
        $lines.push(format!("neapscroll_{} {}", $name, size_of::<$type>()));
        $($lines.push(format!(
            "neapscroll_{}.{} {} {}",
            $name,
            stringify!($called),
            offset_of!($type, $($field).+),
            size_of_field(|value: &$type| &value.$($field).+)
        ));)*
    };
    ($lines:ident, $name:literal, $type:ty, $($field:ident),*) => {
        layout!($lines, $name, $type, [$($field = $field),*]);
    };
}

fn amounts(lines: &mut Vec<String>) {
    layout!(lines, "cents", Cents, [cents = 0]);
    layout!(lines, "points", Points, [points = 0]);
    layout!(lines, "run", Run, factor, due);
}

fn electric(lines: &mut Vec<String>) {
    layout!(lines, "level", Level, carried, interest, pending, first, second);
    layout!(lines, "sales", Sales, secondary, primary);
    layout!(
        lines,
        "electric_period",
        electric::Period,
        cost,
        sales,
        remainder
    );
    layout!(
        lines,
        "electric_book",
        ElectricBook,
        division,
        month,
        settled,
        period,
        secondary,
        primary
    );
}

fn steam(lines: &mut Vec<String>) {
    layout!(lines, "steam_period", steam::Period, cost, sales, remainder);
    layout!(lines, "reconciliation", Reconciliation, run, months);
    layout!(
        lines,
        "steam_book",
        SteamBook,
        month,
        settled,
        period,
        quarters,
        carried,
        pending,
        factors,
        dues,
        reconciliation
    );
}

/// The twin has an array where C has three numbers.
fn postings(lines: &mut Vec<String>) {
    layout!(lines, "posting", Posting, kind);
    let numbers = offset_of!(Posting, numbers);
    for (place, name) in ["first", "second", "third"].into_iter().enumerate() {
        let size = size_of::<i64>();
        let offset = numbers + place * size;
        lines.push(format!("neapscroll_posting.{name} {offset} {size}"));
    }
}

/// The twin has the reply in a struct of its own where C has its fields beside the book.
fn answers(lines: &mut Vec<String>) {
    layout!(lines, "level_cents", Levels<i64>, secondary, primary);
    layout!(lines, "level_points", Levels<i32>, secondary, primary);
    layout!(
        lines,
        "electric_reply",
        electric::Posted,
        [
            number = reply.number,
            filed = reply.filed,
            line = reply.line,
            interest = reply.interest,
            book = book
        ]
    );
    layout!(
        lines,
        "steam_reply",
        steam::Posted,
        [
            number = reply.number,
            filed = reply.filed,
            line = reply.line,
            book = book
        ]
    );
    layout!(lines, "read", Reading, number, place, posting);
    layout!(lines, "written", Writing, number, length);
}

/// The numbers of document 01's refusal table, in its order.
const REFUSALS: [(&str, u8); 14] = [
    ("ACCEPTED", 0),
    ("NO_RECORD", 1),
    ("UNKNOWN_KIND", 2),
    ("STRAY_FIELD", 3),
    ("RECORD_CUT", 4),
    ("FIELD_OF_ZERO", 5),
    ("BOOK_OUTSIDE_LIMITS", 6),
    ("FIELD_OUT_OF_RANGE", 7),
    ("FORBIDDEN_NOW", 8),
    ("RECONCILIATION_RUNS", 9),
    ("NOTHING_SOLD", 10),
    ("ADJUSTMENT_TOO_SMALL", 11),
    ("OUTSIDE_LIMITS", 12),
    ("BUFFER_TOO_SHORT", 13),
];

/// The numbers of its table of kinds, its levels and its divisions.
const KINDS: [(&str, u8); 11] = [
    ("COST", COST),
    ("SALES", SALES),
    ("BILL", BILL),
    ("SETTLE", SETTLE),
    ("MONTH_END", MONTH_END),
    ("ADJUST", ADJUST),
    ("RECONCILE", RECONCILE),
    ("SECONDARY", 0),
    ("PRIMARY", 1),
    ("L_AND_P", L_AND_P),
    ("MPS", MPS),
];

fn numbers(lines: &mut Vec<String>) {
    for (name, number) in REFUSALS.into_iter().chain(KINDS) {
        lines.push(format!("NEAPSCROLL_{name} {number}"));
    }
    lines.push(format!("NEAPSCROLL_SHEET_LENGTH {SHEET_LENGTH}"));
}

/// A line a struct, a field and a named number, in the order of `host/layout.c`.
pub fn all() -> String {
    let mut lines = Vec::new();
    amounts(&mut lines);
    electric(&mut lines);
    steam(&mut lines);
    postings(&mut lines);
    answers(&mut lines);
    numbers(&mut lines);
    lines.iter().map(|line| format!("{line}\n")).collect()
}
