//! The sixteen rows, in the sheet's order and its words.

use super::cells::Cell::{self, Blank, Cents, Kwh, Percent, Points, WholePercent};
use super::cells::CELL_LENGTH;
use super::figures::{sum, Figures};
use crate::electric::reply::Levels;
use crate::electric::sharing::CUSTOMER_HUNDREDTHS;

pub(super) const ROWS: usize = 16;

/// The characters of a row: its number, its label, and three cells.
const NUMBER_LENGTH: usize = 4;
const LABEL_LENGTH: usize = 31;
pub(super) const ROW_LENGTH: usize = NUMBER_LENGTH + LABEL_LENGTH + 3 * CELL_LENGTH;

pub(super) struct Row {
    number: &'static str,
    /// As the sheet has it, before it is cut.
    label: &'static str,
    /// Total, secondary and primary.
    cells: [Cell; 3],
}

#[rustfmt::skip]
pub(super) fn rows(figures: &Figures) -> [Row; ROWS] {
    let Figures { cost, base_cost, customers, adjusted, shares, .. } = *figures;
    [
        row("1", "Total energy cost (F, P, and E)", total(Cents(cost))),
        row("2", "Base energy cost (B)", total(Cents(base_cost))),
        row("3", "First Interim Total", total(Cents(cost - base_cost))),
        row("4", "Base energy (S_A) by voltage level", by_level(Kwh, figures.sold)),
        row("4.1", "Loss factors (L)", by_level(Percent, figures.loss_factors)),
        row("4.2", "S_A adjusted for losses", in_all(Kwh, sum(adjusted), adjusted)),
        row("4.3", "Loss factor weights", by_level(Percent, figures.weights)),
        row("5", "Customer Responsibility", total(WholePercent(CUSTOMER_HUNDREDTHS))),
        row("6", "Second Interim Total by voltage level", in_all(Cents, customers, shares)),
        row("7", "Adjustment for Under / Over recovery for prior periods (C)", by_level(Cents, figures.carried)),
        row("8", "Interest (I)", by_level(Cents, figures.interest)),
        row("9", "Fuel Adjustment Clause", by_level(Cents, figures.clause)),
        row("10", "Estimated recovery period sales kWh (S_R)", by_level(Kwh, figures.estimated)),
        row("11", "Current period cost adjustment factor", by_level(Points, figures.current)),
        row("12", "Previous period cost adjustment factor", by_level(Points, figures.previous)),
        row("13", "Current annual cost adjustment factor", by_level(Points, figures.annual)),
    ]
}

fn row(number: &'static str, label: &'static str, cells: [Cell; 3]) -> Row {
    Row {
        number,
        label,
        cells,
    }
}

/// A figure that is not parted between the levels.
fn total(cell: Cell) -> [Cell; 3] {
    [cell, Blank, Blank]
}

/// A figure of each level.
fn by_level(cell: fn(i128) -> Cell, levels: Levels<i128>) -> [Cell; 3] {
    [Blank, cell(levels.secondary), cell(levels.primary)]
}

/// A figure of each level behind their total.
fn in_all(cell: fn(i128) -> Cell, total: i128, levels: Levels<i128>) -> [Cell; 3] {
    [cell(total), cell(levels.secondary), cell(levels.primary)]
}

impl Row {
    /// Sets the row into its characters, which are blanks.
    pub fn set(&self, characters: &mut [u8]) {
        let (number, rest) = characters.split_at_mut(NUMBER_LENGTH);
        let (label, cells) = rest.split_at_mut(LABEL_LENGTH);
        set_left(number, self.number);
        set_left(label, self.label);
        for (cell, place) in self.cells.iter().zip(cells.chunks_exact_mut(CELL_LENGTH)) {
            cell.set_right(place);
        }
    }
}

/// Sets as much of the text as the place has room for.
fn set_left(place: &mut [u8], text: &str) {
    let cut = text.len().min(place.len());
    place[..cut].copy_from_slice(&text.as_bytes()[..cut]);
}
