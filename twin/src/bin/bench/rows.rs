//! All rows of the benchmark, by name.

use crate::measure::Measurement;
use crate::{arithmetic, books, journals, records, sheets, text};
use twin::electric::ElectricBook;
use twin::steam::SteamBook;

/// A named row; its inputs are made only when it is measured.
pub struct Row {
    pub name: &'static str,
    pub measure: Box<dyn Fn() -> Measurement>,
}

impl Row {
    pub fn new(name: &'static str, measure: impl Fn() -> Measurement + 'static) -> Self {
        let measure = Box::new(measure);
        Self { name, measure }
    }
}

/// Every row, in the order of the output.
pub fn all() -> Vec<Row> {
    let parts = [
        arithmetic::rows(),
        records::rows(),
        text::rows(),
        books::rows::<ElectricBook>(),
        sheets::rows(),
        books::rows::<SteamBook>(),
        journals::rows::<ElectricBook>(),
        journals::rows::<SteamBook>(),
    ];
    parts.into_iter().flatten().collect()
}
