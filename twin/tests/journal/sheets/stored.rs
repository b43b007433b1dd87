//! The sheets of stored journals.

use super::{expect, printed};
use crate::examples::examples;
use std::fs;

/// The stored journals whose sheets are stored as well.
const WITH_SHEETS: [&str; 2] = ["electric-year", "electric-years"];

#[test]
fn stored_journals_have_the_sheets_that_are_stored() {
    let mut met = Vec::new();
    for (journal, _) in examples() {
        let input = fs::read(&journal).expect("a journal can be read");
        let sheets = journal.with_extension("sheets");
        if sheets.exists() {
            let text = fs::read_to_string(sheets).expect("its sheets can be read");
            expect(&text, &input);
            let name = journal.file_stem().expect("a journal has a name");
            met.push(name.to_string_lossy().into_owned());
        } else {
            printed(&input, &journal.display().to_string());
        }
    }
    met.sort_unstable();
    assert_eq!(met, WITH_SHEETS, "journals with stored sheets");
}
