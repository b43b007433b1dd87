//! The stored journals, with what they print.

use crate::sides::expect;
use std::fs;
use std::path::{Path, PathBuf};

/// The folder of the stored journals.
fn folder() -> PathBuf {
    Path::new(env!("CARGO_MANIFEST_DIR")).join("../examples")
}

/// Every stored journal, and the file of what it prints.
pub fn examples() -> Vec<(PathBuf, PathBuf)> {
    let entries = fs::read_dir(folder()).expect("the stored journals have a folder");
    let paths = entries.map(|entry| entry.expect("the folder can be read").path());
    let journals = paths.filter(|path| path.extension().is_some_and(|end| end == "journal"));
    let examples: Vec<_> = journals
        .map(|journal| (journal.clone(), journal.with_extension("printed")))
        .collect();
    assert!(examples.len() >= 8, "{} stored journals", examples.len());
    examples
}

#[test]
fn stored_journals_print_what_is_stored() {
    for (journal, printed) in examples() {
        println!("{}", journal.display());
        let input = fs::read(journal).expect("a journal can be read");
        expect(
            &fs::read_to_string(printed).expect("its text can be read"),
            &input,
        );
    }
}
