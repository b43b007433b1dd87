//! docs/trace has each rule of the paper with the names that define, code, prove, try and test it. Every name is held to what it names.

mod calls;
mod index;
mod names;
mod pages;
mod source;

use pages::{pages, Named};

/// Each flaw on a line of its own.
fn assert_none(flaws: &[String]) {
    assert!(flaws.is_empty(), "\n{}", flaws.join("\n"));
}

#[test]
fn every_line_of_a_page_is_read() {
    let flaws: Vec<String> = pages().into_iter().flat_map(|page| page.unread).collect();
    assert_none(&flaws);
}

#[test]
fn every_name_is_in_the_file_that_is_linked() {
    let names: Vec<Named> = pages().into_iter().flat_map(|page| page.names).collect();
    let flaws: Vec<String> = names.iter().filter_map(names::flaw).collect();
    assert_none(&flaws);
    assert!(names.len() > 1000, "only {} names were read", names.len());
}
