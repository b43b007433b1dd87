//! Both sides of a journal, which must agree.

use crate::flaws::Flaw;
use crate::plain;
use journal_lines::to_lines;
use twin::comparison::{compare, PROVED};
use twin::generate::journals::Journal;

/// What both sides print for the input.
pub fn printed(input: &[u8], origin: &str) -> Vec<u8> {
    match compare(PROVED, input) {
        Ok(text) => text,
        Err(difference) => panic!("{difference}\n{origin}\n{}", to_lines(input)),
    }
}

/// The journal of the seed, and what both sides print for it.
pub fn printed_of_seed(seed: u64) -> (Vec<u8>, Vec<u8>) {
    let input = Journal::of_seed(seed).bytes;
    let text = printed(&input, &format!("seed {seed}"));
    (input, text)
}

/// A listed journal, which both sides and the plain program must print the text for.
pub fn expect(text: &str, input: &[u8]) {
    let met = printed(input, "a listed journal");
    assert_eq!(String::from_utf8_lossy(&met), text, "{}", to_lines(input));
    assert_eq!(
        plain::printed(input, Flaw::Nothing),
        text,
        "{}",
        to_lines(input)
    );
}
