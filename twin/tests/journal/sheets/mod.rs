//! What the program of sheets prints for a journal, beside the twin.

mod ends;
mod listed;
mod openings;
mod random;
mod stored;

use crate::program::run;
use journal_lines::to_lines;
use twin::comparison::first_difference;
use twin::journal::sheets;

/// The program, which the twin's build makes.
pub const PROGRAM: &str = env!("PROVED_SHEETS");

/// What the program and the twin print for the input, which the program is handed in pieces.
fn printed_in_pieces(input: &[u8], piece: usize, origin: &str) -> String {
    let (proved, twin) = (run(PROGRAM, input, piece), sheets::printed(input));
    if let Some(difference) = first_difference(&proved, &twin) {
        panic!(
            "{difference}\nin pieces of {piece}, {origin}\n{}",
            to_lines(input)
        );
    }
    String::from_utf8(twin).expect("the text is ASCII")
}

fn printed(input: &[u8], origin: &str) -> String {
    printed_in_pieces(input, input.len().max(1), origin)
}

/// A listed journal, for which the program and the twin must print the text.
fn expect(text: &str, input: &[u8]) {
    let met = printed(input, "a listed journal");
    assert_eq!(met, text, "{}", to_lines(input));
}
