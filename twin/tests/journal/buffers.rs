//! Journals written to buffers of every length, with what is in them and around them.

use crate::sides::printed_of_seed;
use twin::comparison::{room, Side, PROVED};
use twin::journal;
use twin::random::Random;
use twin::written::{Written, BUFFER_TOO_SHORT};

/// The bytes on either side of a buffer, which no writer may touch.
const MARGIN: usize = 32;

/// Texts up to this length are written to a buffer of every length.
const SMALL: usize = 300;

/// The lengths of the buffers that a text is written to.
fn lengths(input: &[u8], text: &[u8]) -> Vec<usize> {
    match text.len() <= SMALL {
        true => (0..=text.len() + 20).chain([room(input)]).collect(),
        false => [
            0,
            1,
            text.len() / 2,
            text.len() - 1,
            text.len(),
            text.len() + 1,
        ]
        .to_vec(),
    }
}

/// The side and the twin in buffers that the text fits or does not; gives how many it does not.
pub fn in_buffers(side: Side, input: &[u8], text: &[u8], seed: u64) -> Result<usize, String> {
    let mut random = Random::new(seed);
    let mut refused = 0;
    for length in lengths(input, text) {
        let mut before = vec![0; MARGIN + length + MARGIN];
        random.fill(&mut before);
        let mut after = before.clone();
        let fits = text.len() <= length;
        let answer = match fits {
            true => Written::Length(text.len()),
            false => Written::Refused(BUFFER_TOO_SHORT),
        };
        if fits {
            after[MARGIN..MARGIN + text.len()].copy_from_slice(text);
        }
        refused += usize::from(!fits);
        for (name, write) in [("proved", side.write), ("twin", &journal::write)] {
            let mut memory = before.clone();
            let written = write(input, &mut memory[MARGIN..MARGIN + length]);
            if written != answer || memory != after {
                return Err(format!("{name} in a buffer of {length}: {written:?}"));
            }
        }
    }
    Ok(refused)
}

/// Compares the journals of the seeds in buffers, if their texts are as wanted.
fn compare_in_buffers(
    seeds: std::ops::RangeInclusive<u64>,
    wanted: impl Fn(&[u8]) -> bool,
) -> usize {
    let mut refused = 0;
    for seed in seeds {
        let (input, text) = printed_of_seed(seed);
        if wanted(&text) {
            let met = in_buffers(PROVED, &input, &text, seed);
            refused += met.unwrap_or_else(|failure| panic!("{failure}, seed {seed}"));
        }
    }
    refused
}

#[test]
fn short_texts_agree_in_buffers_of_every_length() {
    let refused = compare_in_buffers(100_001..=103_000, |text| text.len() <= SMALL);
    assert!(refused > 50_000, "{refused} buffers too short");
}

#[test]
fn long_texts_agree_in_buffers_around_their_length() {
    let refused = compare_in_buffers(200_001..=202_000, |text| text.len() > SMALL);
    assert!(refused > 4_000, "{refused} buffers too short");
}
