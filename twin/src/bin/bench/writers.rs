//! How writers into a lent buffer are measured.

use crate::measure::{add, without_book, Measurement};
use std::hint::black_box;
use twin::written::Written;

/// The buffer that each text or record is written to.
pub const BUFFER: usize = 32;

/// Buffers are summed after so many writes, when no load has to wait for the stores of its buffer.
const BATCH: usize = 64;

/// Measures a writer, which each side calls with every input.
pub fn writer<Input: Copy>(
    inputs: &[Input],
    proved: impl Fn(Input, &mut [u8]) -> Written + Copy,
    twin: impl Fn(Input, &mut [u8]) -> Written + Copy,
) -> Measurement {
    without_book(
        inputs.len(),
        || write_each(inputs, proved),
        || write_each(inputs, twin),
    )
}

/// Writes every input to a buffer, and gives a checksum of the lengths and of all bytes.
fn write_each<Input: Copy>(inputs: &[Input], write: impl Fn(Input, &mut [u8]) -> Written) -> u64 {
    let mut buffers = [[0; BUFFER]; BATCH];
    let mut sum = 0;
    for batch in black_box(inputs).chunks(BATCH) {
        for (&input, buffer) in batch.iter().zip(&mut buffers) {
            let Written::Length(length) = write(input, buffer) else {
                panic!("refused by a buffer of {BUFFER}");
            };
            sum = add(sum, length as u64);
        }
        sum = buffers.iter().map(sum_of_words).fold(sum, add);
    }
    sum
}

/// A checksum of a buffer by itself, so that the buffers do not wait for each other.
fn sum_of_words(buffer: &[u8; BUFFER]) -> u64 {
    let words = buffer.as_chunks().0.iter();
    words.fold(0, |sum, &word| add(sum, u64::from_le_bytes(word)))
}
