//! What the tests of the writers share.

use std::fmt::Debug;
use twin::random::Random;
use twin::written::{Refusal, Written, BUFFER_TOO_SHORT};

const LONGEST_BUFFER: usize = 40;

/// The bytes on either side of a buffer, which no writer may touch.
const MARGIN: usize = 8;

/// A buffer of any length tried and what is around it.
type Memory = [u8; MARGIN + LONGEST_BUFFER + MARGIN];

/// How often each answer of a writer was met: 0 is "written", and the others are refusals.
pub type Answers = [usize; 14];

/// What is to be written, by either side and by a separate, slow formulation.
pub trait ToWrite: Debug {
    fn write_proved(&self, buffer: &mut [u8]) -> Written;
    fn write_twin(&self, buffer: &mut [u8]) -> Written;
    /// The bytes, or the refusal that has nothing to do with the buffer.
    fn expected(&self) -> Result<Vec<u8>, Refusal>;
}

pub fn seeded(seed: u64) -> (Random, String) {
    (Random::new(seed), format!("seed {seed}"))
}

/// Writes to a buffer of every length around the right one, with random bytes in it and around it.
pub fn write_around(what: &impl ToWrite, random: &mut Random, answers: &mut Answers, origin: &str) {
    let expected = what.expected();
    // What is refused has no right length.
    let right = expected.as_ref().map_or(LONGEST_BUFFER / 2, Vec::len);
    let mut before = [0; size_of::<Memory>()];
    random.fill(&mut before);
    for length in (right - 2..=right + 3).chain([0, LONGEST_BUFFER]) {
        let after = memory_after(&expected, &before, length);
        let number = write_once(what, &before, length, &after, origin);
        answers[number] += 1;
    }
}

/// The answer that the paper wants with a buffer of the length, and every byte afterwards.
fn memory_after(
    expected: &Result<Vec<u8>, Refusal>,
    before: &Memory,
    length: usize,
) -> (Written, Memory) {
    let mut memory = *before;
    let answer = match expected {
        Err(number) => Written::Refused(*number),
        Ok(bytes) if bytes.len() > length => Written::Refused(BUFFER_TOO_SHORT),
        Ok(bytes) => {
            memory[MARGIN..MARGIN + bytes.len()].copy_from_slice(bytes);
            Written::Length(bytes.len())
        }
    };
    (answer, memory)
}

/// Both sides, which must agree in answer and in every byte, and be as expected; gives the number.
fn write_once(
    what: &impl ToWrite,
    before: &Memory,
    length: usize,
    after: &(Written, Memory),
    origin: &str,
) -> Refusal {
    let lent = MARGIN..MARGIN + length;
    let (mut proved_memory, mut twin_memory) = (*before, *before);
    let proved = what.write_proved(&mut proved_memory[lent.clone()]);
    let twin = what.write_twin(&mut twin_memory[lent]);
    assert_eq!(
        (proved, proved_memory),
        (twin, twin_memory),
        "proved and twin {what:?} in a buffer of {length}, {origin}"
    );
    assert_eq!(
        &(twin, twin_memory),
        after,
        "{what:?} in a buffer of {length} and expected, {origin}"
    );
    match twin {
        Written::Length(_) => 0,
        Written::Refused(number) => number,
    }
}
