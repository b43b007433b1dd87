//! Wrong writers of sheets, each of which the random settlements must tell from the twin.

use super::cases::{case, sound};
use super::flaws::{Flaw, FLAWS};
use super::plain;
use super::sides::{compare, Case};
use crate::met::seeded;
use twin::random::Random;

const CASES: usize = 20_000;

fn tells(case: &Case, flaw: Flaw, random: &mut Random) -> bool {
    compare(
        &|case, memory| plain::write(case, memory, flaw),
        case,
        random,
    )
    .is_err()
}

#[test]
fn every_flaw_is_told() {
    let (mut random, _) = seeded(11);
    let mut left: Vec<Flaw> = FLAWS.to_vec();
    for index in 0..CASES {
        if left.is_empty() {
            break;
        }
        let book = sound(&mut random);
        let case = case(&mut random, book);
        left.retain(|&flaw| {
            let told = tells(&case, flaw, &mut random);
            if told {
                println!("{flaw:?} told by case {index}");
            }
            !told
        });
    }
    assert_eq!(left, [], "not told");
}
