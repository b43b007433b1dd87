//! Journals written out by hand.

use twin::generate::journals::record_of;
use twin::records::Posting;

/// A journal of an opening and postings, each a kind and its numbers.
pub fn journal(opening: &[u8], postings: &[(u8, &[i64])]) -> Vec<u8> {
    let mut bytes = opening.to_vec();
    for &(kind, given) in postings {
        let mut numbers = [0; 3];
        numbers[..given.len()].copy_from_slice(given);
        bytes.extend(record_of(Posting { kind, numbers }));
    }
    bytes
}

/// The opening of a steam journal.
pub fn steam(quarters: [i64; 4]) -> Vec<u8> {
    let mut opening = vec![2];
    opening.extend(quarters.map(i64::to_be_bytes).as_flattened());
    opening
}

/// Every opening that is accepted, of a kind.
pub fn openings() -> [Vec<u8>; 3] {
    [vec![0], vec![1], steam([1, 20, 300, 4_000])]
}
