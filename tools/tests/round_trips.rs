//! Lines to bytes and back, and bytes to lines and back.

mod common;

use common::{random_lines, Random};
use journal_lines::{to_bytes, to_lines};

/// The lines of the bytes, after a check that they give the same bytes again.
fn lines_that_return(journal: &[u8]) -> String {
    let lines = to_lines(journal);
    assert_eq!(
        to_bytes(&lines).as_deref(),
        Ok(journal),
        "{journal:02X?} as\n{lines}"
    );
    lines
}

#[test]
fn any_lines_return_from_their_bytes() {
    let mut random = Random::new(1);
    for records in 0..2_000 {
        let lines = random_lines(&mut random, records % 40);
        let journal = to_bytes(&lines).unwrap();
        assert_eq!(to_lines(&journal), lines);
    }
}

#[test]
fn any_bytes_return_from_their_lines() {
    let mut random = Random::new(2);
    for case in 0..200_000 {
        let length = random.below(60);
        let mut journal: Vec<u8> = (0..length).map(|_| random.byte()).collect();
        // Half of them have an opening and a kind that are often right.
        if case % 2 == 0 {
            for (place, count) in [(0, 4), (1, 9), (2, 9), (33, 9), (34, 5)] {
                if let Some(byte) = journal.get_mut(place) {
                    *byte = random.below(count) as u8;
                }
            }
        }
        lines_that_return(&journal);
    }
}

#[test]
fn every_bit_map_of_every_kind_returns_after_each_opening() {
    for opening in [&[0][..], &[1], &[2; 33], &[3]] {
        for kind in [0, 1, 2, 3, 4, 5, 6, 7, 8, 255] {
            for bit_map in 0..=255 {
                let head = [opening, &[kind, bit_map]].concat();
                lines_that_return(&head);
                // Fields enough for every bit map, so that whole records are met too.
                lines_that_return(&[&head[..], &[7; 64]].concat());
            }
        }
    }
}

#[test]
fn every_truncation_returns_and_keeps_the_whole_records() {
    let mut random = Random::new(3);
    for _ in 0..40 {
        let lines = random_lines(&mut random, 12);
        let journal = to_bytes(&lines).unwrap();
        let mut whole = 0;
        for length in 1..=journal.len() {
            let cut = lines_that_return(&journal[..length]);
            let kept: Vec<&str> = cut
                .lines()
                .take_while(|line| !line.starts_with('#'))
                .collect();
            assert!(kept.len() == whole || kept.len() == whole + 1);
            assert!(lines.lines().zip(&kept).all(|(line, kept)| line == *kept));
            whole = kept.len();
        }
        assert_eq!(whole, 13);
    }
}

#[test]
fn every_changed_byte_returns() {
    let mut random = Random::new(4);
    for _ in 0..40 {
        let mut journal = to_bytes(&random_lines(&mut random, 8)).unwrap();
        for place in 0..journal.len() {
            let was = journal[place];
            for byte in [0, 1, 2, 3, 7, 8, 255, random.byte()] {
                journal[place] = byte;
                lines_that_return(&journal);
            }
            journal[place] = was;
        }
    }
}

#[test]
fn a_journal_past_the_limit_returns_with_a_warning() {
    let longest = [&[0][..], &[2, 0].repeat(32_767), &[9]].concat();
    assert_eq!(longest.len(), 65_536);
    assert!(lines_that_return(&longest).starts_with("electric L&P\n"));

    let too_long = [&[0][..], &[2, 0].repeat(32_768)].concat();
    let lines = lines_that_return(&too_long);
    let first_lines: Vec<&str> = lines.lines().take(3).collect();
    let comment = "# 65537 bytes, more than 65536 (refused 7)";
    assert_eq!(first_lines, [comment, "electric L&P", "sales 0 0"]);
    assert_eq!(lines.lines().count(), 2 + 32_768);
}
