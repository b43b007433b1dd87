//! Numbers that the tool of lines warns of: those, and no others, are refused 7.

use crate::sides::printed_of_seed;
use journal_lines::{read_lines, to_lines, Message, LONGEST_JOURNAL};
use std::collections::BTreeSet;

const JOURNALS: u64 = 3_000;

const OPENING_REFUSED: &str = "refused 7\n";

/// How many records and openings were refused 7 and warned of.
#[derive(Default)]
struct Warned {
    records: usize,
    openings: usize,
}

/// The numbers of the lines that are warned of, each of which has its bytes all the same.
fn warned_lines(lines: &str) -> BTreeSet<usize> {
    let messages = read_lines(lines).messages.into_iter();
    let number = |message| match message {
        Message::Warning(warning) => warning.number,
        Message::Error(error) => panic!("{error}"),
    };
    messages.map(number).collect()
}

/// Whether what is printed of a record is that it is out of range; of one that cannot be read it is not.
fn is_out_of_range(answer: &str) -> bool {
    answer.ends_with(" refused 7")
}

impl Warned {
    fn compare(&mut self, input: &[u8], printed: &str, origin: &str) {
        let lines = to_lines(input);
        let warned = warned_lines(&lines);
        let numbered = (1..).zip(lines.lines());
        let mut numbered = numbered.filter(|(_, line)| !line.starts_with('#'));
        let Some((opening, line)) = numbered.next() else {
            assert_eq!(printed, "refused 1\n", "{origin}");
            return;
        };
        if printed == OPENING_REFUSED {
            let is_no_opening = line.starts_with("bytes") || input.len() > LONGEST_JOURNAL;
            assert!(is_no_opening || warned.contains(&opening), "{origin}");
            self.openings += usize::from(warned.contains(&opening));
            return;
        }
        assert!(!warned.contains(&opening), "{origin}: {line}");
        for answer in printed.lines() {
            let (number, line) = numbered.next().expect("a line for each answer");
            let refused = is_out_of_range(answer);
            assert_eq!(refused, warned.contains(&number), "{origin}: {line}");
            self.records += usize::from(refused);
        }
        // What has no answer stands behind bytes that are no record.
        let mut rest = numbered.map(|(_, line)| line);
        assert!(rest.all(|line| line.starts_with("bytes")), "{origin}");
    }
}

#[test]
fn records_and_openings_are_warned_of_if_refused_7() {
    let mut met = Warned::default();
    for seed in 1..=JOURNALS {
        let (input, text) = printed_of_seed(seed);
        let text = String::from_utf8(text).expect("text");
        met.compare(&input, &text, &format!("seed {seed}"));
    }
    println!(
        "warned of: {} records, {} openings",
        met.records, met.openings
    );
    assert!(
        met.records > 1_000 && met.openings > 20,
        "too few were met: {}, {}",
        met.records,
        met.openings
    );
}
