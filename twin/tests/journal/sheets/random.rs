//! The sheets of random journals, held to what the journal program answers as well.

use super::printed_in_pieces;
use std::thread;
use twin::generate::journals::Journal;
use twin::journal::{self, STEAM};

const JOURNALS: u64 = 3_000;
const THREADS: u64 = 2;

/// How many bytes the program is handed at once.
const PIECES: [usize; 3] = [1 << 20, 4_096, 1_000];

#[derive(Clone, Debug, Default)]
struct Met {
    steam: usize,
    /// Refused openings that are not steam's, by number.
    openings: [usize; 14],
    /// Electric journals that print nothing.
    silent: usize,
    /// Those with two sheets or more.
    with_several: usize,
    sheets: usize,
    /// Settlements that are refused between two that are not.
    refused_between: usize,
    /// Records that cannot be read, by number: before any sheet, and behind one.
    unread_first: [usize; 14],
    unread_behind: [usize; 14],
}

/// A settlement's answer.
fn is_filed(line: &str) -> bool {
    line.contains(" 4 filed ")
}

/// The line of a record that cannot be read.
fn is_unread(line: &str) -> bool {
    line.contains(" 0 refused ")
}

fn last_number(line: &str) -> usize {
    let last = line.trim_end().rsplit(' ').next();
    last.and_then(|number| number.parse().ok())
        .expect("a line ends in a number")
}

/// Whether the part is a sheet whose current factors are those that the line has.
fn is_sheet_of(part: &str, line: &str) -> bool {
    let rows: Vec<&str> = part.lines().collect();
    let [.., secondary, primary] = line.split(' ').collect::<Vec<_>>()[..] else {
        return false;
    };
    let label = "11  Current period cost adjustment";
    rows.len() == 16 && rows[13] == format!("{label:<50}{secondary:>15}{primary:>15}")
}

/// Holds the parts between blank lines to the answers: a sheet for each settlement, and the line of what cannot be read.
fn check_parts(lines: &[&str], printed: &str, origin: &str) {
    let wanted = lines
        .iter()
        .filter(|line| is_filed(line) || is_unread(line));
    let parts: Vec<&str> = match printed.strip_suffix('\n') {
        Some(text) => text.split("\n\n").collect(),
        None => Vec::new(),
    };
    assert_eq!(parts.len(), wanted.clone().count(), "parts, {origin}");
    for (part, line) in parts.iter().zip(wanted) {
        match is_filed(line) {
            true => assert!(is_sheet_of(part, line), "{line}\n{part}\n{origin}"),
            false => assert_eq!(part, line, "{origin}"),
        }
    }
}

impl Met {
    fn count(&mut self, input: &[u8], printed: &str, origin: &str) {
        let answers = String::from_utf8(journal::printed(input)).expect("the text is ASCII");
        if input.first() == Some(&STEAM) {
            assert_eq!(printed, "refused 7\n", "{origin}");
            self.steam += 1;
        } else if answers.starts_with("refused ") {
            assert_eq!(printed, answers, "{origin}");
            self.openings[last_number(printed)] += 1;
        } else {
            let lines: Vec<&str> = answers.lines().collect();
            check_parts(&lines, printed, origin);
            self.count_lines(&lines);
        }
    }

    fn count_lines(&mut self, lines: &[&str]) {
        let sheets = lines.iter().filter(|line| is_filed(line)).count();
        self.sheets += sheets;
        self.with_several += usize::from(sheets > 1);
        let first = lines.iter().position(|line| is_filed(line));
        let last = lines.iter().rposition(|line| is_filed(line));
        if let (Some(first), Some(last)) = (first, last) {
            let between = lines[first..last].iter();
            self.refused_between += between.filter(|line| line.contains(" 4 refused ")).count();
        }
        match lines.last().filter(|line| is_unread(line)) {
            None => self.silent += usize::from(sheets == 0),
            Some(line) if sheets == 0 => self.unread_first[last_number(line)] += 1,
            Some(line) => self.unread_behind[last_number(line)] += 1,
        }
    }

    fn add(&mut self, other: &Met) {
        self.steam += other.steam;
        self.silent += other.silent;
        self.with_several += other.with_several;
        self.sheets += other.sheets;
        self.refused_between += other.refused_between;
        for (sums, counts) in [
            (&mut self.openings, &other.openings),
            (&mut self.unread_first, &other.unread_first),
            (&mut self.unread_behind, &other.unread_behind),
        ] {
            for (sum, count) in sums.iter_mut().zip(counts) {
                *sum += count;
            }
        }
    }

    /// Holds all of it to have been met.
    fn check(&self) {
        let all = [
            self.steam,
            self.openings[1],
            self.openings[7],
            self.silent,
            self.with_several,
            self.sheets,
            self.refused_between,
        ];
        let unread = [&self.unread_first[1..=5], &self.unread_behind[1..=5]].concat();
        assert!(all.iter().all(|&count| count >= 20), "{self:?}");
        assert!(unread.iter().all(|&count| count >= 10), "{self:?}");
    }
}

/// Every so-manieth journal from the first on.
fn run(first: u64) -> Met {
    let mut met = Met::default();
    for seed in (first..=JOURNALS).step_by(THREADS as usize) {
        let origin = format!("seed {seed}");
        let input = Journal::of_seed(seed).bytes;
        let piece = PIECES[seed as usize % PIECES.len()];
        let printed = printed_in_pieces(&input, piece, &origin);
        met.count(&input, &printed, &origin);
    }
    met
}

#[test]
fn sheets_of_random_journals_agree() {
    let mut met = Met::default();
    thread::scope(|scope| {
        let parts: Vec<_> = (1..=THREADS)
            .map(|first| scope.spawn(move || run(first)))
            .collect();
        for part in parts {
            met.add(&part.join().expect("program and twin agree"));
        }
    });
    println!("{met:?}");
    met.check();
}
