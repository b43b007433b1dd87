//! What printed journals have, line by line.

use crate::form::Answer;
use twin::comparison::room;

/// The books by the first byte of a journal.
pub const BOOKS: [&str; 3] = ["L&P", "MPS", "steam"];

/// Credits, credits of less than a dollar, and the largest factors.
pub const AMOUNTS: [&str; 4] = [" -", " -0.", " 9.9999", " -9.9999"];

/// What the lines of a book's journals have.
#[derive(Clone, Copy, Debug, Default)]
pub struct OfBook {
    pub journals: usize,
    /// Records that could not be read, by number.
    pub unread: [usize; 14],
    /// Refused postings, by number.
    pub refused: [usize; 14],
    /// Answers that are no refusals, by kind.
    pub answered: [usize; 8],
    /// Lines with an amount of each of these beginnings.
    pub amounts: [usize; AMOUNTS.len()],
    /// The most records and the most month ends of one journal.
    pub most_records: usize,
    pub most_months: usize,
}

#[derive(Clone, Debug, Default)]
pub struct Met {
    /// Refused openings, by number.
    pub openings: [usize; 14],
    pub books: [OfBook; 3],
    /// Journals with every record read to the end.
    pub whole: usize,
    pub longest_text: usize,
}

impl Met {
    /// Counts what was printed for the input, and holds it to the form.
    pub fn count(&mut self, input: &[u8], text: &[u8], origin: &str) {
        assert!(text.len() <= room(input), "too long a text, {origin}");
        self.longest_text = self.longest_text.max(text.len());
        let text = std::str::from_utf8(text).expect("the text is ASCII");
        if let Some(number) = refused_opening(text) {
            self.openings[number] += 1;
            return;
        }
        let book = &mut self.books[usize::from(input[0])];
        let steam = input[0] == 2;
        book.journals += 1;
        let (mut records, mut months, mut unread) = (0, 0, false);
        for line in text.split_inclusive('\n') {
            assert!(!unread, "a line after the last: {line:?}, {origin}");
            records += 1;
            let line = line.strip_suffix('\n').expect("a line feed ends each line");
            let rest = line.strip_prefix(&format!("{records} "));
            let answer = rest.and_then(|rest| Answer::of(rest, steam));
            let answer = answer.unwrap_or_else(|| panic!("{line:?} as {records}, {origin}"));
            book.count(answer, line);
            months += usize::from(answer == Answer::Given(5));
            unread = matches!(answer, Answer::Unread(_));
        }
        self.whole += usize::from(!unread);
        book.most_records = book.most_records.max(records);
        book.most_months = book.most_months.max(months);
    }

    pub fn add(&mut self, other: &Met) {
        sum_up(&mut self.openings, &other.openings);
        for (book, other) in self.books.iter_mut().zip(&other.books) {
            book.journals += other.journals;
            sum_up(&mut book.unread, &other.unread);
            sum_up(&mut book.refused, &other.refused);
            sum_up(&mut book.answered, &other.answered);
            sum_up(&mut book.amounts, &other.amounts);
            book.most_records = book.most_records.max(other.most_records);
            book.most_months = book.most_months.max(other.most_months);
        }
        self.whole += other.whole;
        self.longest_text = self.longest_text.max(other.longest_text);
    }

    pub fn print(&self) {
        println!("openings refused by number: {:?}", self.openings);
        println!(
            "read to the end: {}, longest text: {}",
            self.whole, self.longest_text
        );
        for (name, book) in BOOKS.iter().zip(&self.books) {
            println!("{name}: {book:?}");
        }
    }
}

impl OfBook {
    fn count(&mut self, answer: Answer, line: &str) {
        match answer {
            Answer::Unread(number) => self.unread[number] += 1,
            Answer::Refused(number) => self.refused[number] += 1,
            Answer::Given(kind) => {
                self.answered[kind] += 1;
                for (count, amount) in self.amounts.iter_mut().zip(AMOUNTS) {
                    *count += usize::from(line.contains(amount));
                }
            }
        }
    }
}

fn sum_up(sums: &mut [usize], counts: &[usize]) {
    for (sum, count) in sums.iter_mut().zip(counts) {
        *sum += count;
    }
}

/// The number, if the text is the one line of a refused opening.
fn refused_opening(text: &str) -> Option<usize> {
    let number = text.strip_prefix("refused ")?.strip_suffix('\n')?;
    number.parse().ok()
}
