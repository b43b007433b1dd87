//! What random settlements met.

use super::sides::{Case, Printed, SHEET};
use crate::met::Met;
use crate::postings::settle;
use twin::records::SETTLE;

/// What sheets may show: credits, credits of less than a dollar, all sales at one level, the widest amounts and the largest factors.
const SHOWN: [&str; 9] = [
    " -1",
    " -0.",
    " 100.000%\n",
    " 0.000%\n",
    "-10000000000.00",
    " 10000000000.00",
    " 9.9999",
    " -9.9999",
    " -1.0000",
];

#[derive(Default)]
pub struct Counts {
    /// Answers by number.
    answers: Met,
    /// Refusals of a settlement whose page is too short as well, by number.
    also_short: [usize; 14],
    /// Sheets of L&P and of MPS, in May and in November.
    sheets: [[usize; 2]; 2],
    /// Sheets on pages that have room for more.
    on_longer_pages: usize,
    shown: [usize; SHOWN.len()],
}

impl Counts {
    pub fn count(&mut self, case: &Case, printed: &Printed) {
        let number = printed.as_ref().err().copied().unwrap_or_default();
        let estimates = case.estimates;
        let settlement = settle(estimates.secondary, estimates.primary);
        self.answers.count(settlement, number as u8);
        match printed {
            Ok(sheet) => self.count_sheet(case, sheet),
            Err(number) => {
                self.also_short[*number] += usize::from(case.page_length < SHEET);
            }
        }
    }

    fn count_sheet(&mut self, case: &Case, sheet: &str) {
        let rows: Vec<&str> = sheet.split_inclusive('\n').collect();
        assert_eq!(rows.len(), 16, "{sheet}");
        assert!(rows.iter().all(|row| row.len() == 81), "{sheet}");
        let in_november = usize::from(case.book.month == 11);
        self.sheets[usize::from(case.book.division)][in_november] += 1;
        self.on_longer_pages += usize::from(case.page_length > SHEET);
        for (count, text) in self.shown.iter_mut().zip(SHOWN) {
            *count += usize::from(sheet.contains(text));
        }
    }

    /// Prints the counts, and holds each of the numbers to have been met at least so often and no other at all.
    pub fn check(&self, title: &str, least: usize, numbers: &[u8]) {
        self.answers.print(title);
        println!("  refused with a page too short: {:?}", self.also_short);
        self.answers.has_numbers(least, numbers);
        for (number, &count) in self.also_short.iter().enumerate() {
            let wanted = number > 0 && numbers.contains(&(number as u8));
            assert!(
                !wanted || count >= least,
                "{number} on short pages: {count}"
            );
        }
    }

    /// Prints what the sheets show, and holds each of it to have been met at least so often.
    pub fn check_sheets(&self, least: usize) {
        println!("  sheets by division and month: {:?}", self.sheets);
        println!("  on longer pages: {}", self.on_longer_pages);
        println!("  {SHOWN:?}: {:?}", self.shown);
        self.answers.has_kinds(least, &[SETTLE]);
        let all = [
            self.sheets.as_flattened(),
            &[self.on_longer_pages],
            &self.shown,
        ]
        .concat();
        assert!(all.iter().all(|&count| count >= least), "{all:?}");
    }
}
