//! Both sides of a sheet, with the page that it is written to and what is around it.

use crate::met::LISTED;
use twin::electric::{sheet, ElectricBook, Sales};
use twin::proved;
use twin::random::Random;
use twin::written::{Refusal, Written};

/// The bytes of a sheet: sixteen rows of eighty characters, each with a line feed.
pub const SHEET: usize = 16 * 81;

/// The bytes on either side of a page, which no writer may touch.
const MARGIN: usize = 32;

/// A settlement, and the page that is lent for its sheet.
#[derive(Clone, Copy, Debug)]
pub struct Case {
    pub book: ElectricBook,
    pub estimates: Sales,
    pub page_length: usize,
}

/// A page and what is around it.
#[derive(Clone, PartialEq, Eq)]
pub struct Memory(pub Vec<u8>);

impl Memory {
    pub fn page(&mut self) -> &mut [u8] {
        let end = self.0.len() - MARGIN;
        &mut self.0[MARGIN..end]
    }

    /// The first byte past the page.
    pub fn past(&mut self) -> &mut u8 {
        let end = self.0.len() - MARGIN;
        &mut self.0[end]
    }
}

/// A writer of sheets.
pub type Write<'a> = &'a dyn Fn(&Case, &mut Memory) -> Written;

/// A sheet or a refusal.
pub type Printed = Result<String, Refusal>;

fn proved(case: &Case, memory: &mut Memory) -> Written {
    proved::electric_sheet(case.book, case.estimates, memory.page())
}

fn twin(case: &Case, memory: &mut Memory) -> Written {
    sheet::write(case.book, case.estimates, memory.page())
}

/// What the twin prints, if the writer leaves just what the twin leaves of random bytes on the page and around it; else what is wrong.
pub fn compare(write: Write, case: &Case, random: &mut Random) -> Result<Printed, String> {
    let mut before = Memory(vec![0; MARGIN + case.page_length + MARGIN]);
    random.fill(&mut before.0);
    let (mut by_writer, mut by_twin) = (before.clone(), before.clone());
    let (answer, twin_answer) = (write(case, &mut by_writer), twin(case, &mut by_twin));
    let printed = printed(twin_answer, &before, &by_twin);
    if answer != twin_answer {
        return Err(format!("answer {answer:?}, twin {twin_answer:?}"));
    }
    match by_writer == by_twin {
        true => Ok(printed),
        false => Err(format!(
            "page and around it:\n{}\ntwin:\n{}",
            text(&by_writer.0),
            text(&by_twin.0)
        )),
    }
}

/// The sheet or the refusal, if no byte beside the sheet is changed.
fn printed(answer: Written, before: &Memory, after: &Memory) -> Printed {
    let (sheet, printed) = match answer {
        Written::Refused(number) => (0..0, Err(number)),
        Written::Length(length) => {
            assert_eq!(length, SHEET, "the length of a sheet");
            let sheet = MARGIN..MARGIN + SHEET;
            (sheet.clone(), Ok(text(&after.0[sheet])))
        }
    };
    let mut expected = before.clone();
    expected.0[sheet.clone()].copy_from_slice(&after.0[sheet]);
    assert!(
        *after == expected,
        "the twin changes bytes beside the sheet"
    );
    printed
}

fn text(bytes: &[u8]) -> String {
    String::from_utf8_lossy(bytes).into_owned()
}

/// Both sides of a sheet, which must agree.
pub fn write(case: &Case, random: &mut Random, origin: &str) -> Printed {
    match compare(&proved, case, random) {
        Ok(printed) => printed,
        Err(difference) => panic!("{difference}\n{case:?}, {origin}"),
    }
}

/// Both sides of a listed settlement, with a page of the length.
pub fn listed(book: ElectricBook, estimates: [i64; 2], page_length: usize) -> Printed {
    let [secondary, primary] = estimates;
    let case = Case {
        book,
        estimates: Sales { secondary, primary },
        page_length,
    };
    write(&case, &mut Random::new(1), LISTED)
}
