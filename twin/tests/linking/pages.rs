//! What `pages.c` has to print: pages with room for a factor sheet and without, given to the twin.

use twin::calendar::{JUNE, NOVEMBER};
use twin::electric::sheet::{self, SHEET_LENGTH};
use twin::electric::{self, ElectricBook, Sales};
use twin::records::{Posting, COST, MONTH_END, SALES};
use twin::written::Written;

pub const SOURCE: &str = "twin/tests/linking/pages.c";

const ESTIMATES: Sales = Sales {
    secondary: 1_250_000,
    primary: 800_000,
};

fn page(book: ElectricBook, length: usize) -> String {
    let mut bytes = [b'#'; 2 * SHEET_LENGTH];
    let (number, written) = match sheet::write(book, ESTIMATES, &mut bytes[..length]) {
        Written::Length(length) => (0, length),
        Written::Refused(number) => (number, 0),
    };
    let bytes = String::from_utf8_lossy(&bytes);
    format!("page of {length}: {number}, {written} bytes\n{bytes}\n")
}

fn pages(book: ElectricBook) -> String {
    let lengths = [SHEET_LENGTH - 1, SHEET_LENGTH, SHEET_LENGTH + 1];
    lengths.map(|length| page(book, length)).concat()
}

fn posted(book: ElectricBook, kind: u8, numbers: [i64; 3]) -> ElectricBook {
    electric::post(book, Posting { kind, numbers }).book
}

/// The pages of document 01's settlement, first in June and then in November.
pub fn whole() -> String {
    let book = posted(electric::open(0).book, COST, [2_000_000, 0, 0]);
    let june = posted(book, SALES, [600_000, 400_000, 0]);
    let mut november = june;
    for _ in JUNE..NOVEMBER {
        november = posted(november, MONTH_END, [0; 3]);
    }
    pages(june) + &pages(november)
}

/// The settlement's own refusal comes before that of the page, which keeps its bytes in both cases.
#[test]
fn the_request_says_the_same_of_pages() {
    let kept = "#".repeat(2 * 1_296);
    let text = whole();
    for length in [1_295, 1_296, 1_297] {
        assert!(text.contains(&format!("page of {length}: 8, 0 bytes\n{kept}\n")));
    }
    assert!(text.contains(&format!("page of 1295: 13, 0 bytes\n{kept}\n")));
    for length in [1_296, 1_297] {
        let start = format!("page of {length}: 0, 1296 bytes\n");
        let (_, bytes) = text.split_once(&start).expect("a page with a sheet");
        let (sheet, past) = bytes.split_at(1_296);
        assert!(sheet.starts_with("1   Total energy cost") && !sheet.contains('#'));
        assert!(past.starts_with(&kept[..1_296]));
    }
}
