//! A record that cannot be read ends the sheets with the line that the journal program has for it.

use super::expect;
use super::listed::FIRST_PERIOD;
use crate::filed_sheets::document_01;
use crate::written::journal;

/// Bytes that are no record, with the number that they are refused with.
const UNREADABLE: [(&[u8], usize); 9] = [
    (&[3], 1),
    (&[0], 1),
    (&[0, 0], 2),
    (&[7, 0], 2),
    (&[255, 255], 2),
    (&[4, 4, 0, 0, 0, 0, 0, 0, 0, 1], 3),
    (&[4, 3, 0, 0, 0, 0, 0, 0, 0, 1], 4),
    (&[4, 1, 0], 4),
    (&[2, 1, 0, 0, 0, 0, 0, 0, 0, 0], 5),
];

#[test]
fn the_first_record_may_be_the_last() {
    for division in [0, 1] {
        for (bytes, number) in UNREADABLE {
            let input = [&[division], bytes].concat();
            expect(&format!("1 0 refused {number}\n"), &input);
        }
    }
}

#[test]
fn records_before_it_are_counted_whether_or_not_they_have_sheets() {
    // Four records, of which two are refused.
    let before = journal(&[0], &[(3, &[]), (4, &[1, 1]), (4, &[]), (5, &[])]);
    for (bytes, number) in UNREADABLE {
        let input = [&before[..], bytes].concat();
        expect(&format!("5 0 refused {number}\n"), &input);
    }
}

#[test]
fn a_blank_line_stands_between_a_sheet_and_its_line() {
    let settled = journal(&[0], &FIRST_PERIOD);
    let billed = journal(&settled, &[(3, &[]), (5, &[])]);
    for (bytes, number) in UNREADABLE {
        let sheet = document_01();
        let at_once = [&settled[..], bytes].concat();
        expect(&format!("{sheet}\n9 0 refused {number}\n"), &at_once);
        let later = [&billed[..], bytes].concat();
        expect(&format!("{sheet}\n11 0 refused {number}\n"), &later);
    }
}

#[test]
fn what_comes_after_it_is_not_read() {
    let [open @ .., settlement] = FIRST_PERIOD;
    for (bytes, number) in UNREADABLE {
        if number == 4 || number == 1 {
            // More bytes would make it a record.
            continue;
        }
        let before = [&journal(&[0], &open)[..], bytes].concat();
        let input = journal(&before, &[settlement]);
        expect(&format!("8 0 refused {number}\n"), &input);
    }
}
