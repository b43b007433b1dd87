//! The ranges of fields, by document 01 and not by the tool's own table: a number past one is warned of, and no other.

mod common;

use common::{ELECTRIC, STEAM};
use journal_lines::{read_lines, to_bytes, Message};

/// A record with a dash for one field, that field's name, what document 01 lets stand there, and how that is shown.
type Field = (&'static str, &'static str, [i64; 2], &'static str);

const TEN_BILLION: [i64; 2] = [-10_000_000_000, 10_000_000_000];
const TEN_BILLION_SHOWN: &str = "-10,000,000,000 to 10,000,000,000";
const LEVEL_SHOWN: &str = "0 to 1 (secondary or primary)";

/// The electric column of Posting records.
const ELECTRIC_FIELDS: [Field; 12] = [
    ("cost _ 0 0", "F", TEN_BILLION, TEN_BILLION_SHOWN),
    ("cost 0 _ 0", "P", TEN_BILLION, TEN_BILLION_SHOWN),
    ("cost 0 0 _", "E", TEN_BILLION, TEN_BILLION_SHOWN),
    (
        "sales _ 0",
        "SECONDARY",
        [0, 10_000_000_000],
        "0 to 10,000,000,000",
    ),
    (
        "sales 0 _",
        "PRIMARY",
        [0, 10_000_000_000],
        "0 to 10,000,000,000",
    ),
    ("bill _ 5", "LEVEL", [0, 1], LEVEL_SHOWN),
    (
        "bill primary _",
        "KWH",
        [-1_000_000_000, 1_000_000_000],
        "-1,000,000,000 to 1,000,000,000",
    ),
    (
        "settle _ 1",
        "RS",
        [1, 10_000_000_000],
        "1 to 10,000,000,000",
    ),
    (
        "settle 1 _",
        "RP",
        [1, 10_000_000_000],
        "1 to 10,000,000,000",
    ),
    ("month-end _", "RATE", [0, 200_000], "0 to 200,000"),
    ("adjust _ 5", "LEVEL", [0, 1], LEVEL_SHOWN),
    (
        "adjust secondary _",
        "CENTS",
        TEN_BILLION,
        TEN_BILLION_SHOWN,
    ),
];

/// The steam column, without the months of a reconciliation, which are no range.
const STEAM_FIELDS: [Field; 7] = [
    ("cost _", "CENTS", TEN_BILLION, TEN_BILLION_SHOWN),
    ("sales _", "MMBTU", [0, 100_000_000], "0 to 100,000,000"),
    (
        "bill _",
        "MMBTU",
        [-10_000_000, 10_000_000],
        "-10,000,000 to 10,000,000",
    ),
    (
        "settle _",
        "ADJUSTMENT",
        [-100_000_000, 100_000_000],
        "-100,000,000 to 100,000,000",
    ),
    ("adjust _ 0", "N", TEN_BILLION, TEN_BILLION_SHOWN),
    (
        "adjust 1 _",
        "G",
        [0, 100_000_000_000],
        "0 to 100,000,000,000",
    ),
    ("reconcile 12 _", "D", [1, 100_000_000], "1 to 100,000,000"),
];

const MONTHS: &str = "reconcile _ 1";

/// The openings by refusal 7; a division has no number in lines.
const QUARTERS: [(&str, &str); 4] = [
    ("steam _ 0 0 0", "Q1"),
    ("steam 0 _ 0 0", "Q2"),
    ("steam 0 0 _ 0", "Q3"),
    ("steam 0 0 0 _", "Q4"),
];

/// What a text is told, in a file of this name; its lines are right all the same.
fn told(text: &str) -> Vec<String> {
    let reading = read_lines(text);
    assert_eq!(reading.journal, to_bytes(text).ok());
    assert!(reading.journal.is_some(), "{text}");
    let messages = reading.messages.iter();
    messages.map(|message| message.in_file("x.lines")).collect()
}

fn with(record: &str, number: i64) -> String {
    record.replace('_', &number.to_string())
}

/// A record after an opening is warned of at each number past its field's range, and of that number alone.
fn assert_range(opening: &str, (record, name, [least, most], shown): Field) {
    for number in [least, least + 1, most - 1, most] {
        let line = with(record, number);
        assert_eq!(told(&format!("{opening}\n{line}\n")), [""; 0], "{line}");
    }
    for number in [least - 1, most + 1, i64::MIN, i64::MAX] {
        let line = with(record, number);
        let warning = format!(
            "x.lines:2: warning: \"{line}\": {number} for {name} is out of its range, {shown}; \
             the ledger refuses it (7)"
        );
        assert_eq!(told(&format!("{opening}\n{line}\n")), [warning]);
    }
}

#[test]
fn every_electric_field_has_document_01s_range() {
    for opening in ["electric L&P", "electric MPS"] {
        for field in ELECTRIC_FIELDS {
            assert_range(opening, field);
        }
    }
}

#[test]
fn every_steam_field_has_document_01s_range() {
    for field in STEAM_FIELDS {
        assert_range("steam 1 2 3 4", field);
    }
}

#[test]
fn a_reconciliation_has_12_or_24_months() {
    let opening = "steam 1 2 3 4";
    for number in [12, 24] {
        let line = with(MONTHS, number);
        assert_eq!(told(&format!("{opening}\n{line}\n")), [""; 0], "{line}");
    }
    for number in [11, 13, 23, 25, 0, 18, -12, -24, i64::MIN, i64::MAX] {
        let line = with(MONTHS, number);
        let warning = format!(
            "x.lines:2: warning: \"{line}\": {number} for MONTHS is out of its range, 12 or 24; \
             the ledger refuses it (7)"
        );
        assert_eq!(told(&format!("{opening}\n{line}\n")), [warning]);
    }
}

#[test]
fn every_quarter_of_an_opening_has_refusal_7s_range() {
    for (opening, name) in QUARTERS {
        for number in [0, 1, 100_000_000] {
            assert_eq!(told(&with(opening, number)), [""; 0]);
        }
        for number in [-1, 100_000_001, i64::MIN, i64::MAX] {
            let line = with(opening, number);
            let warning = format!(
                "x.lines:1: warning: \"{line}\": {number} for {name} is out of its range, \
                 0 to 100,000,000; the ledger refuses it (7), and with it the whole journal"
            );
            assert_eq!(told(&line), [warning]);
        }
    }
}

/// The lists above have each field of each kind once.
#[test]
fn no_field_is_left_out() {
    let electric = ELECTRIC_FIELDS.map(|field| field.0);
    let steam = STEAM_FIELDS.map(|field| field.0);
    let steam: Vec<&str> = steam.into_iter().chain([MONTHS]).collect();
    for (kinds, records) in [(&ELECTRIC[..], &electric[..]), (&STEAM[..], &steam[..])] {
        for &(word, count, _) in kinds {
            let places = records.iter().filter_map(|record| {
                let mut words = record.split(' ');
                (words.next() == Some(word)).then(|| words.position(|word| word == "_"))
            });
            let mut places: Vec<Option<usize>> = places.collect();
            places.sort();
            let all: Vec<Option<usize>> = (0..count).map(Some).collect();
            assert_eq!(places, all, "{word}");
        }
    }
}

#[test]
fn each_number_of_a_line_is_warned_of() {
    let text = "electric L&P\n\n settle 0 -1 # too early\r\n";
    let start = "x.lines:3: warning: \"settle 0 -1\": ";
    let end = "is out of its range, 1 to 10,000,000,000; the ledger refuses it (7)";
    let warnings = [
        format!("{start}0 for RS {end}"),
        format!("{start}-1 for RP {end}"),
    ];
    assert_eq!(told(text), warnings);
    let quarters = told("steam -1 0 -2 100000001\ncost 0\nsales -1\n");
    assert_eq!(quarters.len(), 4);
}

#[test]
fn bytes_are_held_to_no_range() {
    let level_2 = "bytes 03 03 0000000000000002 0000000000000005";
    assert_eq!(told(&format!("electric L&P\n{level_2}\n")), [""; 0]);
    assert_eq!(told("bytes 03"), [""; 0]);
    assert_eq!(told(&format!("bytes 02 {}", "FF".repeat(32))), [""; 0]);
    // A book that bytes open is known all the same.
    assert_eq!(told("bytes 01\nbill 2 5\n").len(), 1);
}

#[test]
fn nothing_behind_bytes_that_are_no_record_is_warned_of() {
    // The bill is read as the first record's fields, and behind an unknown kind nothing is read.
    let cut = "electric L&P\nbytes 03 03\nbill 2 5\n";
    assert_eq!(told(cut), [""; 0]);
    assert_eq!(told("electric L&P\nbytes 09 00\nbill 2 5\n"), [""; 0]);
    let mended = cut.replace("bill", "bytes 0000000000000002 0000000000000005\nbill");
    assert_eq!(told(&mended).len(), 1);
    assert_eq!(told("electric L&P\nbytes 05 00\nbill 2 5\n").len(), 1);
}

/// The lines of a text that are told of, errors below zero.
fn places(text: &str) -> Vec<isize> {
    let reading = read_lines(text);
    assert_eq!(reading.journal, None);
    let place = |message| match message {
        Message::Error(error) => -(error.number as isize),
        Message::Warning(warning) => warning.number as isize,
    };
    reading.messages.into_iter().map(place).collect()
}

#[test]
fn warnings_and_errors_stand_in_the_order_of_lines() {
    let text = "electric L&P\nbill 2 5\ncost 1\nmonth-end -1\nsettle 0 0\nmonth-end\nbill -1 5\n";
    assert_eq!(places(text), [2, -3, 4, 5, 5, -6, 7]);
    assert_eq!(to_bytes(text).unwrap_err().len(), 2);
    assert_eq!(places("steam -1 0 0 0\ncost\n"), [1, -2]);
}

#[test]
fn a_line_that_is_right_in_the_supposed_book_is_not_warned_of() {
    assert_eq!(places("electric LP\nadjust 2 5\n"), [-1, 2]);
    assert_eq!(places("steam 1\nadjust 2 5\n"), [-1]);
    // Without a book, it is enough that one of the two takes it.
    assert_eq!(places("gas\nadjust 2 5\nadjust 1 -5\n"), [-1]);
    assert_eq!(places("gas\nadjust 2 -5\nsales -1\n"), [-1, 2, 3]);
}
