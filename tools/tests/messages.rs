//! What a person is told: each error with its line, and each comment on bytes that are no record.

use journal_lines::{to_bytes, to_lines};

/// The messages of a text, as the program prints them.
fn messages(text: &str) -> Vec<String> {
    let errors = to_bytes(text).unwrap_err();
    errors.iter().map(|error| error.to_string()).collect()
}

#[test]
fn a_wrong_opening() {
    let openings = "electric L&P, electric MPS, steam Q1 Q2 Q3 Q4 or bytes";
    let divisions = "electric L&P or electric MPS";
    let cases = [
        (
            "cost 1 2 3",
            format!("\"cost\" opens no book; expected {openings}"),
        ),
        (
            "gas 1",
            format!("\"gas\" opens no book; expected {openings}"),
        ),
        (
            "electric LP",
            format!("\"LP\" is no division; expected {divisions}"),
        ),
        (
            "electric",
            format!("nothing after electric; expected {divisions}"),
        ),
        (
            "electric L&P MPS",
            format!("2 words after electric; expected {divisions}"),
        ),
        (
            "steam 1 2 3",
            "3 words after steam; expected steam Q1 Q2 Q3 Q4".to_string(),
        ),
        (
            "steam 1 2 3 4.5",
            "\"4.5\" for Q4 is no 64-bit whole number; expected steam Q1 Q2 Q3 Q4".to_string(),
        ),
    ];
    for (line, message) in cases {
        let text = format!("# a comment\n\n{line}\n");
        assert_eq!(messages(&text), [format!("line 3: {line:?}: {message}")]);
    }
}

/// Each line alone, as the second one after an opening.
fn told_of_line_2(opening: &str, cases: &[(&str, &str)]) {
    for (line, message) in cases {
        let text = format!("{opening}\n  {line}  \n");
        assert_eq!(messages(&text), [format!("line 2: {line:?}: {message}")]);
    }
}

#[test]
fn a_comment_is_not_told() {
    let told = messages("electric L&P # division 0\n cost 1 # June\n");
    let cost = "line 2: \"cost 1\": 1 word after cost; expected cost F P E";
    assert_eq!(told, [cost]);
}

#[test]
fn a_wrong_electric_record() {
    let words = "expected cost, sales, bill, settle, month-end, adjust, bytes";
    let unknown = |word: &str| format!("\"{word}\" starts no record of the electric book; {words}");
    told_of_line_2(
        "electric L&P",
        &[
            ("costs 1 2 3", &unknown("costs")),
            ("Cost 1 2 3", &unknown("Cost")),
            ("reconcile 12 40000", &unknown("reconcile")),
            ("cost 1 2", "2 words after cost; expected cost F P E"),
            ("cost 1 2 3 4", "4 words after cost; expected cost F P E"),
            (
                "sales 1",
                "1 word after sales; expected sales SECONDARY PRIMARY",
            ),
            ("bill 1000", "1 word after bill; expected bill LEVEL KWH"),
            ("settle", "nothing after settle; expected settle RS RP"),
            (
                "month-end",
                "nothing after month-end; expected month-end RATE",
            ),
            (
                "adjust 5",
                "1 word after adjust; expected adjust LEVEL CENTS",
            ),
            (
                "electric MPS",
                "electric may stand in the first line alone; expected a record or bytes",
            ),
            (
                "steam 1 2 3 4",
                "steam may stand in the first line alone; expected a record or bytes",
            ),
        ],
    );
}

#[test]
fn a_word_that_is_no_number() {
    let level = "no level (secondary, primary or a 64-bit whole number)";
    told_of_line_2(
        "electric MPS",
        &[
            (
                "cost 1 2,000 3",
                "\"2,000\" for P is no 64-bit whole number; expected cost F P E",
            ),
            (
                "cost 1 2 9223372036854775808",
                "\"9223372036854775808\" for E is no 64-bit whole number; expected cost F P E",
            ),
            (
                "bill secondary primary",
                "\"primary\" for KWH is no 64-bit whole number; expected bill LEVEL KWH",
            ),
            (
                "bill tertiary 5",
                &format!("\"tertiary\" for LEVEL is {level}; expected bill LEVEL KWH"),
            ),
        ],
    );
}

#[test]
fn a_wrong_steam_record() {
    told_of_line_2(
        "steam 1 2 3 4",
        &[
            ("cost 1 2 3", "3 words after cost; expected cost CENTS"),
            ("sales 1 2", "2 words after sales; expected sales MMBTU"),
            (
                "bill secondary 5",
                "2 words after bill; expected bill MMBTU",
            ),
            ("settle", "nothing after settle; expected settle ADJUSTMENT"),
            (
                "month-end 60000",
                "1 word after month-end; expected month-end",
            ),
            ("adjust 1", "1 word after adjust; expected adjust N G"),
            (
                "reconcile 12",
                "1 word after reconcile; expected reconcile MONTHS D",
            ),
            (
                "reconciles 12",
                "\"reconciles\" starts no record of the steam book; \
                 expected cost, sales, bill, settle, month-end, adjust, reconcile, bytes",
            ),
        ],
    );
}

#[test]
fn wrong_bytes() {
    let expected = "expected pairs of hexadecimal digits, as in bytes 04 03";
    told_of_line_2(
        "electric L&P",
        &[
            ("bytes", &format!("nothing after bytes; {expected}")),
            ("bytes 04 3", &format!("\"3\" is no byte; {expected}")),
            ("bytes 04 0x", &format!("\"0x\" is no byte; {expected}")),
            ("bytes 04 +3", &format!("\"+3\" is no byte; {expected}")),
        ],
    );
}

#[test]
fn a_record_after_bytes_that_open_no_book() {
    for opening in ["bytes 03", "bytes 02 00"] {
        told_of_line_2(
            opening,
            &[(
                "cost 1 2 3",
                "\"cost\", but the bytes above open no book; expected bytes",
            )],
        );
    }
}

#[test]
fn all_wrong_lines_are_told() {
    let text = "electric L&P\ncost 1\nsales 1 2\nbil secondary 1\nmonth-end 1\nmonth-end x\n";
    let numbers: Vec<usize> = to_bytes(text)
        .unwrap_err()
        .iter()
        .map(|error| error.number)
        .collect();
    assert_eq!(numbers, [2, 4, 6]);
}

#[test]
fn a_wrong_opening_does_not_hide_or_make_errors_below_it() {
    let numbers = |text: &str| -> Vec<usize> {
        let errors = to_bytes(text).unwrap_err();
        errors.iter().map(|error| error.number).collect()
    };
    assert_eq!(numbers("electric LP\ncost 1 2 3\ncost 1\n"), [1, 3]);
    assert_eq!(numbers("steam 1\ncost 1\ncost 1 2 3\n"), [1, 3]);
    // Without a book, a line that is right in one of the two is not blamed.
    assert_eq!(
        numbers("gas\ncost 1\ncost 1 2 3\ncost 1 2\nbills 1\n"),
        [1, 4, 5]
    );
    assert_eq!(numbers("bytes 0\ncost 1\ncost 1 2 3\ncost 1 2\n"), [1, 4]);
    // Wrong bytes behind a right opening leave the book as it is.
    assert_eq!(numbers("electric L&P\nbytes 0\ncost 1\n"), [2, 3]);
    let told = messages("gas\ncost 1 2\nbills 1\n");
    let cost = "line 2: \"cost 1 2\": 2 words after cost; expected cost F P E, or cost CENTS";
    assert_eq!(told[1], cost);
    assert!(told[2].contains("\"bills\" starts no record of the electric or steam book"));
}

/// Bytes after an opening, and the comment on them.
fn told_of_bytes(opening: &str, cases: &[(&str, &str)]) {
    for (hexadecimal, comment) in cases {
        let journal = to_bytes(&format!("{opening}\nbytes {hexadecimal}\n")).unwrap();
        let expected = format!("{opening}\n# byte {comment}\nbytes {hexadecimal}\n");
        assert_eq!(to_lines(&journal), expected);
    }
}

#[test]
fn bytes_that_are_no_record() {
    told_of_bytes(
        "electric L&P\nmonth-end 0",
        &[
            (
                "05",
                "3 (the first is 0): a record has 2 bytes at least, 1 is here (refused 1)",
            ),
            (
                "00 00",
                "3 (the first is 0): the electric book has no kind 0 (refused 2)",
            ),
            (
                "07 00",
                "3 (the first is 0): the electric book has no kind 7 (refused 2)",
            ),
            (
                "05 02",
                "3 (the first is 0): bit map 02 has a bit that month-end lacks (refused 3)",
            ),
            (
                "01 80",
                "3 (the first is 0): bit map 80 has a bit that cost lacks (refused 3)",
            ),
            (
                "03 03 00",
                "3 (the first is 0): the record has 18 bytes, 3 are here (refused 4)",
            ),
            (
                "05 01 00 00 00 00 00 00 00 00",
                "3 (the first is 0): RATE is written though it is 0 (refused 5)",
            ),
        ],
    );
    told_of_bytes(
        "steam 1 2 3 4\nmonth-end",
        &[
            (
                "08 00",
                "35 (the first is 0): the steam book has no kind 8 (refused 2)",
            ),
            (
                "05 01",
                "35 (the first is 0): bit map 01 has a bit that month-end lacks (refused 3)",
            ),
            (
                "04 01",
                "35 (the first is 0): the record has 10 bytes, 2 are here (refused 4)",
            ),
        ],
    );
}

#[test]
fn bytes_that_are_no_opening() {
    assert_eq!(to_lines(&[]), "# no bytes (refused 1)\n");
    let unknown = "# byte 0 (the first is 0): FE opens no book (refused 7)\nbytes FE 05 00\n";
    assert_eq!(to_lines(&[0xFE, 5, 0]), unknown);
    let cut = "# byte 0 (the first is 0): a steam opening has 33 bytes, 2 are here (refused 7)\nbytes 02 00\n";
    assert_eq!(to_lines(&[2, 0]), cut);
}

#[test]
fn raw_bytes_are_sixteen_a_line() {
    let lines = to_lines(&[0xFE; 33]);
    let lengths: Vec<usize> = lines
        .lines()
        .skip(1)
        .map(|line| line.split(' ').count() - 1)
        .collect();
    assert_eq!(lengths, [16, 16, 1]);
}
