//! Each kind of line beside its bytes, as document 01 lays them out.

use journal_lines::{to_bytes, to_lines};

fn bytes(hexadecimal: &str) -> Vec<u8> {
    to_bytes(&format!("bytes {hexadecimal}")).unwrap()
}

fn both_ways(cases: &[(&str, &str)]) {
    let mut all_lines = String::new();
    let mut all_bytes = Vec::new();
    for (line, hexadecimal) in cases {
        all_lines += line;
        all_lines += "\n";
        all_bytes.extend(bytes(hexadecimal));
        assert_eq!(to_bytes(&all_lines).unwrap(), all_bytes, "{line}");
        assert_eq!(to_lines(&all_bytes), all_lines, "{line}");
    }
}

#[test]
fn bytes_are_hexadecimal_in_pairs() {
    assert_eq!(bytes("00 0a 0B ff"), [0, 10, 11, 255]);
    assert_eq!(bytes("000a0Bff 01"), [0, 10, 11, 255, 1]);
}

#[test]
fn the_papers_journal() {
    both_ways(&[
        ("electric L&P", "00"),
        ("cost 2000000 0 0", "01 01 00000000001E8480"),
        ("bill secondary 1000", "03 02 00000000000003E8"),
        ("settle 1 1", "04 03 0000000000000001 0000000000000001"),
    ]);
}

#[test]
fn every_electric_kind() {
    both_ways(&[
        ("electric MPS", "01"),
        (
            "cost 1 -2 256",
            "01 07 0000000000000001 FFFFFFFFFFFFFFFE 0000000000000100",
        ),
        ("cost 0 0 5", "01 04 0000000000000005"),
        ("cost 0 0 0", "01 00"),
        (
            "sales 600000 400000",
            "02 03 00000000000927C0 0000000000061A80",
        ),
        ("sales 0 1", "02 02 0000000000000001"),
        ("bill secondary -20", "03 02 FFFFFFFFFFFFFFEC"),
        (
            "bill primary 1000",
            "03 03 0000000000000001 00000000000003E8",
        ),
        ("bill primary 0", "03 01 0000000000000001"),
        ("bill 2 1000", "03 03 0000000000000002 00000000000003E8"),
        (
            "settle 1250000 800000",
            "04 03 00000000001312D0 00000000000C3500",
        ),
        ("settle 0 0", "04 00"),
        ("month-end 60000", "05 01 000000000000EA60"),
        ("month-end 0", "05 00"),
        ("adjust secondary -1500", "06 02 FFFFFFFFFFFFFA24"),
        (
            "adjust primary 1500",
            "06 03 0000000000000001 00000000000005DC",
        ),
        ("adjust -1 0", "06 01 FFFFFFFFFFFFFFFF"),
    ]);
}

#[test]
fn every_steam_kind() {
    both_ways(&[
        (
            "steam 1 0 -1 100000000",
            "02 0000000000000001 0000000000000000 FFFFFFFFFFFFFFFF 0000000005F5E100",
        ),
        ("cost 3700000", "01 01 0000000000387520"),
        ("cost 0", "01 00"),
        ("sales 10000", "02 01 0000000000002710"),
        ("bill 500", "03 01 00000000000001F4"),
        ("bill -9223372036854775808", "03 01 8000000000000000"),
        ("settle 0", "04 00"),
        ("settle -9", "04 01 FFFFFFFFFFFFFFF7"),
        ("month-end", "05 00"),
        (
            "adjust 100001 1000000",
            "06 03 00000000000186A1 00000000000F4240",
        ),
        ("adjust 0 1", "06 02 0000000000000001"),
        (
            "reconcile 12 40000",
            "07 03 000000000000000C 0000000000009C40",
        ),
        ("reconcile 0 0", "07 00"),
    ]);
}

#[test]
fn blanks_and_comments_are_skipped() {
    let text = "\n# opening\r\n\t electric   L&P # the division\r\n\n bill 0 1000#\n   #\n";
    assert_eq!(to_bytes(text).unwrap(), bytes("00 03 02 00000000000003E8"));
    assert_eq!(to_bytes("").unwrap(), []);
    assert_eq!(to_bytes("# nothing").unwrap(), []);
}

#[test]
fn raw_bytes_may_open_a_book_and_stand_anywhere() {
    let opened = "bytes 01\nmonth-end 0\nbytes 05 00\nmonth-end 0\n";
    assert_eq!(to_bytes(opened).unwrap(), bytes("01 05 00 05 00 05 00"));

    let steam = format!("bytes 02\nbytes {}\nmonth-end\n", "00 ".repeat(32));
    let journal = to_bytes(&steam).unwrap();
    assert_eq!(journal, [&[2][..], &[0; 32], &[5, 0]].concat());
}
