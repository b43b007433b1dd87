//! The comments of host/neapscroll.h name the ranges and limits that the proved crates have.

use neapscroll_dev::header::{c_name, comments_above, HEADER};
use neapscroll_dev::rattle::definition;
use neapscroll_dev::text;

/// The range of a field of the table of kinds, as the header writes it.
fn range(field: &str) -> String {
    let plain = field.replace(['(', ')'], "").replace(" ^ ", "^");
    let plain = plain.replace("pos ", "").replace("200000", "200,000");
    match plain.split_whitespace().collect::<Vec<&str>>()[..] {
        ["plus_minus", most] => format!("-{most} to {most}"),
        ["up_to", most] => format!("0 to {most}"),
        ["between", least, most] => format!("{least} to {most}"),
        ["either", one, other] => format!("{one} or {other}"),
        ["level"] => "0 to 1".to_owned(),
        _ => panic!("no range: {field}"),
    }
}

/// What the header is to say of a kind's fields: a range each, or once for all that have the same.
fn ranges_of(fields: &str) -> Vec<String> {
    let fields = fields.trim_start_matches("Some ").trim_matches(['(', ')']);
    let fields = fields
        .split('∷')
        .map(str::trim)
        .filter(|&field| field != "[]");
    let ranges: Vec<String> = fields.map(range).collect();
    if ranges.len() > 1 && ranges.iter().all(|range| *range == ranges[0]) {
        return vec![format!("{} each", ranges[0])];
    }
    ranges
}

/// The ranges that a comment of the header names, in order.
fn ranges_in(comment: &str) -> Vec<String> {
    let words: Vec<&str> = comment
        .split_whitespace()
        .map(|word| word.trim_end_matches([',', ';', ':']))
        .collect();
    let is_number = |word: &str| word.starts_with(|c: char| c == '-' || c.is_ascii_digit());
    let places = (1..words.len().saturating_sub(1)).filter(|&place| {
        let joins = words[place] == "to" || words[place] == "or";
        joins && is_number(words[place - 1]) && is_number(words[place + 1])
    });
    let ranges = places.map(|place| {
        let each = words.get(place + 2) == Some(&"each");
        let range = words[place - 1..=place + 1].join(" ");
        format!("{range}{}", if each { " each" } else { "" })
    });
    ranges.collect()
}

#[test]
fn the_header_has_the_ranges_of_the_table_of_kinds() {
    let definition = definition("crates/postings/specs/Kinds.antt", "table_of");
    let clauses = definition
        .lines()
        .filter_map(|line| line.strip_prefix("table_of "));
    let mut seen = 0;
    for (head, fields) in clauses.filter_map(|clause| clause.split_once(" = ")) {
        let (book, kind) = head.split_once(' ').expect("a book and a kind");
        if kind == "Unknown" {
            continue;
        }
        let comments = comments_above(&c_name(kind).to_uppercase());
        let start = format!("{}: ", book.to_lowercase());
        let mut comments = comments.iter();
        let comment = comments.find_map(|comment| comment.strip_prefix(&start));
        let comment = comment.unwrap_or_else(|| panic!("the header has no {head}"));
        match fields {
            "None" => assert_eq!(comment, "no such kind", "{head}"),
            "Some []" => assert_eq!(comment, "none", "{head}"),
            fields => assert_eq!(ranges_in(comment), ranges_of(fields), "{head}"),
        }
        seen += 1;
    }
    assert_eq!(seen, 14, "kinds of both books");
}

/// The limits of what a book holds: the header's words with the most in them, the crate and its constant.
const LIMITS: [(&str, &str, &str); 8] = [
    (
        "whole cents; a book holds -MOST to MOST",
        "amounts",
        "MOST: i64",
    ),
    (
        "(mmBtu); a book holds -MOST to MOST",
        "amounts",
        "MOST: i32",
    ),
    (
        "kWh by level, 0 to MOST each",
        "electric_rules",
        "MOST_KWH: i64",
    ),
    (
        "hundred-thousandths of a cent, -MOST to MOST",
        "electric_rules",
        "MOST_REMAINDER: i64",
    ),
    (
        "sales in mmBtu, 0 to MOST",
        "steam_rules",
        "MOST_MMBTU: i64",
    ),
    (
        "oldest first, 0 to MOST each",
        "steam_rules",
        "MOST_MMBTU: i64",
    ),
    (
        "ten-thousandths of a cent, -MOST to MOST",
        "steam_rules",
        "MOST_REMAINDER: i64",
    ),
    (
        "those that it has left, at most MOST;",
        "steam_rules",
        "MOST_MONTHS: u8",
    ),
];

/// A number as the header writes it: a power of ten by its exponent where it is large, else with its thousands parted.
fn written(constant: &str) -> String {
    let zeros = constant.trim_start_matches('1').replace('_', "");
    if zeros.len() > 6 && zeros.chars().all(|digit| digit == '0') {
        return format!("10^{}", zeros.len());
    }
    constant.replace('_', ",")
}

#[test]
fn the_header_has_the_limits_of_the_code() {
    let header = text(HEADER).replace("\n * ", " ");
    for (words, crate_name, constant) in LIMITS {
        let source = text(&format!("crates/{crate_name}/src/lib.rt"));
        let declared = source.split_once(&format!("pub const {constant} = "));
        let most = declared.and_then(|(_, rest)| rest.split(';').next());
        let most = most.unwrap_or_else(|| panic!("{crate_name} has no {constant}"));
        let words = words.replace("MOST", &written(most));
        assert!(header.contains(&words), "the header does not say: {words}");
    }
}
