//! docs/REFUSALS.md says what the header and the proved crates say: numbers, names, the order of checking, and lengths.

use neapscroll_dev::header::{calls, constants};
use neapscroll_dev::markdown::{anchor, link, marks, sections};
use neapscroll_dev::rattle::{definition, enum_cases, rows};
use neapscroll_dev::tables::{tables, tables_by, Table};
use neapscroll_dev::text;

const PAGE: &str = "docs/REFUSALS.md";

/// Where the order of each thing done is said: the page's words, the file and the refusal table in it.
const ORDERS: [(&str, &str, &str); 7] = [
    (
        "opening",
        "crates/electric_rules/specs/Book.antt",
        "opening_rows",
    ),
    (
        "opening",
        "crates/steam_rules/specs/Opening.antt",
        "opened_of",
    ),
    (
        "posting, electric",
        "crates/electric_rules/specs/Refusals.antt",
        "rows_of",
    ),
    (
        "posting, steam",
        "crates/steam_rules/specs/Refusals.antt",
        "rows_of",
    ),
    (
        "reading",
        "crates/records/specs/Records.antt",
        "reading_rows",
    ),
    (
        "writing a record",
        "crates/records/specs/Records.antt",
        "writing_rows",
    ),
    (
        "writing a text",
        "crates/amounts/specs/Text.antt",
        "text_rows",
    ),
];

fn page_tables() -> Vec<Table> {
    tables(&text(PAGE))
}

/// The number and the case's name of each refusal, as the specification has them.
fn numbers() -> Vec<(u8, String)> {
    let definition = definition("crates/refusals/specs/Rows.antt", "number_of");
    let clauses = definition.lines().map(|line| {
        let words: Vec<&str> = line.split_whitespace().collect();
        let number = words.last().and_then(|word| word.parse().ok());
        (number.expect("a number"), words[1].to_owned())
    });
    clauses.collect()
}

fn number_of(case: &str) -> u8 {
    let numbers = numbers();
    let found = numbers.iter().find(|(_, name)| name == case);
    found.unwrap_or_else(|| panic!("no number of {case}")).0
}

/// The numbers in a list as `2, 3, 6 to 12`.
fn listed(list: &str) -> Vec<u8> {
    let number = |word: &str| word.trim().parse::<u8>().expect("a number");
    let parts = list
        .split(',')
        .flat_map(|part| match part.split_once(" to ") {
            Some((first, last)) => (number(first)..=number(last)).collect(),
            None => vec![number(part)],
        });
    parts.collect()
}

/// What is done, by which calls and with which refusals in order, as the page says.
fn orders() -> Vec<(String, Vec<String>, Vec<u8>)> {
    let tables = page_tables();
    let rows = tables_by(&tables, "what is done")[0].rows.iter();
    let orders = rows.map(|row| {
        let calls = marks(&row[1]).into_iter().map(str::to_owned);
        (row[0].clone(), calls.collect(), listed(&row[2]))
    });
    orders.collect()
}

/// The page's first table: number and anchor, the header's name, the case's name, when, given by.
fn overview() -> Vec<Vec<String>> {
    tables_by(&page_tables(), "number")[0].rows.clone()
}

#[test]
fn numbers_and_names_are_those_of_header_and_code() {
    let overview = overview();
    let number = |row: &[String]| link(&row[0]).text.parse::<u8>().expect("a number");
    let column = |place: usize| {
        let rows = overview
            .iter()
            .map(|row| (number(row), marks(&row[place]).concat()));
        rows.collect::<Vec<_>>()
    };
    let header = constants("neapscroll_refusal");
    assert_eq!(header[0], (0, "ACCEPTED".to_owned()));
    assert_eq!(column(1), header[1..], "the page and the header");
    let cases = enum_cases("Refusal").into_iter().zip(1..);
    let cases: Vec<(u8, String)> = cases.map(|(case, number)| (number, case)).collect();
    assert_eq!(numbers(), cases, "the specification and the code");
    let named = cases
        .into_iter()
        .map(|(number, case)| (number, format!("Refusal::{case}")));
    assert_eq!(
        column(2),
        named.collect::<Vec<_>>(),
        "the page and the code"
    );
}

#[test]
fn each_number_has_a_section_that_says_what_to_do() {
    let page = text(PAGE);
    let sections: Vec<(&str, &str)> = sections(&page)
        .into_iter()
        .filter(|(heading, _)| heading.starts_with(|c: char| c.is_ascii_digit()))
        .collect();
    let overview = overview();
    assert_eq!(sections.len(), overview.len(), "sections of {PAGE}");
    for (row, (heading, section)) in overview.iter().zip(sections) {
        let link = link(&row[0]);
        let number = link.text;
        assert!(heading.starts_with(&format!("{number} ")), "{heading}");
        let anchor = format!("#{}", anchor(heading));
        assert_eq!(link.target, anchor, "the link of {number}");
        for part in ["- **Means:** ", "- **Usual cause:** ", "- **What to do:** "] {
            let told: Vec<&str> = section.split(part).skip(1).collect();
            assert_eq!(told.len(), 1, "{heading}: {part}");
            assert!(!told[0].starts_with('\n'), "{heading}: {part}");
        }
    }
}

#[test]
fn the_order_of_checking_is_that_of_the_refusal_tables() {
    let orders = orders();
    for (done, path, name) in ORDERS {
        let order = orders.iter().find(|order| order.0 == done);
        let (_, _, order) = order.unwrap_or_else(|| panic!("{PAGE} has no order of {done}"));
        let rows: Vec<u8> = rows(path, name).iter().map(|row| number_of(row)).collect();
        assert_eq!(order, &rows, "{done}: the page and {path}");
    }
    assert_eq!(orders.len(), 7, "things done in {PAGE}");
}

/// The settlement is made by the call, so that its kind is known and has no stray number; the sheet's own table has the rest.
#[test]
fn a_factor_sheet_is_refused_as_its_settlement_and_then_for_its_page() {
    let orders = orders();
    let order = |done| {
        let order = orders.iter().find(|order| order.0 == done);
        order.unwrap_or_else(|| panic!("{PAGE} has no order of {done}"))
    };
    let mut expected = order("posting, electric").2.clone();
    let of_other_postings = ["UnknownKind", "StrayNumber"].map(number_of);
    expected.retain(|number| !of_other_postings.contains(number));
    let path = "crates/sheet/specs/Sheet.antt";
    let table = definition(path, "refusal_rows");
    assert!(table.contains("= rows_of b (settlement_of estimates) ++ "));
    expected.extend(rows(path, "refusal_rows").iter().map(|row| number_of(row)));
    assert_eq!(order("writing a factor sheet").2, expected);
}

#[test]
fn what_gives_a_refusal_follows_from_the_orders() {
    let orders = orders();
    for row in overview() {
        let number = link(&row[0]).text.parse().expect("a number");
        let giving = orders.iter().filter(|order| order.2.contains(&number));
        let mut giving: Vec<&str> = giving.map(|order| order.0.as_str()).collect();
        if giving.contains(&"posting, electric") && giving.contains(&"posting, steam") {
            giving.retain(|&done| done != "posting, steam");
            let place = giving.iter().position(|&done| done == "posting, electric");
            giving[place.expect("a place")] = "posting";
        }
        assert_eq!(row[4], giving.join("; "), "what gives {number}");
    }
}

#[test]
fn the_header_says_the_same_orders() {
    let orders = orders();
    let mut told = Vec::new();
    for (call, comment) in calls() {
        let Some((_, rest)) = comment.split_once("Refused (") else {
            continue;
        };
        let list = rest.split(')').next().expect("a list");
        let order = orders.iter().find(|order| order.1.contains(&call));
        let (_, _, order) = order.unwrap_or_else(|| panic!("{PAGE} has no order of {call}"));
        assert_eq!(&listed(list), order, "{call}: the header and the page");
        told.push(call);
    }
    let named = orders.iter().map(|order| order.1.len()).sum::<usize>();
    assert_eq!(told.len(), named, "calls that may refuse: {told:?}");
}

/// A journal prints 1 and 7 of its opening, by the page's words.
#[test]
fn what_a_journal_prints_of_its_opening() {
    let rows = rows("crates/journal/specs/Journal.antt", "journal_rows");
    let mut numbers: Vec<u8> = rows.iter().map(|row| number_of(row)).collect();
    numbers.sort_unstable();
    numbers.dedup();
    let page = text(PAGE);
    let start = "- **The opening is refused:**";
    let (_, rest) = page.split_once(start).expect("what is printed");
    let part = rest.split("\n- ").next().expect("a part");
    let printed = marks(part).into_iter();
    let printed = printed.filter_map(|mark| mark.strip_prefix("refused ")?.parse().ok());
    assert_eq!(printed.collect::<Vec<u8>>(), numbers, "{part}");
}

/// Lengths that are always enough: the page's words, the call whose comment has them, and the comment's words.
#[test]
fn lengths_are_those_of_the_header() {
    let told = [
        ("a record", "neapscroll_write_record", "of at most "),
        ("cents", "neapscroll_write_cents", "of at most "),
        ("points", "neapscroll_write_points", "of at most "),
        ("a journal", "neapscroll_journal_length", "at most "),
    ];
    let calls = calls();
    let tables = page_tables();
    let rows = &tables_by(&tables, "written")[0].rows;
    let (_, others) = rows.split_last().expect("lengths");
    assert_eq!(others.len(), told.len(), "lengths in {PAGE}");
    for (row, (written, call, words)) in others.iter().zip(told) {
        assert_eq!(row[0], written);
        let comment = calls.iter().find(|(name, _)| name == call);
        let (_, comment) = comment.expect("the call");
        let (_, rest) = comment.split_once(words).expect("the words");
        let most = row[1]
            .replace('×', "*")
            .replace("the input's bytes", "input_length");
        let length = rest.split([' ', '.', ':', ';', ',']);
        let length: String = length
            .take(most.split(' ').count())
            .collect::<Vec<_>>()
            .join(" ");
        assert_eq!(length, most, "{written}, in {comment}");
    }
    let room = definition("crates/journal/specs/Journal.antt", "room_of");
    assert!(room.contains("(41 * count + 82)"), "{room}");
    assert_eq!(rows[3][1], "41 × the input's bytes + 82");
    // A kind, a bit map and three fields; the least amounts, with a point.
    assert_eq!(rows[0][1], (2 + 3 * 8).to_string());
    assert_eq!(rows[1][1], (i64::MIN.to_string().len() + 1).to_string());
    assert_eq!(rows[2][1], (i32::MIN.to_string().len() + 1).to_string());
}

#[test]
fn the_length_of_a_factor_sheet_is_the_definitions() {
    let tables = page_tables();
    let sheet = tables_by(&tables, "written")[0].rows.last().expect("lengths");
    let shortest = format!("ltb (length page) {}", sheet[1]);
    let table = definition("crates/sheet/specs/Sheet.antt", "refusal_rows");
    assert_eq!(sheet[0], "a factor sheet");
    assert!(table.contains(&shortest), "{table}");
    assert_eq!(sheet[1], (16 * 81).to_string());
}
