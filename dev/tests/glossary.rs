//! docs/GLOSSARY.md names what there is: fields, calls, cases, definitions and the factor sheet's rows; and each letter of the paper has one row.

use neapscroll_dev::definitions::declares;
use neapscroll_dev::header::{self, c_name, calls, constants};
use neapscroll_dev::markdown::{anchor, link, marks};
use neapscroll_dev::rattle::{self, definition, enum_cases, Structs};
use neapscroll_dev::tables::{tables, tables_by, Table};
use neapscroll_dev::text;
use std::collections::BTreeSet;

const PAGE: &str = "docs/GLOSSARY.md";

/// The letters of the paper, Ws and Wp under W, and f1, d1 and the like under f and d.
const LETTERS: [&str; 28] = [
    "A", "B", "b", "C", "D", "d", "E", "F", "f", "g", "H", "I", "K", "n", "P", "Q", "q", "R", "r",
    "rem", "Rp", "Rs", "Sp", "Ss", "u", "V", "W", "w",
];

/// The structs of the page that a host does not see.
const HIDDEN: [&str; 2] = ["Mmbtu", "Rates"];

/// A row of a term, with the section that it stands in.
struct Row {
    section: String,
    term: String,
    letters: Vec<String>,
    code: String,
}

fn page_tables() -> Vec<Table> {
    tables(&text(PAGE))
}

fn rows() -> Vec<Row> {
    let tables = page_tables();
    let mut rows = Vec::new();
    for table in tables_by(&tables, "term") {
        assert_eq!(
            table.columns[1..],
            ["letter", "unit", "what it is", "in code"]
        );
        for row in &table.rows {
            let letters = row[1].split(',').map(str::trim);
            let letters = letters.filter(|letter| !letter.is_empty());
            rows.push(Row {
                section: table.section.clone(),
                term: row[0].clone(),
                letters: letters.map(str::to_owned).collect(),
                code: row[4].clone(),
            });
        }
    }
    rows
}

/// The crate that declares the struct, one of its own first.
fn crate_of(structs: &Structs, name: &str, own: &str) -> Option<String> {
    let named = structs.keys().filter(|(_, declared)| declared == name);
    let crates: Vec<&String> = named.map(|(declaring, _)| declaring).collect();
    let one = crates.iter().find(|&&declaring| declaring == own);
    let one = one.or(if crates.len() == 1 {
        crates.first()
    } else {
        None
    });
    one.map(|&declaring| declaring.clone())
}

/// Whether the fields stand one in the other, from the proved struct on.
fn stands_in_code(path: &[&str]) -> bool {
    let structs = rattle::structs();
    let (mut own, mut name) = (String::new(), path[0].to_owned());
    for &field in &path[1..] {
        let Some(declaring) = crate_of(&structs, &name, &own) else {
            return false;
        };
        let fields = &structs[&(declaring.clone(), name)];
        let Some(kind) = fields.get(field) else {
            return false;
        };
        (own, name) = (declaring, kind.clone());
    }
    path.len() > 1 || crate_of(&structs, &name, &own).is_some()
}

/// The header's name of the struct that a path begins with.
fn c_struct(path: &[&str]) -> String {
    format!("neapscroll_{}", c_name(path[0]))
}

/// Whether the same fields stand in the header.
fn stands_in_header(path: &[&str]) -> bool {
    let structs = header::structs();
    let mut name = c_struct(path);
    path[1..].iter().all(|&field| {
        let kind = structs.get(&name).and_then(|fields| fields.get(field));
        name = kind.cloned().unwrap_or_default();
        kind.is_some()
    })
}

/// A case of an enum, which in C is a named number where it is a kind.
fn is_case(name: &str, case: &str) -> bool {
    let named = c_name(case).to_uppercase();
    let mut in_header = constants("neapscroll_kind").into_iter();
    let is_named = name != "Kind" || in_header.any(|(_, constant)| constant == named);
    is_named && enum_cases(name).iter().any(|one| one == case)
}

/// Whether there is what the code mark names, which has one of the forms that the page lists.
fn exists(mark: &str) -> bool {
    if mark.starts_with("neapscroll_") {
        return calls().iter().any(|(call, _)| call == mark);
    }
    if let Some((name, case)) = mark.split_once("::") {
        return is_case(name, case);
    }
    if let Some((crate_name, rest)) = mark.split_once('/') {
        let (file, name) = rest.split_once('.').expect("a file and a name");
        let specs = text(&format!("crates/{crate_name}/specs/{file}.antt"));
        return declares(&specs, name);
    }
    let path: Vec<&str> = mark.split('.').collect();
    let is_seen = header::structs().contains_key(&c_struct(&path));
    assert_ne!(
        is_seen,
        HIDDEN.contains(&path[0]),
        "a host sees {}",
        path[0]
    );
    stands_in_code(&path) && (!is_seen || stands_in_header(&path))
}

#[test]
fn what_the_page_names_in_code_is_there() {
    for row in rows() {
        let marks = marks(&row.code);
        assert!(!marks.is_empty(), "{} has nothing in code", row.term);
        for mark in marks {
            assert!(exists(mark), "{}: no `{mark}`", row.term);
        }
    }
    let page = text(PAGE);
    let opening = page.split("\n## ").next().expect("an opening");
    let marks = marks(opening).into_iter();
    let named = marks.filter(|mark| mark.contains("::") || mark.starts_with("ElectricBook."));
    let named: Vec<&str> = named.collect();
    assert_eq!(named.len(), 2, "examples of names: {named:?}");
    assert!(named.iter().all(|mark| exists(mark)), "{named:?}");
}

#[test]
fn each_letter_of_the_paper_has_one_row() {
    let rows = rows();
    let mut found: Vec<&String> = rows.iter().flat_map(|row| &row.letters).collect();
    found.sort();
    let mut letters = LETTERS;
    letters.sort_unstable();
    assert_eq!(found, letters, "letters in rows, and of the paper");
}

#[test]
fn the_list_of_letters_names_their_rows() {
    let rows = rows();
    let tables = page_tables();
    let list = &tables_by(&tables, "letter")[0].rows;
    let listed: Vec<&String> = list.iter().map(|entry| &entry[0]).collect();
    assert_eq!(listed, LETTERS, "the list, in order");
    for entry in list {
        let row = rows.iter().find(|row| row.letters.contains(&entry[0]));
        let row = row.expect("a row of the letter");
        assert_eq!(entry[1], row.term, "the row of {}", entry[0]);
        let link = link(&entry[2]);
        assert_eq!(link.text, row.section, "the section of {}", entry[0]);
        assert_eq!(link.target, format!("#{}", anchor(link.text)));
    }
}

#[test]
fn a_term_has_one_row_and_the_sheets_names_lead_to_one() {
    let rows = rows();
    let terms: BTreeSet<&str> = rows.iter().map(|row| row.term.as_str()).collect();
    assert_eq!(terms.len(), rows.len(), "terms are distinct");
    let tables = page_tables();
    for row in &tables_by(&tables, "on the sheet")[0].rows {
        assert!(terms.contains(row[1].as_str()), "no row of {}", row[1]);
    }
}

/// The numbers and labels of the factor sheet's rows, as the definition has them.
fn sheet_heads() -> Vec<(String, String)> {
    let sheet = definition("crates/sheet/specs/Sheet.antt", "sheet_by");
    let rows = sheet.lines().filter(|line| line.contains("row \""));
    let heads = rows.map(|row| {
        let quoted: Vec<&str> = row.split('"').skip(1).step_by(2).collect();
        (quoted[0].to_owned(), quoted[1].to_owned())
    });
    heads.collect()
}

#[test]
fn the_rows_of_the_factor_sheet_are_those_of_the_definition() {
    let tables = page_tables();
    let rows = &tables_by(&tables, "row")[0].rows;
    let heads = rows.iter().map(|row| (row[0].clone(), row[1].clone()));
    assert_eq!(heads.collect::<Vec<_>>(), sheet_heads());
}

#[test]
fn the_rows_of_the_factor_sheet_have_terms_and_their_letters() {
    let terms = rows();
    let tables = page_tables();
    for row in &tables_by(&tables, "row")[0].rows {
        let mut letters = BTreeSet::new();
        for here in row[2].split("; ") {
            let term = terms.iter().find(|term| term.term == here);
            let term = term.unwrap_or_else(|| panic!("row {}: no row of {here}", row[0]));
            letters.extend(term.letters.iter().map(String::as_str));
        }
        let named = row[3].split(", ").filter(|letter| !letter.is_empty());
        let named: BTreeSet<&str> = named.collect();
        assert_eq!(named, letters, "row {}: letters of {}", row[0], row[2]);
    }
}
