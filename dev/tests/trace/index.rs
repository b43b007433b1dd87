//! The lists of pages in the README: each section of the paper and each request has its page, and each page is listed.

use crate::assert_none;
use crate::pages::{Page, FOLDER};
use neapscroll_dev::markdown::{heading, lines, links};
use neapscroll_dev::{files_below, text};

/// The paper's sections, in its order, each with the sum of its words. The paper does not change: what a request changes is noted below its words.
const SECTIONS: [(&str, u64); 10] = [
    ("Amounts and rounding", 0x5b89_6be4_382c_b1e3),
    ("Electric book", 0x704d_2a8b_9459_bea0),
    ("Steam book", 0x5fa4_57a4_ca00_1485),
    ("The tally", 0x1326_f3a5_6c8e_33dd),
    ("Posting records", 0x9158_307f_bb0f_d464),
    ("Refusals in order of checking", 0x8cc3_156a_99aa_e1ed),
    ("Text and the journal program", 0xcd79_a547_bcf5_e0a1),
    ("What the contracts say", 0x8976_18f9_8357_3c01),
    ("Where each language form goes", 0x2987_3a34_aa8b_084b),
    ("Figures to check by", 0xd758_7d54_2133_b362),
];

/// What has no section.
const BESIDE: &str = "Beside the paper";

/// The requests, in the order in which they landed, each with the sum of its words.
const REQUESTS: [(&str, u64); 2] = [
    ("The factor sheet, printed", 0x87d5_0585_ac4f_bc66),
    (
        "Interest from the first month of cost",
        0xc9d7_2601_f1f2_1080,
    ),
];

/// The pages that the README's tables list, each with what it is called there.
fn listed() -> Vec<(String, String)> {
    let readme = text(&format!("{FOLDER}/README.md"));
    let rows = lines(&readme).filter(|(_, line)| line.starts_with("| ["));
    let first = rows.filter_map(|(_, row)| {
        let link = links(row).0.into_iter().next()?;
        Some((link.text.to_string(), link.target.to_string()))
    });
    first
        .filter(|(_, target)| target.ends_with(".md"))
        .collect()
}

#[test]
fn every_section_and_every_request_has_its_page() {
    let titles: Vec<String> = listed().into_iter().map(|(title, _)| title).collect();
    let sections = SECTIONS.into_iter().map(|(title, _)| title);
    let requests = REQUESTS.into_iter().map(|(title, _)| title);
    let expected: Vec<&str> = sections.chain([BESIDE]).chain(requests).collect();
    assert_eq!(titles, expected);
}

#[test]
fn every_page_is_listed_by_its_title() {
    let listed = listed();
    let mut flaws = Vec::new();
    for (title, file) in &listed {
        let page = Page::read(&format!("{FOLDER}/{file}"));
        if page.title != *title {
            flaws.push(format!("{FOLDER}/{file}: its title is not {title}"));
        }
    }
    for path in files_below(FOLDER, ".md") {
        let file = &path[FOLDER.len() + 1..];
        if file != "README.md" && !listed.iter().any(|(_, listed)| listed == file) {
            flaws.push(format!("{path}: the README does not list it"));
        }
    }
    assert_none(&flaws);
}

/// A page's headings of the second and third level, and what stands in fences: the text of the section or the request.
fn words(page: &str) -> Vec<&str> {
    let mut fenced = false;
    let words = page.lines().filter_map(|line| {
        if line.starts_with("```") {
            fenced ^= true;
            return None;
        }
        let heading = heading(line).filter(|(level, _)| (2..=3).contains(level));
        match fenced {
            true => Some(line),
            false => heading.map(|(_, words)| words),
        }
    });
    words.collect()
}

/// The sum of FNV-1a, of 64 bits.
fn sum(words: &[&str]) -> u64 {
    let bytes = words.iter().flat_map(|line| line.bytes().chain([b'\n']));
    bytes.fold(0xcbf2_9ce4_8422_2325, |sum, byte| {
        (sum ^ u64::from(byte)).wrapping_mul(0x0100_0000_01b3)
    })
}

#[test]
fn the_words_of_paper_and_requests_are_as_they_were() {
    let mut flaws = Vec::new();
    for (title, file) in listed() {
        let path = format!("{FOLDER}/{file}");
        let sum = sum(&words(&text(&path)));
        let mut held = SECTIONS.iter().chain(&REQUESTS);
        let held = held.find(|(held, _)| *held == title);
        if let Some((_, kept)) = held.filter(|(_, kept)| *kept != sum) {
            flaws.push(format!(
                "{path}: the sum of its words is {sum:#x}, not {kept:#x}"
            ));
        }
    }
    assert_none(&flaws);
}
