//! What host/neapscroll.h declares.

use crate::text;
use std::collections::BTreeMap;

pub const HEADER: &str = "host/neapscroll.h";

/// A struct's fields, each with its type.
pub type Fields = BTreeMap<String, String>;

/// A name of the proved code as C has it behind `neapscroll_`: in small letters, with `_` between its words.
pub fn c_name(name: &str) -> String {
    let mut small = String::new();
    for (place, letter) in name.char_indices() {
        if place > 0 && letter.is_ascii_uppercase() {
            small.push('_');
        }
        small.push(letter.to_ascii_lowercase());
    }
    small
}

/// The text without comments, in whose place stands nothing.
fn code(header: &str) -> String {
    let mut parts = header.split("/*");
    let mut code = parts.next().unwrap_or_default().to_owned();
    for part in parts {
        let (_, behind) = part.split_once("*/").expect("a comment ends");
        code.push_str(behind);
    }
    code
}

/// The structs by the name that the typedef gives.
pub fn structs() -> BTreeMap<String, Fields> {
    let code = code(&text(HEADER));
    let bodies = code.split("typedef struct ").skip(1);
    bodies
        .map(|body| {
            let (_, rest) = body.split_once(" {").expect("a struct's fields");
            let (fields, rest) = rest.split_once('}').expect("a struct ends");
            let name = rest.split(';').next().expect("a name").trim();
            let fields = fields.split(';').map(str::trim);
            let fields = fields.filter_map(|field| field.split_once(' '));
            let fields = fields.map(|(kind, field)| {
                let field = field.split('[').next().unwrap_or(field);
                (field.to_owned(), kind.to_owned())
            });
            (name.to_owned(), fields.collect())
        })
        .collect()
}

/// The named numbers of an enum, in order, without the prefix that all have.
pub fn constants(enumeration: &str) -> Vec<(u8, String)> {
    let code = code(&text(HEADER));
    let start = format!("enum {enumeration} {{");
    let (_, rest) = code.split_once(&start).expect("the enum");
    let (body, _) = rest.split_once('}').expect("the enum ends");
    let named = body.split(',').filter_map(|one| one.split_once('='));
    named
        .map(|(name, number)| {
            let name = name.trim().strip_prefix("NEAPSCROLL_").expect("a prefix");
            (number.trim().parse().expect("a number"), name.to_owned())
        })
        .collect()
}

/// The calls, each with the comment above it.
pub fn calls() -> Vec<(String, String)> {
    let header = text(HEADER);
    let mut above = 0;
    let mut calls = Vec::new();
    for (start, line) in lines_with_places(&header) {
        if line.ends_with(");") && line.starts_with(|c: char| c.is_ascii_lowercase()) {
            let before = line.split('(').next().expect("a name");
            let name = before.rsplit(' ').next().expect("a name");
            calls.push((name.to_owned(), header[above..start].to_owned()));
        }
        if line.is_empty() {
            above = start;
        }
    }
    calls
}

fn lines_with_places(text: &str) -> impl Iterator<Item = (usize, &str)> {
    let lines = text.lines();
    lines.map(move |line| (line.as_ptr() as usize - text.as_ptr() as usize, line))
}

/// The comments above a named number of an enum, one below the other.
pub fn comments_above(name: &str) -> Vec<String> {
    let header = text(HEADER);
    let lines: Vec<&str> = header.lines().map(str::trim).collect();
    let start = format!("NEAPSCROLL_{name} = ");
    let place = lines.iter().position(|line| line.starts_with(&start));
    let above = lines[..place.expect("the named number")].iter().rev();
    let comments = above.map_while(|line| line.strip_prefix("/* ")?.strip_suffix(" */"));
    let comments: Vec<String> = comments.map(str::to_owned).collect();
    comments.into_iter().rev().collect()
}
