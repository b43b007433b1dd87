//! What the proved crates declare: structs and enums of src/, definitions of specs/.

use crate::{sources, text};
use std::collections::BTreeMap;

/// A struct's fields, each with its type.
pub type Fields = BTreeMap<String, String>;

/// The structs by crate and name.
pub type Structs = BTreeMap<(String, String), Fields>;

/// The text of each file of code, with its crate's name.
fn texts() -> impl Iterator<Item = (String, String)> {
    let sources = sources().into_iter();
    sources.map(|(name, path)| (name, text(&path)))
}

/// The type of an array's element; of any other type itself.
fn element(kind: &str) -> &str {
    kind.strip_prefix('[')
        .and_then(|array| array.split(';').next())
        .unwrap_or(kind)
}

/// The fields of what stands behind `pub struct`; that of a tuple struct is called as in C, by the struct's name.
fn fields(declaration: &str) -> (String, Fields) {
    let end = declaration.find(|c: char| !c.is_alphanumeric());
    let (name, rest) = declaration.split_at(end.expect("a struct's fields"));
    let body = rest.split(if rest.starts_with('(') { ");" } else { "\n}" });
    let body = body.take(1).flat_map(|body| body.split("pub ").skip(1));
    let fields = body.map(|field| {
        let field = field.lines().next().unwrap_or(field);
        let field = field.trim_end_matches(',');
        match field.split_once(": ") {
            Some((field, kind)) => (field.to_owned(), element(kind).to_owned()),
            None => (name.to_lowercase(), field.to_owned()),
        }
    });
    (name.to_owned(), fields.collect())
}

/// All public structs.
pub fn structs() -> Structs {
    let mut structs = Structs::new();
    for (crate_name, source) in texts() {
        for declaration in source.split("pub struct ").skip(1) {
            let (name, fields) = fields(declaration);
            structs.insert((crate_name.clone(), name), fields);
        }
    }
    structs
}

/// The cases of an enum in a source, in order.
fn cases(source: &str, name: &str) -> Option<Vec<String>> {
    let (_, rest) = source.split_once(&format!("pub enum {name} {{"))?;
    let (body, _) = rest.split_once("\n}")?;
    let lines = body.lines().map(str::trim);
    let cases = lines.filter(|line| line.starts_with(|c: char| c.is_ascii_uppercase()));
    let names = cases.map(|line| {
        line.split(|c: char| !c.is_alphanumeric())
            .next()
            .unwrap_or(line)
    });
    Some(names.map(str::to_owned).collect())
}

/// The cases of the enum of this name, which one crate declares.
pub fn enum_cases(name: &str) -> Vec<String> {
    let found = texts().filter_map(|(_, source)| cases(&source, name));
    let found: Vec<Vec<String>> = found.collect();
    assert_eq!(found.len(), 1, "enums `{name}`");
    found.into_iter().flatten().collect()
}

/// The text of a definition in a file of specs/: its lines from the first clause to the next blank line.
pub fn definition(path: &str, name: &str) -> String {
    let source = text(path);
    let start = format!("{name} ");
    let lines = source
        .lines()
        .skip_while(|line| !(line.starts_with(&start) && line.contains('=')));
    let lines: Vec<&str> = lines.take_while(|line| !line.is_empty()).collect();
    assert!(!lines.is_empty(), "{path} has no `{name}`");
    lines.join("\n")
}

/// The refusals of a definition that is a refusal table, in the order of its rows.
pub fn rows(path: &str, name: &str) -> Vec<String> {
    let definition = definition(path, name);
    let rows = definition.split("row ").skip(1);
    let names = rows.filter_map(|row| row.split_whitespace().next());
    names.map(str::to_owned).collect()
}
