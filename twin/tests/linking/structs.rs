//! The header's structs are those of the proved crates, field by field.

use crate::c_types::c_type;
use crate::files::{file, HEADER};

/// The files that declare what a host is handed, each with those structs.
const SOURCES: [(&str, &[&str]); 9] = [
    ("crates/amounts/src/lib.rt", &["Cents", "Points"]),
    ("crates/postings/src/lib.rt", &["Posting"]),
    ("crates/replies/src/lib.rt", &["Written"]),
    ("crates/host/src/results.rt", &["Read"]),
    ("crates/riders/src/lib.rt", &["Run"]),
    (
        "crates/electric_rules/src/lib.rt",
        &["Level", "Sales", "Period", "ElectricBook"],
    ),
    (
        "crates/steam_rules/src/lib.rt",
        &["Period", "Reconciliation", "SteamBook"],
    ),
    (
        "crates/host/src/electric_book.rt",
        &["LevelCents", "LevelPoints", "ElectricReply"],
    ),
    ("crates/host/src/steam_book.rt", &["SteamReply"]),
];

/// The fields between the brackets of the struct, which has the layout of C.
fn fields<'a>(source: &'a str, name: &str) -> &'a str {
    let forms = [
        (format!("pub struct {name} {{"), "\n}"),
        (format!("pub struct {name}("), ");"),
    ];
    let found = forms.iter().find_map(|(start, end)| {
        let (above, rest) = source.split_once(start)?;
        let (fields, _) = rest.split_once(end)?;
        Some((above, fields))
    });
    let (above, fields) = found.unwrap_or_else(|| panic!("no struct `{name}`"));
    let above = above.lines().rev();
    let mut attributes = above.take_while(|line| line.starts_with("#["));
    assert!(
        attributes.any(|line| line == "#[repr(C)]"),
        "`{name}` has not the layout of C"
    );
    fields
}

/// A field in C; an array has its length after the name.
fn c_field(name: &str, rattle: &str, file: &str) -> String {
    match rattle
        .strip_prefix('[')
        .and_then(|array| array.strip_suffix(']'))
    {
        Some(array) => {
            let (element, length) = array.split_once("; ").expect("an element and a length");
            format!("    {} {name}[{length}];\n", c_type(element, file))
        }
        None => format!("    {} {name};\n", c_type(rattle, file)),
    }
}

/// The struct in C. The one number of a tuple struct is called as the struct is.
fn c_struct(path: &str, name: &str) -> String {
    let source = file(path);
    let c_name = c_type(name, path);
    let fields = fields(&source, name).split("pub ").skip(1);
    let fields: String = fields
        .map(|field| field.trim().trim_end_matches(','))
        .map(
            |field| match field.lines().next().and_then(|line| line.split_once(": ")) {
                Some((field, rattle)) => c_field(field, rattle.trim_end_matches(','), path),
                None => c_field(&name.to_lowercase(), field, path),
            },
        )
        .collect();
    format!("typedef struct {c_name} {{\n{fields}}} {c_name};\n")
}

#[test]
fn the_header_has_the_structs_that_are_exported() {
    let header = file(HEADER);
    let listed = SOURCES
        .iter()
        .flat_map(|&(path, names)| names.iter().map(move |name| c_struct(path, name)));
    let listed: Vec<String> = listed.collect();
    for declaration in &listed {
        assert!(
            header.contains(declaration),
            "{HEADER} has no\n{declaration}"
        );
    }
    let declared = header.matches("typedef struct").count();
    assert_eq!(declared, listed.len(), "structs of {HEADER}");
}
