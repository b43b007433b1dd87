//! The header declares each function as a module of the library exports it.

use crate::c_types::c_type;
use crate::files::{file, repository_top, HEADER};
use crate::library::modules;
use std::collections::BTreeSet;
use std::fs;

/// A parameter, of which a slice is two in C: the pointer and the length.
fn c_parameter(parameter: &str, path: &str) -> String {
    let (name, rattle) = parameter.split_once(": ").expect("a name and a type");
    match rattle {
        "&[u8]" => format!("const uint8_t *{name}, size_t {name}_length"),
        "&mut [u8]" => format!("uint8_t *{name}, size_t {name}_length"),
        value => format!("{} {name}", c_type(value, path)),
    }
}

/// The declaration of a function, from its signature after `fn`.
fn c_declaration(signature: &str, path: &str) -> String {
    let (name, rest) = signature.split_once('(').expect("parameters");
    let (parameters, rest) = rest.split_once(") -> ").expect("a result");
    let result = rest.split_whitespace().next().expect("a type");
    let parameters = parameters.split(',').map(str::trim);
    let parameters: Vec<String> = parameters
        .filter(|parameter| !parameter.is_empty())
        .map(|parameter| c_parameter(parameter, path))
        .collect();
    let result = c_type(result, path);
    format!("{result} {name}({});", parameters.join(", "))
}

/// The declarations of what a module exports.
fn exports_of(module: &str) -> Vec<String> {
    let folder = format!("crates/{module}/src");
    let files = fs::read_dir(repository_top().join(&folder)).expect("the crate has sources");
    let paths = files.map(|file| file.expect("a source").path());
    let sources = paths.map(|path| fs::read_to_string(path).expect("a text"));
    let sources: Vec<String> = sources.collect();
    let signatures = sources
        .iter()
        .flat_map(|text| text.split("pub extern \"C\" fn ").skip(1));
    signatures
        .map(|signature| c_declaration(signature, &folder))
        .collect()
}

fn exported() -> BTreeSet<String> {
    let modules = modules();
    let exports = modules.iter().flat_map(|module| exports_of(module));
    exports.collect()
}

/// The header's lines that end after parameters, those of its macros apart.
pub fn declared() -> BTreeSet<String> {
    let header = file(HEADER);
    let lines = header.lines().filter(|line| line.ends_with(");"));
    let declarations = lines.filter(|line| !line.starts_with("NEAPSCROLL_"));
    declarations.map(str::to_owned).collect()
}

#[test]
fn the_header_declares_what_is_exported() {
    let exported = exported();
    let round_div = "int64_t neapscroll_round_div(int64_t a, int64_t b);";
    assert!(exported.contains(round_div), "{exported:#?}");
    assert_eq!(declared(), exported, "declared and exported");
}
