//! Each public call and each wrong program is on some page, and each public call has a contract.

use crate::assert_none;
use crate::pages::{pages, Role};
use crate::source::{items, Item, Sort};
use neapscroll_dev::{files_below, sources, text};
use std::collections::BTreeSet;

/// A function that other crates may call, or that a host links.
struct Call {
    name: String,
    contract: bool,
}

/// The names that lists have in lines of that role.
fn names(role: Role) -> BTreeSet<String> {
    let names = pages().into_iter().flat_map(|page| page.names);
    let names = names.filter(|named| named.role == Some(role));
    names.map(|named| named.name).collect()
}

/// Where a path of the form `crates/CRATE/FOLDER/FILE` leads: the crate and the file without its ending.
fn placed<'a>(path: &'a str, folder: &str, ending: &str) -> Option<(&'a str, &'a str)> {
    let (of, rest) = path.strip_prefix("crates/")?.split_once('/')?;
    let file = rest.strip_prefix(folder)?.strip_prefix('/')?;
    Some((of, file.strip_suffix(ending)?))
}

fn calls() -> Vec<Call> {
    let mut calls = Vec::new();
    for (_, path) in sources() {
        let Some((of, file)) = placed(&path, "src", ".rt") else {
            continue;
        };
        let module = Some(file).filter(|file| !matches!(*file, "lib" | "main"));
        for item in items(&text(&path)).into_iter().filter(is_call) {
            let parts = [Some(of), module, item.owner.as_deref(), Some(&item.name)];
            let parts: Vec<&str> = parts.into_iter().flatten().collect();
            calls.push(Call {
                name: parts.join("::"),
                contract: item.contract,
            });
        }
    }
    calls
}

fn is_call(item: &Item) -> bool {
    item.public && item.sort == Sort::Function
}

#[test]
fn every_public_call_is_named() {
    let names = names(Role::Function);
    let calls = calls();
    let unnamed = calls.iter().filter(|call| !names.contains(&call.name));
    let flaws: Vec<String> = unnamed
        .map(|call| format!("`{}`: on no page", call.name))
        .collect();
    assert_none(&flaws);
    assert!(
        calls.len() > 50,
        "only {} public calls were found",
        calls.len()
    );
}

/// The function that a line declares for other crates, wherever the line stands.
fn declared(line: &str) -> Option<&str> {
    let (before, rest) = line.trim_start().split_once("fn ")?;
    let words = before.split_whitespace().collect::<Vec<&str>>();
    let is_public = words.first() == Some(&"pub") && !before.contains(['"', '/', '(']);
    let is_exported = words == ["pub", "extern", "\"C\""];
    let end = rest.find(|c: char| !c.is_alphanumeric() && c != '_')?;
    (is_public || is_exported).then_some(&rest[..end])
}

#[test]
fn no_public_call_is_overlooked() {
    let mut flaws = Vec::new();
    for (_, path) in sources() {
        let source = text(&path);
        let items = items(&source);
        for name in source.lines().filter_map(declared) {
            if !items.iter().any(|item| is_call(item) && item.name == name) {
                flaws.push(format!("{path}: `{name}`: not read as a public call"));
            }
        }
    }
    assert_none(&flaws);
}

#[test]
fn every_public_call_has_a_contract() {
    let calls = calls();
    let bare = calls.iter().filter(|call| !call.contract);
    let flaws: Vec<String> = bare
        .map(|call| format!("`{}`: it ensures nothing", call.name))
        .collect();
    assert_none(&flaws);
}

#[test]
fn every_wrong_program_is_named() {
    let names = names(Role::WrongProgram);
    let edits = files_below("crates", ".edit");
    let mut flaws = Vec::new();
    for path in &edits {
        let name = placed(path, "must-fail", ".edit").map(|(of, edit)| format!("{of}/{edit}"));
        if !name.is_some_and(|name| names.contains(&name)) {
            flaws.push(format!("{path}: on no page"));
        }
    }
    assert_none(&flaws);
    assert!(edits.len() > 200, "only {} edits were found", edits.len());
}
