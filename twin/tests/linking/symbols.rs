//! What the modules in the library's archive define and need, as `nm` lists it.

use crate::commands::printed;
use crate::declarations::declared;
use crate::library::{modules, ARCHIVE};
use std::process::Command;

/// The module by which a host posts.
const POSTING: &str = "host";
const POSTINGS: [&str; 2] = ["neapscroll_electric_post", "neapscroll_steam_post"];

/// All that a module may leave to the program that it is linked to.
const NEEDED: &str = "memcpy";

/// What the factor sheet's module may leave to it besides, since its rows begin as blanks.
const BLANKS: (&str, &str) = ("host_sheet", "memset");

/// A name in a module, with its letter in `nm`.
#[derive(Debug)]
struct Symbol {
    module: String,
    letter: char,
    name: String,
}

/// A line of `nm -A`: `archive:module.o:`, the place in digits or none, the letter, and the name, which may have blanks.
fn symbol(line: &str) -> Symbol {
    let line = line.strip_prefix(ARCHIVE).expect("the archive");
    let (module, rest) = line.split_once(".o:").expect("an object of the archive");
    let rest = rest.trim_start();
    let rest = rest.trim_start_matches(|digit: char| digit.is_ascii_hexdigit());
    let (letter, name) = rest.trim_start().split_once(' ').expect("a letter");
    Symbol {
        module: module.trim_start_matches(':').to_owned(),
        letter: letter.parse().expect("one letter"),
        name: name.to_owned(),
    }
}

fn symbols() -> Vec<Symbol> {
    let mut command = Command::new("nm");
    command.args(["-A", ARCHIVE]);
    printed(command, "`nm`").lines().map(symbol).collect()
}

/// The names with the letter, in order, each as often as it is there.
fn names<'a>(symbols: impl IntoIterator<Item = &'a Symbol>, letter: char) -> Vec<&'a str> {
    let chosen = symbols.into_iter();
    let chosen = chosen.filter(|symbol| symbol.letter == letter);
    let mut names: Vec<&str> = chosen.map(|symbol| symbol.name.as_str()).collect();
    names.sort_unstable();
    names
}

#[test]
fn the_archive_has_the_modules_listed() {
    let mut found: Vec<String> = symbols().into_iter().map(|symbol| symbol.module).collect();
    found.dedup();
    assert_eq!(found, modules(), "objects and modules");
}

#[test]
fn the_archive_exports_what_the_header_declares() {
    let symbols = symbols();
    let declarations = declared();
    let before = declarations.iter().map(|line| line.split('(').next());
    let mut header: Vec<&str> = before
        .map(|words| words.and_then(|words| words.split(' ').next_back()))
        .map(|name| name.expect("a name"))
        .collect();
    header.sort_unstable();
    assert_eq!(names(&symbols, 'T'), header, "exported and declared");
}

/// Beside exports (T) there are local functions (t), constants (r) and what is needed (U): no data, and no other name for a linker to meet.
#[test]
fn the_archive_has_functions_and_constants_alone() {
    let symbols = symbols();
    let others = symbols
        .iter()
        .filter(|symbol| !"TtrU".contains(symbol.letter));
    let others: Vec<&Symbol> = others.collect();
    assert!(others.is_empty(), "{others:#?}");
}

#[test]
fn the_archive_needs_no_other_library() {
    let symbols = symbols();
    let needed = symbols.iter().filter(|symbol| symbol.letter == 'U');
    let others = needed
        .filter(|symbol| symbol.name != NEEDED)
        .filter(|symbol| (symbol.module.as_str(), symbol.name.as_str()) != BLANKS);
    let others: Vec<&Symbol> = others.collect();
    assert!(others.is_empty(), "{others:#?}");
}

/// The compiler inlines a function that has one caller whatever its size, and one with several only where it is small. A local function (t)
/// that is left in the posting module has gained a second caller, and is a call now, to which structs pass through memory: each posting that
/// calls it may take longer. So what calls a book's posting besides, as the journal does, is exported by a module of its own.
#[test]
fn all_that_a_posting_does_is_inlined() {
    let symbols = symbols();
    let posting = || symbols.iter().filter(|symbol| symbol.module == POSTING);
    let exports = names(posting(), 'T');
    assert!(
        POSTINGS.iter().all(|name| exports.contains(name)),
        "{exports:?}"
    );
    let left = names(posting(), 't');
    assert!(
        left.is_empty(),
        "not inlined in the module `{POSTING}`: {}\n\
        Each of these has gained a second caller there, and is too large to be inlined into several. It is a call now, to which structs pass \
        through memory, and a posting that calls it may take longer (docs/DECISIONS.md, 63).\n\
        An export with another caller of a book's posting belongs in a module of its own: a crate, and a line of host/modules.txt.",
        left.join(", ")
    );
}
