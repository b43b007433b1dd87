//! The library that a host links: its archive, and the modules that it is made of.

use crate::files::file;

/// The archive, which the twin's build makes.
pub const ARCHIVE: &str = env!("PROVED_LIBRARY");

const MODULES: &str = "host/modules.txt";

/// The crates whose exports are the library's, each a module of it.
pub fn modules() -> Vec<String> {
    let list = file(MODULES);
    let lines = list.lines().filter(|line| !line.starts_with('#'));
    let modules: Vec<String> = lines.map(str::to_owned).collect();
    assert!(!modules.is_empty(), "{MODULES} lists no module");
    modules
}

/// The crates that the toolchain compiles as static libraries.
fn static_libraries() -> Vec<String> {
    let crates = file("crates.txt");
    let before = crates.lines().filter_map(|line| line.split_once(':'));
    let names = before.filter_map(|(name, _)| name.strip_suffix(" staticlib"));
    names.map(str::to_owned).collect()
}

#[test]
fn every_static_library_is_a_module() {
    assert_eq!(modules(), static_libraries(), "{MODULES} and crates.txt");
}
