//! Files of the repository.

use std::fs;
use std::path::Path;

pub const HEADER: &str = "host/neapscroll.h";

/// The folder that holds the twin's folder.
pub fn repository_top() -> &'static Path {
    let top = Path::new(env!("CARGO_MANIFEST_DIR")).parent();
    top.expect("the twin stands in a repository")
}

/// The text of a file, by its path from the top.
pub fn file(path: &str) -> String {
    let path = repository_top().join(path);
    fs::read_to_string(&path).unwrap_or_else(|error| panic!("{}: {error}", path.display()))
}
