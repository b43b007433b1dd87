//! What the maintainers' tools and the tests of the documents share.

#![forbid(unsafe_code)]

pub mod checks;
pub mod definitions;
pub mod header;
pub mod markdown;
pub mod rattle;
pub mod readable;
pub mod tables;
pub mod ways;

use std::fs;
use std::path::{Path, PathBuf};

/// The top of the repository.
pub fn repository() -> PathBuf {
    Path::new(env!("CARGO_MANIFEST_DIR")).join("..")
}

/// A file of the repository as text, by its path from the top.
pub fn text(path: &str) -> String {
    let file = repository().join(path);
    fs::read_to_string(&file).unwrap_or_else(|error| panic!("{path}: {error}"))
}

/// The files below a folder of the repository whose names end so, by their paths from the top, in order.
pub fn files_below(folder: &str, ending: &str) -> Vec<String> {
    let entries = fs::read_dir(repository().join(folder));
    let entries = entries.unwrap_or_else(|error| panic!("{folder}: {error}"));
    let mut files = Vec::new();
    for entry in entries {
        let entry = entry.unwrap_or_else(|error| panic!("{folder}: {error}"));
        let path = format!("{folder}/{}", entry.file_name().to_string_lossy());
        if entry.path().is_dir() {
            files.extend(files_below(&path, ending));
        } else if path.ends_with(ending) {
            files.push(path);
        }
    }
    files.sort();
    files
}

/// The files of code of every crate, each with the crate's name; what its checks leave beside src/ is passed over.
pub fn sources() -> Vec<(String, String)> {
    let entries = fs::read_dir(repository().join("crates"));
    let entries = entries.unwrap_or_else(|error| panic!("crates: {error}"));
    let folders = entries
        .filter_map(Result::ok)
        .filter(|entry| entry.path().join("src").is_dir());
    let mut names: Vec<String> = folders
        .map(|entry| entry.file_name().to_string_lossy().into_owned())
        .collect();
    names.sort();
    let files = names.into_iter().flat_map(|name| {
        let files = files_below(&format!("crates/{name}/src"), ".rt");
        files.into_iter().map(move |path| (name.clone(), path))
    });
    files.collect()
}

/// A path as it is seen from a folder, both from the top, without `.` and `..`; none where it leaves the repository.
pub fn resolved(folder: &str, path: &str) -> Option<String> {
    let mut parts: Vec<&str> = Vec::new();
    for part in folder.split('/').chain(path.split('/')) {
        match part {
            "" | "." => {}
            ".." => {
                parts.pop()?;
            }
            name => parts.push(name),
        }
    }
    Some(parts.join("/"))
}
