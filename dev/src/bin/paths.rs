//! `dev/paths CRATE FUNCTION`: the way to each goal of a function, and where ways are shared.

use neapscroll_dev::ways::{ways, Way};
use neapscroll_dev::{checks, readable};
use std::env;
use std::fs;
use std::io;
use std::path::{Path, PathBuf};
use std::process::{self, ExitCode};

const USAGE: &str = "usage: dev/paths CRATE FUNCTION
Prints the steps before each goal of the function, named as in `c.STEP.ensures`, and the type of `c` there.
FUNCTION may have modules and a type in front, as levels::LevelInLimits::billed.";

fn main() -> ExitCode {
    match &checks::words().unwrap_or_default()[..] {
        [name, function] => checks::ended("dev/paths", printed_ways(name, function)),
        _ => checks::wrong_call(USAGE),
    }
}

/// The prover writes its modules to a folder that is gone afterwards.
fn printed_ways(name: &str, function: &str) -> io::Result<String> {
    let folder = env::temp_dir().join(format!("neapscroll-paths-{}", process::id()));
    fs::create_dir(&folder)?;
    let text = ways_in(&folder, name, &function.replace("::", "/"));
    let removed = fs::remove_dir_all(&folder);
    text.and_then(|text| removed.map(|()| text))
}

fn ways_in(folder: &Path, name: &str, function: &str) -> io::Result<String> {
    let written = folder.to_str().ok_or(io::ErrorKind::InvalidFilename)?;
    let (printed, _) = checks::check(name, &["--allow-holes", "--generated", written])?;
    let modules = folder.join(format!("Rattle-{name}-proofs"));
    let mut found = Vec::new();
    if modules.is_dir() {
        views_of(&modules, function, &mut found)?;
    }
    if found.is_empty() {
        let told = readable::readable(&printed);
        let message = format!("no function {function} with goals in {name}\n{told}");
        return Err(io::Error::new(io::ErrorKind::NotFound, message));
    }
    let texts = found.iter().map(|views| told_of(&modules, views));
    texts.collect()
}

/// The folders of views of functions of this name; one that calls itself has `+NAME` and `Lts-NAME` for `NAME` and `Lts`.
fn views_of(modules: &Path, function: &str, found: &mut Vec<PathBuf>) -> io::Result<()> {
    for entry in fs::read_dir(modules)? {
        let path = entry?.path();
        let is_views = path.join("View.antt").is_file();
        let plain = path.to_string_lossy().replace('+', "");
        let of_function = Path::new(&plain)
            .parent()
            .is_some_and(|folder| folder.ends_with(function));
        if is_views && of_function {
            found.push(path);
        } else if path.is_dir() {
            views_of(&path, function, found)?;
        }
    }
    found.sort();
    Ok(())
}

fn told_of(modules: &Path, views: &Path) -> io::Result<String> {
    let lts = fs::read_to_string(views.with_extension("antt"))?;
    let view = fs::read_to_string(views.join("View.antt"))?;
    let ways = ways(&lts, &view).map_err(io::Error::other)?;
    let function = views
        .parent()
        .and_then(|folder| folder.strip_prefix(modules).ok());
    let name = function
        .unwrap_or(views)
        .to_string_lossy()
        .replace('/', "::");
    let told: String = ways.iter().map(told).collect();
    Ok(format!("{name}\n{told}"))
}

fn told(way: &Way) -> String {
    let steps = if way.steps.is_empty() {
        "the arguments alone".to_string()
    } else {
        way.steps.join(", ")
    };
    let mut text = format!("  {}, c : {}\n    {steps}\n", way.goal, way.given);
    for place in &way.earlier {
        text += &format!("    shared: (goal.at.{} c).{place}\n", way.goal);
    }
    text
}
