//! `dev/goals CRATE [FUNCTION]`: the goals that a crate's proofs still ask for, readable.

use neapscroll_dev::{checks, readable};
use std::process::ExitCode;

const USAGE: &str = "usage: dev/goals CRATE [FUNCTION]
Prints each goal that has no answer, or `?` for one, with the names of what is known there. With
FUNCTION, as put_whole or effects::bill, it checks that one alone, and what it calls in its crate.";

fn main() -> ExitCode {
    let words = checks::words().unwrap_or_default();
    let (name, function) = match &words[..] {
        [name] => (name, None),
        [name, function] => (name, Some(function.replace('/', "::"))),
        _ => return checks::wrong_call(USAGE),
    };
    let mut flags = vec!["--allow-holes"];
    flags.extend(function.iter().flat_map(|function| ["--only", function]));
    let mut proved = true;
    let checked = checks::check(name, &flags).map(|(printed, status)| {
        proved = status.success();
        readable::readable(&printed)
    });
    match checks::ended("dev/goals", checked) {
        ExitCode::SUCCESS if !proved => ExitCode::FAILURE,
        ended => ended,
    }
}
