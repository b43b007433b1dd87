//! The prover's check of a crate, run for what it prints, and how the tools that run it are called and answer.

use std::env;
use std::fs;
use std::io::{self, Read, Write};
use std::process::{Command, ExitCode, ExitStatus};

use crate::repository;

/// The arguments of a tool, none of which is an option or empty, since none has options.
pub fn words() -> Option<Vec<String>> {
    let words: Vec<String> = env::args().skip(1).collect();
    let plain = |word: &String| !word.is_empty() && !word.starts_with('-');
    words.iter().all(plain).then_some(words)
}

/// Prints the text, or tells the error in the tool's name.
pub fn ended(tool: &str, text: io::Result<String>) -> ExitCode {
    let printed = text.and_then(|text| io::stdout().lock().write_all(text.as_bytes()));
    match printed {
        Ok(()) => ExitCode::SUCCESS,
        Err(error) => {
            // Where standard error cannot be written either, the status is all that is left.
            let _ = writeln!(io::stderr(), "{tool}: {error}");
            ExitCode::FAILURE
        }
    }
}

/// Tells how the tool is called.
pub fn wrong_call(usage: &str) -> ExitCode {
    let _ = writeln!(io::stderr(), "{usage}");
    ExitCode::from(2)
}

/// What `rt check` prints of a crate, on either stream, and how it ended.
pub fn check(name: &str, flags: &[&str]) -> io::Result<(String, ExitStatus)> {
    let crates = repository().join("crates");
    let mut names =
        fs::read_dir(&crates)?.filter_map(|entry| entry.ok()?.file_name().into_string().ok());
    if !names.any(|known| known == name) {
        let message = format!("{name} is no crate of this repository");
        return Err(io::Error::new(io::ErrorKind::NotFound, message));
    }
    let (mut printed, errors) = io::pipe()?;
    let mut command = Command::new("rt");
    command
        .arg("check")
        .args(flags)
        .current_dir(crates.join(name));
    command.stdout(errors.try_clone()?).stderr(errors);
    let started = command.spawn();
    let mut running =
        started.map_err(|error| io::Error::new(error.kind(), format!("rt: {error}")))?;
    // The command holds ends of the pipe for writing, and what is read has no end before they are closed.
    drop(command);
    let mut text = String::new();
    printed.read_to_string(&mut text)?;
    Ok((text, running.wait()?))
}
