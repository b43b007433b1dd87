//! Runs a command, and gives what it prints.

use std::process::Command;

/// What the command printed, which must end well: where it is not found nothing is shown, so that is a failure too.
pub fn printed(mut command: Command, what: &str) -> String {
    let output = match command.output() {
        Ok(output) => output,
        Err(error) => {
            panic!("{what} could not be started, so nothing is tested: {error} ({command:?})")
        }
    };
    assert!(
        output.status.success(),
        "{what} ended with {}\n{command:?}\n{}",
        output.status,
        String::from_utf8_lossy(&output.stderr)
    );
    String::from_utf8(output.stdout).unwrap_or_else(|error| panic!("{what} prints text: {error}"))
}
