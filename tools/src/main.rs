//! `lines to-bytes` and `lines to-lines`: a filter in either direction, with the language in `lines --help`.

#![forbid(unsafe_code)]

use std::env;
use std::ffi::OsString;
use std::fs;
use std::io::{self, Read, Write};
use std::process::ExitCode;

use journal_lines::{language, read_lines, to_lines, LONGEST_JOURNAL};

const USAGE: &str = "usage: lines to-bytes [FILE] > JOURNAL
       lines to-lines [JOURNAL] > FILE
       lines --help
       lines --version
Turns readable lines into the bytes of a journal, or back. Without a file it reads standard input.
lines --help has the whole language of lines.
";

const VERSION: &str = concat!("lines ", env!("CARGO_PKG_VERSION"), "\n");

/// What is told behind the errors.
const HELP: &str = "lines --help says what a line may be";

/// How standard input is named in front of what is told.
const STANDARD_INPUT: &str = "standard input";

const FAILED: u8 = 1;
const WRONG_CALL: u8 = 2;

/// What an input gives: what is told of it, and the output unless it is wrong.
struct Turned {
    told: Vec<String>,
    output: Option<Vec<u8>>,
}

fn main() -> ExitCode {
    let arguments: Vec<OsString> = env::args_os().skip(1).collect();
    let words = arguments
        .iter()
        .map(|word| word.to_str().unwrap_or_default());
    let file = arguments.get(1);
    match words.collect::<Vec<_>>()[..] {
        ["--help" | "-h"] | ["to-bytes" | "to-lines", "--help" | "-h"] => {
            print(format!("{USAGE}\n{}", language()).as_bytes())
        }
        ["--version"] => print(VERSION.as_bytes()),
        // No option but these is known, and a name that begins so is taken behind a folder, as ./-name.
        [_, word] if word.starts_with('-') => wrong_call(),
        ["to-bytes"] | ["to-bytes", _] => turn(file, journal_of),
        ["to-lines"] | ["to-lines", _] => turn(file, lines_of),
        _ => wrong_call(),
    }
}

fn wrong_call() -> ExitCode {
    tell(USAGE);
    ExitCode::from(WRONG_CALL)
}

fn turn(file: Option<&OsString>, turned: fn(&str, Vec<u8>) -> Turned) -> ExitCode {
    let name = file.map_or(STANDARD_INPUT.into(), |file| file.to_string_lossy());
    let Turned { told, output } = match read(file) {
        Ok(input) => turned(&name, input),
        Err(error) => Turned {
            told: vec![format!("{name}: {error}")],
            output: None,
        },
    };
    for message in told {
        tell(&(message + "\n"));
    }
    output.map_or(ExitCode::from(FAILED), |output| print(&output))
}

fn journal_of(name: &str, text: Vec<u8>) -> Turned {
    // Bytes that are no text can only be in a comment or make a wrong word.
    let reading = read_lines(&String::from_utf8_lossy(&text));
    let output = reading.journal;
    let messages = reading.messages.iter().map(|message| message.in_file(name));
    let length = output
        .as_ref()
        .and_then(|journal| length_warning(name, journal));
    let help = output.is_none().then(|| HELP.to_string());
    let told = messages.chain(length).chain(help).collect();
    Turned { told, output }
}

fn lines_of(name: &str, journal: Vec<u8>) -> Turned {
    Turned {
        told: length_warning(name, &journal).into_iter().collect(),
        output: Some(to_lines(&journal).into_bytes()),
    }
}

/// The warning of a journal whose opening is not read, whatever its bytes are.
fn length_warning(name: &str, journal: &[u8]) -> Option<String> {
    let warning = match journal.len() {
        0 => "no opening; the journal program prints refused 1".to_string(),
        1..=LONGEST_JOURNAL => return None,
        length => format!(
            "{length} bytes, and the journal program refuses more than {LONGEST_JOURNAL} (7)"
        ),
    };
    Some(format!("{name}: warning: {warning}"))
}

fn read(file: Option<&OsString>) -> io::Result<Vec<u8>> {
    match file {
        Some(path) => fs::read(path),
        None => {
            let mut bytes = Vec::new();
            io::stdin().read_to_end(&mut bytes)?;
            Ok(bytes)
        }
    }
}

fn print(bytes: &[u8]) -> ExitCode {
    let mut output = io::stdout().lock();
    match output.write_all(bytes).and_then(|()| output.flush()) {
        Ok(()) => ExitCode::SUCCESS,
        Err(error) => {
            tell(&format!("standard output: {error}\n"));
            ExitCode::from(FAILED)
        }
    }
}

fn tell(message: &str) {
    // Where standard error cannot be written either, the status is all that is left.
    let _ = io::stderr().write_all(message.as_bytes());
}
