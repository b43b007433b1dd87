//! The program `lines`: what it reads and prints, and its exit status.

use std::fs;
use std::io::Write;
use std::path::Path;
use std::process::{Command, Output, Stdio};

use journal_lines::language;

/// What stands behind errors.
const HELP: &str = "lines --help says what a line may be\n";

fn run(arguments: &[&str], input: &[u8]) -> Output {
    let mut program = Command::new(env!("CARGO_BIN_EXE_lines"));
    program.args(arguments);
    program.stdin(Stdio::piped());
    program.stdout(Stdio::piped()).stderr(Stdio::piped());
    let mut running = program.spawn().unwrap();
    // A wrong call ends without reading, so its pipe may be closed by now.
    let _ = running.stdin.take().unwrap().write_all(input);
    running.wait_with_output().unwrap()
}

fn assert_printed(output: &Output, status: i32, printed: &[u8], told: &str) {
    assert_eq!(String::from_utf8_lossy(&output.stderr), told);
    assert_eq!(output.stdout, printed);
    assert_eq!(output.status.code(), Some(status));
}

#[test]
fn it_turns_standard_input_either_way() {
    let journal = run(&["to-bytes"], b"electric L&P\nmonth-end 1\n");
    assert_printed(&journal, 0, b"\0\x05\x01\0\0\0\0\0\0\0\x01", "");
    let lines = run(&["to-lines"], &journal.stdout);
    assert_printed(&lines, 0, b"electric L&P\nmonth-end 1\n", "");
}

#[test]
fn it_reads_a_file_that_is_named() {
    let output = run(&["to-bytes", &file("named.lines", b"electric MPS\n")], b"");
    assert_printed(&output, 0, &[1], "");
    let missing = run(&["to-lines", "no such file"], b"");
    assert_eq!(missing.status.code(), Some(1));
    assert!(String::from_utf8_lossy(&missing.stderr).starts_with("no such file: "));
}

#[test]
fn wrong_lines_are_told_on_the_error_stream() {
    let output = run(&["to-bytes"], b"electric L&P\ncost 1\nbill \xFF 2\n");
    let told = "standard input:2: \"cost 1\": 1 word after cost; expected cost F P E\n\
        standard input:3: \"bill \u{fffd} 2\": \"\u{fffd}\" for LEVEL is no level \
        (secondary, primary or a 64-bit whole number); expected bill LEVEL KWH\n";
    assert_printed(&output, 1, b"", &format!("{told}{HELP}"));
}

/// A file with the text, in a place that is named in full.
fn file(name: &str, text: &[u8]) -> String {
    let path = Path::new(env!("CARGO_TARGET_TMPDIR")).join(name);
    fs::write(&path, text).unwrap();
    path.to_str().unwrap().to_string()
}

#[test]
fn errors_and_warnings_begin_with_file_and_line() {
    let text = b"# June\nelectric L&P\nbill 2 10\n\ncost 1\nmonth-end 200001\n";
    let told = |name: &str| {
        format!(
            "{name}:3: warning: \"bill 2 10\": 2 for LEVEL is out of its range, \
             0 to 1 (secondary or primary); the ledger refuses it (7)\n\
             {name}:5: \"cost 1\": 1 word after cost; expected cost F P E\n\
             {name}:6: warning: \"month-end 200001\": 200001 for RATE is out of its range, \
             0 to 200,000; the ledger refuses it (7)\n\
             {HELP}"
        )
    };
    let path = file("wrong.lines", text);
    assert_printed(&run(&["to-bytes", &path], b""), 1, b"", &told(&path));
    let output = run(&["to-bytes"], text);
    assert_printed(&output, 1, b"", &told("standard input"));
}

#[test]
fn a_warning_alone_leaves_the_bytes_and_the_status() {
    let path = file("warned.lines", b"electric MPS\nmonth-end -1\n");
    let told = format!(
        "{path}:2: warning: \"month-end -1\": -1 for RATE is out of its range, 0 to 200,000; \
         the ledger refuses it (7)\n"
    );
    let journal = [&[1, 5, 1][..], &[255; 8]].concat();
    assert_printed(&run(&["to-bytes", &path], b""), 0, &journal, &told);
}

/// Either direction, of a file and of standard input.
fn assert_warned(direction: &str, input: &[u8], output: &[u8], warning: &str) {
    let path = file(&format!("length-{}.{direction}", input.len()), input);
    let told = format!("{path}: warning: {warning}\n");
    assert_printed(&run(&[direction, &path], b""), 0, output, &told);
    let told = format!("standard input: warning: {warning}\n");
    assert_printed(&run(&[direction], input), 0, output, &told);
}

#[test]
fn a_journal_past_the_limit_is_converted_with_a_warning() {
    let text = format!("electric L&P\n{}", "sales 0 0\n".repeat(32_768));
    let journal = [&[0][..], &[2, 0].repeat(32_768)].concat();
    let warning = "65537 bytes, and the journal program refuses more than 65536 (7)";
    assert_warned("to-bytes", text.as_bytes(), &journal, warning);
    let lines = format!("# 65537 bytes, more than 65536 (refused 7)\n{text}");
    assert_warned("to-lines", &journal, lines.as_bytes(), warning);

    let longest = format!("{}bytes 09\n", text.strip_suffix("sales 0 0\n").unwrap());
    let journal = [&journal[..65_535], &[9]].concat();
    assert_printed(&run(&["to-bytes"], longest.as_bytes()), 0, &journal, "");
}

#[test]
fn a_journal_without_an_opening_is_warned_of() {
    let warning = "no opening; the journal program prints refused 1";
    for text in ["", "\n \r\n", "# nothing is here yet", "\u{feff}"] {
        assert_warned("to-bytes", text.as_bytes(), b"", warning);
    }
    assert_warned("to-lines", b"", b"# no bytes (refused 1)\n", warning);
}

#[test]
fn a_byte_order_mark_is_skipped() {
    let lines = b"\xEF\xBB\xBFelectric MPS\r\nmonth-end 0\r\n";
    assert_printed(&run(&["to-bytes"], lines), 0, &[1, 5, 0], "");
    let path = file("marked.lines", lines);
    assert_printed(&run(&["to-bytes", &path], b""), 0, &[1, 5, 0], "");
    // Only in front of all, and once.
    let twice = run(&["to-bytes"], "\u{feff}\u{feff}electric MPS".as_bytes());
    assert_eq!(twice.status.code(), Some(1));
    let later = run(
        &["to-bytes"],
        "electric MPS\n\u{feff}month-end 0".as_bytes(),
    );
    assert_eq!(later.status.code(), Some(1));
}

const USAGE: &str = "usage: lines to-bytes [FILE] > JOURNAL
       lines to-lines [JOURNAL] > FILE
       lines --help
       lines --version
Turns readable lines into the bytes of a journal, or back. Without a file it reads standard input.
lines --help has the whole language of lines.
";

#[test]
fn help_is_the_usage_and_the_language() {
    let help = format!("{USAGE}\n{}", language());
    for arguments in [
        &["--help"][..],
        &["-h"],
        &["to-bytes", "-h"],
        &["to-lines", "--help"],
    ] {
        assert_printed(&run(arguments, b""), 0, help.as_bytes(), "");
    }
}

#[test]
fn the_version_is_the_packages() {
    assert_printed(&run(&["--version"], b""), 0, b"lines 0.1.0\n", "");
}

#[test]
fn a_wrong_call_gets_the_usage() {
    for arguments in [
        &[][..],
        &["to-text"],
        &["to-bytes", "a", "b"],
        &["to-bytes", "--helpp"],
        &["to-lines", "-"],
        &["to-bytes", "a", "--help"],
        &["--version", "a"],
        &["--help", "a"],
    ] {
        assert_printed(&run(arguments, b""), 2, b"", USAGE);
    }
}

#[test]
fn what_cannot_be_read_or_written_is_told_with_its_reason() {
    let folder = env!("CARGO_TARGET_TMPDIR");
    let output = run(&["to-lines", folder], b"");
    let told = format!("{folder}: Is a directory (os error 21)\n");
    assert_printed(&output, 1, b"", &told);
    let full = fs::File::create("/dev/full").unwrap();
    let mut program = Command::new(env!("CARGO_BIN_EXE_lines"));
    program.arg("--help").stdout(full).stderr(Stdio::piped());
    let output = program.spawn().unwrap().wait_with_output().unwrap();
    let told = "standard output: No space left on device (os error 28)\n";
    assert_printed(&output, 1, b"", told);
}
