//! The built program of journals, from standard input to standard output.

use crate::examples::examples;
use std::fs;
use std::io::{ErrorKind, Read, Write};
use std::path::Path;
use std::process::{ChildStdin, Command, Stdio};
use std::thread;
use twin::comparison::first_difference;
use twin::generate::journals::Journal;
use twin::journal::printed;

/// The folder that holds the twin's folder.
pub fn repository_top() -> &'static Path {
    let top = Path::new(env!("CARGO_MANIFEST_DIR")).parent();
    top.expect("the twin stands in a repository")
}

/// The program, which the twin's build makes.
pub const PROGRAM: &str = env!("PROVED_PROGRAM");

/// What a program writes for the input, which it is handed in pieces. Nothing is lost, so it says nothing.
pub fn run(program: &str, input: &[u8], piece: usize) -> Vec<u8> {
    let mut command = Command::new(program);
    let piped = command.stdin(Stdio::piped()).stdout(Stdio::piped());
    let started = piped.stderr(Stdio::piped()).spawn();
    let mut program = started.unwrap_or_else(|error| panic!("{program}: {error}"));
    let (stdin, stdout) = (program.stdin.take(), program.stdout.take());
    let mut text = Vec::new();
    thread::scope(|scope| {
        scope.spawn(|| hand_over(input, piece, stdin.expect("it is piped")));
        let mut stdout = stdout.expect("it is piped");
        stdout.read_to_end(&mut text).expect("it can be read");
    });
    let output = program.wait_with_output().expect("the program ends");
    assert!(output.status.success(), "{}", output.status);
    assert_eq!(String::from_utf8_lossy(&output.stderr), "");
    text
}

fn hand_over(input: &[u8], piece: usize, mut stdin: ChildStdin) {
    for piece in input.chunks(piece) {
        match stdin.write_all(piece) {
            Ok(()) => {}
            // The program need not read an input that is too long to its end.
            Err(error) if error.kind() == ErrorKind::BrokenPipe => return,
            Err(error) => panic!("{error}"),
        }
    }
}

fn expect(text: &[u8], input: &[u8], piece: usize, origin: &str) {
    let met = run(PROGRAM, input, piece);
    if let Some(difference) = first_difference(&met, text) {
        panic!("{difference}\nin pieces of {piece}, {origin}");
    }
}

#[test]
fn the_program_prints_what_is_stored() {
    for (journal, printed) in examples() {
        let input = fs::read(&journal).expect("a journal can be read");
        let text = fs::read(printed).expect("its text can be read");
        expect(
            &text,
            &input,
            input.len().max(1),
            &journal.display().to_string(),
        );
    }
}

#[test]
fn the_program_prints_random_journals() {
    for seed in 300_001..=300_200 {
        let input = Journal::of_seed(seed).bytes;
        let pieces = [1 << 20, 4_096, 1_000];
        let piece = pieces[seed as usize % pieces.len()];
        expect(&printed(&input), &input, piece, &format!("seed {seed}"));
    }
}

#[test]
fn the_program_reads_an_input_that_comes_byte_by_byte() {
    let inputs = (310_001..).map(|seed| Journal::of_seed(seed).bytes);
    let short = inputs.filter(|input| (40..4_000).contains(&input.len()));
    for input in short.take(20) {
        expect(&printed(&input), &input, 1, "byte by byte");
    }
}

#[test]
fn the_program_refuses_what_is_too_long() {
    for length in [65_537, 65_538, 70_000, 131_072, 1 << 20] {
        let mut input = vec![0];
        input.resize(length, 3);
        expect(b"refused 7\n", &input, 10_000, &format!("{length} bytes"));
    }
}
