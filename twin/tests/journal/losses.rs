//! What a program says on standard error where it cannot read or write all, beside what it prints.

use crate::examples::examples;
use crate::program::{self, repository_top};
use crate::sheets;
use std::env;
use std::fs::{self, File};
use std::io::{ErrorKind, Read, Write};
use std::os::fd::OwnedFd;
use std::os::unix::net::UnixStream;
use std::path::Path;
use std::process::{Command, Output, Stdio};
use std::sync::Once;
use twin::generate::journals::Journal;
use twin::journal;

/// A program that reads a journal from standard input: what it prints, as the twin does, and what it says where it cannot read or write all.
struct Reader {
    program: &'static str,
    printed: fn(&[u8]) -> Vec<u8>,
    not_read: &'static str,
    not_written: &'static str,
}

const READERS: [Reader; 2] = [
    Reader {
        program: program::PROGRAM,
        printed: journal::printed,
        not_read: "neapscroll: the input could not be read to its end\n",
        not_written: "neapscroll: not all answers could be written\n",
    },
    Reader {
        program: sheets::PROGRAM,
        printed: journal::sheets::printed,
        not_read: "sheets: the input could not be read to its end\n",
        not_written: "sheets: not all sheets could be written\n",
    },
];

/// A device that takes nothing.
fn full() -> File {
    let device = File::options().write(true).open("/dev/full");
    device.expect("the system has /dev/full")
}

fn folder() -> File {
    File::open(repository_top()).expect("a folder can be opened")
}

/// What came of the command, which ends well whatever is lost.
fn ended(command: &mut Command) -> Output {
    let output = command.output();
    let output = output.unwrap_or_else(|error| panic!("{command:?}: {error}"));
    let said = String::from_utf8_lossy(&output.stderr);
    assert!(
        output.status.success(),
        "{command:?}: {}\n{said}",
        output.status
    );
    output
}

/// Holds the command to what it prints and what it says.
fn expect(text: &[u8], said: &str, command: &mut Command) {
    let output = ended(command);
    let met = String::from_utf8_lossy(&output.stderr).into_owned();
    assert_eq!(met, said, "{command:?}");
    assert!(output.stdout == text, "{command:?} prints another text");
}

impl Reader {
    fn on(&self, input: impl Into<Stdio>) -> Command {
        let mut command = Command::new(self.program);
        command.stdin(input);
        command
    }

    /// The program as a shell starts it, behind a command and with a redirection.
    fn by_shell(&self, before: &str, redirection: &str) -> Command {
        let mut command = Command::new("sh");
        let line = format!("{before} exec \"$0\" {redirection}");
        command.args(["-c", &line, self.program]);
        command.stdin(Stdio::null());
        command
    }

    /// A stored journal for which the program prints something, and its text.
    fn journal(&self) -> (File, Vec<u8>) {
        let journal = repository_top().join("examples/electric-year.journal");
        let text = (self.printed)(&fs::read(&journal).expect("a journal can be read"));
        assert!(!text.is_empty(), "a stored journal prints something");
        (File::open(journal).expect("a journal can be opened"), text)
    }
}

/// The program's input: the bytes, and then its end, or a failure where the other side closes with a byte unread.
fn input_of(bytes: &[u8], fails: bool) -> OwnedFd {
    let (mut reader, mut writer) = UnixStream::pair().expect("a pair of sockets");
    writer
        .write_all(bytes)
        .expect("there is room for the bytes");
    if fails {
        reader.write_all(&[0]).expect("there is room for a byte");
    }
    drop(writer);
    reader.into()
}

#[test]
fn answers_that_are_not_taken_are_said() {
    for reader in READERS {
        let (input, _) = reader.journal();
        expect(b"", reader.not_written, reader.on(input).stdout(full()));
        let (input, _) = reader.journal();
        let mut closed = reader.by_shell("", ">&-");
        expect(b"", reader.not_written, closed.stdin(input));
    }
}

#[test]
fn nothing_is_said_where_nothing_is_lost() {
    for reader in READERS {
        let (input, text) = reader.journal();
        expect(&text, "", &mut reader.on(input));
        // An opening alone prints nothing, so that nothing is lost.
        let opening = input_of(&[0], false);
        expect(b"", "", reader.on(opening).stdout(full()));
    }
}

#[test]
fn an_input_that_cannot_be_read_is_said() {
    for reader in READERS {
        let nothing = b"refused 1\n";
        expect(nothing, reader.not_read, &mut reader.on(folder()));
        expect(nothing, reader.not_read, &mut reader.by_shell("", "<&-"));
        let both = format!("{}{}", reader.not_read, reader.not_written);
        expect(b"", &both, reader.on(folder()).stdout(full()));
    }
}

/// The front halves of some random journals, for which the program prints more than one line.
fn halves(reader: &Reader) -> Vec<Vec<u8>> {
    let inputs = (320_001..).map(|seed| Journal::of_seed(seed).bytes);
    let short = inputs.filter(|input| (40..4_000).contains(&input.len()));
    let halves = short.map(|input| input[..input.len() / 2].to_vec());
    let telling = halves.filter(|half| {
        let text = (reader.printed)(half);
        text.iter().filter(|&&byte| byte == b'\n').count() > 1
    });
    telling.take(20).collect()
}

#[test]
fn what_was_read_before_a_failure_is_printed() {
    for reader in READERS {
        for half in halves(&reader) {
            for (fails, said) in [(false, ""), (true, reader.not_read)] {
                let mut read = Vec::new();
                let met = File::from(input_of(&half, fails)).read_to_end(&mut read);
                let reset = met.is_err_and(|error| error.kind() == ErrorKind::ConnectionReset);
                assert!(read == half && reset == fails, "the input is not as meant");
                let text = (reader.printed)(&half);
                expect(&text, said, &mut reader.on(input_of(&half, fails)));
            }
        }
    }
}

#[test]
fn a_stack_of_four_mebibytes_is_enough() {
    for reader in READERS {
        for (journal, _) in examples() {
            let text = (reader.printed)(&fs::read(&journal).expect("a journal can be read"));
            let input = File::open(journal).expect("a journal can be opened");
            let mut limited = reader.by_shell("ulimit -s 4096 &&", "");
            expect(&text, "", limited.stdin(input));
        }
    }
}

/// A program at a terminal, where the text is typed.
fn shown_at_terminal(program: &str, typed: &str) -> String {
    let source = repository_top().join("twin/tests/journal/terminal.c");
    let terminal = Path::new(env!("CARGO_TARGET_TMPDIR")).join("terminal");
    ended(
        Command::new(env::var("CC").unwrap_or_else(|_| "cc".to_owned()))
            .args(["-std=c99", "-Wall", "-Wextra", "-pedantic", "-Werror"])
            .arg(source)
            .arg("-o")
            .arg(&terminal),
    );
    let output = ended(Command::new(terminal).args([program, typed]));
    String::from_utf8(output.stdout).expect("the terminal shows text")
}

#[test]
fn one_end_of_input_is_enough_at_a_terminal() {
    for Reader { program, .. } in READERS {
        assert_eq!(shown_at_terminal(program, "\u{4}"), "refused 1\n");
        let line = shown_at_terminal(program, "a line\n\u{4}");
        assert_eq!(line, "refused 7\n");
    }
}

/// Another program of the repository, which the twin's build does not make.
fn other_program(name: &str) -> Command {
    static BUILT: Once = Once::new();
    let crates = repository_top().join("crates");
    BUILT.call_once(|| {
        for name in ["checklist", "journals", "quotients"] {
            // A program is built by running it.
            let mut command = Command::new("rt");
            ended(command.arg("run").current_dir(crates.join(name)));
        }
    });
    let mut command = Command::new(crates.join(name).join("out").join(name));
    command.stdin(Stdio::null());
    command
}

/// Holds a program to its stored text, and to what it says where none of that is taken.
fn expect_stored(name: &str, said: &str) {
    let stored = repository_top().join("crates").join(name).join("stdout");
    let text = fs::read(stored).expect("its text can be read");
    expect(&text, "", &mut other_program(name));
    expect(b"", said, other_program(name).stdout(full()));
}

#[test]
fn checklist_and_quotients_say_what_they_cannot_write() {
    expect_stored("checklist", "checklist: not all lines could be written\n");
    expect_stored(
        "quotients",
        "quotients: not all quotients could be written\n",
    );
}

#[test]
fn the_journals_say_it_in_their_own_name() {
    let mut command = other_program("journals");
    let of_a_folder = command.arg(".").current_dir(repository_top());
    expect(
        b"== .\nrefused 1\n",
        "journals: the input could not be read to its end\n",
        of_a_folder,
    );
    let mut command = other_program("journals");
    let of_nothing = command.arg("/dev/null").stdout(full());
    expect(
        b"",
        "journals: not all names could be written\njournals: not all answers could be written\n",
        of_nothing,
    );
}
