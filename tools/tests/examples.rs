//! The examples: their lines are their journals, and what they print speaks of these lines.

use std::collections::BTreeSet;
use std::fs;
use std::path::{Path, PathBuf};

use journal_lines::{language, read_lines, to_bytes, to_lines, Message};

/// Every kind's word is at its number.
const WORDS: [&str; 8] = [
    "bytes",
    "cost",
    "sales",
    "bill",
    "settle",
    "month-end",
    "adjust",
    "reconcile",
];

/// Its lines are all alike, so the folder has no file of them.
const WITHOUT_LINES: &str = "too-long";

fn folder() -> PathBuf {
    Path::new(env!("CARGO_MANIFEST_DIR")).join("../examples")
}

fn bytes(name: &str, ending: &str) -> Vec<u8> {
    let path = folder().join(format!("{name}.{ending}"));
    fs::read(&path).unwrap_or_else(|error| panic!("{}: {error}", path.display()))
}

fn text(name: &str, ending: &str) -> String {
    String::from_utf8(bytes(name, ending)).unwrap()
}

/// The names of all files with the ending.
fn names(ending: &str) -> BTreeSet<String> {
    let paths = fs::read_dir(folder())
        .unwrap()
        .map(|entry| entry.unwrap().path());
    let with_ending = paths.filter(|path| path.extension().is_some_and(|found| found == ending));
    let names = with_ending.map(|path| path.file_stem().unwrap().to_str().unwrap().to_string());
    names.collect()
}

#[test]
fn every_example_has_its_files_and_is_described() {
    let journals = names("journal");
    assert!(journals.len() >= 10, "{journals:?}");
    assert_eq!(names("printed"), journals);
    let mut with_lines = names("lines");
    assert!(with_lines.insert(WITHOUT_LINES.to_string()));
    assert_eq!(with_lines, journals);
    let described = text("README", "md");
    for name in journals {
        assert!(described.contains(&format!("| `{name}` |")), "{name}");
    }
}

/// Sheets are of settlements that an electric book took, so of no other journal, and as many as it filed factors.
#[test]
fn sheets_have_their_journal_and_are_described() {
    let with_sheets = names("sheets");
    assert!(!with_sheets.is_empty());
    assert!(with_sheets.is_subset(&names("journal")), "{with_sheets:?}");
    let described = text("README", "md");
    for name in with_sheets {
        assert!(
            described.contains(&format!("| `{name}.sheets` |")),
            "{name}"
        );
        let opened = bytes(&name, "journal").first().copied();
        assert!(matches!(opened, Some(0 | 1)), "{name}: {opened:?}");
        let sheets = text(&name, "sheets").split("\n\n").count();
        let filed = text(&name, "printed").matches(" 4 filed ").count();
        assert_eq!(sheets, filed, "{name}");
    }
}

#[test]
fn lines_are_their_journal() {
    for name in names("lines") {
        let journal = to_bytes(&text(&name, "lines"));
        assert_eq!(journal, Ok(bytes(&name, "journal")), "{name}");
    }
    let too_long = format!("electric L&P\n{}", "sales 0 0\n".repeat(32_768));
    assert_eq!(to_bytes(&too_long), Ok(bytes(WITHOUT_LINES, "journal")));
}

#[test]
fn journals_return_from_their_lines() {
    for name in names("journal") {
        let journal = bytes(&name, "journal");
        assert_eq!(to_bytes(&to_lines(&journal)), Ok(journal), "{name}");
    }
}

#[test]
fn the_papers_example_is_as_in_the_paper() {
    let journal = "bytes 00 01 01 00000000001E8480 03 02 00000000000003E8
        bytes 04 03 0000000000000001 0000000000000001";
    assert_eq!(to_bytes(journal), Ok(bytes("document-01", "journal")));
    let printed = "1 1 done\n2 3 line 0.00\n3 4 refused 8\n";
    assert_eq!(text("document-01", "printed"), printed);
}

/// A line's first word and its comment.
fn parts(line: &str) -> Option<(&str, &str)> {
    let (words, comment) = line.split_once('#').unwrap_or((line, ""));
    let first = words.split_whitespace().next()?;
    Some((first, comment.trim()))
}

#[test]
fn what_is_printed_speaks_of_each_record() {
    for name in names("lines") {
        let lines = text(&name, "lines");
        let printed = text(&name, "printed");
        let mut parts = lines.lines().filter_map(parts);
        match parts.next() {
            None | Some(("bytes", _)) => {
                assert!(
                    lines.contains(&format!(": {}.\n", printed.trim_end())),
                    "{name}"
                );
            }
            Some(_) => assert_each_record(&name, parts, &printed),
        }
    }
}

/// Number and kind are those of the line, whose comment begins with the refusal if there is one.
fn assert_each_record<'a>(
    name: &str,
    mut records: impl Iterator<Item = (&'a str, &'a str)>,
    printed: &str,
) {
    let mut read_on = true;
    for (index, answer) in printed.lines().enumerate() {
        assert!(read_on, "{name}: {answer} after the end of the run");
        let (word, comment) = records.next().expect("a record for each answer");
        let kind = WORDS.iter().position(|&known| known == word).unwrap();
        let start = format!("{} {kind} ", index + 1);
        let said = answer.strip_prefix(&start);
        let said = said.unwrap_or_else(|| panic!("{name}: {answer} for {word}, {start}"));
        let refused = said.starts_with("refused ");
        assert_eq!(refused, comment.starts_with("refused "), "{name}: {answer}");
        assert!(
            !refused || comment.starts_with(&format!("{said}: ")),
            "{name}: {answer}"
        );
        read_on = kind != 0;
    }
    assert!(
        !read_on || records.next().is_none(),
        "{name}: a record without an answer"
    );
}

fn number_of_warning(message: &Message) -> usize {
    match message {
        Message::Warning(warning) => warning.number,
        Message::Error(error) => panic!("{error}"),
    }
}

/// Of lines that are records, those that are printed as refused 7 and no other have a number out of range.
#[test]
fn a_record_that_is_refused_7_is_warned_of() {
    let mut warnings = 0;
    for name in names("lines") {
        let lines = text(&name, "lines");
        let refused = (1..).zip(lines.lines()).filter_map(|(number, line)| {
            let (word, comment) = parts(line)?;
            (word != "bytes" && comment.starts_with("refused 7: ")).then_some(number)
        });
        let messages = read_lines(&lines).messages;
        // A line with two such numbers has two warnings.
        let warned: BTreeSet<usize> = BTreeSet::from_iter(messages.iter().map(number_of_warning));
        assert_eq!(BTreeSet::from_iter(refused), warned, "{name}");
        warnings += warned.len();
    }
    assert!(warnings >= 7, "{warnings}");
}

#[test]
fn the_language_stands_in_the_readme() {
    let readme = text("README", "md");
    let (_, section) = readme.split_once("## The language of lines\n").unwrap();
    let (_, block) = section.split_once("```text\n").unwrap();
    let (block, _) = block.split_once("```\n").unwrap();
    assert_eq!(block, language());
}

/// The warning that the README quotes is one of that file.
#[test]
fn the_readmes_warning_is_told() {
    let readme = text("README", "md");
    let quoted = readme
        .lines()
        .find_map(|line| line.strip_prefix("    examples/"));
    let (name, _) = quoted.unwrap().split_once(".lines:").unwrap();
    let messages = read_lines(&text(name, "lines")).messages;
    let mut told = messages
        .iter()
        .map(|message| message.in_file(&format!("{name}.lines")));
    assert!(told.any(|told| told == quoted.unwrap()));
}

/// The lines that are shown and the answers below them are the front of an example.
#[test]
fn the_language_shows_a_journal_that_is_run() {
    let language = language();
    let (_, shown) = language.split_once("A whole journal\n\n").unwrap();
    let indented = |line: &&str| line.starts_with("  ");
    let mut blocks = shown.split("\n\n").filter(indented);
    let lines = to_bytes(blocks.next().unwrap()).unwrap();
    assert!(bytes("electric-year", "journal").starts_with(&lines));
    let answers = blocks.last().unwrap().lines();
    let answers: String = answers
        .map(|answer| answer.trim_start().to_string() + "\n")
        .collect();
    assert!(text("electric-year", "printed").starts_with(&answers));
    assert_eq!(answers.lines().count(), 4);
}

/// A program under proof is run on files of its own crate, so `crates/journals` has a copy of each example.
#[test]
fn the_proved_program_is_run_on_these_examples() {
    let crate_folder = folder().join("../crates/journals");
    let read = |name: &str| fs::read(crate_folder.join(name)).unwrap();
    let arguments = String::from_utf8(read("args")).unwrap();
    let mut expected = Vec::new();
    for file in arguments.lines() {
        let name = file.strip_suffix(".journal").unwrap();
        assert_eq!(
            read(&format!("data/{file}")),
            bytes(name, "journal"),
            "{file}"
        );
        expected.extend(format!("== {file}\n").bytes());
        expected.extend(bytes(name, "printed"));
    }
    assert_eq!(read("stdout"), expected);
    let named: BTreeSet<String> = arguments.lines().map(str::to_string).collect();
    let all = names("journal")
        .into_iter()
        .map(|name| format!("{name}.journal"));
    assert_eq!(named, all.collect());
}

/// Likewise `crates/sheets` has a copy of one example, with its sheets.
#[test]
fn the_proved_program_of_sheets_is_run_on_an_example() {
    let crate_folder = folder().join("../crates/sheets");
    for (file, ending) in [("stdin", "journal"), ("stdout", "sheets")] {
        let copy = fs::read(crate_folder.join(file)).unwrap();
        assert!(copy == bytes("electric-years", ending), "{file}");
    }
}

/// The README shows a year with each answer beside its line.
#[test]
fn the_readme_shows_the_year() {
    let readme = fs::read_to_string(folder().join("../README.md")).unwrap();
    let from = readme
        .find("    electric L&P\n")
        .expect("the year is shown");
    let block: Vec<&str> = readme[from..]
        .lines()
        .map_while(|line| line.strip_prefix("    "))
        .collect();
    let shown = block.iter().filter(|line| !line.starts_with('#'));
    let (mut lines, mut answers) = (String::new(), String::new());
    for line in shown {
        let (line, answer) = line.split_once("  ").unwrap_or((line, ""));
        lines += &format!("{line}\n");
        if !answer.is_empty() {
            answers += &format!("{}\n", answer.trim_start());
        }
    }
    assert_eq!(to_bytes(&lines).unwrap(), bytes("electric-year", "journal"));
    assert_eq!(answers, text("electric-year", "printed"));
}
