//! What the checklist prints can be repeated: each history's postings are the lines of the example that it names, and their answers are what
//! the journal program prints for that example.

use std::collections::BTreeSet;
use std::fs;
use std::path::{Path, PathBuf};

/// How the names of these examples begin.
const PREFIX: &str = "checklist-";

/// The words that an answer begins with.
const ANSWERS: [&str; 5] = ["line", "filed", "interest", "done", "refused"];

fn top() -> PathBuf {
    Path::new(env!("CARGO_MANIFEST_DIR")).join("..")
}

fn text(path: &str) -> String {
    let path = top().join(path);
    fs::read_to_string(&path).unwrap_or_else(|error| panic!("{}: {error}", path.display()))
}

fn stored() -> String {
    text("crates/checklist/stdout")
}

/// A history as it is printed: the name of its example, and what stands below its heading.
struct History<'a> {
    example: &'a str,
    below: Vec<&'a str>,
}

/// What is printed below a heading: a fact with what was seen and what it should be, or a line of a journal with its comment.
#[derive(Debug, PartialEq)]
enum Printed<'a> {
    Fact { seen: &'a str, should_be: &'a str },
    Line { words: &'a str, comment: &'a str },
}

fn histories(stdout: &str) -> Vec<History<'_>> {
    let parts = stdout.split("== ").skip(1);
    let histories = parts.map(|part| {
        let (heading, rest) = part.split_once('\n').unwrap();
        let (_, path) = heading.split_once(": ").unwrap();
        let name = path.strip_prefix("examples/").unwrap();
        History {
            example: name.strip_suffix(".lines").unwrap(),
            below: rest.lines().take_while(|line| !line.is_empty()).collect(),
        }
    });
    histories.collect()
}

impl<'a> History<'a> {
    fn printed(&self) -> Vec<Printed<'a>> {
        self.below.iter().copied().map(printed).collect()
    }

    /// The lines that hold more than a comment: the opening and the postings.
    fn lines(&self) -> Vec<(&'a str, &'a str)> {
        let lines = self.printed().into_iter().filter_map(|part| match part {
            Printed::Line { words, comment } => Some((words, comment)),
            Printed::Fact { .. } => None,
        });
        lines.filter(|(words, _)| !words.is_empty()).collect()
    }
}

fn printed(line: &str) -> Printed<'_> {
    if let Some(line) = line.strip_prefix("    ") {
        let (words, comment) = parts(line);
        return Printed::Line { words, comment };
    }
    let fact = line.strip_prefix("ok    ");
    let fact = fact.unwrap_or_else(|| panic!("no fact that is as it should be: {line}"));
    let (_, values) = fact.split_once(": ").unwrap();
    let (seen, should_be) = values.split_once(", should be ").unwrap();
    Printed::Fact { seen, should_be }
}

/// A line's words and its comment.
fn parts(line: &str) -> (&str, &str) {
    let (words, comment) = line.split_once('#').unwrap_or((line, ""));
    (words.trim(), comment.trim())
}

#[test]
fn each_history_is_an_example_and_each_such_example_a_history() {
    let stdout = stored();
    let histories = histories(&stdout);
    let named: BTreeSet<String> = histories.iter().map(|one| one.example.into()).collect();
    assert_eq!(named.len(), histories.len());
    let files = fs::read_dir(top().join("examples")).unwrap();
    let names = files.map(|file| file.unwrap().file_name().into_string().unwrap());
    let examples = names.filter_map(|name| name.strip_suffix(".lines").map(str::to_string));
    let held: BTreeSet<String> = examples.filter(|name| name.starts_with(PREFIX)).collect();
    assert!(!held.is_empty());
    assert_eq!(named, held);
}

#[test]
fn what_is_posted_is_the_example() {
    for history in histories(&stored()) {
        let example = text(&format!("examples/{}.lines", history.example));
        let held: Vec<&str> = example.lines().map(|line| parts(line).0).collect();
        let held: Vec<&str> = held.into_iter().filter(|line| !line.is_empty()).collect();
        let posted: Vec<&str> = history.lines().iter().map(|line| line.0).collect();
        assert_eq!(posted, held, "{}", history.example);
    }
}

#[test]
fn what_is_answered_is_what_the_journal_program_prints() {
    for history in histories(&stored()) {
        let lines = history.lines();
        let (opening, postings) = lines.split_first().unwrap();
        assert_eq!(opening.1, "", "{}", history.example);
        let answers: String = postings
            .iter()
            .map(|line| format!("{}\n", line.1))
            .collect();
        let printed = text(&format!("examples/{}.printed", history.example));
        assert_eq!(answers, printed, "{}", history.example);
    }
}

/// So that it can be found in what the journal program prints.
#[test]
fn a_fact_that_shows_an_answer_shows_that_of_the_line_above() {
    for history in histories(&stored()) {
        let mut above = "";
        let mut shown = 0;
        for part in history.printed() {
            match part {
                Printed::Line { words: "", .. } => {}
                Printed::Line { comment, .. } => above = comment,
                Printed::Fact { seen, .. } if is_answer(seen) => {
                    // Behind the record's number and its kind.
                    let answer = above.splitn(3, ' ').nth(2);
                    assert_eq!(answer, Some(seen), "{}", history.example);
                    shown += 1;
                }
                Printed::Fact { .. } => {}
            }
        }
        assert!(shown > 0, "{}", history.example);
    }
}

fn is_answer(seen: &str) -> bool {
    let word = seen.split(' ').next();
    word.is_some_and(|word| ANSWERS.contains(&word))
}

#[test]
fn all_facts_are_as_they_should_be_and_counted() {
    let stdout = stored();
    let mut facts = 0;
    for part in histories(&stdout).iter().flat_map(History::printed) {
        if let Printed::Fact { seen, should_be } = part {
            assert_eq!(seen, should_be);
            facts += 1;
        }
    }
    let count = format!("\n\n{facts} checks, {facts} as they should be\n");
    assert!(stdout.ends_with(&count), "{count}");
}
