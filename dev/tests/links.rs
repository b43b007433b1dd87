//! Every link of the documents goes to a file of the repository, and to a heading where it names one.

use neapscroll_dev::markdown::{anchors, lines, links, Link};
use neapscroll_dev::{files_below, repository, resolved, text};

fn documents() -> Vec<String> {
    let readmes = ["README.md", "examples/README.md"].map(String::from);
    let mut documents = files_below("docs", ".md");
    documents.extend(readmes);
    documents
}

/// What is wrong with a link of a document.
fn flaw(document: &str, target: &str) -> Option<String> {
    if target.contains("://") {
        return None;
    }
    let (path, anchor) = match target.split_once('#') {
        Some((path, anchor)) => (path, Some(anchor)),
        None => (target, None),
    };
    let folder = document.rsplit_once('/').map_or("", |(folder, _)| folder);
    let file = if path.is_empty() {
        Some(document.to_string())
    } else {
        resolved(folder, path)
    };
    let Some(file) = file.filter(|file| repository().join(file).exists()) else {
        return Some("no such file".to_string());
    };
    let anchor = anchor?;
    let headings = if file.ends_with(".md") {
        anchors(&text(&file))
    } else {
        Vec::new()
    };
    (!headings.iter().any(|heading| heading == anchor))
        .then(|| format!("{file} has no such heading"))
}

/// A line without what stands in code marks.
fn without_code(line: &str) -> String {
    line.split('`').step_by(2).collect()
}

#[test]
fn every_link_goes_to_a_file_and_its_heading() {
    let mut flaws = Vec::new();
    let mut count = 0;
    for document in documents() {
        let text = text(&document);
        if text.matches("\n```").count() % 2 == 1 {
            flaws.push(format!("{document}: a fence is not closed"));
        }
        for (number, line) in lines(&text) {
            let (links, left) = links(line);
            if without_code(&left).contains("](") {
                flaws.push(format!("{document}:{number}: a link that cannot be read"));
            }
            count += links.len();
            for link in links {
                let told = |flaw| format!("{document}:{number}: {}: {flaw}", link.target);
                flaws.extend(flaw(&document, link.target).map(told));
            }
        }
    }
    assert!(flaws.is_empty(), "\n{}", flaws.join("\n"));
    assert!(count > 1000, "only {count} links were read");
}

#[test]
fn what_is_code_or_in_brackets_is_no_link() {
    let link = |text, target| Link { text, target };
    let (found, left) = links("a [`b`](c.md), `[d](e)` of [1; 2] and [f](g#h).");
    assert_eq!(found, [link("`b`", "c.md"), link("f", "g#h")]);
    assert_eq!(left, "a , `[d](e)` of [1; 2] and .");
    let fenced = "[a](b)\n```\n[c](d)\n```\n[e](f)";
    let numbers: Vec<usize> = lines(fenced).map(|(number, _)| number).collect();
    assert_eq!(numbers, [1, 5]);
}

#[test]
fn headings_of_one_text_are_told_apart() {
    let document = "# A book\n## It's `one_thing`, or 2\n## A book\n#none\n```\n# No\n```";
    assert_eq!(
        anchors(document),
        ["a-book", "its-one_thing-or-2", "a-book-1"]
    );
}
