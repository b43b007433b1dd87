//! What docs/LINKING.md shows of a file stands in that file, which these tests or the twin's build compile.

use crate::files::file;

const PAGE: &str = "docs/LINKING.md";

/// The files that the page shows parts of, each with the part: a fence names its file after its language.
fn excerpts(page: &str) -> Vec<(&str, String)> {
    let mut excerpts = Vec::new();
    let mut lines = page.lines();
    while let Some(line) = lines.next() {
        let Some(language) = line.strip_prefix("```") else {
            continue;
        };
        let part: Vec<&str> = lines.by_ref().take_while(|&line| line != "```").collect();
        if let Some((_, path)) = language.split_once(' ') {
            excerpts.push((path, part.join("\n") + "\n"));
        }
    }
    excerpts
}

#[test]
fn excerpts_are_true() {
    let page = file(PAGE);
    let excerpts = excerpts(&page);
    for (path, part) in &excerpts {
        assert!(file(path).contains(part), "{path} has no\n{part}");
    }
    for path in ["host/example.c", "twin/build.rs", "twin/src/proved.rs"] {
        assert!(
            excerpts.iter().any(|&(shown, _)| shown == path),
            "{PAGE} shows nothing of {path}"
        );
    }
}
