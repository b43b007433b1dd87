//! What the tests read of a Markdown document.

/// `[text](target)`.
#[derive(Debug, PartialEq, Eq)]
pub struct Link<'a> {
    pub text: &'a str,
    pub target: &'a str,
}

impl<'a> Link<'a> {
    /// The link that begins here, and what stands after it.
    fn at(line: &'a str) -> Option<(Link<'a>, &'a str)> {
        let (text, rest) = line.strip_prefix('[')?.split_once("](")?;
        let (target, rest) = rest.split_once(')')?;
        (!text.contains(['[', ']'])).then_some((Link { text, target }, rest))
    }

    /// The text without the marks of code, if it has them.
    pub fn code(&self) -> Option<&'a str> {
        self.text.strip_prefix('`')?.strip_suffix('`')
    }
}

/// The links of a line, and the line without them. What is code is no link.
pub fn links(line: &str) -> (Vec<Link<'_>>, String) {
    let mut links = Vec::new();
    let mut left = String::new();
    let mut rest = line;
    while let Some(start) = rest.find(['[', '`']) {
        left += &rest[..start];
        rest = &rest[start..];
        if let Some((link, after)) = Link::at(rest) {
            links.push(link);
            rest = after;
        } else {
            let code = rest.strip_prefix('`').and_then(|code| code.find('`'));
            let length = code.map_or(1, |end| end + 2);
            left += &rest[..length];
            rest = &rest[length..];
        }
    }
    (links, left + rest)
}

/// The one link of a table's cell.
pub fn link(cell: &str) -> Link<'_> {
    let (mut links, left) = links(cell);
    let one = links.pop().filter(|_| links.is_empty() && left.is_empty());
    one.unwrap_or_else(|| panic!("no link: {cell}"))
}

/// What stands in code marks.
pub fn marks(text: &str) -> Vec<&str> {
    text.split('`').skip(1).step_by(2).collect()
}

/// The sections, each a heading of the second level with the text below it.
pub fn sections(page: &str) -> Vec<(&str, &str)> {
    let parts = page.split("\n## ").skip(1);
    parts
        .map(|part| part.split_once('\n').unwrap_or((part, "")))
        .collect()
}

/// The lines that stand in no fence, each with its number from 1.
pub fn lines(text: &str) -> impl Iterator<Item = (usize, &str)> {
    let mut fenced = false;
    (1..).zip(text.lines()).filter(move |(_, line)| {
        let fence = line.trim_start().starts_with("```");
        fenced ^= fence;
        !fenced && !fence
    })
}

/// A heading's level and text.
pub fn heading(line: &str) -> Option<(usize, &str)> {
    let text = line.trim_start_matches('#');
    let level = line.len() - text.len();
    text.strip_prefix(' ')
        .filter(|_| level > 0)
        .map(|text| (level, text.trim()))
}

/// What a link to each heading ends in, as the site that shows the documents makes it.
pub fn anchors(text: &str) -> Vec<String> {
    let mut anchors: Vec<String> = Vec::new();
    for (_, line) in lines(text) {
        let Some((_, heading)) = heading(line) else {
            continue;
        };
        let anchor = anchor(heading);
        let numbered = (1..).map(|number| format!("{anchor}-{number}"));
        let mut names = std::iter::once(anchor.clone()).chain(numbered);
        anchors.extend(names.find(|name| !anchors.contains(name)));
    }
    anchors
}

/// What a link to the heading ends in, behind `#`, where no heading above is the same.
pub fn anchor(heading: &str) -> String {
    let (links, words) = links(heading);
    let texts = links.iter().map(|link| link.text).collect::<String>();
    // A heading is a link as a whole, or has none.
    let heading = if words.trim().is_empty() {
        &texts
    } else {
        heading
    };
    let kept = |&c: &char| c.is_alphanumeric() || matches!(c, ' ' | '-' | '_');
    let lower = heading.chars().filter(kept).flat_map(char::to_lowercase);
    lower.map(|c| if c == ' ' { '-' } else { c }).collect()
}
