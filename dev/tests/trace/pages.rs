//! The pages as they are read: of each line the names that it links, and what cannot be read.

use neapscroll_dev::markdown::{heading, lines, links};
use neapscroll_dev::{files_below, resolved, text};

pub const FOLDER: &str = "docs/trace";

/// What the line of a list says, by its first word.
#[derive(Clone, Copy, Debug, PartialEq, Eq)]
pub enum Role {
    Definition,
    Type,
    Constant,
    Function,
    Theorem,
    WrongProgram,
    Test,
    Note,
}

impl Role {
    fn of(label: &str) -> Option<Role> {
        Some(match label {
            "definition" => Role::Definition,
            "type" => Role::Type,
            "constant" => Role::Constant,
            "function" => Role::Function,
            "theorem" => Role::Theorem,
            "wrong program" => Role::WrongProgram,
            "test" => Role::Test,
            "note" => Role::Note,
            _ => return None,
        })
    }
}

/// A name that is linked: of a list with its role, else without one.
pub struct Named {
    /// The page and the line.
    pub place: String,
    pub role: Option<Role>,
    pub name: String,
    /// The path that is linked, from the top of the repository.
    pub path: String,
}

pub struct Page {
    pub title: String,
    pub names: Vec<Named>,
    /// What cannot be read, each with its place.
    pub unread: Vec<String>,
}

/// What a line may go on with.
#[derive(Clone, Copy, PartialEq, Eq)]
enum Above {
    Nothing,
    Words,
    /// A line of a list, with its indentation, and with its role unless it stands for those below it.
    Item(usize, Option<Role>),
}

pub fn pages() -> Vec<Page> {
    files_below(FOLDER, ".md")
        .iter()
        .map(|file| Page::read(file))
        .collect()
}

impl Page {
    pub fn read(file: &str) -> Page {
        let text = text(file);
        let mut page = Page {
            title: String::new(),
            names: Vec::new(),
            unread: Vec::new(),
        };
        if text.matches("\n```").count() % 2 == 1 {
            page.unread.push(format!("{file}: a fence is not closed"));
        }
        let mut above = Above::Nothing;
        for (number, line) in lines(&text) {
            let place = format!("{file}:{number}");
            above = page.line(&place, line, above).unwrap_or_else(|| {
                page.unread.push(format!("{place}: cannot be read: {line}"));
                Above::Nothing
            });
        }
        page
    }

    /// Takes a line, and says what the next one may go on with; nothing where the line cannot be read.
    fn line(&mut self, place: &str, line: &str, above: Above) -> Option<Above> {
        let words = line.trim_start();
        let indent = line.len() - words.len();
        if let Some((level, title)) = heading(line) {
            if level == 1 {
                self.title = title.to_string();
            }
            return (level <= 4).then_some(Above::Nothing);
        }
        if words.is_empty() {
            return Some(Above::Nothing);
        }
        if let Some(item) = words.strip_prefix("- ") {
            return self.item(place, item, indent, above);
        }
        match above {
            Above::Item(item, Some(role)) if indent == item + 2 => {
                self.words(place, Some(role), words)?;
                Some(above)
            }
            Above::Nothing | Above::Words if indent == 0 => {
                self.names_of(place, None, words);
                Some(Above::Words)
            }
            _ => None,
        }
    }

    /// `ROLE: names and words`, or `WORDS:` above such lines.
    fn item(&mut self, place: &str, item: &str, indent: usize, above: Above) -> Option<Above> {
        let nested = indent == 2 && matches!(above, Above::Item(..));
        let (label, words) = item.split_once(':')?;
        match Role::of(label) {
            Some(role) if indent == 0 || nested => {
                self.words(place, Some(role), words.strip_prefix(' ')?)?;
                Some(Above::Item(indent, Some(role)))
            }
            None if indent == 0 && words.is_empty() => Some(Above::Item(indent, None)),
            _ => None,
        }
    }

    /// Words of a list, in which no code stands that is not linked.
    fn words(&mut self, place: &str, role: Option<Role>, words: &str) -> Option<()> {
        let left = self.names_of(place, role, words);
        (!words.trim().is_empty() && !left.contains(['`', '[', ']'])).then_some(())
    }

    /// Takes the names that are linked, and gives what is left of the line.
    fn names_of(&mut self, place: &str, role: Option<Role>, words: &str) -> String {
        let (links, left) = links(words);
        for link in links {
            if let Some(name) = link.code() {
                self.names.push(Named {
                    place: place.to_string(),
                    role,
                    name: name.to_string(),
                    path: resolved(FOLDER, link.target).unwrap_or_default(),
                });
            }
        }
        left
    }
}
