//! What a file of code has: functions, types and constants, and what belongs to a type. The files are laid out by `rt fmt`, so that a
//! declaration begins its line, what belongs to a type stands four columns in, and a block ends in the first column.

#[derive(Clone, Copy, Debug, PartialEq, Eq)]
pub enum Sort {
    Function,
    Constant,
    /// A struct, an enum or a trait, or a field or a case of one.
    Type,
}

pub struct Item {
    /// The type or the trait to which it belongs.
    pub owner: Option<String>,
    pub name: String,
    pub sort: Sort,
    /// A function that other crates may call.
    pub public: bool,
    /// A function of which `ensures` says something, here or in the trait whose method it is.
    pub contract: bool,
}

/// The block in which a line stands.
struct Block {
    owner: String,
    public_trait: bool,
    /// An `impl` of a trait.
    of_trait: bool,
    /// Fields or cases stand in it.
    members: bool,
}

pub fn items(source: &str) -> Vec<Item> {
    let lines: Vec<&str> = source.lines().collect();
    let mut items = Vec::new();
    let mut block: Option<Block> = None;
    for (number, line) in lines.iter().enumerate() {
        let indent = line.len() - line.trim_start().len();
        let (public, words) = without_modifiers(line.trim_start());
        if indent == 0 {
            block = block_of(public, words).or(block.filter(|_| !line.starts_with('}')));
        }
        let inside = block.as_ref().filter(|_| indent == 4);
        let Some((sort, name)) =
            declared(words, inside).filter(|_| indent == 0 || inside.is_some())
        else {
            continue;
        };
        items.push(Item {
            owner: inside.map(|block| block.owner.clone()),
            name: name.to_string(),
            sort,
            public: public || inside.is_some_and(|block| block.public_trait),
            contract: sort == Sort::Function
                && (inside.is_some_and(|block| block.of_trait) || has_contract(&lines[number..])),
        });
    }
    items
}

/// Whether other crates see what is declared, and the declaration without the words before it.
fn without_modifiers(mut words: &str) -> (bool, &str) {
    let mut public = false;
    loop {
        let Some((word, rest)) = words.split_once(' ') else {
            return (public, words);
        };
        match word {
            "pub" => public = true,
            "pub(crate)" | "final" | "ghost" | "extern" | "\"C\"" => {}
            _ => return (public, words),
        }
        words = rest;
    }
}

/// The identifier at the front.
fn identifier(words: &str) -> &str {
    let end = words.find(|c: char| !c.is_alphanumeric() && c != '_');
    &words[..end.unwrap_or(words.len())]
}

fn declared<'a>(words: &'a str, inside: Option<&Block>) -> Option<(Sort, &'a str)> {
    let (keyword, rest) = words.split_once(' ').unwrap_or((words, ""));
    let sort = match keyword {
        "fn" => Sort::Function,
        "const" | "static" => Sort::Constant,
        "struct" | "enum" | "trait" => Sort::Type,
        _ if inside.is_some_and(|block| block.members) => {
            let name = identifier(words);
            return (!name.is_empty()).then_some((Sort::Type, name));
        }
        _ => return None,
    };
    Some((sort, identifier(rest)))
}

/// The block that a line of the first column opens.
fn block_of(public: bool, words: &str) -> Option<Block> {
    let (keyword, rest) = words.split_once([' ', '<'])?;
    let owner = match keyword {
        "struct" | "enum" | "trait" => rest,
        "impl" => implemented(words),
        _ => return None,
    };
    words.ends_with('{').then(|| Block {
        owner: identifier(owner).to_string(),
        public_trait: public && keyword == "trait",
        of_trait: keyword == "impl" && words.contains(" for "),
        members: matches!(keyword, "struct" | "enum"),
    })
}

/// The type of an `impl`, of a trait or of none.
fn implemented(words: &str) -> &str {
    if let Some((_, owner)) = words.split_once(" for ") {
        return owner;
    }
    let after = &words["impl".len()..];
    let generic = after.starts_with('<').then(|| after.split_once("> "));
    generic
        .flatten()
        .map_or(after.trim_start(), |(_, owner)| owner)
}

/// Whether the function that begins here has a contract: it stands between its signature and its body.
fn has_contract(lines: &[&str]) -> bool {
    for line in lines.iter().map(|line| line.trim()) {
        if line.starts_with("ensures ") {
            return true;
        }
        if line.is_empty() || line.ends_with(['{', ';']) {
            return false;
        }
    }
    false
}
