//! What a file of definitions or laws declares.

/// The words that may stand before a name which is declared.
const MODIFIERS: [&str; 5] = ["pub", "abbrev", "unfoldable", "data", "record"];

/// Whether the file declares the name: `NAME : ..`, `record NAME ..`, or a field; what is local to a proof does not count.
pub fn declares(source: &str, name: &str) -> bool {
    source.lines().any(|line| declared(line) == Some(name))
}

fn declared(line: &str) -> Option<&str> {
    let indented = line.starts_with(' ');
    let mut words = line.split_whitespace().peekable();
    let mut before = Vec::new();
    while let Some(&word) = words.peek().filter(|&word| MODIFIERS.contains(word)) {
        before.push(word);
        words.next();
    }
    let name = words.next()?;
    // A universe's level may stand between the name and its type.
    let typed = words.find(|word| *word != "{ℓ}") == Some(":");
    let a_type = before.contains(&"data") || before.contains(&"record");
    let seen = !indented || before.contains(&"pub");
    (seen && (typed || a_type)).then_some(name)
}
