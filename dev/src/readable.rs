//! What the prover prints of a goal, shortened for a person.

/// Where the toolchain's and the crates' own modules begin; of a name below them the last part tells enough.
const MODULES: [&str; 8] = [
    "Rattle.", "Prim.", "lib.", "mathlib.", "mir.", "denote.", "borrow.", "native.",
];

/// How lines begin that say nothing of a goal.
const PASSED_OVER: [&str; 8] = [
    "rt: note",
    "rt: chose",
    "rt: rt lemma",
    "logic ",
    "statements ",
    "library ",
    "crate ",
    "checked ",
];

/// What stands in other such lines: of what has no goal, of a check's beginning, and of names that are the prover's own.
const SAYS_NOTHING: [&str; 4] = [
    ": no holes",
    ": begins with what a check kept",
    "rt: --generated ",
    "Rattle's own names, which may change",
];

/// The lines that tell of goals, with names and operators as a person writes them.
pub fn readable(printed: &str) -> String {
    let told = printed.lines().filter(|line| tells(line));
    let told = told.map(|line| {
        // An import is there to be copied.
        let is_import = line.trim_start().starts_with("use ");
        let line = if is_import {
            line.to_string()
        } else {
            shortened(line)
        };
        line + "\n"
    });
    told.collect()
}

fn tells(line: &str) -> bool {
    let passed_over = PASSED_OVER.iter().any(|start| line.starts_with(start));
    !passed_over && !SAYS_NOTHING.iter().any(|words| line.contains(words))
}

/// `Prim.Native.Nat.◌≤◌ a 10` as `a ≤ 10`, and `lib.ListN.length xs` as `length xs`.
pub fn shortened(line: &str) -> String {
    let indent = line.len() - line.trim_start().len();
    let mut parts = Parts::of(line.trim_start());
    let mut text = line[..indent].to_string() + &parts.written();
    // A closing bracket that nothing opened.
    while let Some(bracket) = parts.rest.chars().next() {
        text += &parts.take(bracket.len_utf8());
        text += &parts.written();
    }
    text
}

/// The parts of a term from the place reached on, each a name, a mark or a whole group in brackets.
struct Parts<'a> {
    rest: &'a str,
}

impl<'a> Parts<'a> {
    fn of(rest: &'a str) -> Self {
        Self { rest }
    }

    /// All parts up to the bracket that closes them, an operator between its two operands.
    fn written(&mut self) -> String {
        let mut written = String::new();
        while let Some(part) = self.next_part(ends_in_a_term(&written)) {
            written += &part;
        }
        written
    }

    /// Behind a term an operator is that term's argument, and stays as it is named.
    fn next_part(&mut self, is_argument: bool) -> Option<String> {
        let first = self.rest.chars().next()?;
        match first {
            ')' | ']' | '}' => None,
            '(' | '[' | '{' => Some(self.group(first)),
            _ if is_blank_or_mark(first) => Some(self.take(first.len_utf8())),
            _ => Some(self.named(is_argument)),
        }
    }

    fn group(&mut self, open: char) -> String {
        self.take(open.len_utf8());
        let inside = self.written();
        let close = self.rest.chars().next().map_or(0, char::len_utf8);
        format!("{open}{inside}{}", self.take(close))
    }

    fn named(&mut self, is_argument: bool) -> String {
        let end = self.rest.find(ends_a_name).unwrap_or(self.rest.len());
        let name = last_part(&self.take(end)).to_string();
        match operator(&name) {
            Some(operator) if !is_argument => self.between(operator).unwrap_or(name),
            _ => name,
        }
    }

    /// The next two operands with the operator between them, where both are there.
    fn between(&mut self, operator: &str) -> Option<String> {
        let before = self.rest;
        let operands = self.operand().zip(self.operand());
        if operands.is_none() {
            self.rest = before;
        }
        operands.map(|(left, right)| format!("{left} {operator} {right}"))
    }

    /// The next operand; what stands in braces before it is no operand but a type that the operator is of.
    fn operand(&mut self) -> Option<String> {
        loop {
            self.rest = self.rest.trim_start();
            let first = self.rest.chars().next()?;
            if is_blank_or_mark(first) {
                return None;
            }
            let part = self.next_part(true)?;
            if first != '{' {
                return Some(part);
            }
        }
    }

    fn take(&mut self, end: usize) -> String {
        let (taken, rest) = self.rest.split_at(end);
        self.rest = rest;
        taken.to_string()
    }
}

fn is_blank_or_mark(character: char) -> bool {
    character.is_whitespace() || matches!(character, ';' | ',' | '`')
}

/// Whether a name or a group stands last, and no sign between terms as `≡` or `×`.
fn ends_in_a_term(written: &str) -> bool {
    let last = written
        .trim_end_matches(' ')
        .rsplit(is_blank_or_mark)
        .next();
    last.is_some_and(|word| {
        word.contains(|c: char| c.is_alphanumeric() || matches!(c, ')' | ']' | '}'))
    })
}

fn ends_a_name(character: char) -> bool {
    is_blank_or_mark(character) || matches!(character, '(' | ')' | '[' | ']' | '{' | '}')
}

/// The last part of a name that a module has; any other as it is, since the parts of `c.args.n` are a path to a fact.
fn last_part(name: &str) -> &str {
    let of_a_module = MODULES.iter().any(|module| name.starts_with(module));
    match name.rfind('.') {
        Some(dot) if of_a_module && dot + 1 < name.len() => &name[dot + 1..],
        _ => name,
    }
}

/// The sign of an operator that is named by its places, as `◌≤◌`.
fn operator(name: &str) -> Option<&str> {
    let sign = name.strip_prefix('◌')?.strip_suffix('◌')?;
    (!sign.is_empty() && !sign.contains('◌')).then_some(sign)
}

#[cfg(test)]
mod tests {
    use super::*;

    #[test]
    fn names_of_modules_are_cut_and_paths_to_facts_are_not() {
        assert_eq!(
            shortened("  lib.ListN.length (Rattle.amounts.specs.Text.decimal c.args.n)"),
            "  length (decimal c.args.n)"
        );
        assert_eq!(shortened("c.library.now"), "c.library.now");
    }

    #[test]
    fn an_operator_stands_between_its_operands() {
        let printed = "× Prim.Native.Nat.◌≤◌ c.width-count.result 10";
        assert_eq!(shortened(printed), "× c.width-count.result ≤ 10");
        let nested = "mathlib.Core.List.◌++◌ a (lib.ListN.drop (Prim.Native.Nat.◌+◌ b 1) c) ≡";
        assert_eq!(shortened(nested), "a ++ (drop (b + 1) c) ≡");
    }

    #[test]
    fn an_operator_without_operands_stays() {
        assert_eq!(shortened("use X.{◌≡◌, ◌≤◌}"), "use X.{◌≡◌, ◌≤◌}");
        assert_eq!(shortened("Prim.Native.Nat.◌+◌ a"), "◌+◌ a");
    }

    #[test]
    fn an_operator_that_is_an_argument_stays_and_a_type_in_braces_goes() {
        assert_eq!(shortened("fold lib.Nat.◌+◌ 0 xs"), "fold ◌+◌ 0 xs");
        assert_eq!(shortened("a ≡ Path.◌+◌ b c"), "a ≡ Path.◌+◌ b c");
        assert_eq!(shortened("a ≡ lib.Nat.◌+◌ b c"), "a ≡ b + c");
        assert_eq!(shortened("mathlib.Path.◌≡◌ {ℕ} a (b c)"), "a ≡ (b c)");
    }

    #[test]
    fn brackets_that_do_not_match_are_kept() {
        for line in [")", "(a", "a) b", "record {x : Prim.A"] {
            assert!(!shortened(line).is_empty(), "{line}");
        }
        assert_eq!(shortened("a) lib.B.c"), "a) c");
    }

    #[test]
    fn lines_that_tell_nothing_of_a_goal_are_left_out() {
        let printed =
            "rt: chose --jobs 2 for amounts\nfn a::b: no holes\n  ⊢   lib.A.b\nfn a::c: no proof\n";
        assert_eq!(readable(printed), "  ⊢   b\nfn a::c: no proof\n");
    }

    #[test]
    fn an_import_is_kept_whole() {
        let printed = "    use Rattle.amounts.proofs.text.put_whole.Goals as goal\n";
        assert_eq!(readable(printed), printed);
    }
}
