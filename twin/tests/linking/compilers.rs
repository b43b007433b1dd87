//! Compiles a program against the header and the static library, and runs it.

use crate::commands::printed;
use crate::files::repository_top;
use crate::library::ARCHIVE;
use std::env;
use std::path::{Path, PathBuf};
use std::process::Command;

/// How a language is compiled.
pub struct Language {
    name: &'static str,
    /// The environment variable that may name another compiler.
    variable: &'static str,
    compiler: &'static str,
    /// As `-x` calls the language.
    sources: &'static str,
    standard: &'static str,
}

pub const C: Language = Language {
    name: "C",
    variable: "CC",
    compiler: "cc",
    sources: "c",
    standard: "-std=c99",
};

pub const CPP: Language = Language {
    name: "C++",
    variable: "CXX",
    compiler: "c++",
    sources: "c++",
    standard: "-std=c++11",
};

const WARNINGS: [&str; 4] = ["-Wall", "-Wextra", "-pedantic", "-Werror"];

/// What the program prints, whose source has its path from the top, compiled without a warning as a program of the language.
pub fn output_of(language: &Language, source: &str) -> String {
    let program = compiled(language, source);
    printed(Command::new(&program), &program.display().to_string())
}

fn compiled(language: &Language, source: &str) -> PathBuf {
    let top = repository_top();
    let name = format!("{}.{}", source.replace('/', "."), language.variable);
    let program = Path::new(env!("CARGO_TARGET_TMPDIR")).join(name);
    let mut command = Command::new(compiler(language));
    command.args([language.standard, "-O2"]).args(WARNINGS);
    command.arg("-I").arg(top.join("host"));
    command.args(["-x", language.sources]).arg(top.join(source));
    command.args(["-x", "none"]).arg(ARCHIVE);
    command.arg("-o").arg(&program);
    printed(command, &format!("the {} compiler", language.name));
    program
}

fn compiler(language: &Language) -> String {
    env::var(language.variable).unwrap_or_else(|_| language.compiler.to_owned())
}
