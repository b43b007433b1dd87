//! Builds the proved static library, which is linked to the twin, and the proved programs of journals and of sheets, on which tests run.

use std::env;
use std::fs::{self, File};
use std::path::{Path, PathBuf};
use std::process::{Command, Output, Stdio};
use std::time::SystemTime;

/// What a command builds.
struct Build {
    command: &'static str,
    /// Where the command runs.
    folder: &'static str,
    /// By its path from the top, as the folder.
    built: &'static str,
}

const LIBRARY: Build = Build {
    command: "bash library",
    folder: "host",
    built: "target/staticlib/libneapscroll.a",
};

/// A program is built by running it: here on no input, and what it prints goes nowhere.
const PROGRAM: Build = Build {
    command: "rt run",
    folder: "crates/neapscroll",
    built: "crates/neapscroll/out/neapscroll",
};

const SHEETS: Build = Build {
    command: "rt run",
    folder: "crates/sheets",
    built: "crates/sheets/out/sheets",
};

fn main() {
    let top = repository_top();
    let library = LIBRARY.run(&top);
    let program = PROGRAM.run(&top);
    let sheets = SHEETS.run(&top);
    let library_folder = library.parent().expect("the archive stands in a folder");

    // The tests ask for these paths.
    println!("cargo::rustc-env=PROVED_LIBRARY={}", library.display());
    println!("cargo::rustc-env=PROVED_PROGRAM={}", program.display());
    println!("cargo::rustc-env=PROVED_SHEETS={}", sheets.display());
    println!(
        "cargo::rustc-link-search=native={}",
        library_folder.display()
    );
    println!("cargo::rustc-link-lib=static=neapscroll");
    for input in inputs(&top).iter().chain([&library, &program, &sheets]) {
        println!("cargo::rerun-if-changed={}", input.display());
    }
}

/// The folder that holds the twin's folder.
fn repository_top() -> PathBuf {
    let manifest_folder = env::var_os("CARGO_MANIFEST_DIR").expect("cargo sets CARGO_MANIFEST_DIR");
    let top = Path::new(&manifest_folder).parent();
    top.expect("the twin stands in a repository").to_path_buf()
}

/// The list of crates, the library's modules with what joins them, and each crate's folders but for what the toolchain itself makes there.
fn inputs(top: &Path) -> Vec<PathBuf> {
    let lists = ["crates.txt", "host/modules.txt", "host/library"];
    let mut inputs: Vec<PathBuf> = lists.map(|list| top.join(list)).into();
    for folder in entries(&top.join("crates")) {
        let parts = entries(&folder).into_iter();
        inputs.extend(parts.filter(|part| !part.ends_with("out")));
    }
    inputs
}

fn entries(folder: &Path) -> Vec<PathBuf> {
    let entries = fs::read_dir(folder);
    let entries = entries.unwrap_or_else(|error| panic!("{}: {error}", folder.display()));
    let paths = entries.map(|entry| entry.expect("an entry of a folder").path());
    paths.collect()
}

impl Build {
    /// Gives the path of what was built.
    fn run(&self, top: &Path) -> PathBuf {
        let folder = top.join(self.folder);
        let mut words = self.command.split(' ');
        let program = words.next().expect("a command has a first word");
        let mut command = Command::new(program);
        command.args(words).current_dir(&folder);
        match command.stdin(Stdio::null()).output() {
            Ok(output) if output.status.success() => {}
            Ok(output) => panic!("{}", self.failure(&output)),
            Err(error) => panic!(
                "`{}` could not be started in {}: {error} (is `{program}` on PATH?)",
                self.command,
                folder.display()
            ),
        }
        let built = top.join(self.built);
        self.date_before_any_run(&built);
        built
    }

    fn failure(&self, output: &Output) -> String {
        format!(
            "`{}` failed in {} with {}\n{}{}",
            self.command,
            self.folder,
            output.status,
            String::from_utf8_lossy(&output.stdout),
            String::from_utf8_lossy(&output.stderr)
        )
    }

    /// A file newer than the last run of this script would make cargo run it again at every build.
    fn date_before_any_run(&self, built: &Path) {
        let dated = File::open(built).and_then(|file| file.set_modified(SystemTime::UNIX_EPOCH));
        if let Err(error) = dated {
            panic!(
                "`{}` left no usable {}: {error}",
                self.command,
                built.display()
            );
        }
    }
}
