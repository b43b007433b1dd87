//! Whether a name is in the file that is linked.

use crate::pages::{Named, Role};
use crate::source::{items, Item, Sort};
use neapscroll_dev::definitions::declares;
use neapscroll_dev::{files_below, repository, text};

/// What is linked, by its path.
#[derive(Clone, Copy, PartialEq, Eq)]
enum Linked {
    Definitions,
    Source,
    Proofs,
    Edit,
    Test,
    Place,
}

/// What is wrong with a name.
pub fn flaw(named: &Named) -> Option<String> {
    let why = why_not(named)?;
    Some(format!("{}: `{}`: {why}", named.place, named.name))
}

fn why_not(named: &Named) -> Option<&'static str> {
    let Named { name, path, .. } = named;
    if path.is_empty() || !repository().join(path).exists() {
        return Some("the file that is linked does not exist");
    }
    let linked = linked(path);
    if !allowed(named.role, linked, name) {
        return Some("what is linked is not what the line says");
    }
    let found = match linked {
        Linked::Definitions => is_definition(name, path),
        Linked::Source if is_contract(name) => is_contract_in(name, path),
        Linked::Source => is_item(name, path, named.role),
        Linked::Proofs => is_proof_of(name, path),
        Linked::Edit => Some(path.as_str()) == edit_path(name).as_deref(),
        Linked::Test => is_test(name, path),
        Linked::Place => name == path || *path == format!("crates/{name}"),
    };
    (!found).then_some("the file that is linked has no such name")
}

fn linked(path: &str) -> Linked {
    let ending = path.rsplit_once('.').map_or("", |(_, ending)| ending);
    match ending {
        "antt" => Linked::Definitions,
        "rt" => Linked::Source,
        "edit" => Linked::Edit,
        "rs" if path.contains("/tests/") => Linked::Test,
        _ if path.contains("/proofs/") => Linked::Proofs,
        _ => Linked::Place,
    }
}

/// Whether a line of that role may link such a name.
fn allowed(role: Option<Role>, linked: Linked, name: &str) -> bool {
    match role {
        None | Some(Role::Note) => true,
        Some(Role::Definition) => matches!(linked, Linked::Definitions | Linked::Place),
        Some(Role::Type | Role::Constant | Role::Function) => {
            linked == Linked::Source && !is_contract(name)
        }
        Some(Role::Theorem) => {
            matches!(linked, Linked::Definitions | Linked::Proofs)
                || linked == Linked::Source && is_contract(name)
        }
        Some(Role::WrongProgram) => linked == Linked::Edit,
        Some(Role::Test) => matches!(linked, Linked::Test | Linked::Place),
    }
}

fn says(role: Option<Role>, sort: Sort) -> bool {
    match role {
        Some(Role::Type) => sort == Sort::Type,
        Some(Role::Constant) => sort == Sort::Constant,
        Some(Role::Function) => sort == Sort::Function,
        _ => true,
    }
}

/// `CRATE/File.name` of specs/, `CRATE/proofs/File.name`, or either file as a whole.
fn is_definition(name: &str, path: &str) -> bool {
    let (file, declared) = match name.split_once('.') {
        Some((file, declared)) => (file, Some(declared)),
        None => (name, None),
    };
    let Some((of, file)) = file.split_once('/') else {
        return false;
    };
    let file = match file.strip_prefix("proofs/") {
        Some(file) => format!("crates/{of}/proofs/{file}.antt"),
        None => format!("crates/{of}/specs/{file}.antt"),
    };
    file == path && declared.is_none_or(|declared| declares(&text(path), declared))
}

/// `CRATE/name` of a must-fail edit.
fn edit_path(name: &str) -> Option<String> {
    let (of, edit) = name.split_once('/')?;
    Some(format!("crates/{of}/must-fail/{edit}.edit"))
}

/// `file::name` of a test in twin/tests, and `dev/file::name` of one in dev/tests.
fn is_test(name: &str, path: &str) -> bool {
    let Some((file, test)) = name.split_once("::") else {
        return false;
    };
    let file = match file.strip_prefix("dev/") {
        Some(file) => format!("dev/tests/{file}.rs"),
        None => format!("twin/tests/{file}.rs"),
    };
    file == path && text(path).contains(&format!("#[test]\nfn {test}() {{"))
}

/// `f_spec`, alone or after the path of the function `f`.
fn is_contract(name: &str) -> bool {
    name.ends_with("_spec")
}

/// The function whose contract is named.
fn function_of(name: &str) -> &str {
    name.strip_suffix("_spec").unwrap_or(name)
}

/// The crate in whose folder a path is.
fn crate_of(path: &str) -> &str {
    path.split('/').nth(1).unwrap_or_default()
}

/// What belongs to the name's file: the type or the trait, if there is one, and the name in it.
fn parts<'a>(name: &'a str, path: &str) -> Option<(Option<&'a str>, &'a str)> {
    let (of, rest) = name.split_once("::")?;
    let file = path
        .strip_prefix(&format!("crates/{of}/src/"))?
        .strip_suffix(".rt")?;
    let rest = match file {
        "lib" | "main" => rest,
        module => rest.strip_prefix(module)?.strip_prefix("::")?,
    };
    Some(match rest.split_once("::") {
        Some((owner, name)) => (Some(owner), name),
        None => (None, rest),
    })
}

/// Whether the item is `CRATE::module::Type::name`, or of a name alone bears it.
fn is_called(item: &Item, name: &str, path: &str) -> bool {
    match parts(name, path) {
        Some((owner, name)) => item.owner.as_deref() == owner && item.name == name,
        None => item.name == name,
    }
}

fn is_item(name: &str, path: &str, role: Option<Role>) -> bool {
    let found = |item: &Item| is_called(item, name, path) && says(role, item.sort);
    name.contains("::") && items(&text(path)).iter().any(found)
}

/// Whether the function is in the file, with a contract.
fn is_contract_in(name: &str, path: &str) -> bool {
    let found = |item: &Item| item.contract && is_called(item, function_of(name), path);
    items(&text(path)).iter().any(found)
}

/// The folder of a function's answers bears its name, below the type to which it belongs.
fn is_proof_of(name: &str, path: &str) -> bool {
    let function = function_of(name);
    let mut folders = path.rsplit('/');
    let folder = folders.next().map(|name| name.trim_start_matches('+'));
    let above = folders.next();
    let placed = |item: &Item| item.owner.is_none() || item.owner.as_deref() == above;
    let sources = files_below(&format!("crates/{}/src", crate_of(path)), ".rt");
    is_contract(name)
        && folder == function.rsplit("::").next()
        && sources.iter().any(|file| {
            let found =
                |item: &Item| item.contract && placed(item) && is_called(item, function, file);
            items(&text(file)).iter().any(found)
        })
}
