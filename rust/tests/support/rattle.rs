//! What the crates export, as their sources have it.

use std::path::{Path, PathBuf};

/// A name and its type, in Rattle.
pub type Typed = (String, String);

/// An export: its name, its parameters and the type of its answer.
pub struct Export {
    pub name: String,
    pub parameters: Vec<Typed>,
    pub answer: String,
}

/// A struct that an export answers: its name and its fields.
pub struct Told {
    pub name: String,
    pub fields: Vec<Typed>,
}

/// All exports, by their names: those of the static library.
pub fn exports() -> Vec<Export> {
    let text = source_of("norrabist_ffi");
    let mut all: Vec<_> = text.split("pub extern \"C\" fn ").skip(1).map(export).collect();
    all.sort_by(|a, b| a.name.cmp(&b.name));
    all
}

/// All structs that are laid out as in C, by their names.
pub fn told() -> Vec<Told> {
    let text = sources();
    let items = text.split("#[repr(C)]\n").skip(1).map(without_attributes);
    let mut all: Vec<_> = items
        .map(|item| {
            let told = item.strip_prefix("pub struct ").expect("a struct");
            let (name, rest) = told.split_once(" {").expect("fields");
            let fields = typed(rest.split('}').next().expect("an end"));
            let fields = fields.into_iter().map(|(name, of)| (name.replace("pub ", ""), of)).collect();
            Told { name: name.into(), fields }
        })
        .collect();
    all.sort_by(|a, b| a.name.cmp(&b.name));
    all
}

/// An item from its first line on that is no attribute.
fn without_attributes(item: &str) -> &str {
    let mut left = item;
    while left.starts_with("#[") {
        left = left.split_once('\n').expect("an item").1;
    }
    left
}

fn export(function: &str) -> Export {
    let (name, rest) = function.split_once('(').expect("parameters");
    let (parameters, rest) = rest.split_once(") -> ").expect("an answer");
    let answer = rest.split_whitespace().next().expect("a type");
    Export { name: name.into(), parameters: typed(parameters), answer: answer.into() }
}

/// `name: type, ..`, perhaps with a comma at the end.
fn typed(list: &str) -> Vec<Typed> {
    let pieces = list.split(',').map(str::trim).filter(|piece| !piece.is_empty());
    let pairs = pieces.map(|piece| piece.split_once(": ").expect("a type"));
    pairs.map(|(name, of)| (name.into(), of.into())).collect()
}

/// The source of every crate.
fn sources() -> String {
    let names =
        below(&crates()).into_iter().filter_map(|folder| folder.file_name()?.to_str().map(String::from));
    names.map(|name| source_of(&name)).collect()
}

/// The source of a crate.
fn source_of(name: &str) -> String {
    let files = below(&crates().join(name).join("src"));
    let files = files.into_iter().filter(|file| file.extension().is_some_and(|end| end == "rt"));
    files.map(|file| text(&file)).collect()
}

fn crates() -> PathBuf {
    Path::new(env!("CARGO_MANIFEST_DIR")).join("../crates")
}

fn below(folder: &Path) -> Vec<PathBuf> {
    let files = std::fs::read_dir(folder).into_iter().flatten();
    files.map(|file| file.expect("a file").path()).collect()
}

/// The text of a file.
pub fn text(path: &Path) -> String {
    std::fs::read_to_string(path).unwrap_or_else(|e| panic!("{}: {e}", path.display()))
}
